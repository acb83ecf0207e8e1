/* What the host tells on standard error: one object of JSON a line with its time, or words for people. */
#include <errno.h>
#include <unistd.h>

#include "node.h"

/* How many reasons of what happens often are told apart. */
#define MOST_REASONS 64

static const char *of_node = "node";
static bool is_for_people;
/* The node of a range of which the calling thread tells; NULL of what is about all of them. */
static _Thread_local const char *of_one;

void said_for(const char *node, bool for_people) {
    of_node = node;
    is_for_people = for_people;
}

void said_by(const char *node) {
    of_one = node;
}

/* Adds a text as a string of JSON. */
static void add_string(struct bytes *line, const char *text) {
    add_text(line, "\"");
    for (const unsigned char *at = (const unsigned char *)text; *at != '\0'; at++) {
        if (*at == '"' || *at == '\\') add_form(line, "\\%c", *at);
        else if (*at < 0x20 || *at > 0x7e) add_form(line, "\\u%04x", *at);
        else add(line, at, 1);
    }
    add_text(line, "\"");
}

static void add_member(struct bytes *line, const char *name, const char *text) {
    add_form(line, ", \"%s\": ", name);
    add_string(line, text);
}

static bool is_told(const struct fact *fact) {
    return fact->is_number || fact->text != NULL;
}

/* Adds an event as an object of JSON. */
static void add_object(struct bytes *line, const char *level, const char *what, const struct fact *fact) {
    struct timespec time;
    struct tm day;
    char text[40];
    clock_gettime(CLOCK_REALTIME, &time);
    gmtime_r(&time.tv_sec, &day);
    strftime(text, sizeof text, "%Y-%m-%dT%H:%M:%S", &day);
    add_form(line, "{\"time\": \"%s.%03ldZ\"", text, time.tv_nsec / 1000000);
    add_member(line, "level", level);
    add_member(line, "node", of_one == NULL ? of_node : of_one);
    add_member(line, "what", what);
    for (; fact != NULL && fact->name != NULL; fact++) {
        if (fact->is_number) add_form(line, ", \"%s\": %llu", fact->name, (unsigned long long)fact->number);
        else if (is_told(fact)) add_member(line, fact->name, fact->text);
    }
    add_text(line, "}\n");
}

/* Adds an event as words. */
static void add_words(struct bytes *line, const char *what, const struct fact *fact) {
    const char *between = ": ";
    add_text(line, of_one == NULL ? of_node : of_one);
    add_text(line, ": ");
    add_text(line, what);
    for (; fact != NULL && fact->name != NULL; fact++) {
        if (!is_told(fact)) continue;
        add_form(line, "%s%s ", between, fact->name);
        if (fact->is_number) add_form(line, "%llu", (unsigned long long)fact->number);
        else add_text(line, fact->text);
        between = ", ";
    }
    add_text(line, "\n");
}

void say(const char *level, const char *what, const struct fact *facts) {
    struct bytes line = { NULL, 0, 0 };
    if (is_for_people) add_words(&line, what, facts);
    else add_object(&line, level, what, facts);
    ssize_t written = write(STDERR_FILENO, line.at, line.size);
    (void)written;
    free(line.at);
}

/* What has happened for a reason: when it was told last, and how often since. */
struct often {
    char reason[48];
    double told;
    uint64_t more;
};

/* The place of a reason; those beyond the last place share it. */
static struct often *place_of(const char *what, const char *reason) {
    static struct often all[MOST_REASONS];
    char name[sizeof all->reason];
    int at = 0;
    snprintf(name, sizeof name, "%s %s", reason, what);
    while (at < MOST_REASONS - 1 && all[at].reason[0] != '\0' && strcmp(all[at].reason, name) != 0) at++;
    memcpy(all[at].reason, name, sizeof name);
    return &all[at];
}

void say_some(const char *level, const char *what, const char *reason, const struct fact *facts) {
    static pthread_mutex_t lock = PTHREAD_MUTEX_INITIALIZER;
    struct fact all[8] = { TEXT("reason", reason) };
    int count = 1;
    pthread_mutex_lock(&lock);
    struct often *often = place_of(what, reason);
    bool is_due = often->told == 0 || now() - often->told >= 1;
    if (is_due && often->more > 0) all[count++] = NUMBER("more", often->more);
    often->more = is_due ? 0 : often->more + 1;
    if (is_due) often->told = now();
    pthread_mutex_unlock(&lock);
    for (; facts != NULL && facts->name != NULL && count < 7; facts++) all[count++] = *facts;
    if (is_due) say(level, what, all);
}

_Noreturn void fail_with(int status, const char *what, const struct fact *facts) {
    say("error", what, facts);
    exit(status);
}

_Noreturn void fail(const char *what, const struct fact *facts) {
    fail_with(1, what, facts);
}

_Noreturn void fail_memory(void) {
    /* What says it asks for none. */
    static const char words[] = "{\"level\": \"error\", \"what\": \"memory was refused\"}\n";
    ssize_t written = write(STDERR_FILENO, words, sizeof words - 1);
    (void)written;
    exit(1);
}

_Noreturn void fail_open(const char *what, const char *path) {
    bool may_pass = errno == EMFILE || errno == ENFILE || errno == ENOMEM || errno == EINTR || errno == EIO || errno == ENOSPC;
    fail_with(may_pass ? 1 : REFUSED, what, FACTS(TEXT("reason", strerror(errno)), TEXT("file", path)));
}
