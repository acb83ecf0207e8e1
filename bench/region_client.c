/*
** Enters claims at many pharmacies over NATS, so many a second whatever comes back, each under a reference of its own and again where nothing is
** heard, until each has its answer. For bench/region-run: `region_client URL RATE CLAIMS TOLD`. CLAIMS is a file with a claim a line, `PHARMACY
** TEXT`, where TEXT is a request in printed bytes; the claim of line N, from 0 on, is due N / RATE seconds behind the start, and its reference is
** `claim-N`. It says `ready`, begins with a line that it reads, and then says each second `entered N answered N`, until each claim has its
** answer. TOLD gets a line for each of them: `N PHARMACY NUMBER DUE MS ASKED ANSWER`: its line, the number that it was given, when it was due by
** the clock that nobody sets, the milliseconds from then until the answer, how many messages it took, and the answer. Status 1: a claim was
** told two numbers or two answers, or refused for good; what, it says on standard error.
*/
#include <nats/nats.h>
#include <pthread.h>
#include <stdbool.h>
#include <stdio.h>
#include <stdlib.h>
#include <string.h>
#include <time.h>

/* After so many seconds without a word it is asked again, then after twice that, up to so many times that. */
#define AGAIN_SECONDS 0.5
#define MOST_TIMES 4
/* The same where nobody hears the pharmacy, or it is busy: it will be there soon. */
#define SOON_SECONDS 0.1
#define LOOK_NANOSECONDS 2000000L

struct claim {
    /* PHARMACY TEXT. */
    const char *line;
    double due, next;
    /* Of its answer, once it is over. */
    uint64_t digest;
    unsigned long number;
    unsigned asked, times;
    /* Where it stands among those that are open. */
    size_t place;
    bool is_over;
};

struct run {
    natsConnection *connection;
    struct claim *claim;
    size_t count, sent, over, faults, *open, open_count;
    FILE *told;
    pthread_mutex_t lock;
};

static double now(void) {
    struct timespec time;
    clock_gettime(CLOCK_MONOTONIC, &time);
    return (double)time.tv_sec + (double)time.tv_nsec / 1e9;
}

static _Noreturn void fail(const char *why) {
    fprintf(stderr, "region_client: %s\n", why);
    exit(1);
}

static void check(natsStatus status) {
    if (status != NATS_OK) fail(natsStatus_GetText(status));
}

/* Says what is otherwise than it has to be of a claim; of a few. */
static void fault(struct run *run, size_t at, const char *what, const char *text, size_t size) {
    if (run->faults++ < 20) fprintf(stderr, "region_client: claim-%zu %s: %.*s\n", at, what, (int)size, text);
}

/* Submits a claim, or waits for the answer to its number; the lock is held. What cannot be sent now is asked again. */
static void ask(struct run *run, size_t at) {
    char text[1024], reply[64], subject[64];
    struct claim *claim = &run->claim[at];
    const char *line = strchr(claim->line, ' ') + 1;
    int size = claim->number > 0 ? snprintf(text, sizeof text, "wait %lu", claim->number)
                                 : snprintf(text, sizeof text, "submit-as claim-%zu %s", at, line);
    if (size < 0 || (size_t)size >= sizeof text) fail("a claim is too long");
    snprintf(subject, sizeof subject, "claims.ph%lu.call", strtoul(claim->line, NULL, 10));
    snprintf(reply, sizeof reply, "_INBOX.region.%zu", at);
    claim->asked++;
    claim->next = now() + AGAIN_SECONDS * claim->times;
    natsConnection_PublishRequest(run->connection, subject, reply, text, size);
}

static void begin(struct run *run, double due) {
    struct claim *claim = &run->claim[run->sent];
    claim->due = due;
    claim->times = 1;
    claim->place = run->open_count;
    run->open[run->open_count++] = run->sent;
    ask(run, run->sent++);
}

static uint64_t digest_of(const char *text, size_t size) {
    uint64_t digest = 14695981039346656037u;
    for (size_t at = 0; at < size; at++) digest = (digest ^ (unsigned char)text[at]) * 1099511628211u;
    return digest;
}

static bool is(const char *text, size_t size, const char *word) {
    return size >= strlen(word) && memcmp(text, word, strlen(word)) == 0;
}

/* Takes an answer: the first is noted, each other one has to be the same. */
static void take_answer(struct run *run, size_t at, const char *text, size_t size) {
    struct claim *claim = &run->claim[at];
    uint64_t digest = digest_of(text, size);
    if (claim->is_over && claim->digest != digest) fault(run, at, "was told another answer", text, size);
    if (claim->is_over) return;
    claim->is_over = true;
    claim->digest = digest;
    size_t last = run->open[--run->open_count];
    run->open[claim->place] = last;
    run->claim[last].place = claim->place;
    run->over++;
    fprintf(run->told, "%zu %lu %lu %.6f %.3f %u %.*s\n", at, strtoul(claim->line, NULL, 10), claim->number, claim->due, (now() - claim->due) * 1000,
            claim->asked, (int)size, text);
}

/* Takes a word on a claim. */
static void take(struct run *run, size_t at, const char *text, size_t size) {
    struct claim *claim = &run->claim[at];
    bool is_number = is(text, size, "number ") || is(text, size, "known ");
    unsigned long number = is_number ? strtoul(strchr(text, ' ') + 1, NULL, 10) : 0;
    if (is(text, size, "answer ")) take_answer(run, at, text + strlen("answer "), size - strlen("answer "));
    else if (claim->is_over && !is_number) return;
    else if (is_number && claim->number != 0 && claim->number != number) fault(run, at, "was told another number", text, size);
    else if (is_number && claim->number != 0) return;
    else if (is_number) {
        claim->number = number;
        ask(run, at);
    } else if (is(text, size, "open") || is(text, size, "refused Busy")) claim->next = now() + SOON_SECONDS;
    else fault(run, at, "was told", text, size);
}

static void heard(natsConnection *connection, natsSubscription *subscription, natsMsg *message, void *closure) {
    (void)connection, (void)subscription;
    struct run *run = closure;
    size_t at = strtoul(strrchr(natsMsg_GetSubject(message), '.') + 1, NULL, 10);
    pthread_mutex_lock(&run->lock);
    if (natsMsg_IsNoResponders(message)) run->claim[at].next = now() + SOON_SECONDS;
    else take(run, at, natsMsg_GetData(message), (size_t)natsMsg_GetDataLength(message));
    pthread_mutex_unlock(&run->lock);
    natsMsg_Destroy(message);
}

/* Asks again for what no word has come on. */
static void ask_again(struct run *run) {
    for (size_t place = 0; place < run->open_count; place++) {
        struct claim *claim = &run->claim[run->open[place]];
        if (claim->next > now()) continue;
        if (claim->times < MOST_TIMES) claim->times *= 2;
        ask(run, run->open[place]);
    }
}

static void enter(struct run *run, double rate) {
    double start = now(), next_word = start + 1;
    while (run->over < run->count) {
        pthread_mutex_lock(&run->lock);
        while (run->sent < run->count && start + (double)run->sent / rate <= now()) begin(run, start + (double)run->sent / rate);
        ask_again(run);
        size_t over = run->over;
        pthread_mutex_unlock(&run->lock);
        if (now() >= next_word) {
            next_word = now() + 1;
            printf("entered %zu answered %zu\n", run->sent, over);
            fflush(stdout);
        }
        nanosleep(&(struct timespec){ 0, LOOK_NANOSECONDS }, NULL);
    }
    printf("entered %zu answered %zu\n", run->sent, run->over);
}

/* Reads the claims, a line each. */
static void read_claims(struct run *run, const char *path) {
    FILE *file = fopen(path, "rb");
    char *text = NULL;
    size_t size = 0;
    if (file == NULL || getdelim(&text, &size, '\0', file) <= 0) fail("there are no claims");
    fclose(file);
    for (const char *at = text; (at = strchr(at, '\n')) != NULL; at++) run->count++;
    run->claim = calloc(run->count, sizeof *run->claim);
    run->open = calloc(run->count, sizeof *run->open);
    if (run->claim == NULL || run->open == NULL) fail("there is no memory");
    for (size_t at = 0; at < run->count; at++) {
        run->claim[at].line = text;
        text = strchr(text, '\n');
        *text++ = '\0';
    }
}

int main(int count, char **word) {
    if (count != 5) return 2;
    struct run run = { .told = fopen(word[4], "wb") };
    natsOptions *options = NULL;
    natsSubscription *subscription = NULL;
    read_claims(&run, word[3]);
    if (run.told == NULL) fail("what is told cannot be written");
    pthread_mutex_init(&run.lock, NULL);
    /* Who waits for a lock leaves the processor to others. */
    check(nats_Open(0));
    check(natsOptions_Create(&options));
    check(natsOptions_SetURL(options, word[1]));
    check(natsOptions_SetMaxReconnect(options, -1));
    check(natsOptions_SetReconnectWait(options, 100));
    check(natsConnection_Connect(&run.connection, options));
    check(natsConnection_Subscribe(&subscription, run.connection, "_INBOX.region.*", heard, &run));
    check(natsSubscription_SetPendingLimits(subscription, -1, -1));
    check(natsConnection_Flush(run.connection));
    printf("ready\n");
    fflush(stdout);
    if (getchar() == EOF) return 1;
    enter(&run, strtod(word[2], NULL));
    /* Nobody writes any more. */
    natsConnection_Close(run.connection);
    return fclose(run.told) != 0 || run.faults > 0;
}
