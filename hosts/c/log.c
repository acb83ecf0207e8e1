/* The node with its log: what it records is on disk before anybody hears of it, and in the stream before that, where there is one. A switch
   may be without a log: what it records is let go. */
#include <errno.h>
#include <fcntl.h>
#include <unistd.h>

#include "stream.h"

void draw(void *to, size_t size) {
    int source = open("/dev/urandom", O_RDONLY);
    if (source < 0 || read(source, to, size) != (ssize_t)size)
        fail("/dev/urandom has no random bytes", FACTS(TEXT("reason", strerror(errno))));
    close(source);
}

/* What the node hands out by one of its calls. */
static struct bytes handed(struct served *node, vogrilas_code (*call)(vogrilas_node *, size_t, void *, size_t, size_t *), size_t passed) {
    struct bytes bytes = { NULL, 0, 0 };
    size_t size = 0;
    add(&bytes, "", 0);
    vogrilas_code code = call(&node->node, passed, bytes.at, 0, &size);
    if (code == VOGRILAS_SHORT_BUFFER) {
        free(bytes.at);
        bytes.at = malloc(size + 1);
        if (bytes.at == NULL) fail_memory();
        bytes.room = size + 1;
        code = call(&node->node, passed, bytes.at, size, &size);
    }
    /* While words wait for their records there are none. */
    if (code != VOGRILAS_OK && code != VOGRILAS_UNSYNCED) fail("the node fails", FACTS(TEXT("reason", vogrilas_code_text(code))));
    bytes.size = code == VOGRILAS_OK ? size : 0;
    return bytes;
}

struct bytes node_records(struct served *node) {
    return handed(node, vogrilas_records_after, 0);
}

static vogrilas_code written(vogrilas_node *node, size_t passed, void *buffer, size_t room, size_t *size) {
    (void)passed;
    return vogrilas_written(node, buffer, room, size);
}

struct bytes settings_of(const char *settings) {
    int file = open(settings, O_RDONLY);
    if (file < 0) fail_open("the settings cannot be read", settings);
    struct bytes text = whole(file, settings, MOST_SETTINGS);
    close(file);
    return text;
}

/* How many bytes of a log stay, where the node was opened; else ends the process. */
static size_t opened(const struct served *node, vogrilas_code code, size_t kept) {
    if (code == VOGRILAS_DAMAGED || code == VOGRILAS_BAD_RECORD)
        fail_with(REFUSED, "the log is refused",
                  FACTS(TEXT("reason", vogrilas_code_text(code)), TEXT("file", node->log.path), NUMBER("place", kept)));
    if (code != VOGRILAS_OK)
        fail_with(code == VOGRILAS_NO_MEMORY ? 1 : REFUSED, "the node is refused",
                  FACTS(TEXT("reason", vogrilas_code_text(code)), TEXT("file", node->log.path)));
    return kept;
}

size_t node_open(struct served *node, const struct bytes *settings, const struct bytes *log) {
    char seed[16];
    size_t kept = 0;
    draw(seed, sizeof seed);
    vogrilas_code code = vogrilas_open(&node->node, settings->at, settings->size, node->name, strlen(node->name), log->at, log->size, seed,
                                       sizeof seed, &kept);
    return opened(node, code, kept);
}

vogrilas_settings settings_open(const char *path) {
    vogrilas_settings settings = VOGRILAS_SETTINGS_INIT;
    struct bytes text = settings_of(path);
    char seed[16];
    draw(seed, sizeof seed);
    vogrilas_code code = vogrilas_open_settings(&settings, text.at, text.size, seed, sizeof seed);
    if (code != VOGRILAS_OK)
        fail_with(code == VOGRILAS_NO_MEMORY ? 1 : REFUSED, "the settings are refused",
                  FACTS(TEXT("reason", vogrilas_code_text(code)), TEXT("file", path)));
    free(text.at);
    return settings;
}

void node_open_under(struct served *node, vogrilas_settings *settings) {
    size_t kept = 0;
    struct bytes log = log_bytes(&node->log);
    vogrilas_code code = vogrilas_open_under(&node->node, settings, node->name, strlen(node->name), log.at, log.size, &kept);
    opened(node, code, kept);
    if (kept < log.size) log_cut(&node->log, &log, kept);
    free(log.at);
}

struct served node_of_file(const char *settings, const char *name, const char *path) {
    struct served node = { .name = name, .node = VOGRILAS_NODE_INIT };
    struct bytes text = settings_of(settings), log = { NULL, 0, 0 };
    add(&log, "", 0);
    if (path != NULL) {
        node.log = log_open(path);
        free(log.at);
        log = log_bytes(&node.log);
    }
    size_t kept = node_open(&node, &text, &log);
    if (kept < log.size) log_cut(&node.log, &log, kept);
    /* An earlier life may have ended between a write and its sync, or before its folder was synced. */
    if (path != NULL) log_sync_all(&node.log);
    node_keep(&node, false);
    node.at_start = node_calls(&node);
    free(text.at);
    free(log.at);
    return node;
}

void node_serve(struct served *node, const char *line, size_t size) {
    vogrilas_code code = vogrilas_serve(&node->node, line, size);
    if (code != VOGRILAS_OK) fail("the node fails", FACTS(TEXT("reason", vogrilas_code_text(code))));
}

/* Whether a line begins as a call; all else is a question, or asks nothing. */
static bool is_call(const char *line, size_t size) {
    static const char *const word[] = { "submit", "submit-as", "take", "adjudicate", "tick", "plan",
                                        "terms",  "retry",     "cap",  "stop",       "start" };
    const char *space = size == 0 ? NULL : memchr(line, ' ', size);
    size_t length = space == NULL ? size : (size_t)(space - line);
    for (size_t at = 0; at < sizeof word / sizeof *word; at++)
        if (length == strlen(word[at]) && begins(line, size, word[at])) return true;
    return false;
}

void node_serve_now(struct served *node, const char *line, size_t size) {
    struct bytes timed = { NULL, 0, 0 };
    if (is_call(line, size)) add_form(&timed, "at %llu ", (unsigned long long)(wall() * 1000));
    add(&timed, line, size);
    node_serve(node, timed.at, timed.size);
    free(timed.at);
}

void node_kept(struct served *node, size_t size) {
    vogrilas_code code = vogrilas_kept(&node->node, size);
    if (code != VOGRILAS_OK) fail("the node fails", FACTS(TEXT("reason", vogrilas_code_text(code))));
}

void node_append(struct served *node, const struct bytes *records, bool speaks) {
    if (node->copy != NULL) {
        if (records->size > 0 || speaks) copy_append(node->copy, records->at, records->size);
    } else if (records->size > 0 && node->log.path != NULL) {
        log_write(&node->log, records->at, records->size);
        log_sync(&node->log);
    }
}

size_t node_append_after(struct served *node, size_t appended) {
    struct bytes records = handed(node, vogrilas_records_after, appended);
    size_t size = records.size;
    if (records.size > 0) log_write(&node->log, records.at, records.size);
    free(records.at);
    return size;
}

void node_keep(struct served *node, bool speaks) {
    struct bytes records = node_records(node);
    node_append(node, &records, speaks);
    node_kept(node, records.size);
    free(records.at);
}

struct bytes node_written(struct served *node) {
    return handed(node, written, 0);
}

void node_clear(struct served *node) {
    vogrilas_clear(&node->node);
}

uint64_t node_calls(struct served *node) {
    uint64_t calls = 0;
    vogrilas_calls(&node->node, &calls);
    return calls;
}

uint64_t node_count(struct served *node) {
    uint64_t count = 0;
    vogrilas_count(&node->node, &count);
    return count;
}

uint64_t node_most(struct served *node) {
    uint64_t most = 0;
    vogrilas_most(&node->node, &most);
    return most;
}

bool node_has_answer(struct served *node, uint16_t pharmacy, uint64_t number) {
    char nothing = 0;
    size_t size = 0;
    vogrilas_code code = vogrilas_answer(&node->node, pharmacy, number, &nothing, 0, &size);
    return code == VOGRILAS_OK || code == VOGRILAS_SHORT_BUFFER;
}

bool node_heard(struct served *node, uint16_t pharmacy, uint64_t number, struct bytes *text) {
    static char answer[MOST_ANSWER], printed[MOST_BYTES];
    size_t size = 0, printed_size = 0;
    if (vogrilas_heard(&node->node, pharmacy, number, answer, sizeof answer, &size) != VOGRILAS_OK) return false;
    vogrilas_code code = vogrilas_print(answer, size, printed, sizeof printed, &printed_size);
    if (code != VOGRILAS_OK) fail("the node fails", FACTS(TEXT("reason", vogrilas_code_text(code))));
    add(text, printed, printed_size);
    return true;
}

bool node_awaits_payer(struct served *node, uint16_t pharmacy, uint64_t number) {
    char nothing = 0;
    size_t size = 0;
    return vogrilas_heard(&node->node, pharmacy, number, &nothing, 0, &size) == VOGRILAS_UNANSWERED;
}

/* What the node says of a line that makes no call. */
static struct bytes told(struct served *node, const char *line) {
    node_serve(node, line, strlen(line));
    struct bytes written = node_written(node);
    node_clear(node);
    return written;
}

bool node_is_up(struct served *node) {
    struct bytes word = told(node, "take sw1 x");
    bool is_up = !begins(word.at, word.size, "refused Down");
    free(word.at);
    return is_up;
}

void node_open_entries(struct served *node, void (*entry)(uint64_t number)) {
    struct bytes list = told(node, "open 1 999999999999999999");
    char *line = list.at, *behind;
    while ((behind = memchr(line, '\n', list.size - (size_t)(line - list.at))) != NULL) {
        if (begins(line, (size_t)(behind - line), "entry ")) entry(strtoull(line + 6, NULL, 10));
        line = behind + 1;
    }
    free(list.at);
}

void node_close(struct served *node) {
    vogrilas_close(&node->node);
    if (node->log.path != NULL) close(node->log.file);
}
