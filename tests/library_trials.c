/*
** Trials of the library, for tests/library: handles that are closed, short buffers, logs that are torn, damaged or of others,
** texts, and each request for memory refused in turn. malloc, realloc and free are wrapped by the linker.
**
**     trials SETTINGS REQUEST [EACH [TURNED]]
**
** With EACH only each EACH-th request is refused. TURNED is a log of ph1 that claimnode has closed, and that has a call since.
*/
#include <stdio.h>
#include <stdlib.h>
#include <string.h>

#include "vogrilas.h"

enum { MOST = 1 << 16 };
static int faults, tried;
static long left = -1, lent, each = 1;
static char settings[MOST], line[MOST], record[MOST], said[MOST], log_bytes[MOST];
static size_t settings_size, line_size, record_size, said_size, log_size;

void *__real_malloc(size_t size);
void *__real_realloc(void *at, size_t size);
void __real_free(void *at);
void *__wrap_malloc(size_t size);
void *__wrap_realloc(void *at, size_t size);
void __wrap_free(void *at);

static bool is_refused(void) { return left >= 0 && left-- == 0; }

void *__wrap_malloc(size_t size) {
    void *at = is_refused() ? NULL : __real_malloc(size);
    lent += at != NULL;
    return at;
}

void *__wrap_realloc(void *at, size_t size) {
    void *next = is_refused() ? NULL : __real_realloc(at, size);
    lent += at == NULL && next != NULL;
    return next;
}

void __wrap_free(void *at) {
    lent -= at != NULL;
    __real_free(at);
}

static void check(bool is_so, const char *what) {
    tried++;
    if (is_so) return;
    faults++;
    fprintf(stderr, "not so: %s\n", what);
}

static size_t read_file(const char *path, char *to) {
    FILE *file = fopen(path, "rb");
    size_t size = file == NULL ? 0 : fread(to, 1, MOST, file);
    if (file != NULL) fclose(file);
    if (size == 0 || size == MOST) exit(2);
    return size;
}

static vogrilas_code open_as(vogrilas_node *node, const char *name, const void *log, size_t size, size_t *kept) {
    return vogrilas_open(node, settings, settings_size, name, strlen(name), log, size, "0123456789abcdef", 16, kept);
}

/* Whether a text stands in bytes. */
static bool memmem_text(const char *bytes, size_t size, const char *text) {
    for (size_t at = 0; at + strlen(text) <= size; at++)
        if (memcmp(bytes + at, text, strlen(text)) == 0) return true;
    return false;
}

/* Whether no call reaches a node, and none writes anything. */
static bool is_closed(vogrilas_node *node) {
    size_t size = 77;
    uint64_t calls = 77;
    char byte = 'x';
    vogrilas_payment payment;
    memset(&payment, 'x', sizeof payment);
    return vogrilas_serve(node, "tick", 4) == VOGRILAS_CLOSED && vogrilas_records(node, &byte, 1, &size) == VOGRILAS_CLOSED &&
           vogrilas_kept(node, 0) == VOGRILAS_CLOSED && vogrilas_kept(node, 1) == VOGRILAS_CLOSED &&
           vogrilas_written(node, &byte, 1, &size) == VOGRILAS_CLOSED && vogrilas_calls(node, &calls) == VOGRILAS_CLOSED &&
           vogrilas_count(node, &calls) == VOGRILAS_CLOSED && vogrilas_most(node, &calls) == VOGRILAS_CLOSED &&
           vogrilas_request(node, 1, &byte, 1, &size) == VOGRILAS_CLOSED &&
           vogrilas_answer(node, 1, 1, &byte, 1, &size) == VOGRILAS_CLOSED &&
           vogrilas_payments(node, &payment, 1, &size) == VOGRILAS_CLOSED && payment.fill_number == 'x' &&
           vogrilas_adjudicate(node, "sw1", 3, &byte, 1, &byte, 1) == VOGRILAS_CLOSED &&
           vogrilas_clear(node) == VOGRILAS_CLOSED && size == 77 && calls == 77 && byte == 'x' && !node->held;
}

/* Whether no call tells of a node, since not all is on disk, but for what was written where `writes`; and none writes anything. The records are
   told, so many bytes. */
static bool is_silent_of(vogrilas_node *node, size_t records, bool writes) {
    size_t size = 77;
    uint64_t calls = 77;
    char byte = 'x';
    vogrilas_payment payment;
    memset(&payment, 'x', sizeof payment);
    bool is_silent = (writes || (vogrilas_written(node, &byte, 1, &size) == VOGRILAS_UNSYNCED && vogrilas_clear(node) == VOGRILAS_UNSYNCED)) &&
           vogrilas_calls(node, &calls) == VOGRILAS_UNSYNCED &&
           vogrilas_count(node, &calls) == VOGRILAS_UNSYNCED && vogrilas_most(node, &calls) == VOGRILAS_UNSYNCED &&
           vogrilas_request(node, 1, &byte, 1, &size) == VOGRILAS_UNSYNCED &&
           vogrilas_answer(node, 1, 1, &byte, 1, &size) == VOGRILAS_UNSYNCED && vogrilas_answer(node, 0, 0, &byte, 1, &size) == VOGRILAS_UNSYNCED &&
           vogrilas_payments(node, &payment, 1, &size) == VOGRILAS_UNSYNCED && payment.fill_number == 'x' &&
           vogrilas_kept(node, records + 1) == VOGRILAS_TOO_MANY &&
           vogrilas_kept(node, SIZE_MAX) == VOGRILAS_TOO_MANY && size == 77 && calls == 77 && byte == 'x';
    vogrilas_code code = vogrilas_records(node, &byte, 0, &size);
    return is_silent && size == records && code == (records == 0 ? VOGRILAS_OK : VOGRILAS_SHORT_BUFFER);
}

static bool is_unsynced(vogrilas_node *node, size_t records) {
    return is_silent_of(node, records, false);
}

/* Takes what is handed out, appends the records to the log, says so, and clears. */
static void settle(vogrilas_node *node) {
    check(vogrilas_records(node, record, MOST, &record_size) == VOGRILAS_OK, "records");
    check(vogrilas_kept(node, record_size) == VOGRILAS_OK, "the records are kept");
    check(vogrilas_written(node, said, MOST, &said_size) == VOGRILAS_OK, "what was written");
    memcpy(log_bytes + log_size, record, record_size);
    log_size += record_size;
    check(vogrilas_clear(node) == VOGRILAS_OK, "clear");
}

static void try_handles(void) {
    vogrilas_node node = VOGRILAS_NODE_INIT;
    size_t kept = 77;
    check(is_closed(&node), "a handle is closed at first");
    vogrilas_close(&node);
    vogrilas_close(&node);
    check(is_closed(&node), "a closed handle is closed twice");
    check(open_as(&node, "ph", "", 0, &kept) == VOGRILAS_NAME, "a name");
    check(open_as(&node, "ph7", "", 0, &kept) == VOGRILAS_NO_SUCH_NODE, "a node that is not there");
    check(vogrilas_open(&node, "again", 5, "ph1", 3, "", 0, "", 0, &kept) == VOGRILAS_SETTINGS, "no settings");
    check(kept == 77 && is_closed(&node), "nothing has changed");
    check(open_as(&node, "ph1", "", 0, &kept) == VOGRILAS_OK && kept == 0, "a log that begins");
    kept = 77;
    check(open_as(&node, "ph1", "", 0, &kept) == VOGRILAS_OPEN && kept == 77, "open twice");
    check(is_unsynced(&node, 46), "a head that is not on disk");
    settle(&node);
    check(record_size == 46 && said_size == 0, "a head, and nothing said");
    check(vogrilas_serve(&node, "at 5 tick", 9) == VOGRILAS_OK, "a tick without an open entry");
    settle(&node);
    check(record_size == 0 && said_size == 5 && memcmp(said, "idle\n", 5) == 0, "is idle, and has no record");
    vogrilas_node moved = node;
    uint64_t calls = 77;
    check(vogrilas_calls(&moved, &calls) == VOGRILAS_OK && calls == 0, "a node that has moved");
    vogrilas_close(&moved);
    vogrilas_close(&moved);
    check(is_closed(&moved), "a node is closed twice");
}

static void try_buffers(void) {
    vogrilas_node node = VOGRILAS_NODE_INIT;
    size_t kept, size = 0, again = 0;
    check(open_as(&node, "ph1", log_bytes, log_size, &kept) == VOGRILAS_OK && kept == log_size, "a log of a head");
    check(vogrilas_serve(&node, line, line_size) == VOGRILAS_OK, "a submission");
    check(vogrilas_records(&node, record, 0, &size) == VOGRILAS_SHORT_BUFFER && size > 0, "no room");
    memset(record, 'x', MOST);
    for (size_t room = 0; room < size; room++)
        check(vogrilas_records(&node, record, room, &again) == VOGRILAS_SHORT_BUFFER && again == size && record[0] == 'x',
              "less room than is wanted");
    check(vogrilas_records(&node, record, size, &again) == VOGRILAS_OK && again == size && record[size] == 'x', "room enough");
    check(is_unsynced(&node, size), "a record that is not on disk");
    settle(&node);
    check(record_size == size && memcmp(said, "send sw1 ", 9) == 0, "the same again");
    check(strstr(said, "\nnumber 1\n") != NULL, "the number of the entry");
    check(vogrilas_records(&node, record, 0, &again) == VOGRILAS_OK && again == 0, "nothing behind clear");
    check(vogrilas_kept(&node, 0) == VOGRILAS_OK && vogrilas_kept(&node, 1) == VOGRILAS_TOO_MANY, "no records");
    check(vogrilas_serve(&node, "nonsense", 8) == VOGRILAS_OK, "a line that asks nothing");
    settle(&node);
    check(record_size == 0 && said_size == 13 && memcmp(said, "refused Line\n", 13) == 0, "a refusal has no record");
    vogrilas_close(&node);
}

/* Whether what may be written is this. */
static bool has_written(vogrilas_node *node, const char *text) {
    size_t size = 0;
    return vogrilas_written(node, said, MOST, &size) == VOGRILAS_OK && size == strlen(text) && memcmp(said, text, size) == 0;
}

/* Calls are served while the records of others are on their way to the disk: each is told once its own are there, and not before. */
static void try_on_the_way(void) {
    vogrilas_node node = VOGRILAS_NODE_INIT;
    static char all[MOST], rest[MOST];
    size_t kept, first = 0, both = 0, more = 77;
    check(open_as(&node, "ph1", log_bytes, log_size, &kept) == VOGRILAS_OK && vogrilas_kept(&node, 0) == VOGRILAS_OK, "a log that goes on");
    check(vogrilas_serve(&node, "stop", 4) == VOGRILAS_OK && vogrilas_records(&node, all, MOST, &first) == VOGRILAS_OK, "a call");
    check(vogrilas_records_after(&node, first, rest, MOST, &more) == VOGRILAS_OK && more == 0, "no record comes after it");
    check(vogrilas_serve(&node, "stop", 4) == VOGRILAS_OK && is_unsynced(&node, first), "a call that is refused has no record, and waits");
    check(vogrilas_serve(&node, "start", 5) == VOGRILAS_OK && vogrilas_records(&node, all, MOST, &both) == VOGRILAS_OK, "another call");
    check(vogrilas_records_after(&node, first, rest, 0, &more) == VOGRILAS_SHORT_BUFFER && more == both - first, "its record comes after");
    check(vogrilas_records_after(&node, first, rest, MOST, &more) == VOGRILAS_OK && memcmp(rest, all + first, more) == 0, "and is copied");
    check(vogrilas_records_after(&node, both + 1, rest, MOST, &more) == VOGRILAS_OK && more == 0, "nothing comes after what is not there");
    check(is_unsynced(&node, both) && vogrilas_kept(&node, first - 1) == VOGRILAS_OK && is_unsynced(&node, both - first + 1), "all wait");
    check(vogrilas_kept(&node, 1) == VOGRILAS_OK && is_silent_of(&node, both - first, true), "the first is on disk");
    check(has_written(&node, "ok\nrefused Down\n"), "its words and those behind it are told, and no others");
    check(vogrilas_clear(&node) == VOGRILAS_OK && is_unsynced(&node, both - first), "they go, and the others wait");
    check(vogrilas_kept(&node, both - first) == VOGRILAS_OK && has_written(&node, "ok\n"), "the other is on disk");
    check(vogrilas_clear(&node) == VOGRILAS_OK && has_written(&node, ""), "nothing is left");
    vogrilas_close(&node);
    check(vogrilas_records_after(&node, 0, rest, MOST, &more) == VOGRILAS_CLOSED && more == 0, "there is no node");
}

/* Records are kept byte by byte: what is left is told, and of the calls those whose records are kept. Further lines make them more. */
static void try_kept(void) {
    vogrilas_node node = VOGRILAS_NODE_INIT;
    static char all[MOST], rest[MOST];
    size_t kept, size = 0, more = 0, again = 0;
    uint64_t calls = 77;
    check(open_as(&node, "ph1", log_bytes, log_size, &kept) == VOGRILAS_OK && kept == log_size, "a log that goes on");
    check(is_unsynced(&node, 0), "a log that may not be on disk");
    check(vogrilas_kept(&node, 0) == VOGRILAS_OK, "the log is on disk");
    check(vogrilas_calls(&node, &calls) == VOGRILAS_OK && calls == 1, "its call is told of");
    check(vogrilas_serve(&node, "tick", 4) == VOGRILAS_OK, "a call");
    check(vogrilas_records(&node, all, MOST, &size) == VOGRILAS_OK && size > 2, "its record");
    check(vogrilas_kept(&node, 2) == VOGRILAS_OK && is_unsynced(&node, size - 2), "two bytes of it");
    check(vogrilas_records(&node, rest, MOST, &again) == VOGRILAS_OK && again == size - 2 && memcmp(rest, all + 2, again) == 0, "what is left");
    check(vogrilas_serve(&node, "tick", 4) == VOGRILAS_OK, "another call");
    check(vogrilas_records(&node, rest, MOST, &more) == VOGRILAS_OK && more > again && memcmp(rest, all + 2, again) == 0, "both records");
    for (size_t left = more; left > 0; left--)
        check(is_silent_of(&node, left, left <= more - again) && vogrilas_kept(&node, 1) == VOGRILAS_OK, "byte by byte");
    check(vogrilas_calls(&node, &calls) == VOGRILAS_OK && calls == 3, "both calls are told of");
    check(vogrilas_written(&node, said, MOST, &size) == VOGRILAS_OK && memmem_text(said, size, "ok\n"), "so is what was written");
    check(vogrilas_serve(&node, "tick", 4) == VOGRILAS_OK && vogrilas_written(&node, said, MOST, &again) == VOGRILAS_OK && again == size, "no more behind a call");
    check(vogrilas_records(&node, rest, MOST, &more) == VOGRILAS_OK && vogrilas_kept(&node, more) == VOGRILAS_OK, "its record is on disk");
    check(vogrilas_written(&node, said, MOST, &again) == VOGRILAS_OK && again > size, "words stay until they are cleared");
    check(vogrilas_clear(&node) == VOGRILAS_OK && vogrilas_written(&node, said, MOST, &again) == VOGRILAS_OK && again == 0, "and then go");
    vogrilas_close(&node);
}

static void try_logs(void) {
    size_t kept, whole = log_size;
    char *other = malloc(whole);
    if (other == NULL) exit(2);
    for (size_t size = 0; size <= whole; size++) {
        vogrilas_node node = VOGRILAS_NODE_INIT;
        check(open_as(&node, "ph1", log_bytes, size, &kept) == VOGRILAS_OK && kept == (size < 46 ? 0 : size < whole ? 46 : whole),
              "a torn log");
        vogrilas_close(&node);
    }
    for (size_t place = 0; place < whole; place++) {
        vogrilas_node node = VOGRILAS_NODE_INIT;
        memcpy(other, log_bytes, whole);
        other[place] ^= 1;
        vogrilas_code code = open_as(&node, "ph1", other, whole, &kept);
        check(code == VOGRILAS_OK ? kept < whole : is_closed(&node), "a damaged log");
        check(code != VOGRILAS_DAMAGED || kept == 46, "the place of the damage");
        vogrilas_close(&node);
    }
    vogrilas_node node = VOGRILAS_NODE_INIT;
    check(open_as(&node, "pr1", log_bytes, whole, &kept) == VOGRILAS_OTHER_NODE, "another node's log");
    settings[settings_size] = '\n';
    check(vogrilas_open(&node, settings, settings_size + 1, "ph1", 3, log_bytes, whole, "few", 3, &kept) == VOGRILAS_OK && kept == whole,
          "a log of the same settings in another layout");
    vogrilas_close(&node);
    char *cent = strstr(settings, "fee = ") + strlen("fee = 12");
    *cent ^= 1;
    check(vogrilas_open(&node, settings, settings_size, "ph1", 3, log_bytes, whole, "few", 3, &kept) == VOGRILAS_OTHER_SETTINGS,
          "a log of other settings");
    *cent ^= 1;
    check(is_closed(&node), "a log that is refused");
    free(other);
}

static vogrilas_code open_settings(vogrilas_settings *shared) {
    return vogrilas_open_settings(shared, settings, settings_size, "0123456789abcdef", 16);
}

static vogrilas_code open_under(vogrilas_node *node, vogrilas_settings *shared, const char *name, const void *log, size_t size, size_t *kept) {
    return vogrilas_open_under(node, shared, name, strlen(name), log, size, kept);
}

/* A log is opened under settings as it is under their text: the same code, and the same place. */
static void try_same(vogrilas_settings *shared, const char *name, const char *log, size_t size) {
    vogrilas_node one = VOGRILAS_NODE_INIT, other = VOGRILAS_NODE_INIT;
    size_t kept = 77, again = 77, records = 0, same = 0;
    vogrilas_code code = open_as(&one, name, log, size, &kept);
    check(open_under(&other, shared, name, log, size, &again) == code && again == kept && other.held == one.held, "a node under settings");
    if (code != VOGRILAS_OK) return;
    check(vogrilas_records(&one, record, MOST, &records) == VOGRILAS_OK && vogrilas_records(&other, said, MOST, &same) == VOGRILAS_OK &&
          same == records && memcmp(record, said, same) == 0, "its head");
    check(is_unsynced(&other, records), "it waits as another does");
    vogrilas_close(&one);
    vogrilas_close(&other);
}

/* Settings that are opened once, and nodes under them: each is as one of its own settings, in any order of opening and letting go. */
static void try_settings(void) {
    vogrilas_settings shared = VOGRILAS_SETTINGS_INIT;
    vogrilas_node node = VOGRILAS_NODE_INIT, other = VOGRILAS_NODE_INIT;
    static char altered[MOST];
    size_t kept = 77;
    long before = lent;
    vogrilas_close_settings(&shared);
    check(open_under(&node, &shared, "ph1", "", 0, &kept) == VOGRILAS_CLOSED && kept == 77 && is_closed(&node), "no settings, no node");
    check(open_under(&node, &shared, "ph", "", 0, &kept) == VOGRILAS_CLOSED && kept == 77, "whatever its name is");
    check(vogrilas_open_settings(&shared, "again", 5, "", 0) == VOGRILAS_SETTINGS && !shared.held && lent == before, "no settings");
    check(open_settings(&shared) == VOGRILAS_OK && shared.held, "settings");
    long settled = lent;
    check(open_settings(&shared) == VOGRILAS_OPEN && shared.held && lent == settled, "settings twice");
    check(open_under(&node, &shared, "ph", "", 0, &kept) == VOGRILAS_NAME && kept == 77, "a name under settings");
    check(open_under(&node, &shared, "ph7", "", 0, &kept) == VOGRILAS_NO_SUCH_NODE && kept == 77 && is_closed(&node), "a node that they have not");
    check(lent == settled, "who is refused shares nothing");
    for (size_t size = 0; size <= log_size; size++) try_same(&shared, "ph1", log_bytes, size);
    try_same(&shared, "pr1", log_bytes, log_size);
    try_same(&shared, "sw1", "", 0);
    memcpy(altered, log_bytes, log_size);
    for (size_t place = 0; place < log_size; place++) {
        altered[place] ^= 1;
        try_same(&shared, "ph1", altered, log_size);
        altered[place] ^= 1;
    }
    check(lent == settled, "nodes that were let go share nothing");
    check(open_under(&node, &shared, "ph1", log_bytes, log_size, &kept) == VOGRILAS_OK && kept == log_size, "a node");
    check(open_under(&node, &shared, "ph1", log_bytes, log_size, &kept) == VOGRILAS_OPEN, "open twice under settings");
    check(open_under(&other, &shared, "pr1", "", 0, &kept) == VOGRILAS_OK && kept == 0, "another node");
    vogrilas_settings moved = shared, none = VOGRILAS_SETTINGS_INIT;
    shared = none;
    vogrilas_close_settings(&moved);
    vogrilas_close_settings(&moved);
    check(!moved.held && open_under(&node, &moved, "ph1", "", 0, &kept) == VOGRILAS_CLOSED, "settings are let go once");
    vogrilas_close(&other);
    uint64_t calls = 0;
    check(vogrilas_kept(&node, 0) == VOGRILAS_OK && vogrilas_calls(&node, &calls) == VOGRILAS_OK && calls == 1, "the node goes on without their handle");
    check(vogrilas_serve(&node, "tick", 4) == VOGRILAS_OK, "and is served");
    vogrilas_close(&node);
    check(lent == before, "the last who shares settings gives them back");
    for (long turn = 0;; turn += each) {
        left = turn;
        vogrilas_code code = open_settings(&shared);
        left = -1;
        check(code == VOGRILAS_OK ? shared.held : code == VOGRILAS_NO_MEMORY && !shared.held, "memory refused while settings are opened");
        vogrilas_close_settings(&shared);
        check(lent == before, "memory is given back");
        if (code == VOGRILAS_OK) break;
    }
    check(open_settings(&shared) == VOGRILAS_OK, "settings once more");
    settled = lent;
    for (long turn = 0;; turn += each) {
        left = turn, kept = 77;
        vogrilas_code code = open_under(&node, &shared, "ph1", log_bytes, log_size, &kept);
        left = -1;
        check(code == VOGRILAS_OK || (code == VOGRILAS_NO_MEMORY && is_closed(&node) && kept == 77), "memory refused while a node is opened under settings");
        vogrilas_close(&node);
        check(lent == settled, "memory is given back");
        if (code == VOGRILAS_OK) break;
    }
    vogrilas_close_settings(&shared);
    check(lent == before, "settings are given back");
}

static void try_texts(void) {
    char bytes[256], text[1024], back[1024];
    size_t size = 0, again = 0;
    for (int byte = 0; byte < 256; byte++) bytes[byte] = (char)byte;
    check(vogrilas_print(bytes, 256, text, 1024, &size) == VOGRILAS_OK && size > 256, "every byte has a text");
    check(vogrilas_print(bytes, 256, text, size - 1, &again) == VOGRILAS_SHORT_BUFFER && again == size, "a text too long");
    check(vogrilas_unprint(text, size, back, 1024, &again) == VOGRILAS_OK && again == 256, "a text has bytes");
    check(memcmp(bytes, back, 256) == 0, "the same bytes");
    check(vogrilas_unprint(text, size, back, 255, &again) == VOGRILAS_SHORT_BUFFER && again == 256, "bytes too many");
    check(vogrilas_unprint("ab\\q", 4, back, 1024, &again) == VOGRILAS_BAD_TEXT && again == 2, "a text that spells nothing");
    check(vogrilas_print("", 0, text, 0, &size) == VOGRILAS_OK && size == 0, "no bytes");
}

/* The numbers of entries, in what was written of several calls. */
static void try_numbers(void) {
    const char *written = "send sw1 x\nnumber 12\nok\nsend sw1 number\nsend sw1 y\nrefused Full\nnumber 18446744073709551615\n";
    size_t place = 0, size = strlen(written);
    check(vogrilas_number_in(written, size, &place) == 12 && written[place] == 'o', "the number of an entry");
    check(vogrilas_number_in(written, size, &place) == 0 && written[place] == 's', "a tick has none");
    check(vogrilas_number_in(written, size, &place) == 0 && written[place] == 'n', "a refusal has none");
    check(vogrilas_number_in(written, size, &place) == UINT64_MAX && place == size, "the largest number");
    check(vogrilas_number_in(written, size, &place) == 0 && place == size, "no line is left");
    place = 0;
    check(vogrilas_number_in("number 7", 8, &place) == 7 && place == 8, "a line without its end");
    place = 0;
    check(vogrilas_number_in("known 7\n", 8, &place) == 7 && place == 8, "the number of an entry that was there");
}

/* Messages of any bytes are described, in lines and as JSON, and a buffer is enough or unchanged. */
static void try_descriptions(void) {
    static char message[MOST], lines[MOST], again[MOST];
    size_t message_size = 0, size = 0, other = 0;
    check(vogrilas_unprint(line + 7, line_size - 7, message, MOST, &message_size) == VOGRILAS_OK, "the bytes of the request");
    for (uint32_t json = 0; json < 2; json++) {
        check(vogrilas_describe(message, message_size, json, lines, MOST, &size) == VOGRILAS_OK && size > 0, "a description");
        memset(again, 'x', sizeof again);
        check(vogrilas_describe(message, message_size, json, again, size - 1, &other) == VOGRILAS_SHORT_BUFFER && other == size,
              "a description too long");
        check(again[0] == 'x' && memchr(again, '1', size) == NULL, "a buffer that is too short is unchanged");
        check(vogrilas_describe(message, message_size, json, again, size, &other) == VOGRILAS_OK && memcmp(lines, again, size) == 0,
              "the same description");
        for (size_t cut = 0; cut < message_size; cut++)
            check(vogrilas_describe(message, cut, json, lines, MOST, &size) == VOGRILAS_OK, "a message that is cut off");
    }
    for (long turn = 0;; turn += each) {
        left = turn;
        vogrilas_code code = vogrilas_describe(message, message_size, 1, again, MOST, &size);
        left = -1;
        check(code == VOGRILAS_OK || code == VOGRILAS_NO_MEMORY, "memory refused while a message is described");
        check(lent == 0, "memory is given back");
        if (code == VOGRILAS_OK) break;
    }
}

/* The fields of the request of the example, and of its reversal. */
static const vogrilas_billing a_billing = {
    .prescription = 123456, .quantity = 30000, .cost = 6000, .fee = 200,
    .header = { .bin = "610455", .pcn = "A1", .qualifier = "01", .provider = "1234567893", .date = "20240115", .vendor = "SW00000001" },
    .cardholder = "987654321", .product = "00093721410"
};

static vogrilas_reversal reversal_of(const vogrilas_billing *billing) {
    vogrilas_reversal reversal = { .prescription = billing->prescription, .header = billing->header, .fill_number = billing->fill_number };
    memcpy(reversal.product, billing->product, sizeof reversal.product);
    return reversal;
}

/* A billing with a wrong field is not made: the code says why, and the number which. */
static void try_wrong(const vogrilas_billing *billing, vogrilas_code wanted, uint32_t number) {
    char bytes[512] = "x";
    size_t size = 77;
    uint32_t field = 77;
    check(vogrilas_make_billing(billing, bytes, sizeof bytes, &size, &field) == wanted && field == number, "a wrong field, and which");
    check(bytes[0] == 'x' && size == 77, "nothing is made of a wrong field");
    vogrilas_reversal reversal = reversal_of(billing);
    bool is_of_both = number < 300 || number == 401 || number == 402 || number == 403 || number == 407;
    vogrilas_code code = vogrilas_make_reversal(&reversal, bytes, sizeof bytes, &size, &field);
    check(is_of_both ? code == wanted && field == number && bytes[0] == 'x' && size == 77 : code == VOGRILAS_OK, "the same of a reversal");
}

/* Messages are made of fields: the very bytes of the example, every shorter buffer unchanged, and each field wrong in turn. */
static void try_messages(void) {
    static char wanted[MOST], made[MOST];
    size_t wanted_size = 0, size = 0, again = 0;
    uint32_t field = 77;
    check(vogrilas_unprint(line + 7, line_size - 7, wanted, MOST, &wanted_size) == VOGRILAS_OK, "the bytes of the request");
    check(vogrilas_make_billing(&a_billing, made, MOST, &size, &field) == VOGRILAS_OK && field == 77, "a billing");
    check(size == wanted_size && memcmp(made, wanted, size) == 0, "the very bytes");
    memset(made, 'x', MOST);
    for (size_t room = 0; room < size; room++)
        check(vogrilas_make_billing(&a_billing, made, room, &again, &field) == VOGRILAS_SHORT_BUFFER && again == size && made[0] == 'x' && field == 77, "no room for it");
    vogrilas_reversal reversal = reversal_of(&a_billing);
    const char *text = "610455D0B2A1        1011234567893     20240115SW00000001\x1d\x1e\x1c" "AM07\x1c" "EM1\x1c" "D2123456\x1c" "D30\x1c" "E103\x1c" "D700093721410";
    check(vogrilas_make_reversal(&reversal, made, MOST, &size, &field) == VOGRILAS_OK && size == strlen(text) && memcmp(made, text, size) == 0, "a reversal");
    reversal.fill_number = VOGRILAS_NO_FILL;
    check(vogrilas_make_reversal(&reversal, made, MOST, &again, &field) == VOGRILAS_OK && again == size - 4 && !memmem_text(made, again, "\x1c" "D30"), "one without its fill");
    reversal.fill_number = VOGRILAS_NO_FILL - 1;
    check(vogrilas_make_reversal(&reversal, made, MOST, &again, &field) == VOGRILAS_FIELD_TOO_LONG && field == 403, "and with none");
    check(vogrilas_make_reversal(&reversal, made, 0, &again, &field) == VOGRILAS_FIELD_TOO_LONG && field == 403, "a wrong field before the room");
    vogrilas_billing most = a_billing, wrong;
    memcpy(most.header.pcn, "ABCDEFGHIJ", 11);
    memcpy(most.header.provider, "123456789012345", 16);
    memcpy(most.cardholder, "12345678901234567890", 21);
    memcpy(most.product, "1234567890123456789", 20);
    most.prescription = 999999999999, most.quantity = 9999999999, most.cost = most.fee = 99999999, most.fill_number = 99;
    check(vogrilas_make_billing(&most, made, MOST, &size, &field) == VOGRILAS_OK && size == 184, "the longest");
#define WRONG(change, code, number) (wrong = most, change, try_wrong(&wrong, code, number))
    WRONG(wrong.header.bin[5] = 0, VOGRILAS_FIELD_DIGITS, 101);
    WRONG(wrong.header.bin[6] = '1', VOGRILAS_FIELD_DIGITS, 101);
    WRONG(wrong.header.bin[2] = 'A', VOGRILAS_FIELD_DIGITS, 101);
    WRONG(wrong.header.pcn[10] = 'K', VOGRILAS_FIELD_TOO_LONG, 104);
    WRONG(wrong.header.pcn[3] = 0x1c, VOGRILAS_FIELD_SEPARATOR, 104);
    WRONG(wrong.header.qualifier[2] = '1', VOGRILAS_FIELD_TOO_LONG, 202);
    WRONG(wrong.header.provider[0] = 0x1d, VOGRILAS_FIELD_SEPARATOR, 201);
    WRONG(memcpy(wrong.header.date, "20240230", 9), VOGRILAS_FIELD_DAY, 401);
    WRONG(wrong.header.date[0] = 'x', VOGRILAS_FIELD_DIGITS, 401);
    WRONG(wrong.header.vendor[9] = 0x1e, VOGRILAS_FIELD_SEPARATOR, 110);
    WRONG(wrong.cardholder[0] = 0, VOGRILAS_FIELD_EMPTY, 302);
    WRONG(wrong.cardholder[20] = '1', VOGRILAS_FIELD_TOO_LONG, 302);
    WRONG(wrong.cardholder[19] = ' ', VOGRILAS_FIELD_SPACE, 302);
    WRONG(wrong.cardholder[7] = 0x1c, VOGRILAS_FIELD_SEPARATOR, 302);
    WRONG(wrong.prescription++, VOGRILAS_FIELD_TOO_LONG, 402);
    WRONG(wrong.fill_number++, VOGRILAS_FIELD_TOO_LONG, 403);
    WRONG(wrong.product[0] = 0, VOGRILAS_FIELD_EMPTY, 407);
    WRONG(wrong.product[19] = '1', VOGRILAS_FIELD_TOO_LONG, 407);
    WRONG(wrong.product[18] = ' ', VOGRILAS_FIELD_SPACE, 407);
    WRONG(wrong.quantity++, VOGRILAS_FIELD_TOO_LONG, 442);
    WRONG(wrong.cost++, VOGRILAS_FIELD_TOO_LONG, 409);
    WRONG(wrong.fee = UINT32_MAX, VOGRILAS_FIELD_TOO_LONG, 412);
    WRONG((wrong.fee++, wrong.header.vendor[0] = 0x1c), VOGRILAS_FIELD_SEPARATOR, 110);
    for (long turn = 0;; turn += each) {
        left = turn, size = 77, field = 77;
        vogrilas_code code = vogrilas_make_billing(&a_billing, made, MOST, &size, &field);
        left = -1;
        check(code == VOGRILAS_OK || (code == VOGRILAS_NO_MEMORY && size == 77 && field == 77), "memory refused while a billing is made");
        check(lent == 0, "memory is given back");
        if (code == VOGRILAS_OK) break;
    }
}

/* Bytes in place of lines: the same records, and the same is written. */
static void try_typed(void) {
    vogrilas_node by_line = VOGRILAS_NODE_INIT, by_bytes = VOGRILAS_NODE_INIT;
    char bytes[MOST], other[1024];
    size_t kept, size = 0, again = 0;
    check(is_closed(&by_line) && vogrilas_submit(&by_bytes, "x", 1) == VOGRILAS_CLOSED, "a closed handle takes no request");
    check(vogrilas_take(&by_bytes, "sw1", 3, "x", 1) == VOGRILAS_CLOSED, "a closed handle takes no packet");
    check(open_as(&by_line, "ph1", log_bytes, 46, &kept) == VOGRILAS_OK && vogrilas_kept(&by_line, 0) == VOGRILAS_OK, "open for lines");
    check(open_as(&by_bytes, "ph1", log_bytes, 46, &kept) == VOGRILAS_OK && vogrilas_kept(&by_bytes, 0) == VOGRILAS_OK, "open for bytes");
    check(vogrilas_unprint(line + 7, line_size - 7, bytes, MOST, &size) == VOGRILAS_OK, "the bytes of the request");
    check(vogrilas_serve(&by_line, line, line_size) == VOGRILAS_OK, "a submission by a line");
    check(vogrilas_submit(&by_bytes, bytes, size) == VOGRILAS_OK, "a submission by bytes");
    check(vogrilas_serve(&by_line, "take sw1 \\x00\\xff", 17) == VOGRILAS_OK, "a packet by a line");
    check(vogrilas_take(&by_bytes, "sw1", 3, "\x00\xff", 2) == VOGRILAS_OK, "a packet by bytes");
    check(vogrilas_take(&by_bytes, "sw1 ", 4, "", 0) == VOGRILAS_NAME, "a packet of nobody");
    check(vogrilas_records(&by_line, record, MOST, &size) == VOGRILAS_OK && size > 0, "the records by lines");
    check(vogrilas_records(&by_bytes, bytes, MOST, &again) == VOGRILAS_OK && again == size, "the records by bytes");
    check(memcmp(record, bytes, size) == 0, "the same records");
    check(vogrilas_kept(&by_line, size) == VOGRILAS_OK && vogrilas_kept(&by_bytes, size) == VOGRILAS_OK, "the records are kept");
    check(vogrilas_written(&by_line, said, MOST, &size) == VOGRILAS_OK && size > 0, "what is written by lines");
    check(vogrilas_written(&by_bytes, other, 1024, &again) == VOGRILAS_OK && again == size, "what is written by bytes");
    check(memcmp(said, other, size) == 0, "the same is written");
    vogrilas_close(&by_line);
    vogrilas_close(&by_bytes);
}

/* A payer that asks its own system, and the packet of the request as the first of pharmacy 1. */
static char asking[MOST], packet[MOST];
static size_t asking_size, packet_size;
static const char advice[] = "D0B11A011234567893     20240115\x1d\x1e\x1c" "AM21\x1c" "ANP\x1c" "F37777000000000042\x1e\x1c" "AM22\x1c" "EM1\x1c"
                             "D2123456\x1e\x1c" "AM23\x1c" "F550{\x1c" "F6500{\x1c" "F715{\x1c" "F9465{";

static void open_payer(vogrilas_node *node, const char *given, size_t given_size) {
    size_t kept;
    check(vogrilas_open(node, given, given_size, "pr1", 3, "", 0, "0123456789abcdef", 16, &kept) == VOGRILAS_OK, "a payer");
    check(vogrilas_records(node, record, MOST, &record_size) == VOGRILAS_OK && vogrilas_kept(node, record_size) == VOGRILAS_OK, "its head");
}

static vogrilas_code adjudicate(vogrilas_node *node, const char *text, size_t size) {
    return vogrilas_adjudicate(node, "sw1", 3, packet, packet_size, text, size);
}

/* A call is refused for this cause: nothing is recorded, and nothing sent. */
static void try_refused(vogrilas_node *node, const char *text, size_t size, const char *wanted) {
    check(adjudicate(node, text, size) == VOGRILAS_OK, wanted);
    check(vogrilas_records(node, record, MOST, &record_size) == VOGRILAS_OK && record_size == 0, "a refusal has no record");
    check(vogrilas_written(node, said, MOST, &said_size) == VOGRILAS_OK && vogrilas_clear(node) == VOGRILAS_OK, "a refusal is said");
    check(said_size == strlen(wanted) && memcmp(said, wanted, said_size) == 0, wanted);
}

/* A payer's log with an adjudication, cut anywhere and with any byte altered: only the whole one has the answer. */
static void try_advised_logs(char *log, size_t whole) {
    size_t kept_size;
    uint64_t rows = 77;
    for (size_t size = 0; size <= whole; size++) {
        vogrilas_node node = VOGRILAS_NODE_INIT;
        size_t left_size = size == whole ? whole : size < 46 ? 0 : 46;
        check(vogrilas_open(&node, asking, asking_size, "pr1", 3, log, size, "", 0, &kept_size) == VOGRILAS_OK && kept_size == left_size, "a log that is cut");
        check(vogrilas_kept(&node, size < 46 ? 46 : 0) == VOGRILAS_OK && vogrilas_count(&node, &rows) == VOGRILAS_OK && rows == (size == whole), "its rows");
        vogrilas_close(&node);
    }
    for (size_t at = 0; at < whole; at++) {
        vogrilas_node node = VOGRILAS_NODE_INIT;
        log[at] ^= 4;
        check(vogrilas_open(&node, asking, asking_size, "pr1", 3, log, whole, "", 0, &kept_size) != VOGRILAS_OK && !node.held, "a byte that is altered");
        log[at] ^= 4;
    }
}

/* Adjudications by bytes are those by lines, what is no advice is refused, and so is every advice where nobody asks or is up. */
static void try_asking(void) {
    static char text[MOST], bytes[MOST], other[MOST], log[MOST];
    vogrilas_node by_line = VOGRILAS_NODE_INIT, by_bytes = VOGRILAS_NODE_INIT, planned = VOGRILAS_NODE_INIT;
    const size_t advice_size = sizeof advice - 1;
    size_t size = 0, again = 0, place = 0;
    const char *prices = strstr(settings, "[payer.prices]");
    if (prices == NULL) exit(2);
    asking_size = (size_t)snprintf(asking, MOST, "%.*sasks = \"claims\"\n%s", (int)(prices - settings), settings, prices);
    check(vogrilas_unprint(line + 7, line_size - 7, packet + 18, MOST - 18, &size) == VOGRILAS_OK && size < 256, "the bytes of the request");
    memcpy(packet, "PS\x01\x01\x00\x01\x00\x00\x00\x00\x00\x00\x00\x01\x00\x00\x00", 17);
    packet[17] = (char)size;
    packet_size = 18 + size;
    check(adjudicate(&by_bytes, advice, advice_size) == VOGRILAS_CLOSED && is_closed(&by_bytes), "a closed handle takes no advice");
    open_payer(&by_line, asking, asking_size);
    open_payer(&by_bytes, asking, asking_size);
    memcpy(log, record, record_size);
    size_t head_size = record_size;
    check(vogrilas_take(&by_bytes, "sw1", 3, packet, packet_size) == VOGRILAS_OK, "a packet without an advice");
    check(vogrilas_written(&by_bytes, said, MOST, &said_size) == VOGRILAS_OK && said_size == 19 &&
          memcmp(said, "refused NotAdvised\n", 19) == 0 && vogrilas_clear(&by_bytes) == VOGRILAS_OK, "is refused");
    try_refused(&by_bytes, "", 0, "refused NotAdvised\n");
    try_refused(&by_bytes, "x", 1, "refused NotAdvised\n");
    try_refused(&by_bytes, "\x00 \xff", 3, "refused NotAdvised\n");
    /* Cut off, up to the first digit of its total: whether the other ones are there its carrier has to know. */
    for (size_t cut = 0; cut + 3 < advice_size; cut++) try_refused(&by_bytes, advice, cut, "refused NotAdvised\n");
    /* A total below zero, another prescription, an answer of two places with one. */
    const char *wrongs[] = { "F9465{", "F9465N", "D2123456", "D2123457", "D0B11A", "D0B12A" };
    for (size_t at = 0; at < 6; at += 2) {
        memcpy(text, advice, advice_size);
        for (place = 0; memcmp(text + place, wrongs[at], strlen(wrongs[at])) != 0; place++) continue;
        memcpy(text + place, wrongs[at + 1], strlen(wrongs[at + 1]));
        try_refused(&by_bytes, text, advice_size, "refused NotAdvised\n");
    }
    check(vogrilas_adjudicate(&by_bytes, "sw1 ", 4, packet, packet_size, advice, advice_size) == VOGRILAS_NAME, "an advice of nobody");
    size = (size_t)snprintf(text, MOST, "adjudicate sw1 ");
    for (place = 0; place < advice_size; place++) {
        check(vogrilas_print(advice + place, 1, bytes, MOST, &again) == VOGRILAS_OK, "the text of a byte");
        size += (size_t)snprintf(text + size, MOST - size, "%.*s", advice[place] == ' ' ? 4 : (int)again, advice[place] == ' ' ? "\\x20" : bytes);
    }
    check(vogrilas_print(packet, packet_size, bytes, MOST, &again) == VOGRILAS_OK, "the text of a packet");
    size += (size_t)snprintf(text + size, MOST - size, " %.*s", (int)again, bytes);
    check(vogrilas_serve(&by_line, text, size) == VOGRILAS_OK, "an advice by a line");
    check(adjudicate(&by_bytes, advice, advice_size) == VOGRILAS_OK, "an advice by bytes");
    check(vogrilas_records(&by_line, record, MOST, &size) == VOGRILAS_OK && size > advice_size, "the record by a line");
    check(vogrilas_records(&by_bytes, bytes, MOST, &again) == VOGRILAS_OK && again == size && memcmp(record, bytes, size) == 0, "the record by bytes");
    memcpy(log + head_size, bytes, size);
    try_advised_logs(log, head_size + size);
    check(vogrilas_kept(&by_line, size) == VOGRILAS_OK && vogrilas_kept(&by_bytes, size) == VOGRILAS_OK, "the records are kept");
    check(vogrilas_written(&by_line, said, MOST, &size) == VOGRILAS_OK && size > 9 && memcmp(said, "send sw1 ", 9) == 0, "an answer is sent");
    check(vogrilas_written(&by_bytes, other, MOST, &again) == VOGRILAS_OK && again == size && memcmp(said, other, size) == 0, "the same is written");
    check(memmem_text(said, size, "\\FF30001000000000001") && memmem_text(said, size, "\\FF9465{\nok\n"), "what the system says, under the book's number");
    check(vogrilas_clear(&by_bytes) == VOGRILAS_OK && vogrilas_serve(&by_bytes, "stop", 4) == VOGRILAS_OK, "a stop");
    check(vogrilas_records(&by_bytes, record, MOST, &size) == VOGRILAS_OK && vogrilas_kept(&by_bytes, size) == VOGRILAS_OK &&
          vogrilas_clear(&by_bytes) == VOGRILAS_OK, "is kept");
    try_refused(&by_bytes, advice, advice_size, "refused Down\n");
    open_payer(&planned, settings, settings_size);
    try_refused(&planned, advice, advice_size, "refused NotAsked\n");
    vogrilas_close(&by_line);
    vogrilas_close(&by_bytes);
    vogrilas_close(&planned);
    check(open_as(&planned, "ph1", log_bytes, log_size, &size) == VOGRILAS_OK && vogrilas_kept(&planned, 0) == VOGRILAS_OK, "a pharmacy");
    try_refused(&planned, advice, advice_size, "refused NoSuchNode\n");
    vogrilas_close(&planned);
    for (long turn = 0;; turn += each) {
        open_payer(&by_bytes, asking, asking_size);
        left = turn;
        vogrilas_code code = adjudicate(&by_bytes, advice, advice_size);
        left = -1;
        check(code == VOGRILAS_OK || (code == VOGRILAS_NO_MEMORY && is_closed(&by_bytes)), "memory refused while an advice is taken");
        vogrilas_close(&by_bytes);
        check(lent == 0, "memory is given back");
        if (code == VOGRILAS_OK) break;
    }
}

/* A payer whose answers carry what an advice says beside its rulings, and that asks about reversals, also from its log and where memory is refused. */
static void try_carrying(void) {
    static const char told[] = "D0B11A011234567893     20240115\x1e\x1c" "AM20\x1c" "F4OPEN\x1d\x1e\x1c" "AM21\x1c" "ANP\x1c" "FQREFILL\x1e\x1c" "AM22\x1c" "EM1\x1c"
                               "D2123456\x1e\x1c" "AM23\x1c" "F550{\x1c" "F6500{\x1c" "F715{\x1c" "F9465{";
    static const char answer[] = "D0B11A011234567893     20240115\\S\\FAM20\\FF4OPEN\\G\\S\\FAM21\\FANP\\FF30001000000000001\\FFQREFILL\\S\\FAM22";
    static const char reversal[] = "\x1d\x1e\x1c" "AM07\x1c" "EM1\x1c" "D2123456\x1c" "D30";
    static const char denied[] = "D0B21A011234567893     20240115\x1d\x1e\x1c" "AM21\x1c" "ANR\x1c" "FA1\x1c" "FB86\x1c" "FQCALL";
    static const char again[] = "D0B21A011234567893     20240115\x1d\x1e\x1c" "AM21\x1c" "ANS\x1e\x1c" "AM22\x1c" "EM1\x1c" "D2123456";
    static char log[MOST], first[MOST];
    const char *advices[] = { told, denied, again };
    const size_t sizes[] = { sizeof told - 1, sizeof denied - 1, sizeof again - 1 };
    const char *answers[] = { answer, "ANR\\FFA1\\FFB86\\FFQCALL\nok\n", "ANA\\FF30001000000000001\\S\\FAM22\\FEM1\\FD2123456\nok\n" };
    const char *prices = strstr(settings, "[payer.prices]");
    vogrilas_node node = VOGRILAS_NODE_INIT;
    const size_t billing_size = packet_size;
    size_t size = 0, kept_size = 0;
    if (prices == NULL) exit(2);
    asking_size = (size_t)snprintf(asking, MOST, "%.*sasks = \"all\"\n%s\n[answers]\nprofile = \"wide\"\n", (int)(prices - settings), settings, prices);
    memcpy(first, packet, packet_size);
    for (long turn = 0;; turn += each) {
        open_payer(&node, asking, asking_size);
        left = turn;
        vogrilas_code code = adjudicate(&node, told, sizeof told - 1);
        left = -1;
        check(code == VOGRILAS_OK || (code == VOGRILAS_NO_MEMORY && is_closed(&node)), "memory refused while an answer carries more");
        vogrilas_close(&node);
        check(lent == 0, "memory is given back");
        if (code == VOGRILAS_OK) break;
    }
    open_payer(&node, asking, asking_size);
    memcpy(log, record, record_size);
    size = record_size;
    for (size_t at = 0; at < 3; at++) {
        /* The billing as number 1, and its reversal as 2 and 3. */
        if (at == 1) {
            memcpy(packet + 18 + 8, "B2", 2);
            memcpy(packet + 18 + 56, reversal, sizeof reversal - 1);
            packet[17] = (char)(56 + sizeof reversal - 1);
            packet_size = 18 + 56 + sizeof reversal - 1;
        }
        packet[13] = (char)(at + 1);
        try_refused(&node, "x", 1, "refused NotAdvised\n");
        check(adjudicate(&node, advices[at], sizes[at]) == VOGRILAS_OK, "an advice");
        check(vogrilas_records(&node, log + size, MOST - size, &record_size) == VOGRILAS_OK && record_size > sizes[at], "its record");
        size += record_size;
        check(vogrilas_kept(&node, record_size) == VOGRILAS_OK && vogrilas_written(&node, said, MOST, &said_size) == VOGRILAS_OK, "its answer");
        check(memmem_text(said, said_size, answers[at]), "what the system says, and beside it");
        check(vogrilas_clear(&node) == VOGRILAS_OK, "clear");
    }
    vogrilas_close(&node);
    for (long turn = 0;; turn += each) {
        left = turn;
        vogrilas_code code = vogrilas_open(&node, asking, asking_size, "pr1", 3, log, size, "", 0, &kept_size);
        left = -1;
        check(code == VOGRILAS_OK || (code == VOGRILAS_NO_MEMORY && is_closed(&node)), "memory refused while answers that carry more are read");
        if (code == VOGRILAS_OK) break;
        check(lent == 0, "memory is given back");
    }
    check(kept_size == size && vogrilas_kept(&node, 0) == VOGRILAS_OK, "the whole log");
    memcpy(packet, first, packet_size = billing_size);
    check(vogrilas_take(&node, "sw1", 3, packet, packet_size) == VOGRILAS_OK, "the billing once more");
    check(vogrilas_records(&node, record, MOST, &record_size) == VOGRILAS_OK && vogrilas_kept(&node, record_size) == VOGRILAS_OK, "is recorded");
    check(vogrilas_written(&node, said, MOST, &said_size) == VOGRILAS_OK && memmem_text(said, said_size, answer), "it is answered as before");
    vogrilas_close(&node);
    check(lent == 0, "memory is given back");
}

/* A network in this process: a pharmacy, a switch and a payer, each with the bytes of its log. */
struct one {
    const char *name;
    vogrilas_node node;
    char log[MOST];
    size_t size;
};

enum { NODES = 3 };
static struct one network[NODES] = {
    { "ph1", VOGRILAS_NODE_INIT, "", 0 }, { "sw1", VOGRILAS_NODE_INIT, "", 0 }, { "pr1", VOGRILAS_NODE_INIT, "", 0 }
};

/* Keeps the records of a node in its log, and gives what was written, with a 0 behind it. */
static const char *kept(struct one *one) {
    size_t size = 0;
    check(vogrilas_records(&one->node, one->log + one->size, MOST - one->size, &size) == VOGRILAS_OK, "records");
    one->size += size;
    check(vogrilas_kept(&one->node, size) == VOGRILAS_OK, "the records are kept");
    check(vogrilas_written(&one->node, said, MOST - 1, &said_size) == VOGRILAS_OK, "what was written");
    said[said_size] = '\0';
    check(vogrilas_clear(&one->node) == VOGRILAS_OK, "clear");
    return said;
}

/* Serves a line, and gives what is written. */
static const char *asked(struct one *one, const char *text) {
    check(vogrilas_serve(&one->node, text, strlen(text)) == VOGRILAS_OK, "a line");
    return kept(one);
}

/* Carries what a node has just sent, and all that is sent then, until nobody sends. */
static void carry(struct one *from, const char *written) {
    static char next[MOST];
    while (strncmp(written, "send ", 5) == 0) {
        struct one *to = NULL;
        for (size_t one = 0; one < NODES; one++)
            if (strncmp(network[one].name, written + 5, 3) == 0) to = &network[one];
        const char *end = strchr(written, '\n');
        snprintf(next, MOST, "take %s %.*s", from->name, (int)(end - written - 9), written + 9);
        written = asked(to, next);
        from = to;
    }
}

/* How many there are, by the count. */
static uint64_t counted(struct one *one) {
    uint64_t count = 77;
    check(vogrilas_count(&one->node, &count) == VOGRILAS_OK, "a count");
    return count;
}

/* A handle's state as bytes of its log and of what is to be written: calls that only read change none of it. */
static bool is_silent(struct one *one) {
    size_t records = 77, written = 77;
    return vogrilas_records(&one->node, said, MOST, &records) == VOGRILAS_OK && records == 0 &&
           vogrilas_written(&one->node, said, MOST, &written) == VOGRILAS_OK && written == 0;
}

/* An answer that a node holds is that of the line `answer NUMBER` of the pharmacy, and every shorter buffer is unchanged. */
static void try_answer(struct one *one, uint64_t number, const char *wanted) {
    static char bytes[MOST], text[MOST], copy[MOST];
    size_t size = 0, again = 0, text_size = 0;
    check(vogrilas_answer(&one->node, 1, number, bytes, MOST, &size) == VOGRILAS_OK, "an answer");
    check(vogrilas_print(bytes, size, text, MOST, &text_size) == VOGRILAS_OK && text_size == strlen(wanted), "the answer's text");
    check(memcmp(text, wanted, text_size) == 0, "the answer of the line");
    memset(copy, 'x', MOST);
    for (size_t room = 0; room < size; room++)
        check(vogrilas_answer(&one->node, 1, number, copy, room, &again) == VOGRILAS_SHORT_BUFFER && again == size && copy[0] == 'x',
              "an answer too long");
    check(vogrilas_answer(&one->node, 1, number, copy, size, &again) == VOGRILAS_OK && again == size && copy[size] == 'x' &&
          memcmp(copy, bytes, size) == 0, "room enough for an answer");
    check(is_silent(one), "an answer changes nothing");
}

/* What a node does not have: each code, and neither the buffer nor the size is changed. */
static void try_nothing(struct one *one, uint16_t pharmacy, uint64_t number, vogrilas_code code) {
    char bytes[8] = "xxxxxxx";
    size_t size = 77;
    check(vogrilas_answer(&one->node, pharmacy, number, bytes, 7, &size) == code, "no answer");
    check(size == 77 && strcmp(bytes, "xxxxxxx") == 0, "no answer changes nothing");
    if (code == VOGRILAS_UNANSWERED || pharmacy != 1) return;
    check(vogrilas_request(&one->node, number, bytes, 7, &size) == VOGRILAS_NOT_FOUND, "no request");
    check(size == 77 && strcmp(bytes, "xxxxxxx") == 0, "no request changes nothing");
}

/* An answer that is told before it is on disk, with this code; where there is one it is the one that is told once it is. */
static void try_heard(struct one *one, uint64_t number, vogrilas_code code) {
    static char heard[MOST], answer[MOST];
    size_t size = 77, again = 77;
    memset(heard, 'x', MOST);
    check(vogrilas_answer(&one->node, 1, number, answer, MOST, &again) == VOGRILAS_UNSYNCED && again == 77, "no answer before it is on disk");
    check(vogrilas_heard(&one->node, 2, number, heard, MOST, &size) == (code == VOGRILAS_OK ? VOGRILAS_NOT_FOUND : code) && size == 77,
          "what another pharmacy has heard");
    check(vogrilas_heard(&one->node, 1, number + 7, heard, MOST, &size) == VOGRILAS_NOT_FOUND && size == 77, "nothing heard of no entry");
    check(vogrilas_heard(&one->node, 1, number, heard, MOST, &size) == code && (code == VOGRILAS_OK || (size == 77 && heard[0] == 'x')), "what was heard");
    if (code == VOGRILAS_OK) {
        check(heard[size] == 'x' && vogrilas_heard(&one->node, 1, number, heard, size - 1, &again) == VOGRILAS_SHORT_BUFFER && again == size, "no room");
        check(vogrilas_records(&one->node, answer, 0, &again) == VOGRILAS_SHORT_BUFFER, "what was heard is to be kept still");
    }
    kept(one);
    check(vogrilas_answer(&one->node, 1, number, answer, MOST, &again) == VOGRILAS_OK && (code != VOGRILAS_OK || (again == size && memcmp(answer, heard, size) == 0)),
          "the answer that was heard");
}

/* Answers that come, before they are on disk: of a payer, and of a switch. */
static void try_hearing(void) {
    static char text[MOST], sent[MOST];
    struct one *pharmacy = &network[0];
    size_t size = 0, kept_size = 0;
    for (size_t one = 0; one < NODES; one++) {
        network[one].size = 0;
        check(open_as(&network[one].node, network[one].name, "", 0, &kept_size) == VOGRILAS_OK, "a network");
        kept(&network[one]);
    }
    for (uint64_t number = 1; number <= 2; number++) {
        snprintf(text, MOST, "%.*s", (int)line_size, line);
        /* The second one is of a payer that has no route. */
        if (number == 2) memcpy(text + 7, "999999", 6);
        snprintf(sent, MOST, "%s", asked(pharmacy, text));
        char *node = "ph1";
        for (size_t hop = 0; hop < (number == 1 ? 3 : 1); hop++) {
            struct one *to = strncmp(sent + 5, "sw1", 3) == 0 ? &network[1] : &network[2];
            snprintf(text, MOST, "take %s %.*s", node, (int)(strchr(sent, '\n') - sent - 9), sent + 9);
            node = (char *)to->name;
            snprintf(sent, MOST, "%s", asked(to, text));
        }
        snprintf(text, MOST, "take sw1 %.*s", (int)(strchr(sent, '\n') - sent - 9), sent + 9);
        check(vogrilas_heard(&pharmacy->node, 1, number, text, 0, &size) == (number == 1 ? VOGRILAS_UNANSWERED : VOGRILAS_UNSYNCED), "nothing heard yet");
        check(vogrilas_serve(&pharmacy->node, text, strlen(text)) == VOGRILAS_OK, "an answer comes");
        try_heard(pharmacy, number, number == 1 ? VOGRILAS_OK : VOGRILAS_UNSYNCED);
    }
    for (size_t one = 1; one < NODES; one++)
        check(vogrilas_heard(&network[one].node, 1, 1, text, MOST, &size) == VOGRILAS_NOT_FOUND, "a node that is no pharmacy has heard nothing");
    for (size_t one = 0; one < NODES; one++) vogrilas_close(&network[one].node);
    check(vogrilas_heard(&pharmacy->node, 1, 1, text, MOST, &size) == VOGRILAS_CLOSED, "a closed handle has heard nothing");
}

/* The payments of a node, of which there are so many. */
static void try_payments(struct one *one, size_t wanted, vogrilas_payment *payments) {
    size_t count = 77;
    vogrilas_payment none[2];
    memset(none, 'x', sizeof none);
    if (wanted > 0) {
        check(vogrilas_payments(&one->node, none, wanted - 1, &count) == VOGRILAS_SHORT_BUFFER && count == wanted, "payments too many");
        check(none[0].fill_number == 'x' && none[0].serial == none[1].serial, "payments that have no room change nothing");
    }
    check(vogrilas_payments(&one->node, payments, 2, &count) == VOGRILAS_OK && count == wanted, "so many payments");
    check(is_silent(one), "payments change nothing");
}

static bool is_text(const uint8_t *bytes, const char *text) { return memcmp(bytes, text, strlen(text)) == 0; }

/* Whether a payment is the one of the request, standing or reversed by its second one. */
static bool is_paid(const vogrilas_payment *payment, bool is_reversed) {
    return payment->serial == 1 && payment->payer == 1 && payment->prescription == 123456 && payment->fill_number == 0 &&
           payment->cost == 5570 && payment->fee == 150 && payment->copay == 1000 && payment->total == 4720 &&
           is_text(payment->bin, "610455") && is_text(payment->pcn, "A1        ") && is_text(payment->qualifier, "01") &&
           is_text(payment->provider, "1234567893     ") && payment->reversed_pharmacy == (is_reversed ? 1 : 0) &&
           payment->reversed_number == (is_reversed ? 2u : 0u);
}

/* Counts, requests, answers and payments as a claim goes there and back, and is reversed, against what lines say. */
static void try_readers(void) {
    static char bytes[MOST], copy[MOST], text[MOST], reversal[MOST];
    static vogrilas_payment payments[2], booked[2], routed[2];
    struct one *pharmacy = &network[0], *network_switch = &network[1], *payer = &network[2];
    size_t kept_size, size = 0, again = 0;
    uint64_t none = 77;
    check(is_closed(&pharmacy->node) && vogrilas_count(&pharmacy->node, &none) == VOGRILAS_CLOSED && none == 77, "a closed handle has nothing");
    for (size_t one = 0; one < NODES; one++) {
        check(open_as(&network[one].node, network[one].name, "", 0, &kept_size) == VOGRILAS_OK, "a network");
        kept(&network[one]);
        check(counted(&network[one]) == 0, "nothing is counted at first");
        try_nothing(&network[one], 1, 1, VOGRILAS_NOT_FOUND);
        try_payments(&network[one], 0, payments);
    }
    check(vogrilas_unprint(line + 7, line_size - 7, bytes, MOST, &size) == VOGRILAS_OK, "the bytes of the request");
    check(vogrilas_submit(&pharmacy->node, bytes, size) == VOGRILAS_OK, "a submission");
    check(vogrilas_request(&pharmacy->node, 1, copy, MOST, &again) == VOGRILAS_UNSYNCED, "no request before it is on disk");
    const char *written = kept(pharmacy);
    memcpy(text, written, said_size + 1);
    check(vogrilas_request(&pharmacy->node, 1, copy, MOST, &again) == VOGRILAS_OK && again == size && memcmp(copy, bytes, size) == 0, "the request");
    memset(copy, 'x', MOST);
    for (size_t room = 0; room < size; room++)
        check(vogrilas_request(&pharmacy->node, 1, copy, room, &again) == VOGRILAS_SHORT_BUFFER && again == size && copy[0] == 'x', "a request too long");
    size_t place = 0;
    check(vogrilas_number_in(text, strlen(text), &place) == 1 && place == strlen(text), "the entry's number");
    check(counted(pharmacy) == 1, "an entry");
    check(strcmp(asked(pharmacy, "answer 1"), "open\n") == 0, "an open entry by a line");
    try_nothing(pharmacy, 1, 1, VOGRILAS_UNANSWERED);
    try_nothing(pharmacy, 2, 1, VOGRILAS_NOT_FOUND);
    try_nothing(pharmacy, 1, 2, VOGRILAS_NOT_FOUND);
    try_nothing(pharmacy, 1, 0, VOGRILAS_NOT_FOUND);
    try_nothing(pharmacy, 0, 1, VOGRILAS_NOT_FOUND);
    carry(pharmacy, text);
    snprintf(text, MOST, "%s", asked(pharmacy, "answer 1"));
    check(strncmp(text, "answer ", 7) == 0, "an answer by a line");
    text[strlen(text) - 1] = '\0';
    for (size_t one = 0; one < NODES; one++) {
        check(counted(&network[one]) == 1, "an entry, a slot, a row");
        try_answer(&network[one], 1, text + 7);
        try_nothing(&network[one], 2, 1, VOGRILAS_NOT_FOUND);
        try_nothing(&network[one], 1, 2, VOGRILAS_NOT_FOUND);
    }
    check(vogrilas_request(&payer->node, 1, copy, MOST, &again) == VOGRILAS_NOT_FOUND, "a payer has no entries");
    try_payments(pharmacy, 1, payments);
    try_payments(payer, 1, booked);
    try_payments(network_switch, 0, routed);
    check(is_paid(payments, false) && is_paid(booked, false), "a payment that stands");
    snprintf(reversal, MOST, "submit %.6sD0B2A1        1011234567893     20240115SW00000001\\G\\S\\FAM07\\FEM1\\FD2123456\\FD30", line + 7);
    snprintf(text, MOST, "%s", asked(pharmacy, reversal));
    check(strstr(text, "\nnumber 2\n") != NULL, "a reversal");
    carry(pharmacy, text);
    try_payments(pharmacy, 0, payments);
    try_payments(payer, 1, booked);
    check(is_paid(booked, true), "a payment that was reversed");
    for (size_t one = 0; one < NODES; one++) check(counted(&network[one]) == 2, "two entries, slots, rows");
    snprintf(text, MOST, "%s", asked(pharmacy, "answer 2"));
    text[strlen(text) - 1] = '\0';
    for (size_t one = 0; one < NODES; one++) check(strcmp(asked(&network[one], "stop"), "ok\n") == 0, "a stop");
    check(counted(pharmacy) == 2 && counted(payer) == 2 && counted(network_switch) == 0, "nodes at rest");
    try_answer(pharmacy, 2, text + 7);
    try_answer(payer, 2, text + 7);
    try_nothing(network_switch, 1, 2, VOGRILAS_NOT_FOUND);
    try_payments(payer, 1, booked);
    check(is_paid(booked, true), "a payment of a book at rest");
    for (size_t one = 0; one < NODES; one++) check(strcmp(asked(&network[one], "start"), "ok\n") == 0, "a start");
}

/* Each request for memory refused in turn while a node is read: the node is as it was. */
static void try_reading_memory(void) {
    static char bytes[MOST];
    static vogrilas_payment payments[2];
    for (size_t one = 0; one < NODES; one++) {
        for (int call = 0; call < 5; call++) {
            long before = lent;
            for (long turn = 0;; turn += each) {
                size_t size = 77;
                uint64_t count = 77;
                left = turn;
                vogrilas_code code = call == 0   ? vogrilas_count(&network[one].node, &count)
                                     : call == 1 ? vogrilas_request(&network[one].node, 1, bytes, MOST, &size)
                                     : call == 2 ? vogrilas_answer(&network[one].node, 1, 1, bytes, MOST, &size)
                                     : call == 3 ? vogrilas_heard(&network[one].node, 1, 1, bytes, MOST, &size)
                                                 : vogrilas_payments(&network[one].node, payments, 2, &size);
                left = -1;
                check(code != VOGRILAS_NO_MEMORY || (size == 77 && count == 77), "memory refused while a node is read");
                check(lent == before, "memory is given back");
                if (code != VOGRILAS_NO_MEMORY) break;
            }
            check(is_silent(&network[one]), "a node is as it was");
        }
    }
}

/* Logs of the network are those of one legal run; without one, or with one damaged, they are not. */
static void try_audits(void) {
    static char logs[NODES * MOST], told[MOST];
    size_t sizes[NODES], all = 0, size = 0, again = 0;
    for (size_t one = 0; one < NODES; one++) {
        memcpy(logs + all, network[one].log, network[one].size);
        sizes[one] = network[one].size;
        all += sizes[one];
    }
    check(vogrilas_audit(settings, settings_size, logs, all, sizes, NODES, 0, told, MOST, &size) == VOGRILAS_OK, "a legal run");
    check(memmem_text(told, size, "\none legal run of ") && memmem_text(told, size, "\npayer 1 rows 2 standing 0 cents 0 reversed 1 cents 4720\n"), "what is told of a run");
    memset(told, 'x', MOST);
    for (size_t room = 0; room < size; room += 17)
        check(vogrilas_audit(settings, settings_size, logs, all, sizes, NODES, 0, told, room, &again) == VOGRILAS_SHORT_BUFFER &&
              again == size && told[0] == 'x', "an audit without room");
    check(vogrilas_audit(settings, settings_size, logs, all, sizes, NODES, 1, told, MOST, &size) == VOGRILAS_OK && told[0] == '{', "an audit as JSON");
    check(vogrilas_audit(settings, settings_size, logs, all - sizes[2], sizes, 2, 0, told, MOST, &size) == VOGRILAS_NO_RUN, "a log that is not there");
    check(size > 13 && memmem_text(told, size, "no legal run\n"), "why there is no run");
    size_t torn = sizes[0] - 1;
    memset(told, 'x', MOST);
    size = 77;
    check(vogrilas_audit(settings, settings_size, logs, torn, &torn, 1, 0, told, MOST, &size) == VOGRILAS_NO_RUN, "a torn log");
    logs[sizes[0] + sizes[1] - 1] ^= 1;
    memset(told, 'x', MOST);
    check(vogrilas_audit(settings, settings_size, logs, all, sizes, NODES, 0, told, MOST, &size) == VOGRILAS_DAMAGED && size == 1, "a damaged log, and which");
    check(vogrilas_audit(settings, settings_size, logs, all - 1, sizes, NODES, 0, told, MOST, &size) == VOGRILAS_NOT_A_LOG && size == NODES, "sizes of more bytes");
    check(vogrilas_audit(settings, settings_size, logs, all, sizes, 2, 0, told, MOST, &size) == VOGRILAS_NOT_A_LOG && size == 2, "sizes of fewer bytes");
    check(vogrilas_audit("again", 5, logs, all, sizes, NODES, 0, told, MOST, &size) == VOGRILAS_SETTINGS, "an audit under no settings");
    check(told[0] == 'x' && told[100] == 'x', "an audit that is not made writes nothing");
    logs[sizes[0] + sizes[1] - 1] ^= 1;
    for (long turn = 0;; turn += each) {
        left = turn;
        vogrilas_code code = vogrilas_audit(settings, settings_size, logs, all, sizes, NODES, 0, told, MOST, &size);
        left = -1;
        check(code == VOGRILAS_OK || code == VOGRILAS_NO_MEMORY, "memory refused while logs are judged");
        if (code == VOGRILAS_OK) break;
    }
}

/* Each request for memory refused in turn: the node is closed then, nothing is lost, and its log opens it again. */
static void try_memory(void) {
    size_t kept, size;
    char text[8];
    for (long turn = 0;; turn += each) {
        vogrilas_node node = VOGRILAS_NODE_INIT;
        left = turn;
        vogrilas_code code = open_as(&node, "ph1", log_bytes, log_size, &kept);
        left = -1;
        bool is_done = code == VOGRILAS_OK;
        check(is_done || (code == VOGRILAS_NO_MEMORY && is_closed(&node)), "memory refused while a node is opened");
        vogrilas_close(&node);
        check(lent == 0, "memory is given back");
        if (is_done) break;
    }
    for (long turn = 0;; turn += each) {
        vogrilas_node node = VOGRILAS_NODE_INIT;
        check(open_as(&node, "ph1", log_bytes, log_size, &kept) == VOGRILAS_OK, "open again");
        left = turn;
        vogrilas_code code = vogrilas_serve(&node, line, line_size);
        left = -1;
        bool is_done = code == VOGRILAS_OK;
        check(is_done || (code == VOGRILAS_NO_MEMORY && is_closed(&node)), "memory refused while a line is served");
        vogrilas_close(&node);
        check(lent == 0, "memory is given back");
        if (is_done) break;
    }
    for (long turn = 0;; turn += each) {
        left = turn;
        vogrilas_code code = vogrilas_print("\x01", 1, text, 8, &size);
        left = -1;
        check(code == VOGRILAS_OK || code == VOGRILAS_NO_MEMORY, "memory refused while a text is made");
        check(lent == 0, "memory is given back");
        if (code == VOGRILAS_OK) break;
    }
}

static uint64_t number_at(const char *bytes) {
    uint64_t number = 0;
    for (int at = 0; at < 8; at++) number = number << 8 | (unsigned char)bytes[at];
    return number;
}

/* Whether a file is refused with this code, and nothing but a place of a record is told. */
static bool refuses_file(const char *name, const char *file, size_t size, vogrilas_code why, size_t place) {
    vogrilas_node node = VOGRILAS_NODE_INIT;
    size_t kept = 77;
    return open_as(&node, name, file, size, &kept) == why && kept == place && is_closed(&node);
}

/* A log that goes on behind closed ones: it begins with its rest, and has a call. */
static void try_turned(const char *path) {
    static char file[MOST];
    vogrilas_node node = VOGRILAS_NODE_INIT;
    uint64_t calls = 0;
    size_t kept = 77, size = read_file(path, file), rest = (size_t)number_at(file + 3), front = 11 + rest;
    lent = 0;
    check(memcmp(file, "PT\x01", 3) == 0 && front + 46 < size, "a log that goes on behind closed ones");
    check(open_as(&node, "ph1", file, size, &kept) == VOGRILAS_OK && kept == size && is_silent_of(&node, 0, false), "it opens, and all bytes of its file stay");
    check(vogrilas_kept(&node, 0) == VOGRILAS_OK && vogrilas_calls(&node, &calls) == VOGRILAS_OK && calls == number_at(file + 17) + 1,
          "its calls are those of closed logs and its own");
    check(vogrilas_serve(&node, "stop", 4) == VOGRILAS_OK && vogrilas_calls(&node, &calls) == VOGRILAS_UNSYNCED, "a call more");
    vogrilas_close(&node);
    check(open_as(&node, "ph1", file, size - 1, &kept) == VOGRILAS_OK && kept == front + 46, "of a torn end the file before it stays");
    vogrilas_close(&node);
    check(open_as(&node, "ph1", file, front, &kept) == VOGRILAS_OK && kept == front && is_silent_of(&node, 46, false), "a log without its head has it to append");
    vogrilas_close(&node);
    check(refuses_file("pr1", file, size, VOGRILAS_NOT_A_REST, 77), "a rest of another node");
    for (size_t cut = 3; cut < front; cut++) check(refuses_file("ph1", file, cut, VOGRILAS_NOT_A_LOG, 77), "a file that ends before the rest does");
    for (size_t at = 11; at < front; at++) {
        file[at] ^= 1;
        check(refuses_file("ph1", file, size, at >= 25 && at < 57 ? VOGRILAS_OTHER_SETTINGS : VOGRILAS_NOT_A_REST, 77), "a rest that is damaged");
        file[at] ^= 1;
    }
    check(refuses_file("ph1", file + front, size - front, VOGRILAS_OTHER_SETTINGS, 77), "a log without the rest that it begins with");
    file[size - 1] ^= 1;
    check(refuses_file("ph1", file, size, VOGRILAS_DAMAGED, front + 46), "the place in the file of a damaged record");
    file[size - 1] ^= 1;
    size_t told = 77;
    check(vogrilas_audit(settings, settings_size, file, size, &size, 1, 0, said, MOST, &told) == VOGRILAS_NOT_A_LOG && told == 0, "an audit takes no part of a log");
    check(lent == 0, "all memory of logs that go on is given back");
    for (long turn = 0;; turn += each) {
        left = turn;
        vogrilas_code code = open_as(&node, "ph1", file, size, &kept);
        left = -1;
        bool is_done = code == VOGRILAS_OK;
        check(is_done || (code == VOGRILAS_NO_MEMORY && is_closed(&node)), "memory refused while a log that goes on is opened");
        vogrilas_close(&node);
        check(lent == 0, "memory is given back");
        if (is_done) break;
    }
}

int main(int count, char **words) {
    if (count >= 4) each = strtol(words[3], NULL, 10);
    if (count < 3 || count > 5 || each < 1) return 2;
    settings_size = read_file(words[1], settings);
    memcpy(line, "submit ", 7);
    line_size = 7 + read_file(words[2], line + 7);
    while (line[line_size - 1] == '\n') line_size--;
    lent = 0;
    try_handles();
    try_buffers();
    try_kept();
    try_on_the_way();
    try_logs();
    try_settings();
    try_texts();
    try_numbers();
    try_typed();
    lent = 0;
    try_asking();
    lent = 0;
    try_carrying();
    lent = 0;
    try_readers();
    try_reading_memory();
    try_audits();
    for (size_t one = 0; one < NODES; one++) vogrilas_close(&network[one].node);
    check(lent == 0, "all memory is given back");
    try_hearing();
    check(lent == 0, "all memory is given back once more");
    try_descriptions();
    try_messages();
    try_memory();
    if (count == 5) try_turned(words[4]);
    for (vogrilas_code code = 0; code <= VOGRILAS_NOT_A_REST; code++)
        check(strcmp(vogrilas_code_text(code), vogrilas_code_text(99)) != 0, "a code has words");
    printf("%d trials of the library, %d faults\n", tried, faults);
    return faults != 0;
}
