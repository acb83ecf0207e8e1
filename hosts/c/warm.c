/* A stand-by's node: the calls of records that come are made anew, so that it is up as soon as it has the log. */
#include "stream.h"

/* What a body begins with where the host noted something of its call. */
#define NOTED 7

static uint64_t number_of(const unsigned char *bytes, int count) {
    uint64_t number = 0;
    for (int at = 0; at < count; at++) number = number << 8 | bytes[at];
    return number;
}

/* A body of which parts are taken off. */
struct body {
    const unsigned char *at;
    size_t size;
    bool is_short;
};

static const unsigned char *take(struct body *body, uint64_t size) {
    const unsigned char *at = body->at;
    if (body->size < size) {
        body->is_short = true;
        return NULL;
    }
    body->at += size;
    body->size -= (size_t)size;
    return at;
}

static uint64_t take_number(struct body *body, int count) {
    const unsigned char *at = take(body, (uint64_t)count);
    return at == NULL ? 0 : number_of(at, count);
}

/* Adds a text of the body, its length and its bytes; how many they are. */
static uint64_t add_taken(struct bytes *line, struct body *body) {
    uint64_t size = take_number(body, 8);
    const unsigned char *at = take(body, size);
    if (at == NULL) return 0;
    add_printed(line, at, size);
    return size;
}

/* Adds the time that was noted of a call, and its name to `name`; the kind of the call, which stands behind that. */
static uint64_t take_noted(struct bytes *line, struct bytes *name, struct body *body) {
    uint64_t kind = take_number(body, 1);
    if (kind != NOTED) return kind;
    uint64_t time = take_number(body, 8);
    if (time > 0) add_form(line, "at %llu ", (unsigned long long)time);
    add_taken(name, body);
    return take_number(body, 1);
}

/* Adds the node that a packet came from. */
static void add_sender(struct bytes *line, struct body *body) {
    static const char *const kind[] = { "ph", "sw", "pr" };
    uint64_t which = take_number(body, 1), number = take_number(body, 2);
    add_form(line, "%s%u ", kind[which < 3 ? which : 0], (unsigned)number);
}

/* Adds a packet and the advice with which it was taken, which stands before it in a line. */
static void add_advised(struct bytes *line, struct body *body) {
    struct bytes packet = { NULL, 0, 0 };
    add(&packet, "", 0);
    add_taken(&packet, body);
    add_taken(line, body);
    add_text(line, " ");
    add(line, packet.at, packet.size);
    free(packet.at);
}

/* Adds a rule of retries: its switches stand before its two numbers in a line, and behind them in the body. */
static void add_rule(struct bytes *line, struct body *body) {
    uint64_t again = take_number(body, 4), tries = take_number(body, 4), count = take_number(body, 2);
    for (uint64_t at = 0; at < count && !body->is_short; at++)
        add_form(line, "%ssw%u", at == 0 ? "" : ",", (unsigned)take_number(body, 2));
    add_form(line, " %llu %llu", (unsigned long long)again, (unsigned long long)tries);
}

/* Adds the line of a call, of this kind and under this name, where it has one. */
static void add_call(struct bytes *line, uint64_t kind, const struct bytes *name, struct body *body) {
    static const char *const word[] = { "submit ", "tick", "take ",       "stop",  "start", "plan ",
                                        "plan ",   NULL,   "adjudicate ", "terms", "retry ", "cap" };
    enum { SUBMIT = 0, TAKE = 2, DROP = 5, PRICE = 6, ADJUDICATE = 8, TERMS = 9, RETRY = 10, CAP = 11 };
    if (kind >= sizeof word / sizeof *word || word[kind] == NULL) return;
    if (name->size > 0) add_form(line, "submit-as %s ", name->at);
    else add_text(line, word[kind]);
    if (kind == TAKE || kind == ADJUDICATE) add_sender(line, body);
    if (kind == ADJUDICATE) add_advised(line, body);
    if (kind == SUBMIT || kind == TAKE || kind == DROP || kind == PRICE) add_taken(line, body);
    if (kind == DROP) add_text(line, " none");
    if (kind == PRICE || kind == CAP) add_form(line, " %llu", (unsigned long long)take_number(body, 4));
    if (kind == RETRY) add_rule(line, body);
    for (int amounts = 0; kind == TERMS && amounts < 2; amounts++) add_form(line, " %llu", (unsigned long long)take_number(body, 4));
}

/* Makes the call of a body, with what was noted of it. */
static void make(struct served *node, struct body *body) {
    struct bytes line = { NULL, 0, 0 }, name = { NULL, 0, 0 };
    add(&line, "", 0);
    uint64_t kind = take_noted(&line, &name, body);
    add_call(&line, kind, &name, body);
    if (!body->is_short) node_serve(node, line.at, line.size);
    free(line.at);
    free(name.at);
}

/* Whether the node's own records are these bytes. */
static bool has_made(struct served *node, const char *bytes, size_t size) {
    struct bytes records = node_records(node);
    bool is_same = records.size == size && memcmp(records.at, bytes, size) == 0;
    free(records.at);
    return is_same;
}

/* Begins the log with this head: the node's own, or one of an earlier version, over which the node is opened anew, or refused. */
static void begin(struct served *node, const char *head, size_t size) {
    if (has_made(node, head, size)) {
        node_kept(node, size);
    } else {
        struct bytes log = { NULL, 0, 0 };
        add(&log, head, size);
        vogrilas_close(&node->node);
        node_open(node, &node->settings, &log);
        node_kept(node, 0);
        free(log.at);
    }
    free(node->settings.at);
    node->settings = (struct bytes){ NULL, 0, 0 };
}

void node_make(struct served *node, const char *record, size_t size) {
    struct body body = { (const unsigned char *)record + BEFORE_BODY, size - BEFORE_BODY - BEHIND_BODY, false };
    /* A record begins with its length, whose first byte is 0. */
    if (record[0] == 'P') {
        begin(node, record, size);
    } else {
        make(node, &body);
        if (!has_made(node, record, size))
            fail_with(REFUSED, "the log is refused",
                      FACTS(TEXT("reason", vogrilas_code_text(VOGRILAS_BAD_RECORD)), TEXT("file", node->log.path)));
        node_kept(node, size);
    }
    node_clear(node);
}
