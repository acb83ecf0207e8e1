/*
** A log's records, as a stand-by has them of a stream: it makes those that the library makes of a log, and refuses the first that the library refuses.
** What a node has recorded, it makes.
*/
#include "fuzz.h"

#include "../../hosts/c/copy.c"

static const struct {
    const char *name, *settings;
} nodes[] = { { "ph1", "plan" }, { "sw1", "plan" }, { "pr1", "plan" }, { "pr1", "asks" } };

static uint64_t turned(uint64_t word, int places) {
    return word << places | word >> (64 - places);
}

static void mix(uint64_t state[4]) {
    state[0] += state[1], state[2] += state[3];
    state[1] = turned(state[1], 13) ^ state[0], state[3] = turned(state[3], 16) ^ state[2];
    state[0] = turned(state[0], 32) + state[3], state[2] += state[1];
    state[3] = turned(state[3], 21) ^ state[0], state[1] = turned(state[1], 17) ^ state[2], state[2] = turned(state[2], 32);
}

/* The check sum of a record: SipHash-1-3 of its number and its body, as docs/FORMATS.md has it. */
static uint64_t check_sum(uint64_t number, const unsigned char *body, size_t size) {
    uint64_t state[4] = { 0x736f6d6570736575, 0x646f72616e646f6d, 0x6c7967656e657261, 0x7465646279746573 };
    for (size_t at = 0; at < size + 8 + 1; at += 8) {
        uint64_t word = 0;
        for (size_t byte = 0; byte < 8 && at + byte < size + 8; byte++) {
            unsigned one = at + byte < 8 ? (unsigned)(number >> (56 - 8 * (at + byte)) & 255) : body[at + byte - 8];
            word |= (uint64_t)one << 8 * byte;
        }
        if (at + 8 > size + 8) word |= (uint64_t)((size + 8) & 255) << 56;
        state[3] ^= word;
        mix(state);
        state[0] ^= word;
        if (at + 8 > size + 8) break;
    }
    state[2] ^= 255;
    for (int round = 0; round < 3; round++) mix(state);
    return state[0] ^ state[1] ^ state[2] ^ state[3];
}

static void add_in_bytes(struct bytes *bytes, uint64_t number) {
    for (int at = 56; at >= 0; at -= 8) {
        const char byte = (char)(number >> at & 255);
        add(bytes, &byte, 1);
    }
}

/* A time that no line says: a node writes none, and a library reads it. */
static bool is_late(const unsigned char *body, size_t size) {
    uint64_t time = 0;
    for (size_t at = 1; at < 9 && size >= 9; at++) time = time << 8 | body[at];
    return size >= 9 && body[0] == 7 && time > 999999999999999999;
}

/* Records as an input has them, until one has such a time: each its length in two bytes, and its body. */
static void add_bodies(struct bytes *log, struct input *input) {
    for (uint64_t number = 1; input->size > 2; number++) {
        size_t size = next_byte(input);
        size = size << 8 | next_byte(input);
        if (size > input->size) size = input->size;
        if (is_late(input->at, size)) return;
        add_in_bytes(log, size);
        add_in_bytes(log, ~(uint64_t)size);
        add(log, input->at, size);
        add_in_bytes(log, check_sum(number, input->at, size));
        input->at += size;
        input->size -= size;
    }
}

/* Records that a node makes of the lines of an input. */
static void add_calls(struct bytes *log, vogrilas_node *node, struct input *input) {
    while (input->size > 0) {
        struct bytes line = next_line(input);
        expect(vogrilas_serve(node, line.at, line.size) == VOGRILAS_OK);
        free(line.at);
    }
    size_t size = 0;
    char nothing = 0;
    vogrilas_code code = vogrilas_records(node, &nothing, 0, &size);
    if (code != VOGRILAS_SHORT_BUFFER) return;
    char *records = malloc(size);
    expect(records != NULL && vogrilas_records(node, records, size, &size) == VOGRILAS_OK);
    log->size = 0;
    add(log, records, size);
    free(records);
}

/* A stand-by, what it takes of a log, and how far it came. */
struct making {
    struct copy copy;
    const struct bytes *log;
    size_t made;
};

static void make_all(void *closure) {
    struct making *making = closure;
    bool is_none;
    for (size_t size; (size = unit_of(making->made, making->log->at + making->made, making->log->size - making->made, &is_none)) > 0; making->made += size) {
        add(&making->copy.unmade, making->log->at + making->made, size);
        copy_make(&making->copy);
    }
}

void tried(struct input *input) {
    unsigned how = next_byte(input), which = how / 2 % 4;
    const struct bytes *settings = settings_named(nodes[which].settings), nothing = { NULL, 0, 0 };
    struct served served = { .name = nodes[which].name, .node = VOGRILAS_NODE_INIT, .log = { .path = "log" } };
    vogrilas_node maker = VOGRILAS_NODE_INIT, reader = VOGRILAS_NODE_INIT;
    struct bytes log = { NULL, 0, 0 };
    size_t kept = 0;
    expect(node_over(&maker, settings, served.name, &nothing, &kept) == VOGRILAS_OK);
    expect(node_over(&served.node, settings, served.name, &nothing, &kept) == VOGRILAS_OK);
    add(&served.settings, settings->at, settings->size);
    add_calls(&log, &maker, how % 2 == 0 ? input : &(struct input){ NULL, 0 });
    add_bodies(&log, input);
    struct making making = { .copy = { .node = &served }, .log = &log };
    vogrilas_code code = node_over(&reader, settings, served.name, &log, &kept);
    /* A record without a body is a damaged one. */
    expect(code == VOGRILAS_OK || code == VOGRILAS_BAD_RECORD || code == VOGRILAS_DAMAGED);
    bool has_gone = goes_on(make_all, &making);
    expect(has_gone == (code == VOGRILAS_OK));
    /* The library first reads all records, and then makes them: of two that are wrong it may tell the later. */
    expect(has_gone ? making.made == kept : making.made <= kept);
    expect(how % 2 != 0 || code == VOGRILAS_OK);
    vogrilas_close(&maker);
    vogrilas_close(&reader);
    vogrilas_close(&served.node);
    free(served.settings.at);
    free(making.copy.unmade.at);
    free(log.at);
}
