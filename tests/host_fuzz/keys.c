/*
** The files of keys, and signatures. What is taken of a file is what is written again of it; a route leads where one looks for it row by row; what is
** signed holds as it is, and under one bit that is another it does not.
*/
#include "fuzz.h"

#include "../../hosts/c/keys.c"

/* A payer's row that fits a request: the first by the order of PCN and providers, of all of this BIN; none where it stays rejected. */
static unsigned looked_up(const struct route *route, size_t count, uint64_t number, const unsigned char *request, size_t size) {
    unsigned best = 0;
    int rank = 4;
    for (size_t at = 0; size >= 56 && at < count; at++) {
        int own = (route[at].has_pcn ? 0 : 2) + (route[at].has_providers ? 0 : 1);
        bool is_one = memcmp(route[at].bin, request, 6) == 0 && (!route[at].has_pcn || memcmp(route[at].pcn, request + 10, 10) == 0);
        if (route[at].has_providers)
            is_one = is_one && memcmp(route[at].qualifier, request + 21, 2) == 0 && memcmp(route[at].first, request + 23, 15) <= 0 &&
                     memcmp(route[at].last, request + 23, 15) >= 0;
        if (is_one && route[at].rejected >= number && route[at].rejected > 0) return 0;
        if (is_one && route[at].rejected == 0 && own < rank) rank = own, best = route[at].payer;
    }
    return best;
}

static void add_digits(struct bytes *text, const unsigned char *at, size_t size) {
    for (size_t place = 0; place < size; place++) add_form(text, "%02x", at[place]);
}

/* The text of FOLDER/keys that says what a ring has. */
static struct bytes text_of_ring(const struct ring *ring) {
    struct bytes text = { NULL, 0, 0 };
    add_text(&text, "network ");
    add_digits(&text, ring->network, NETWORK_BYTES);
    for (size_t at = 0; at < ring->count; at++) {
        add_form(&text, "\nkey %s ", ring->known[at].node);
        add_digits(&text, ring->known[at].key, sizeof ring->known[at].key);
    }
    for (size_t at = 0; at < ring->routes; at++) {
        const struct route *route = &ring->route[at];
        add_text(&text, route->rejected > 0 ? "\nrejected " : "\nroute ");
        add_printed(&text, route->bin, 6);
        add_text(&text, route->has_pcn ? " " : " -");
        if (route->has_pcn) add_printed(&text, route->pcn, 10);
        add_text(&text, " ");
        if (route->has_providers) {
            add_printed(&text, route->qualifier, 2);
            add_text(&text, " ");
            add_printed(&text, route->first, 15);
            if (route->rejected == 0) add_text(&text, " ");
            if (route->rejected == 0) add_printed(&text, route->last, 15);
        } else {
            add_text(&text, "- - -");
        }
        if (route->rejected > 0) add_form(&text, " %llu", (unsigned long long)route->rejected);
        else add_form(&text, " %u", route->payer);
    }
    add_text(&text, "\n");
    return text;
}

/* What the lines of a file say: how many are rows or keys, each row with a payer or a last number that is one as one writes it. */
static size_t lines_in(const struct bytes *text) {
    struct input left = { (const unsigned char *)text->at, text->size };
    size_t count = 0;
    while (left.size > 0) {
        struct bytes line = next_line(&left);
        const char *word = line.at + strspn(line.at, " "), *last = word;
        for (const char *at = word; *at != '\0'; at++)
            if (*at == ' ' && at[1] != ' ' && at[1] != '\0') last = at + 1;
        count += line.size > 0 && line.at[0] != '#' && strncmp(word, "network ", 8) != 0;
        if (line.at[0] != '#' && strncmp(word, "route ", 6) == 0) {
            size_t digits = strspn(last, "0123456789");
            expect(digits > 0 && digits <= 5 && (last[digits] == '\0' || last[digits] == ' ') && atoi(last) >= 1 && atoi(last) <= 65535);
        }
        if (line.at[0] != '#' && strncmp(word, "rejected ", 9) == 0) {
            size_t digits = strspn(last, "0123456789");
            expect(digits > 0 && digits <= 19 && (last[digits] == '\0' || last[digits] == ' ') && strspn(last, "0") < digits);
        }
        free(line.at);
    }
    return count;
}

static void try_signature(const struct keys *keys, const struct bytes *packet) {
    char text[SIGNED_TEXT], other[SIGNED_TEXT];
    if (!keys_sign(keys, packet->at, packet->size, text)) return;
    expect(keys_hold(keys, text, keys->node, packet->at, packet->size));
    expect(!keys_hold(keys, text, "ph2", packet->at, packet->size) && !keys_hold(keys, text, "ph", packet->at, packet->size));
    memcpy(other, text, sizeof other);
    char *digit = other + strlen(keys->node) + 1 + packet->size % 128;
    *digit = *digit == '0' ? '1' : '0';
    expect(!keys_hold(keys, other, keys->node, packet->at, packet->size));
}

/* Any text is a signature that does not hold, or that of this very packet. */
static void try_text(const struct keys *keys, const struct bytes *text) {
    char *signature = exact(text->at == NULL ? "" : text->at, text->size + 1);
    signature[text->size] = '\0';
    expect(!keys_hold(keys, signature, keys->node, "PS\\x01\\x01abcdefghijklmn", 24));
    free(signature);
}

void tried(struct input *input) {
    struct keys keys = { .node = "ph1" };
    struct ring ring, again;
    struct fault fault;
    unsigned how = next_byte(input);
    struct bytes own = next_line(input), last = next_line(input), text = the_rest(input);
    for (size_t at = 0; at < own.size; at++) own.at[at] = own.at[at] == '|' ? '\n' : own.at[at];
    keys.path = strdup(written_file("keys", text.at, text.size));
    keys.own_path = strdup(written_file("ph1.key", own.at, own.size));
    ring = (struct ring){ .has_network = false };
    bool is_one = read_keys(&keys, &ring, &fault);
    expect(is_one || fault.reason != NULL);
    if (is_one) {
        /* Each line that says something is a key, a row of the routes, or names the network. */
        expect(ring.count + ring.routes == lines_in(&text));
        struct bytes told = text_of_ring(&ring);
        written_file("keys", told.at, told.size);
        again = (struct ring){ .has_network = false };
        expect(read_keys(&keys, &again, &fault));
        struct bytes told_again = text_of_ring(&again);
        expect(told.size == told_again.size);
        expect(keys_route(&(struct keys){ .ring = ring }, how, (const unsigned char *)last.at, last.size) ==
               looked_up(ring.route, ring.routes, how, (const unsigned char *)last.at, last.size));
        ring_free(&again);
        free(told.at);
        free(told_again.at);
    }
    ring_free(&ring);
    if (ring_read(&keys, &keys.ring, &fault)) {
        /* A node's own key is one line. */
        expect(own.size >= 68 && strspn(own.at + 4, "0123456789abcdefABCDEF") == 64 && own.size == 68 + strspn(own.at + 68, "\r\n"));
        struct bytes packet = { NULL, 0, 0 };
        add_printed(&packet, text.at, text.size);
        if (how % 2 == 0) try_signature(&keys, &last);
        else try_signature(&keys, &packet);
        try_text(&keys, &last);
        ring_free(&keys.ring);
        free(packet.at);
    }
    free(keys.path);
    free(keys.own_path);
    free(own.at);
    free(last.at);
    free(text.at);
}
