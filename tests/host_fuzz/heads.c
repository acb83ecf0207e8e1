/* Printed bytes and the heads of packets: the host reads what the library reads, and no more. */
#include "fuzz.h"

/* What the library finds of a packet, by this key; false where it finds no packet. */
static bool found(const char *json, const char *key, uint64_t *number) {
    const char *at = strstr(json, "\"finding\":\"envelope\",");
    at = at == NULL ? NULL : strstr(at, key);
    if (at != NULL) *number = strtoull(at + strlen(key), NULL, 10);
    return at != NULL;
}

static void try_head(const char *text, size_t size, const unsigned char *packet, size_t count) {
    struct head head = { 0, 0, 0 };
    uint64_t pharmacy = 0, number = 0;
    bool is_head = head_of(text, size, &head);
    if (count < 2 || memcmp(packet, "PS", 2) != 0) {
        expect(!is_head);
        return;
    }
    struct bytes json = description_of(packet, count);
    bool is_packet = found(json.at, "\"pharmacy\":", &pharmacy) && found(json.at, "\"number\":", &number);
    bool is_request = strstr(json.at, "\"carries\":\"request\"") != NULL;
    expect(!is_packet || (is_head && head.pharmacy == pharmacy && head.number == number && head.kind == (is_request ? 1 : 2)));
    free(json.at);
}

void tried(struct input *input) {
    static unsigned char ours[MOST_BYTES], theirs[MOST_BYTES];
    struct bytes text = the_rest(input), line = { NULL, 0, 0 };
    size_t count = 0;
    if (text.size > MOST_BYTES) text.size = MOST_BYTES;
    bool is_text = vogrilas_unprint(text.at, text.size, theirs, sizeof theirs, &count) == VOGRILAS_OK;
    size_t found_size = unprinted_all(text.at, text.size, ours, sizeof ours);
    expect(found_size == (is_text ? count : 0));
    expect(memcmp(ours, theirs, found_size) == 0);
    if (found_size > 0) {
        expect(unprinted_all(text.at, text.size, ours, found_size) == found_size);
        expect(unprinted_all(text.at, text.size, ours, found_size - 1) == 0);
        expect(unprinted(text.at, text.size, ours, found_size) && memcmp(ours, theirs, found_size) == 0);
        expect(!unprinted(text.at, text.size, ours, found_size + 1));
        try_head(text.at, text.size, theirs, found_size);
    }
    /* Any bytes, printed, are one word that spells them. */
    add_printed(&line, text.at, text.size);
    if (text.size > 0) {
        char *word = exact(line.at, line.size);
        expect(memchr(word, ' ', line.size) == NULL && memchr(word, '\n', line.size) == NULL);
        expect(text.size > MOST_BYTES / 4 || unprinted_all(word, line.size, ours, sizeof ours) == text.size);
        expect(text.size > MOST_BYTES / 4 || memcmp(ours, text.at, text.size) == 0);
        free(word);
    }
    free(line.at);
    free(text.at);
}
