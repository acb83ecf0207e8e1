/* A message of a log, out of the engine's reply: JSON with headers and bytes in base64. */
#include "stream.h"

/* The value of a digit of base64, or -1. */
static int digit_of(char digit) {
    if (digit >= 'A' && digit <= 'Z') return digit - 'A';
    if (digit >= 'a' && digit <= 'z') return digit - 'a' + 26;
    if (digit >= '0' && digit <= '9') return digit - '0' + 52;
    return digit == '+' ? 62 : digit == '/' ? 63 : -1;
}

/* Adds the bytes that a text of base64 spells, up to where it ends. */
static void add_decoded(struct bytes *bytes, const char *text) {
    char part[3072];
    size_t size = 0;
    uint32_t held = 0;
    int bits = 0;
    for (int digit; (digit = digit_of(*text)) >= 0; text++) {
        held = held << 6 | (uint32_t)digit;
        bits += 6;
        if (bits < 8) continue;
        bits -= 8;
        part[size++] = (char)(held >> bits);
        if (size < sizeof part) continue;
        add(bytes, part, size);
        size = 0;
    }
    add(bytes, part, size);
}

/* The bytes behind a key of a reply; none where it is not there. */
static struct bytes bytes_of(const char *reply, const char *key) {
    struct bytes bytes = { NULL, 0, 0 };
    char word[32];
    snprintf(word, sizeof word, "\"%s\":\"", key);
    const char *at = strstr(reply, word);
    add(&bytes, "", 0);
    if (at != NULL) add_decoded(&bytes, at + strlen(word));
    return bytes;
}

/* Copies the value of a header; false where it is not there, or longer than there is room. */
static bool header_of(const struct bytes *headers, const char *name, char *value, size_t room) {
    char word[48];
    snprintf(word, sizeof word, "\r\n%s:", name);
    const char *at = strstr(headers->at, word);
    if (at == NULL) return false;
    at += strlen(word);
    while (*at == ' ') at++;
    size_t size = strcspn(at, "\r\n");
    if (size >= room) return false;
    memcpy(value, at, size);
    value[size] = '\0';
    return true;
}

bool entry_of(const char *reply, struct entry *entry) {
    char at[24];
    struct bytes headers = bytes_of(reply, "hdrs");
    *entry = (struct entry){ .sequence = reply_number(reply, "seq"), .bytes = bytes_of(reply, "data") };
    bool is_one = header_of(&headers, "Log-At", at, sizeof at) && header_of(&headers, "Log-Digest", entry->digest, sizeof entry->digest) &&
                  header_of(&headers, "Log-Owner", entry->owner, sizeof entry->owner);
    free(headers.at);
    if (is_one) entry->at = strtoull(at, NULL, 10);
    else entry_free(entry);
    return is_one;
}

void entry_free(struct entry *entry) {
    free(entry->bytes.at);
    entry->bytes = (struct bytes){ NULL, 0, 0 };
}
