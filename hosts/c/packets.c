/* Packets: their heads, those that go out later, and those that went out a moment ago. */
#include "node.h"

#define HEAD_BYTES 14
/* What a packet carries. */
#define REQUEST 1
/* Into how many groups the packets of a tick are parted at most. */
#define GROUPS 32
/* How many requests are remembered; where two have one place, the older is forgotten. */
#define REMEMBERED 8192

/* The value of a hexadecimal digit, or -1. */
static int digit_of(char digit) {
    if (digit >= '0' && digit <= '9') return digit - '0';
    digit |= 0x20;
    return digit >= 'a' && digit <= 'f' ? digit - 'a' + 10 : -1;
}

/* The byte that stands at the start of printed bytes, and in *used how many letters it has; -1 where none does. */
static int byte_of(const char *text, size_t size, size_t *used) {
    *used = 1;
    if (size == 0 || text[0] < 0x20 || text[0] > 0x7e) return -1;
    if (text[0] != '\\') return (unsigned char)text[0];
    *used = 2;
    if (size < 2) return -1;
    if (text[1] == 'F') return 0x1c;
    if (text[1] == 'G') return 0x1d;
    if (text[1] == 'S') return 0x1e;
    if (text[1] == '\\') return '\\';
    *used = 4;
    if (size < 4 || text[1] != 'x') return -1;
    int high = digit_of(text[2]), low = digit_of(text[3]);
    return high < 0 || low < 0 ? -1 : 16 * high + low;
}

bool unprinted(const char *text, size_t size, unsigned char *bytes, size_t count) {
    for (size_t at = 0; at < count; at++) {
        size_t used = 4;
        /* Most bytes of a head are spelled so. */
        bool is_hex = size >= 4 && text[0] == '\\' && text[1] == 'x';
        int one = is_hex ? digit_of(text[2]) * 16 | digit_of(text[3]) : byte_of(text, size, &used);
        if (one < 0) return false;
        bytes[at] = (unsigned char)one;
        text += used;
        size -= used;
    }
    return true;
}

size_t unprinted_all(const char *text, size_t size, unsigned char *bytes, size_t room) {
    size_t count = 0;
    for (size_t used; size > 0; text += used, size -= used) {
        int one = byte_of(text, size, &used);
        if (one < 0 || count == room) return 0;
        bytes[count++] = (unsigned char)one;
    }
    return count;
}

void add_printed(struct bytes *line, const void *bytes, size_t size) {
    static const char digit[] = "0123456789abcdef";
    const unsigned char *at = bytes;
    for (size_t place = 0; place < size; place++) {
        unsigned char byte = at[place];
        const char spelled[] = { '\\', 'x', digit[byte >> 4], digit[byte & 15] };
        if (byte > ' ' && byte <= '~' && byte != '\\') add(line, at + place, 1);
        else add(line, spelled, sizeof spelled);
    }
}

bool head_of(const char *text, size_t size, struct head *head) {
    unsigned char byte[HEAD_BYTES];
    if (!unprinted(text, size, byte, HEAD_BYTES)) return false;
    *head = (struct head){ byte[3], (uint16_t)(byte[4] << 8 | byte[5]), 0 };
    for (int at = 6; at < HEAD_BYTES; at++) head->number = head->number << 8 | byte[at];
    return byte[0] == 'P' && byte[1] == 'S';
}

void later_add(struct later *later, const char *to, size_t to_size, const char *text, size_t size) {
    add(&later->packets, to, to_size);
    add(&later->packets, " ", 1);
    add(&later->packets, text, size);
    add(&later->packets, "\n", 1);
    later->count++;
}

void later_begin(struct later *later, double seconds) {
    later->start = now();
    later->seconds = seconds;
}

double later_send(struct later *later, struct carrier *carrier, bool all) {
    size_t group = later->count / GROUPS + 1;
    while (later->gone < later->count) {
        double due = later->start + later->seconds * (double)(later->gone - later->gone % group) / (double)later->count;
        if (!all && due > now()) return due - now();
        char *line = later->packets.at + later->sent, *end = memchr(line, '\n', later->packets.size - later->sent);
        char *text = memchr(line, ' ', (size_t)(end - line));
        send_packet(carrier, line, (size_t)(text - line), text + 1, (size_t)(end - text - 1), NULL);
        later->sent += (size_t)(end - line) + 1;
        later->gone++;
    }
    free(later->packets.at);
    *later = (struct later){ .packets = { NULL, 0, 0 } };
    return 1;
}

static struct {
    struct head head;
    char sender[9];
    double at;
} remembered[REMEMBERED];

/* Where a request is remembered. */
static size_t place_of(const struct head *head) {
    return (size_t)((head->number * 31 + head->pharmacy) % REMEMBERED);
}

bool held_is(double seconds, const struct message *one) {
    size_t place = place_of(&one->head);
    if (!(seconds > 0) || one->head.kind != REQUEST) return false;
    return remembered[place].head.number == one->head.number && remembered[place].head.pharmacy == one->head.pharmacy &&
           strcmp(remembered[place].sender, one->sender) == 0 && now() - remembered[place].at < seconds;
}

void held_went(double seconds, const struct message *one) {
    size_t place = place_of(&one->head);
    if (!(seconds > 0) || one->head.kind != REQUEST) return;
    remembered[place].head = one->head;
    remembered[place].at = now();
    memcpy(remembered[place].sender, one->sender, sizeof one->sender);
}

void held_forget(const struct message *one) {
    if (one->head.kind == REQUEST) remembered[place_of(&one->head)].head.number = 0;
}
