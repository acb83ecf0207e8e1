/* Bytes that grow, and clocks. */
#include <errno.h>
#include <stdarg.h>
#include <unistd.h>

#include "node.h"

void add(struct bytes *bytes, const void *more, size_t size) {
    if (bytes->room - bytes->size < size + 1) {
        size_t room = 2 * bytes->room + size + 1;
        char *at = realloc(bytes->at, room);
        if (at == NULL) fail_memory();
        bytes->at = at;
        bytes->room = room;
    }
    if (size > 0) memcpy(bytes->at + bytes->size, more, size);
    bytes->size += size;
    bytes->at[bytes->size] = '\0';
}

void add_text(struct bytes *bytes, const char *text) {
    add(bytes, text, strlen(text));
}

void add_form(struct bytes *bytes, const char *form, ...) {
    char text[1001];
    va_list given;
    va_start(given, form);
    vsnprintf(text, sizeof text, form, given);
    va_end(given);
    add_text(bytes, text);
}

void add_number(struct bytes *bytes, uint64_t number) {
    char digits[20], *at = digits + sizeof digits;
    do *--at = (char)('0' + number % 10);
    while ((number /= 10) > 0);
    add(bytes, at, (size_t)(digits + sizeof digits - at));
}

struct bytes whole(int file, const char *path, size_t most) {
    struct bytes bytes = { NULL, 0, 0 };
    char part[65536];
    ssize_t count;
    add(&bytes, "", 0);
    while ((count = read(file, part, sizeof part)) > 0 && bytes.size <= most) add(&bytes, part, (size_t)count);
    if (bytes.size > most) fail_with(REFUSED, "a file is too long", FACTS(TEXT("file", path), NUMBER("most_bytes", most)));
    if (count < 0) fail("a file cannot be read", FACTS(TEXT("reason", strerror(errno)), TEXT("file", path)));
    return bytes;
}

static double seconds_of(clockid_t clock) {
    struct timespec time;
    clock_gettime(clock, &time);
    return (double)time.tv_sec + (double)time.tv_nsec / 1e9;
}

double now(void) {
    return seconds_of(CLOCK_MONOTONIC);
}

double wall(void) {
    return seconds_of(CLOCK_REALTIME);
}
