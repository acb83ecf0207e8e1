/*
** Fills the book of a payer in libvogrilas with so many claims, each of a prescription and a number of its own, and says at each step what a
** row takes, what a claim costs there, how long the longest one took, and how long it takes to tell the last hundred payments: `rows SETTINGS CLAIM ROWS`. SETTINGS is a file with a payer whose
** cap has room; CLAIM a billing in printed bytes whose prescription is 123456. The log is kept nowhere: what is measured is the node.
*/
#include <stdint.h>
#include <stdio.h>
#include <stdlib.h>
#include <string.h>
#include <sys/resource.h>
#include <time.h>
#include <unistd.h>

#include "vogrilas.h"

enum { HEAD = 18, MOST = 4096, LAST = 10000 };

/* Time of the processor: what other processes take is not in it. */
static double now(void) {
    struct timespec time;
    clock_gettime(CLOCK_THREAD_CPUTIME_ID, &time);
    return (double)time.tv_sec + (double)time.tv_nsec / 1e9;
}

/* What the machine's host took from all of its processors so far, in seconds: time that a clock of the processor may count. */
static double stolen(void) {
    unsigned long long part[8] = {0};
    FILE *file = fopen("/proc/stat", "r");
    if (file == NULL || fscanf(file, "cpu %llu %llu %llu %llu %llu %llu %llu %llu", part, part + 1, part + 2, part + 3, part + 4, part + 5, part + 6, part + 7) != 8) exit(1);
    fclose(file);
    return (double)part[7] / (double)sysconf(_SC_CLK_TCK);
}

/* How often a page was asked of the system. */
static long faults(void) {
    struct rusage used;
    if (getrusage(RUSAGE_THREAD, &used) != 0) exit(1);
    return used.ru_minflt;
}

/* What the process has of the machine's memory, in bytes. */
static double memory(void) {
    long pages = 0, whole = 0;
    FILE *file = fopen("/proc/self/statm", "r");
    if (file == NULL || fscanf(file, "%ld %ld", &whole, &pages) != 2) exit(1);
    fclose(file);
    return (double)pages * 4096;
}

static void check(vogrilas_code code) {
    if (code == VOGRILAS_OK) return;
    fprintf(stderr, "rows: %s\n", vogrilas_code_text(code));
    exit(1);
}

static size_t file_bytes(const char *path, char *to, size_t room) {
    FILE *file = fopen(path, "rb");
    if (file == NULL) exit(1);
    size_t size = fread(to, 1, room, file);
    fclose(file);
    return size;
}

/* The envelope of the request of a number: its prescription has twelve digits. */
static size_t packet(char *to, const char *request, size_t size, size_t at, uint64_t number) {
    char digits[13];
    snprintf(digits, sizeof digits, "%012llu", 100000000000ull + (unsigned long long)number * 7919 % 800000000000ull);
    memcpy(to, "PS\1\1\0\1", 6);
    for (int place = 0; place < 8; place++) to[6 + place] = (char)(number >> (56 - 8 * place));
    size_t whole = size + 6;
    for (int place = 0; place < 4; place++) to[14 + place] = (char)(whole >> (24 - 8 * place));
    memcpy(to + HEAD, request, at);
    memcpy(to + HEAD + at, digits, 12);
    memcpy(to + HEAD + at + 12, request + at + 6, size - at - 6);
    return HEAD + whole;
}

/* How long the node takes to tell a hundred payments, from this one on. */
static double listed(vogrilas_node *node, uint64_t from) {
    static char line[64], buffer[1 << 16];
    size_t size = 0;
    int length = snprintf(line, sizeof line, "payments %llu 100", (unsigned long long)from);
    double start = now();
    check(vogrilas_serve(node, line, (size_t)length));
    check(vogrilas_written(node, buffer, sizeof buffer, &size));
    double took = now() - start;
    if (memcmp(buffer, "payment ", 8) != 0 || size < 4 || memcmp(buffer + size - 4, "end\n", 4) != 0) {
        fprintf(stderr, "rows: %.*s\n", (int)(size < 80 ? size : 80), buffer);
        exit(1);
    }
    check(vogrilas_clear(node));
    return took;
}

/* Appends what the call recorded to nowhere, and reads what it said. */
static void keep(vogrilas_node *node) {
    static char buffer[1 << 16];
    size_t size = 0;
    check(vogrilas_records(node, buffer, sizeof buffer, &size));
    check(vogrilas_kept(node, size));
    check(vogrilas_written(node, buffer, sizeof buffer, &size));
    if (memcmp(buffer, "send ", 5) != 0) {
        fprintf(stderr, "rows: %.*s\n", (int)size, buffer);
        exit(1);
    }
    check(vogrilas_clear(node));
}

int main(int count, char **word) {
    if (count != 4) return 2;
    static char settings[1 << 24], request[MOST], bytes[MOST];
    size_t kept = 0, size = 0, settings_size = file_bytes(word[1], settings, sizeof settings);
    uint64_t rows = strtoull(word[3], NULL, 10), step = 64000;
    vogrilas_node node = VOGRILAS_NODE_INIT;
    check(vogrilas_unprint(word[2], strlen(word[2]), request, sizeof request, &size));
    const char *found = memmem(request, size, "D2123456", 8);
    if (found == NULL) return 2;
    check(vogrilas_open(&node, settings, settings_size, "pr1", 3, "", 0, "0123456789abcdef", 16, &kept));
    check(vogrilas_records(&node, bytes, sizeof bytes, &kept));
    check(vogrilas_kept(&node, kept));
    check(vogrilas_clear(&node));
    double empty = memory(), longest = 0, pauses = 0, last = now(), before = stolen();
    printf("%12s %14s %16s %16s %14s %16s\n", "rows", "bytes a row", "a claim, us", "longest, ms", "over 10 ms", "100 payments, us");
    for (uint64_t number = 1; number <= rows; number++) {
        if (number % step == step - LAST + 1 || (number > step && number == rows - LAST + 1)) last = now();
        size_t whole = packet(bytes, request, size, (size_t)(found - request) + 2, number);
        if (number % 256 == 0) before = stolen();
        long asked = faults();
        double start = now();
        check(vogrilas_take(&node, "sw1", 3, bytes, whole));
        double took = now() - start;
        keep(&node);
        if (took > longest) longest = took;
        pauses += took > 0.01;
        if (took > 0.01) {
            fprintf(stderr, "row %llu: %.1f ms, %ld pages asked for; taken from the machine meanwhile: %.0f ms\n", (unsigned long long)number, took * 1e3,
                    faults() - asked, (stolen() - before) * 1e3);
        }
        if (number == step || number == rows) {
            double bytes_a_row = (memory() - empty) / (double)number, a_claim = (now() - last) / LAST * 1e6;
            printf("%12llu %14.0f %16.2f %16.2f %14.0f %16.0f\n", (unsigned long long)number, bytes_a_row, a_claim, longest * 1e3, pauses,
                   listed(&node, number - 99) * 1e6);
            fflush(stdout);
            longest = pauses = 0;
            step *= 2;
        }
    }
    vogrilas_close(&node);
    return 0;
}
