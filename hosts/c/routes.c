/* To which payer a request goes, and what a switch answers where there is none: of both a host looks at the header alone. */
#include <ctype.h>

#include "signed.h"

#define REQUEST_HEADER 56
#define PCN_AT 10
#define COUNT_AT 20
#define QUALIFIER_AT 21
#define PROVIDER_AT 23
#define VERSION_AT 6
#define DATE_AT 38

/* Reads a text of just so many bytes, in printed bytes. */
static bool read_text(const char *word, unsigned char *to, size_t size) {
    return unprinted_all(word, strlen(word), to, size) == size;
}

static bool is_none(const char *word) {
    return strcmp(word, "-") == 0;
}

/* Reads the number of a payer: digits alone, and no more than it may have. */
static bool read_payer(const char *word, unsigned *payer) {
    size_t size = strspn(word, "0123456789");
    *payer = size <= 5 ? (unsigned)strtoul(word, NULL, 10) : 0;
    return size > 0 && word[size] == '\0' && *payer >= 1 && *payer <= 65535;
}

/* Reads the number of a request, from 1: digits alone, and no more than it may have. */
static bool read_number(const char *word, uint64_t *number) {
    size_t size = strspn(word, "0123456789");
    *number = size <= 19 ? strtoull(word, NULL, 10) : 0;
    return size > 0 && word[size] == '\0' && *number >= 1;
}

bool route_of_words(char *const word[6], struct route *route) {
    *route = (struct route){ .has_pcn = !is_none(word[1]), .has_providers = !is_none(word[2]) };
    if (!read_payer(word[5], &route->payer) || !read_text(word[0], route->bin, sizeof route->bin)) return false;
    if (route->has_pcn && !read_text(word[1], route->pcn, sizeof route->pcn)) return false;
    if (!route->has_providers) return is_none(word[3]) && is_none(word[4]);
    return read_text(word[2], route->qualifier, sizeof route->qualifier) && read_text(word[3], route->first, sizeof route->first) &&
           read_text(word[4], route->last, sizeof route->last);
}

bool rejected_of_words(char *const word[5], struct route *route) {
    *route = (struct route){ .has_pcn = true, .has_providers = true };
    if (!read_number(word[4], &route->rejected) || !read_text(word[0], route->bin, sizeof route->bin)) return false;
    if (!read_text(word[1], route->pcn, sizeof route->pcn) || !read_text(word[2], route->qualifier, sizeof route->qualifier)) return false;
    return read_text(word[3], route->first, sizeof route->first) && read_text(word[3], route->last, sizeof route->last);
}

/*
** The order in which the rows of one BIN are looked up: those that lead to no payer first, then those of a PCN before those of none, and of both
** those of some providers first.
*/
static int order(const void *one, const void *other) {
    const struct route *a = one, *b = other;
    int bins = memcmp(a->bin, b->bin, sizeof a->bin);
    if (bins != 0) return bins;
    if ((a->rejected > 0) != (b->rejected > 0)) return a->rejected > 0 ? -1 : 1;
    if (a->has_pcn != b->has_pcn) return a->has_pcn ? -1 : 1;
    return a->has_providers == b->has_providers ? 0 : a->has_providers ? -1 : 1;
}

void routes_sort(struct route *route, size_t count) {
    if (count > 0) qsort(route, count, sizeof *route, order);
}

static bool is_for(const struct route *route, const unsigned char *request) {
    if (memcmp(route->bin, request, sizeof route->bin) != 0) return false;
    if (route->has_pcn && memcmp(route->pcn, request + PCN_AT, sizeof route->pcn) != 0) return false;
    if (!route->has_providers) return true;
    const unsigned char *provider = request + PROVIDER_AT;
    return memcmp(route->qualifier, request + QUALIFIER_AT, sizeof route->qualifier) == 0 &&
           memcmp(route->first, provider, sizeof route->first) <= 0 && memcmp(provider, route->last, sizeof route->last) <= 0;
}

/* Whether a row says where a request of this number goes: all do, but those of requests that stay rejected, which end at one. */
static bool is_up_to(const struct route *route, uint64_t number) {
    return route->rejected == 0 || number <= route->rejected;
}

unsigned route_of(const struct route *route, size_t count, uint64_t number, const unsigned char *request, size_t size) {
    size_t low = 0, high = count;
    if (size < REQUEST_HEADER) return 0;
    while (low < high) {
        size_t middle = low + (high - low) / 2;
        if (memcmp(route[middle].bin, request, sizeof route->bin) < 0) low = middle + 1;
        else high = middle;
    }
    for (; low < count && memcmp(route[low].bin, request, sizeof route->bin) == 0; low++)
        if (is_for(&route[low], request) && is_up_to(&route[low], number)) return route[low].payer;
    return 0;
}

bool is_rejection(const unsigned char *request, size_t request_size, const unsigned char *answer, size_t size) {
    static const char ruling[] = "\x1d\x1e\x1c" "AM21\x1c" "ANR\x1c" "FA1\x1c" "FB01";
    struct bytes wanted = { NULL, 0, 0 };
    if (request_size < REQUEST_HEADER || !isdigit(request[COUNT_AT])) return false;
    /* Version and code, the count, the status, then the provider and the date as they were asked. */
    add(&wanted, request + VERSION_AT, 4);
    add(&wanted, request + COUNT_AT, 1);
    add(&wanted, "R", 1);
    add(&wanted, request + QUALIFIER_AT, DATE_AT + 8 - QUALIFIER_AT);
    for (int count = request[COUNT_AT] - '0'; count > 0; count--) add(&wanted, ruling, sizeof ruling - 1);
    bool is_one = wanted.size == size && memcmp(wanted.at, answer, size) == 0;
    free(wanted.at);
    return is_one;
}
