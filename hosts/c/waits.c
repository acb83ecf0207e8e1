/*
** Callers who wait for the answer to an entry of a pharmacy: `wait 7` is replied to once entry 7 has its answer, and not before. Who has
** gone meanwhile gets a reply that nobody hears. They stand in a map by the number of the entry, which grows with the entries that are waited
** for: to join it, and to leave it, takes what those of the same entry take, however many wait.
*/
#include "node.h"

/* How many callers may wait for one entry, of all MOST_WAITS; who comes beyond those is told `open`, and asks again. */
#define MOST_OF_ONE 8
/* The places of the map at first; always a power of two. */
#define FIRST_PLACES 16

/* Who waits for an entry, in the order in which they came; the next entry of the same place. */
struct waited {
    uint64_t number;
    struct waited *next;
    size_t count;
    natsMsg *text[MOST_OF_ONE];
};

/* Numbers are given one after the other, so their last bits spread them. `spare` are those that nobody waits for any more. */
struct waits {
    struct waited **map, *spare;
    size_t places, entries, waiting;
};

/* Those of the one node of a process, and those that are looked at: the node's thread alone does. */
static struct waits alone, *here = &alone;

struct waits *waits_made(void) {
    struct waits *made = calloc(1, sizeof *made);
    if (made == NULL) fail_memory();
    return made;
}

void waits_for(struct waits *waits) {
    here = waits;
}

bool is_wait(const struct message *one) {
    return one->from == FROM_CALLER && one->text != NULL &&
           begins(natsMsg_GetData(one->text), (size_t)natsMsg_GetDataLength(one->text), "wait ");
}

/* The link to an entry in its place, or to the end of that where nobody waits for it. */
static struct waited **link_of(uint64_t number) {
    struct waited **link = &here->map[number & (here->places - 1)];
    while (*link != NULL && (*link)->number != number) link = &(*link)->next;
    return link;
}

/* Has as many places as entries, or more, before one joins. */
static void grow(void) {
    if (here->entries < here->places) return;
    struct waited **old = here->map;
    size_t count = here->places;
    here->places = count == 0 ? FIRST_PLACES : 2 * count;
    here->map = calloc(here->places, sizeof *here->map);
    if (here->map == NULL) fail_memory();
    for (size_t place = 0; place < count; place++) {
        for (struct waited *one = old[place], *next; one != NULL; one = next) {
            next = one->next;
            one->next = NULL;
            *link_of(one->number) = one;
        }
    }
    free(old);
}

/* The entry with this number, which joins the map where nobody waits for it. */
static struct waited *joined(uint64_t number) {
    grow();
    struct waited **link = link_of(number), *one = *link;
    if (one != NULL) return one;
    one = here->spare;
    if (one != NULL) here->spare = one->next;
    else if ((one = malloc(sizeof *one)) == NULL) fail_memory();
    *one = (struct waited){ .number = number };
    *link = one;
    here->entries++;
    return one;
}

bool waits_add(struct message *one) {
    char digits[24] = "";
    size_t size = (size_t)natsMsg_GetDataLength(one->text) - 5;
    memcpy(digits, natsMsg_GetData(one->text) + 5, size < sizeof digits ? size : sizeof digits - 1);
    uint64_t number = strtoull(digits, NULL, 10);
    struct waited *entry = here->places == 0 ? NULL : *link_of(number);
    if (entry != NULL && entry->count == MOST_OF_ONE) {
        /* Who asks again has most likely given up the last time: the latest are kept. */
        natsMsg_Destroy(entry->text[0]);
        memmove(&entry->text[0], &entry->text[1], (MOST_OF_ONE - 1) * sizeof entry->text[0]);
        entry->count--;
        here->waiting--;
    }
    if (here->waiting == MOST_WAITS) {
        say_some("warning", "no more callers may wait for answers", "waits_full", FACTS(NUMBER("most", MOST_WAITS)));
        return false;
    }
    if (entry == NULL) entry = joined(number);
    entry->text[entry->count++] = one->text;
    one->text = NULL;
    counts_waits(++here->waiting);
    return true;
}

/* Takes an entry out of the map; NULL where nobody waits for it. It may be read until the next one joins. */
static struct waited *taken_out(uint64_t number) {
    struct waited **link = here->places == 0 ? NULL : link_of(number), *entry = link == NULL ? NULL : *link;
    if (entry == NULL) return NULL;
    here->waiting -= entry->count;
    *link = entry->next;
    entry->next = here->spare;
    here->spare = entry;
    here->entries--;
    counts_waits(here->waiting);
    return entry;
}

bool waits_has(uint64_t number) {
    return here->places > 0 && *link_of(number) != NULL;
}

void waits_told(struct carrier *carrier, uint64_t number, const char *line, size_t size) {
    struct waited *entry = taken_out(number);
    if (entry == NULL) return;
    for (size_t place = 0; place < entry->count; place++) {
        reply(carrier, entry->text[place], line, size);
        natsMsg_Destroy(entry->text[place]);
    }
}

void waits_settled(struct carrier *carrier, uint64_t number) {
    struct waited *entry = taken_out(number);
    if (entry == NULL) return;
    for (size_t place = 0; place < entry->count; place++) carrier_again(carrier, entry->text[place]);
}
