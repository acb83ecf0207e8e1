/* Metrics as Prometheus reads them. */
#include "metrics.h"

static const double class_end[CLASSES] = { 0.0001, 0.00025, 0.0005, 0.001, 0.0025, 0.005, 0.01, 0.025,
                                           0.05,   0.1,     0.25,   0.5,   1,      2.5,   5,    10 };

/* How many names have room at first; always a power of two, up to MOST_NAMES. */
#define FIRST_NAMES 8

/* The place of a name among the places of all, or the free one that it would have. */
static size_t place_of(const struct names *names, const char *name, size_t size) {
    size_t at = 2166136261u;
    for (size_t byte = 0; byte < size; byte++) at = (at ^ (unsigned char)name[byte]) * 16777619u;
    for (at %= 2 * names->room; names->place[at] != 0; at = (at + 1) % (2 * names->room)) {
        const struct named *one = &names->list[names->place[at] - 1];
        if (memcmp(one->name, name, size) == 0 && one->name[size] == '\0') return at;
    }
    return at;
}

/* Has room for twice as many names. */
static void grow(struct names *names) {
    size_t room = names->room == 0 ? FIRST_NAMES : 2 * names->room;
    struct named *list = realloc(names->list, room * sizeof *list);
    if (list == NULL) fail_memory();
    memset(list + names->room, 0, (room - names->room) * sizeof *list);
    free(names->place);
    *names = (struct names){ .list = list, .count = names->count, .room = room, .place = calloc(2 * room, sizeof *names->place) };
    if (names->place == NULL) fail_memory();
    for (size_t one = 0; one < names->count; one++) names->place[place_of(names, list[one].name, strlen(list[one].name))] = (uint16_t)(one + 1);
}

/* A name, which joins the others where it is new: in a place of its own, and in the last one where it comes after so many names. */
static struct named *found(struct names *names, const char *name, size_t size) {
    if (names->count == names->room && names->room < MOST_NAMES) grow(names);
    size_t at = place_of(names, name, size);
    if (names->place[at] != 0) return &names->list[names->place[at] - 1];
    if (names->count == MOST_NAMES) return &names->list[MOST_NAMES - 1];
    if (++names->count < MOST_NAMES) names->place[at] = (uint16_t)names->count;
    return &names->list[names->count - 1];
}

void names_add(struct names *names, const char *name, size_t size) {
    size = size < sizeof names->list->name - 1 ? size : sizeof names->list->name - 1;
    struct named *one = found(names, name, size);
    memcpy(one->name, name, size);
    one->name[size] = '\0';
    one->count++;
    one->last = wall();
}

void times_add(struct times *times, double seconds) {
    int class = 0;
    while (class < CLASSES && seconds > class_end[class]) class++;
    times->classes[class]++;
    times->count++;
    times->seconds += seconds;
}

void metric_head(struct bytes *text, const char *name, const char *kind, const char *says) {
    add_form(text, "# HELP vogrilas_%s %s\n# TYPE vogrilas_%s %s\n", name, says, name, kind);
}

void metric_one(struct bytes *text, const char *node, const char *name, const char *kind, const char *says, double value) {
    metric_head(text, name, kind, says);
    add_form(text, "vogrilas_%s{node=\"%s\"} %.15g\n", name, node, value);
}

void metric_names(struct bytes *text, const char *node, const char *name, const char *label, const char *says, const struct names *names) {
    metric_head(text, name, "counter", says);
    for (size_t at = 0; at < names->count; at++)
        add_form(text, "vogrilas_%s{%s=\"%s\",node=\"%s\"} %llu\n", name, label, names->list[at].name, node, (unsigned long long)names->list[at].count);
}

void metric_fixed(struct bytes *text, const char *node, const char *name, const char *label, const char *says, const char *const *key,
                  const uint64_t *value, int count) {
    metric_head(text, name, "counter", says);
    for (int at = 0; at < count; at++) {
        if (value[at] == 0) continue;
        add_form(text, "vogrilas_%s{%s=\"%s\",node=\"%s\"} %llu\n", name, label, key[at], node, (unsigned long long)value[at]);
    }
}

void metric_times(struct bytes *text, const char *node, const char *name, const char *says, const struct times *times) {
    uint64_t total = 0;
    metric_head(text, name, "histogram", says);
    for (int class = 0; class <= CLASSES; class++) {
        char end[24] = "+Inf";
        total += times->classes[class];
        if (class < CLASSES) snprintf(end, sizeof end, "%g", class_end[class]);
        add_form(text, "vogrilas_%s_bucket{le=\"%s\",node=\"%s\"} %llu\n", name, end, node, (unsigned long long)total);
    }
    add_form(text, "vogrilas_%s_count{node=\"%s\"} %llu\n", name, node, (unsigned long long)times->count);
    add_form(text, "vogrilas_%s_sum{node=\"%s\"} %.9g\n", name, node, times->seconds);
}
