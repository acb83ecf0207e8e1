/* Metrics as Prometheus reads them: names with their counts, times in classes, and the lines that tell them. Whoever has them holds their lock. */
#ifndef METRICS_H
#define METRICS_H
#include "node.h"

#define MOST_NAMES 512
#define CLASSES 16

/* A name with its count, and when it was last counted. */
struct named {
    char name[24];
    uint64_t count;
    double last;
};

/* Names in the order in which they were first counted, and where each stands, by its hash: its place from 1 on, or 0. Both grow with the names,
   and there are twice as many places as names have room. */
struct names {
    struct named *list;
    size_t count, room;
    uint16_t *place;
};

/* Times, by how many took no longer than each of some. */
struct times {
    uint64_t classes[CLASSES + 1], count;
    double seconds;
};

/* Counts a name; beyond the last place names are not told apart. */
void names_add(struct names *names, const char *name, size_t size);
/* Counts a time. */
void times_add(struct times *times, double seconds);

/* Begins a metric: its kind, and what it says. */
void metric_head(struct bytes *text, const char *name, const char *kind, const char *says);
/* A metric of one value, of a value for each name, of one for each key, which is left out where it is 0, and of times. */
void metric_one(struct bytes *text, const char *node, const char *name, const char *kind, const char *says, double value);
void metric_names(struct bytes *text, const char *node, const char *name, const char *label, const char *says, const struct names *names);
void metric_fixed(struct bytes *text, const char *node, const char *name, const char *label, const char *says, const char *const *key,
                  const uint64_t *value, int count);
void metric_times(struct bytes *text, const char *node, const char *name, const char *says, const struct times *times);

#endif
