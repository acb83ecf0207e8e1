/*
** What the targets of tests/host-fuzz share. A target is a file here: it takes an input apart, hands it to a reader of the host in hosts/c, and says
** what has to be so. Where it includes a file of the host it tries what is static there; all else is linked as it is, but for said.c.
*/
#ifndef FUZZ_H
#define FUZZ_H
#include "node.h"

/* What is left of an input. */
struct input {
    const unsigned char *at;
    size_t size;
};

/* The target's own: tries an input. */
void tried(struct input *input);

/* Ends the run where something is not so, and the input is kept. */
#define expect(is_so) ((is_so) ? (void)0 : unexpected(#is_so, __FILE__, __LINE__))
_Noreturn void unexpected(const char *what, const char *file, int line);

/* Does a part, and says whether the host went on: where the part would have ended the process, it comes back here at once. */
bool goes_on(void (*part)(void *closure), void *closure);

unsigned next_byte(struct input *input);
/* The next bytes up to a line end, or all that are left, in memory of their own with a 0 behind them. */
struct bytes next_line(struct input *input);
/* All that are left, in memory of their own. */
struct bytes the_rest(struct input *input);
/* Memory that ends where the bytes end, so that one byte more is noticed. */
char *exact(const void *at, size_t size);
/* A message as it comes from a server, with a 0 behind its bytes, and where it may be replied to. */
natsMsg *message_of(const char *subject, const char *reply, const void *at, size_t size);
/* The path of a file of this name in a folder of this process alone, and one that has these bytes. */
const char *path_of(const char *name);
const char *written_file(const char *name, const void *at, size_t size);
/* What the library says of a message, as JSON. */
struct bytes description_of(const void *at, size_t size);
/* The settings of this name that tests/host-fuzz has written; a node of them over a log's bytes, as it begins, and how many of these it keeps. */
const struct bytes *settings_named(const char *name);
vogrilas_code node_over(vogrilas_node *node, const struct bytes *settings, const char *name, const struct bytes *log, size_t *kept);

#endif
