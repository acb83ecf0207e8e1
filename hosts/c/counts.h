/* What the host has seen since it started (counts.c). Each call may come from any thread. */
#ifndef COUNTS_H
#define COUNTS_H
#include <stdbool.h>
#include <stddef.h>
#include <stdint.h>

struct bytes;
struct counts;

/* Why a message is not handed to the node. */
enum why { NOT_A_PACKET, HELD_BACK, FULL, NO_INBOX, WOULD_BE_FULL, UNDER_WAY, RULES_FULL, UNSIGNED, FORGED, WRONG_PAYER, UNASKED,
           REROUTED, WHYS };

enum call { CALL_SUBMIT, CALL_ANSWER, CALL_TAKE, CALL_ADJUDICATE, CALL_TICK, CALL_PLAN, CALL_TERMS, CALL_RETRY, CALL_CAP, CALL_STOP,
            CALL_START, CALL_OTHER, CALLS };

/* What a node of a range is counted by, and whose the calling thread counts from now on: that node's, or with NULL those of a node that is alone
   in its process, which is how each thread begins. */
struct counts *counts_made(void);
void counts_for(struct counts *counts);

void counts_call(const char *line, size_t size);
void counts_refusal(const char *name, size_t size);
void counts_sent(const char *to, size_t size);
void counts_again(uint64_t more);
void counts_taken(const char *from);
void counts_dropped(enum why why);
/* Of a network with keys: how many a host has; a payer was asked for an answer whose signature was lost. */
void counts_keys(size_t count);
void counts_asked_anew(void);
void counts_sync(double seconds);
void counts_answered(double seconds);
/* Of a log in a stream: how long the servers' word on what was appended took, and how often the same was sent again. */
void counts_appended(double seconds);
void counts_appended_again(void);
void counts_connected(bool is_connected);
void counts_entered(uint64_t number);
void counts_settled(uint64_t number);
/* Whether an entry of the pharmacy is open. Where none is, a tick changes nothing and sends nothing, so it is not made. */
bool counts_has_open(void);
/* Of a payer's own system: a request that it was asked, and one that came back, each with how many are under way then; how long one took; an
   advice with which a packet was taken; and what went wrong, by name. */
void counts_asked(size_t under_way);
void counts_came(size_t under_way);
void counts_rules_took(double seconds);
void counts_ruled(void);
void counts_unruled(const char *name);
/* How many seconds the oldest open entry has been open, its number, and how many are open; 0 where none is. */
uint64_t counts_oldest(uint64_t *number, uint64_t *open);
/* The most rows that the node may have, and how many of them are kept for reversals. */
void counts_most(uint64_t most, uint64_t reserve);
/* How many callers wait for answers. */
void counts_waits(size_t waiting);
/* What the node's own thread knows, told in each turn: it lives. */
void counts_node(uint64_t calls, uint64_t at_start, uint64_t rows, size_t waiting, bool is_ready);
/* The node's thread lives, and waits for others' word. */
void counts_heard(void);
/* Another host that follows a log in a stream: its machine, and how many messages it is behind. */
#define MOST_FOLLOWERS 8
struct follower {
    char machine[40];
    uint64_t lag;
};
/* Of a log in a stream: whether this host has it, whether the servers show another one, the last message that it knows, how many it is
   behind, and who follows it. */
void counts_stream(bool owns, bool differs, uint64_t sequence, uint64_t lag, const struct follower *follower, int count);
/* The metrics of a node as Prometheus reads them; the log's path is NULL where nothing is kept. */
struct bytes counts_text(const char *node, const char *log);
/* A node of a range. */
struct counted {
    const char *node, *log;
    struct counts *counts;
};
/* What of all nodes of a range is told together: the state of each; the rest is told of one node alone. */
struct bytes counts_range_text(const char *range, const struct counted *node, size_t count);
/* Why the node does not serve, or NULL; and whether its thread was heard of lately. */
const char *counts_unready(void);
bool counts_lives(void);

#endif
