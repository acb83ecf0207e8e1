/* What the host has seen since it started, and the metrics that tell it. Behind one lock, since threads of others ask and tell. */
#include <sys/stat.h>

#include "metrics.h"

/* The node's thread is thought to live where it was heard of so lately. */
#define LIVES_SECONDS 10

static const char *const call_name[CALLS] = { "submit", "answer", "take", "adjudicate", "tick", "plan", "terms", "retry", "cap",
                                             "stop", "start", "other" };
static const char *const why_name[WHYS] = { "not_a_packet", "held_back", "full", "reply", "would_be_full", "under_way", "rules_full",
                                             "unsigned", "forged", "wrong_payer", "unasked", "rerouted" };

static pthread_mutex_t lock = PTHREAD_MUTEX_INITIALIZER;

/* What was seen of one node. */
struct counts {
    uint64_t calls[CALLS], dropped[WHYS], again;
    struct names refusals, sent, taken;
    struct times syncs, appends, rules, answers;
    uint64_t log_calls, at_start, rows, most, reserve;
    size_t waiting, waits;
    bool is_ready;
    /* Of a log in a stream. A host comes to have it once in its life. */
    bool is_stream, owns, has_owned, differs;
    uint64_t sequence, lag, appends_again;
    struct follower followers[MOST_FOLLOWERS];
    int followers_count;
    /* Of a payer's own system, where it is asked. */
    uint64_t asked, ruled;
    size_t under_way;
    struct names unruled;
    uint64_t keys, asked_anew;
    /* When each open entry was first known to be open, by its number; 0 of one that is settled. */
    double *open;
    uint64_t open_room, open_count;
};

/* The one node of a process, or what is seen of all those of a range together; and whose the calling thread counts. */
static struct counts alone;
static _Thread_local struct counts *seen = &alone;

/* What all nodes of the process have in common. */
static struct {
    uint64_t connections;
    double heard;
    bool is_connected;
} process;

struct counts *counts_made(void) {
    struct counts *made = calloc(1, sizeof *made);
    if (made == NULL) fail_memory();
    return made;
}

void counts_for(struct counts *counts) {
    seen = counts == NULL ? &alone : counts;
}

static void locked(void) {
    pthread_mutex_lock(&lock);
}

static void unlocked(void) {
    pthread_mutex_unlock(&lock);
}

void counts_call(const char *line, size_t size) {
    int call = 0;
    while (call < CALL_OTHER && !begins(line, size, call_name[call])) call++;
    locked();
    seen->calls[call]++;
    unlocked();
}

void counts_refusal(const char *name, size_t size) {
    locked();
    names_add(&seen->refusals, name, size);
    unlocked();
}

void counts_sent(const char *to, size_t size) {
    locked();
    names_add(&seen->sent, to, size);
    unlocked();
}

void counts_again(uint64_t more) {
    locked();
    seen->again += more;
    unlocked();
}

void counts_taken(const char *from) {
    locked();
    names_add(&seen->taken, from, strlen(from));
    unlocked();
}

void counts_dropped(enum why why) {
    locked();
    seen->dropped[why]++;
    unlocked();
}

void counts_keys(size_t count) {
    locked();
    seen->keys = count;
    unlocked();
}

void counts_asked_anew(void) {
    locked();
    seen->asked_anew++;
    unlocked();
}

/* Counts a time. */
static void count_time(struct times *times, double seconds) {
    locked();
    times_add(times, seconds);
    unlocked();
}

void counts_sync(double seconds) {
    count_time(&seen->syncs, seconds);
}

void counts_appended(double seconds) {
    count_time(&seen->appends, seconds);
}

void counts_answered(double seconds) {
    count_time(&seen->answers, seconds);
}

void counts_appended_again(void) {
    locked();
    seen->appends_again++;
    unlocked();
}

void counts_stream(bool owns, bool differs, uint64_t sequence, uint64_t lag, const struct follower *follower, int count) {
    locked();
    seen->is_stream = true;
    seen->owns = owns;
    seen->differs = differs;
    seen->has_owned = seen->has_owned || owns;
    seen->sequence = sequence;
    seen->lag = lag;
    seen->followers_count = count;
    memcpy(seen->followers, follower, (size_t)count * sizeof *follower);
    unlocked();
}

void counts_connected(bool is_connected) {
    locked();
    process.connections += is_connected;
    process.is_connected = is_connected;
    unlocked();
}

void counts_entered(uint64_t number) {
    locked();
    if (number >= seen->open_room) {
        uint64_t room = 2 * number + 64;
        double *open = realloc(seen->open, room * sizeof *open);
        if (open == NULL) fail_memory();
        memset(open + seen->open_room, 0, (room - seen->open_room) * sizeof *open);
        seen->open = open;
        seen->open_room = room;
    }
    seen->open_count += seen->open[number] == 0;
    if (seen->open[number] == 0) seen->open[number] = wall();
    unlocked();
}

void counts_settled(uint64_t number) {
    locked();
    if (number < seen->open_room && seen->open[number] != 0) {
        seen->open[number] = 0;
        seen->open_count--;
    }
    unlocked();
}

bool counts_has_open(void) {
    locked();
    bool has_open = seen->open_count > 0;
    unlocked();
    return has_open;
}

void counts_asked(size_t under_way) {
    locked();
    seen->asked++;
    seen->under_way = under_way;
    unlocked();
}

void counts_came(size_t under_way) {
    locked();
    seen->under_way = under_way;
    unlocked();
}

void counts_rules_took(double seconds) {
    count_time(&seen->rules, seconds);
}

void counts_ruled(void) {
    locked();
    seen->ruled++;
    unlocked();
}

void counts_unruled(const char *name) {
    locked();
    names_add(&seen->unruled, name, strlen(name));
    unlocked();
}

uint64_t counts_oldest(uint64_t *number, uint64_t *open) {
    double oldest = 0;
    locked();
    for (uint64_t at = 0; at < seen->open_room && seen->open_count > 0; at++)
        if (seen->open[at] != 0 && (oldest == 0 || seen->open[at] < oldest)) oldest = seen->open[at], *number = at;
    *open = seen->open_count;
    unlocked();
    return oldest == 0 ? 0 : (uint64_t)(wall() - oldest);
}

void counts_most(uint64_t most, uint64_t reserve) {
    locked();
    seen->most = most;
    seen->reserve = reserve;
    unlocked();
}

void counts_waits(size_t waiting) {
    locked();
    seen->waits = waiting;
    unlocked();
}

void counts_node(uint64_t calls, uint64_t at_start, uint64_t rows, size_t waiting, bool is_ready) {
    locked();
    seen->log_calls = calls;
    seen->at_start = at_start;
    seen->rows = rows;
    seen->waiting = waiting;
    seen->is_ready = is_ready;
    process.heard = now();
    unlocked();
}

void counts_heard(void) {
    locked();
    process.heard = now();
    unlocked();
}

bool counts_lives(void) {
    locked();
    bool lives = now() - process.heard < LIVES_SECONDS;
    unlocked();
    return lives;
}

const char *counts_unready(void) {
    locked();
    const char *why = !seen->is_ready ? "starting, or draining" : !process.is_connected ? "not connected" : NULL;
    if (seen->is_stream && !seen->owns) why = "stands by: another host has the log";
    if (seen->differs) why = "the servers have another log than this machine";
    unlocked();
    return why;
}

/* What is told of a log in a stream. */
static void add_stream(struct bytes *text, const char *node) {
    metric_one(text, node, "log_owner", "gauge", "Whether this host has the log; another one stands by.", seen->owns);
    metric_one(text, node, "takeovers_total", "counter", "Whether this host came to have the log since it started.", seen->has_owned);
    metric_one(text, node, "log_differs", "gauge", "Whether the servers show another log than this machine has.", seen->differs);
    metric_one(text, node, "log_sequence", "gauge", "The last message of the log that this host knows.", (double)seen->sequence);
    metric_one(text, node, "log_lag", "gauge", "Messages that the host which has the log told of and this one lacks.", (double)seen->lag);
    metric_one(text, node, "stand_bys", "gauge", "Other hosts that follow the log, as the one that has it hears.", seen->followers_count);
    metric_head(text, "stand_by_lag", "gauge", "Messages that a stand-by is behind, as the host that has the log hears.");
    for (const struct follower *one = seen->followers; one < seen->followers + seen->followers_count; one++)
        add_form(text, "vogrilas_stand_by_lag{machine=\"%s\",node=\"%s\"} %llu\n", one->machine, node, (unsigned long long)one->lag);
    metric_one(text, node, "appends_again_total", "counter", "Messages sent again, since no word came on them.", (double)seen->appends_again);
    metric_times(text, node, "append_seconds", "How long the servers' word on what was appended took.", &seen->appends);
}

/* What is told of a payer's own system. */
static void add_rules(struct bytes *text, const char *node) {
    metric_one(text, node, "rules_asked_total", "counter", "Requests that the payer's own system was asked for.", (double)seen->asked);
    metric_one(text, node, "rules_taken_total", "counter", "Packets that were taken with what it answered.", (double)seen->ruled);
    metric_one(text, node, "rules_under_way", "gauge", "Requests that are under way to it.", (double)seen->under_way);
    metric_names(text, node, "rules_failed_total", "why", "Requests that came to no ruling, by cause.", &seen->unruled);
    metric_times(text, node, "rules_seconds", "How long a request took, whatever came of it.", &seen->rules);
}

/* What is told of packets that are signed. */
static void add_keys(struct bytes *text, const char *node) {
    metric_one(text, node, "keys", "gauge", "Keys of nodes under which signatures hold.", (double)seen->keys);
    metric_one(text, node, "answers_asked_anew_total", "counter", "Answers that a payer was asked for anew, since their signatures were lost.",
            (double)seen->asked_anew);
}

/* When the oldest open entry of the node was first known to be open; 0 where none is. The lock is held. */
static double oldest_of(const struct counts *counts) {
    double oldest = 0;
    for (uint64_t number = 0; number < counts->open_room && counts->open_count > 0; number++)
        if (counts->open[number] != 0 && (oldest == 0 || counts->open[number] < oldest)) oldest = counts->open[number];
    return oldest;
}

static void add_entries(struct bytes *text, const char *node) {
    double oldest = oldest_of(seen);
    metric_one(text, node, "open_entries", "gauge", "Entries without an answer.", (double)seen->open_count);
    metric_one(text, node, "oldest_open_entry_seconds", "gauge", "How long the oldest has been open.", oldest == 0 ? 0 : wall() - oldest);
    metric_one(text, node, "waits", "gauge", "Callers who wait for an answer.", (double)seen->waits);
    metric_one(text, node, "waits_most", "gauge", "The most of them.", MOST_WAITS);
}

static void add_peers(struct bytes *text, const char *node) {
    metric_head(text, "peer_last_packet_timestamp_seconds", "gauge", "When the last packet of a peer came.");
    const struct names *taken = &seen->taken;
    for (size_t at = 0; at < taken->count; at++)
        add_form(text, "vogrilas_peer_last_packet_timestamp_seconds{node=\"%s\",peer=\"%s\"} %.3f\n", node, taken->list[at].name, taken->list[at].last);
}

/* The version of the host and its node; the lock is held. */
static void add_host(struct bytes *text, const char *node) {
    uint32_t version = vogrilas_version();
    metric_head(text, "host_info", "gauge", "The host and the version of its node.");
    add_form(text, "vogrilas_host_info{host=\"c\",node=\"%s\",version=\"%u.%u.%u\"} 1\n", node, version / 1000000,
             version / 1000 % 1000, version % 1000);
}

/* What is told of each node of a range. */
enum told { TOLD_READY, TOLD_OPEN, TOLD_OLDEST, TOLD_WAITS, TOLD_ROWS, TOLD_MOST, TOLD_CALLS, TOLD };

static const struct { const char *name, *says; } told_name[TOLD] = {
    [TOLD_READY] = { "ready", "Whether the node serves." },
    [TOLD_OPEN] = { "open_entries", "Entries without an answer." },
    [TOLD_OLDEST] = { "oldest_open_entry_seconds", "How long the oldest has been open." },
    [TOLD_WAITS] = { "waits", "Callers who wait for an answer." },
    [TOLD_ROWS] = { "rows", "Entries, slots or rows that the node has." },
    [TOLD_MOST] = { "rows_most", "The most of them." },
    [TOLD_CALLS] = { "log_calls", "Calls in the log, and in closed ones before it." },
};

static double told_of(const struct counts *counts, enum told told) {
    double oldest = told == TOLD_OLDEST ? oldest_of(counts) : 0;
    switch (told) {
    case TOLD_READY: return counts->is_ready && process.is_connected;
    case TOLD_OPEN: return (double)counts->open_count;
    case TOLD_OLDEST: return oldest == 0 ? 0 : wall() - oldest;
    case TOLD_WAITS: return (double)counts->waits;
    case TOLD_ROWS: return (double)counts->rows;
    case TOLD_MOST: return (double)counts->most;
    default: return (double)counts->log_calls;
    }
}

struct bytes counts_range_text(const char *range, const struct counted *node, size_t count) {
    struct bytes text = { NULL, 0, 0 };
    locked();
    add_host(&text, range);
    metric_one(&text, range, "connected", "gauge", "Whether there is a connection.", process.is_connected);
    metric_one(&text, range, "connections_total", "counter", "Connections that were opened.", (double)process.connections);
    metric_one(&text, range, "nodes", "gauge", "Nodes of the range.", (double)count);
    for (enum told told = 0; told < TOLD; told++) {
        metric_head(&text, told_name[told].name, "gauge", told_name[told].says);
        for (const struct counted *one = node; one < node + count; one++)
            add_form(&text, "vogrilas_%s{node=\"%s\"} %.15g\n", told_name[told].name, one->node, told_of(one->counts, told));
    }
    unlocked();
    return text;
}

struct bytes counts_text(const char *node, const char *log) {
    struct bytes text = { NULL, 0, 0 };
    struct stat at;
    locked();
    add_host(&text, node);
    metric_fixed(&text, node, "calls_total", "call", "Calls on the node, by what was asked.", call_name, seen->calls, CALLS);
    metric_names(&text, node, "refusals_total", "name", "Calls that the node or its host refused, by name.", &seen->refusals);
    metric_names(&text, node, "packets_sent_total", "to", "Packets sent, by addressee.", &seen->sent);
    metric_names(&text, node, "packets_taken_total", "from", "Packets that came for the node, by sender.", &seen->taken);
    metric_fixed(&text, node, "packets_dropped_total", "why", "Messages that were not handed to the node, by cause.", why_name,
              seen->dropped, WHYS);
    metric_one(&text, node, "packets_sent_again_total", "counter", "Packets that a tick sent once more.", (double)seen->again);
    add_peers(&text, node);
    if (begins(node, strlen(node), "ph")) add_entries(&text, node);
    metric_one(&text, node, "ready", "gauge", "Whether the node serves.", seen->is_ready && process.is_connected);
    metric_one(&text, node, "connected", "gauge", "Whether there is a connection.", process.is_connected);
    metric_one(&text, node, "connections_total", "counter", "Connections that were opened.", (double)process.connections);
    metric_one(&text, node, "waiting_calls", "gauge", "Calls of the last turn.", (double)seen->waiting);
    metric_one(&text, node, "rows", "gauge", "Entries, slots or rows that the node has.", (double)seen->rows);
    metric_one(&text, node, "rows_most", "gauge", "The most of them.", (double)seen->most);
    metric_one(&text, node, "rows_reserved", "gauge", "How many of these are kept for reversals.", (double)seen->reserve);
    metric_one(&text, node, "log_calls", "gauge", "Calls in the log, and in closed ones before it.", (double)seen->log_calls);
    metric_one(&text, node, "log_calls_at_start", "gauge", "Calls that the log had at the start.", (double)seen->at_start);
    metric_one(&text, node, "log_bytes", "gauge", "Bytes of the log.", log != NULL && stat(log, &at) == 0 ? (double)at.st_size : 0);
    metric_times(&text, node, "sync_seconds", "How long a sync of the log took.", &seen->syncs);
    metric_times(&text, node, "call_seconds", "From a message that came to the last word on it, its sync included.", &seen->answers);
    if (begins(node, strlen(node), "pr")) add_rules(&text, node);
    if (seen->is_stream) add_stream(&text, node);
    if (seen->keys > 0) add_keys(&text, node);
    unlocked();
    return text;
}
