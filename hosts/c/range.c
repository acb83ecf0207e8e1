/*
** A range of pharmacies in one process. Each is served as one that is alone in its process is: its log, its lock and its marks, its key, its turns,
** its words behind the syncs of its own log. They share what is no node's own: the settings (vogrilas_open_settings), a connection, the threads that
** sync logs, and the thread that serves, which looks at those nodes alone for which something came, whose sync has ended, or which have an entry
** open or a packet to send. A node that is refused ends the process before any is served.
*/
#include <sys/resource.h>
#include <unistd.h>

#include "signed.h"

/* How many threads sync logs. */
#define SYNC_THREADS 8
/* How long is waited at most for what comes, and how long nodes with an open entry are not looked at again. */
#define WAIT_SECONDS 0.1
#define LOOK_SECONDS 0.01
/* Files of the process that are no logs. */
#define OTHER_FILES 64

/* A node of the range; it is active while it has an entry open, or something to send, to sync or to say. */
struct member {
    struct host host;
    struct counts *counts;
    struct waits *waits;
    bool is_active;
};

struct range {
    struct given given;
    struct member *member;
    struct counted *counted;
    size_t count;
    struct member **active;
    size_t active_count;
    vogrilas_settings settings;
    struct sync_pool *pool;
    struct carrier *line;
    struct ready ready;
    size_t said;
    /* When the active ones are looked at again. */
    double next_look;
    volatile sig_atomic_t *is_stopping;
};

/* What is told, counted and looked at from now on is of this node; with NULL of all together. */
static void stand_for(const struct member *member) {
    said_by(member == NULL ? NULL : member->host.given.name);
    counts_for(member == NULL ? NULL : member->counts);
    if (member != NULL) waits_for(member->waits);
}

/* Has as many files open as the logs are. */
static void want_files(size_t count) {
    struct rlimit limit;
    rlim_t wanted = (rlim_t)count + OTHER_FILES;
    if (getrlimit(RLIMIT_NOFILE, &limit) != 0 || limit.rlim_cur >= wanted) return;
    limit.rlim_cur = limit.rlim_max < wanted ? limit.rlim_max : wanted;
    if (setrlimit(RLIMIT_NOFILE, &limit) != 0 || limit.rlim_cur < wanted)
        fail_with(REFUSED, "so many logs may not be open: see ulimit -n", FACTS(NUMBER("files", wanted), NUMBER("most", limit.rlim_max)));
}

/* A text of this form, which stays. */
static const char *text_of(const char *form, const char *before, unsigned number) {
    struct bytes text = { NULL, 0, 0 };
    add_form(&text, form, before, number);
    return text.at;
}

/* Opens a node over its log, without a sync. */
static void open_member(struct range *range, struct member *member, unsigned number) {
    struct host *host = &member->host;
    const char *name = text_of("%sph%u", "", number);
    host->given = range->given;
    host->given.name = name;
    host->given.log = text_of("%s/ph%u.log", range->given.log, number);
    host->is_stopping = range->is_stopping;
    host->last = &host->first;
    member->counts = counts_made();
    member->waits = waits_made();
    stand_for(member);
    host->node = (struct served){ .name = name, .node = VOGRILAS_NODE_INIT, .log = log_open(host->given.log) };
    host->carrier = carrier_made(name, &range->given.access);
    host->carrier->ready = &range->ready;
    host->carrier->counts = member->counts;
    host->carrier->host = host;
    host->keys = host->carrier->keys = keys_open(range->given.keys, name);
    host->syncs = syncs_in(range->pool, &host->node.log, host->carrier);
    node_open_under(&host->node, &range->settings);
    host->appended = node_append_after(&host->node, 0);
    syncs_begin(host->syncs);
}

/* Has on disk what a node was opened from, and learns what it has. */
static void settle_member(struct member *member) {
    struct host *host = &member->host;
    stand_for(member);
    node_kept(&host->node, host->appended);
    host->appended = 0;
    host->node.at_start = node_calls(&host->node);
    host_learn(host);
}

/* Opens all nodes, and ends the process where one of them is refused. */
static void open_members(struct range *range) {
    range->settings = settings_open(range->given.settings);
    for (size_t at = 0; at < range->count; at++) open_member(range, &range->member[at], range->given.first + (unsigned)at);
    for (size_t at = 0; at < range->count; at++) {
        stand_for(&range->member[at]);
        syncs_ended(range->member[at].host.syncs, true);
    }
    log_sync_folder(&range->member[0].host.node.log);
    for (size_t at = 0; at < range->count; at++) settle_member(&range->member[at]);
    vogrilas_close_settings(&range->settings);
    for (size_t at = 0; at < range->count; at++) {
        const struct host *host = &range->member[at].host;
        range->counted[at] = (struct counted){ host->given.name, host->given.log, range->member[at].counts };
    }
    stand_for(NULL);
}

/* Whether a node has something to do when nothing comes for it. */
static bool has_more(const struct host *host) {
    return counts_has_open() || host->later.count > 0 || host->appended > 0 || host->waiting > 0;
}

/* Notes that a node is active, if it is, and has it looked at soon. */
static void note_active(struct range *range, struct member *member) {
    struct host *host = &member->host;
    if (!has_more(host)) return;
    if (range->next_look > now() + LOOK_SECONDS) range->next_look = now() + LOOK_SECONDS;
    if (member->is_active) return;
    member->is_active = true;
    range->active[range->active_count++] = member;
    /* It was not ticked while no entry was open. */
    if (host->next_tick < now()) host->next_tick = now() + host->given.tick * (0.8 + 0.4 * chance());
}

/* A turn of a node; another one where the first has made room for what waits, of which nobody would tell again. */
static void serve(struct range *range, struct member *member, bool is_tick) {
    struct host *host = &member->host;
    bool takes;
    do {
        takes = takes_more(host);
        turn(host, take_all(host->carrier, 0, takes), is_tick);
        is_tick = false;
    } while (!takes && takes_more(host));
    range->said += host->carrier->said;
    host->carrier->said = 0;
    note_active(range, member);
}

/* Does what is due of an active node; in how many seconds more is. */
static double look_at(struct range *range, struct member *member) {
    struct host *host = &member->host;
    stand_for(member);
    double wait = later_send(&host->later, host->carrier, false);
    bool ticks = counts_has_open(), is_due = ticks && now() >= host->next_tick;
    if (is_due) host->next_tick = now() + host->given.tick * (0.8 + 0.4 * chance());
    if (is_due || sync_wait(host) <= 0) serve(range, member, is_due);
    if (ticks) host_tell_open(host);
    if (ticks && host->next_tick - now() < wait) wait = host->next_tick - now();
    return sync_wait(host) < wait ? sync_wait(host) : wait;
}

/* Looks at all active nodes, and says when that is to be done again. */
static void look(struct range *range) {
    double wait = WAIT_SECONDS;
    for (size_t at = 0; at < range->active_count;) {
        struct member *member = range->active[at];
        double more = look_at(range, member);
        if (more < wait) wait = more;
        if (has_more(&member->host)) {
            at++;
            continue;
        }
        member->is_active = false;
        range->active[at] = range->active[--range->active_count];
    }
    range->next_look = now() + (wait < LOOK_SECONDS ? LOOK_SECONDS : wait);
}

/* Has what was said leave at once where it is little, once for all nodes. */
static void send_few(struct range *range) {
    if (range->said > 0 && range->said <= FEW_WORDS) natsConnection_FlushTimeout(range->line->connection, 1);
    range->said = 0;
}

static void serve_for_ever(struct range *range) {
    double next_word = now();
    while (!*range->is_stopping && !range->line->is_closed) {
        double wait = range->next_look - now();
        struct carrier *taken = ready_take(&range->ready, wait < WAIT_SECONDS ? wait : WAIT_SECONDS);
        for (; taken != NULL; taken = taken->next_taken) {
            struct member *member = (struct member *)taken->host;
            stand_for(member);
            serve(range, member, false);
        }
        if (now() >= range->next_look) look(range);
        send_few(range);
        stand_for(NULL);
        if (now() < next_word) continue;
        next_word = now() + 1;
        counts_node(0, 0, 0, 0, true);
        service_tell("WATCHDOG=1");
        if (range->given.says) say("info", "serves", FACTS(NUMBER("nodes", range->count), NUMBER("active", range->active_count)));
    }
}

/* Finishes what was taken: no more is taken, what was is served, synced and said. */
static void drain(struct range *range) {
    stand_for(NULL);
    counts_node(0, 0, 0, 0, false);
    service_tell("STOPPING=1");
    say("info", "draining", NULL);
    range->ready.is_ended = true;
    for (size_t at = 0; at < range->count; at++) {
        struct host *host = &range->member[at].host;
        stand_for(&range->member[at]);
        for (struct message *batch; (batch = take_all(host->carrier, 0, true)) != NULL;) turn(host, batch, false);
    }
    for (size_t at = 0; at < range->count; at++) {
        struct host *host = &range->member[at].host;
        stand_for(&range->member[at]);
        host_settle(host);
        later_send(&host->later, host->carrier, true);
    }
    natsConnection_FlushTimeout(range->line->connection, 1000);
    stand_for(NULL);
}

/* Hears what comes for all nodes; false where it is told to end before there is a server. */
static bool hear(struct range *range) {
    carrier_connect(range->line, &range->given.access, true, range->is_stopping);
    if (range->line->connection == NULL) return false;
    for (size_t at = 0; at < range->count; at++) {
        struct host *host = &range->member[at].host;
        host->carrier->connection = range->line->connection;
        host->next_tick = 0;
        carrier_hear(host->carrier);
        stand_for(&range->member[at]);
        note_active(range, &range->member[at]);
        counts_node(node_calls(&host->node), host->node.at_start, host->rows, 0, true);
    }
    stand_for(NULL);
    carrier_heard(range->line);
    /* Whoever reads that the range is ready may ask it at once. */
    counts_node(0, 0, 0, 0, true);
    return true;
}

int range_serve(const struct given *given, volatile sig_atomic_t *is_stopping) {
    struct range range = { .given = *given, .count = given->last - given->first + 1, .is_stopping = is_stopping };
    bool is_lost = false;
    range.member = calloc(range.count, sizeof *range.member);
    range.counted = calloc(range.count, sizeof *range.counted);
    range.active = calloc(range.count, sizeof *range.active);
    if (range.member == NULL || range.counted == NULL || range.active == NULL) fail_memory();
    want_files(range.count);
    ready_begin(&range.ready);
    range.pool = sync_pool_start(SYNC_THREADS);
    range.line = carrier_made(given->name, &given->access);
    open_members(&range);
    if (given->watch != NULL) watch_range(given->watch, given->name, range.counted, range.count);
    if (hear(&range)) {
        say("info", "ready", FACTS(NUMBER("nodes", range.count)));
        service_tell("READY=1");
        printf("%s ready\n", given->name);
        fflush(stdout);
        serve_for_ever(&range);
        is_lost = range.line->is_closed;
        if (!is_lost) drain(&range);
    }
    sync_pool_stop(range.pool);
    for (size_t at = 0; at < range.count; at++) keys_close(range.member[at].host.keys);
    range.line->is_closing = true;
    natsConnection_Close(range.line->connection);
    if (is_lost) fail("the connection was closed for good", NULL);
    say("info", "ended", NULL);
    return 0;
}
