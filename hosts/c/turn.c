/* Turns: what waits is served, what it recorded is appended, and once a sync has it on disk, what came of it is sent and replied. */
#include "signed.h"

/* After how many seconds is synced what nobody waits for. */
#define LAZY_SECONDS 0.005
/* So many messages may wait for their syncs. */
#define MOST_UNTOLD 4096
/* How often all is on disk at once, under a load without end: the rows of a node can be counted only then. */
#define SETTLE_SECONDS 1.0
/* The longest that a sync is waited for before one looks about. */
#define TURN_SECONDS 0.1

/* Has what a turn said leave at once where it is little: the client gathers what is sent for up to a millisecond, which many want, and one that
   waits for its word does not. */
static void send_few(struct carrier *carrier) {
    if (carrier->ready != NULL) return;
    if (carrier->said > 0 && carrier->said <= FEW_WORDS) natsConnection_FlushTimeout(carrier->connection, 1);
    carrier->said = 0;
}

/* Whether nobody waits for what a message has the node record: a pharmacy took an answer, and who waited for that was told. */
static bool is_lazy(const struct host *host, const struct message *one) {
    if (!begins(host->given.name, 2, "ph") || one->from != FROM_NODE || host->carrier->is_kept) return false;
    return natsMsg_GetReply(one->text) == NULL && (one->head.kind == 0 || !waits_has(one->head.number));
}

/* Joins the messages of a turn to those of which something is to be told. */
static void join(struct host *host, struct message *batch) {
    *host->last = batch;
    for (; *host->last != NULL; host->last = &(*host->last)->next) host->waiting++;
}

/* Serves a tick; it stands among the messages whose words come, and has none. */
static void serve_tick(struct host *host) {
    struct message *one = calloc(1, sizeof *one);
    if (one == NULL) fail_memory();
    *one = (struct message){ .from = FROM_OPERATOR, .is_served = true, .is_tick = true };
    later_send(&host->later, host->carrier, true);
    counts_call("tick", 4);
    node_serve_now(&host->node, "tick", 4);
    join(host, one);
}

bool takes_more(const struct host *host) {
    return host->waiting < MOST_UNTOLD && !host->is_settling;
}

double sync_wait(const struct host *host) {
    return host->syncing > 0 || host->sync_due == 0 ? TURN_SECONDS : host->sync_due - now();
}

/* Has what was recorded appended, and begins a sync where one is due and none is under way. */
static void append(struct host *host, bool is_lazy) {
    size_t more = node_append_after(&host->node, host->appended);
    double due = is_lazy ? now() + LAZY_SECONDS : 0;
    host->appended += more;
    if (more > 0 && (host->sync_due == 0 || due < host->sync_due)) host->sync_due = due == 0 ? 1 : due;
    if (host->syncing > 0 || host->sync_due == 0 || (host->sync_due > 1 && host->sync_due > now())) return;
    host->syncing = host->appended;
    host->sync_due = 0;
    host->is_settling = now() - host->settled_at > SETTLE_SECONDS;
    syncs_begin(host->syncs);
}

/* Where a sync has ended, notes what it was for: that is on disk, and nothing that was appended since. */
static bool note_synced(struct host *host, bool waits) {
    if (host->syncing == 0 || !syncs_ended(host->syncs, waits)) return false;
#ifdef WRONG_KEPT_EARLY
    host->syncing = host->appended;
#endif
    node_kept(&host->node, host->syncing);
    host->appended -= host->syncing;
    host->syncing = 0;
    return true;
}

void host_settle(struct host *host) {
    while (host->appended > 0) {
        host->sync_due = 1;
        append(host, false);
        note_synced(host, true);
        host_tell(host);
    }
    host_let_go(host);
    reserve_count(host);
}

/* Has what was recorded kept, and tells what may be told: at once, or once the thread of syncs has it on disk; of how many messages. */
static size_t keep(struct host *host, bool speaks, bool is_lazy) {
#ifdef WRONG_SAID_EARLY
    struct bytes early = node_records(&host->node);
    node_kept(&host->node, early.size);
    size_t told = host_tell(host);
    if (told > 0) torment(host->carrier->connection);
    node_append(&host->node, &early, speaks);
    free(early.at);
    (void)is_lazy;
    return told;
#else
    if (host->syncs == NULL) node_keep(&host->node, speaks);
    else append(host, is_lazy);
    return host_tell(host);
#endif
}

/* Where a sync has ended, begins the next one, where there is one to begin, and tells what may be told: before more is served. */
static size_t tell_synced(struct host *host) {
    if (!note_synced(host, false)) return 0;
    append(host, true);
    size_t told = host_tell(host);
    send_few(host->carrier);
    return told;
}

void turn(struct host *host, struct message *batch, bool is_tick) {
    size_t waiting = 0, told = tell_synced(host);
    bool speaks = false, lazy = !is_tick;
    signed_mark(host, batch);
    reserve_mark(host, batch);
    for (struct message *one = batch; one != NULL; one = one->next, waiting++) {
        host_serve(host, one);
        speaks = speaks || (one->is_served && natsMsg_GetReply(one->text) != NULL);
    }
    host_tell_heard(host, batch);
    for (const struct message *one = batch; one != NULL; one = one->next) lazy = lazy && (!one->is_served || is_lazy(host, one));
    host->served_since += waiting;
    join(host, batch);
    if (is_tick) serve_tick(host);
#ifdef WRONG_UNFENCED
    speaks = false;
#endif
    told += keep(host, speaks, lazy);
    if (told > 0) torment(host->carrier->connection);
    send_few(host->carrier);
    torment_late(host->carrier->connection);
    host_let_go(host);
    reserve_count(host);
    counts_node(host->calls, host->node.at_start, host->rows, waiting, !*host->is_stopping);
}
