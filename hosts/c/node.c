/*
** One node of the network as one process over NATS: the library keeps the node, this host its log and its carrier. Or a range of pharmacies:
** `node SETTINGS ph1-ph1000 FOLDER` serves each as a process of its own would, with the log FOLDER/ph1.log and so on: range.c.
**
**     node SETTINGS NODE [LOG] [--nats URL[,URL..]] [--ca FILE] [--creds FILE] [--login FILE] [--tick SECONDS] [--jetstream]
**          [--keys FOLDER] [--watch ADDRESS:PORT] [--hold-back MS] [--reserve ROWS] [--ping SECONDS] [-v] [--log file|stream] [--copies 1|2]
**          [--machine NAME] [--patience SECONDS] [--part BYTES] [--at-least CALLS]
**          [--rules URL | --rules-tcp [tls://]HOST:PORT [--rules-framing stx|length2|length4]] [--rules-ca FILE]
**          [--rules-token FILE] [--rules-wait SECONDS] [--rules-most REQUESTS]
**
** The subjects are those of hosts/subjects.py: packets come on `claims.NODE.from.SENDER`, in printed bytes: the subject says who sent one,
** and the server lets nobody publish there but that sender (hosts/permissions); callers' lines, `submit`, `submit-as` and `answer`, and of a
** payer `count`, `row` and `payments`, on `claims.NODE.call`; an operator's, any line but `take`, `adjudicate` and `at`, and `kill`, on
** `claims.NODE.operate`. Each of those lines is replied to with the last line of what the node says. With --jetstream packets come on
** `deliver.NODE`, where the server hands over what it keeps for a node (hosts/streams); it is told once the node has one on disk. A
** caller's `wait NUMBER` is replied to as `answer NUMBER` is, but not before the entry has its answer. Each call has the
** time of day in its record.
**
** A turn serves all that waits and appends the records to the log. A thread of its own syncs it, one sync at a time, and what a call says is sent
** and replied once a sync that began behind its records has ended; meanwhile other turns are served and appended. Who waits for an answer that
** came from a payer is replied to before, since the payer gives it again (vogrilas_heard). A host that
** dies before the sync has told nobody; one that dies behind it is started again and sends again what is due. SIGTERM drains. URL is as
** nats://host:4222 or tls://host:4222, and without --nats that of NATS_URL, which may have user and password; --login is a file with
** USER:PASSWORD (or NATS_LOGIN names it), --ca has the certificates to trust, --creds a file of credentials.
**
** A switch may be without LOG: it opens and writes no file, begins anew at each start, and keeps nothing of what it records. Any number of
** such processes may be one switch at once, anywhere: each takes each packet (docs/PROMISES.md). A pharmacy and a payer want LOG.
**
** With `--log stream` the log is in a stream that several servers keep, and LOG is this machine's copy: records are appended to the stream,
** behind the last message that this host knows and nowhere else; once the servers have said that they are there they are written and
** synced here; and only then anything is said. Any number of hosts may be started for a node, on as many machines: one has the log, the
** others follow it, and one of them takes over where it is silent for --patience seconds. With `--copies 2` one of the others has the same
** bytes on its disk before anything is said; without such another nothing is. --machine names this one, --part is how many bytes one
** message carries at most.
**
** A payer whose settings say that it asks does not rule what is to be priced: with --rules such a request goes as it is to the payer's own system
** over HTTP, with --rules-tcp in a frame over TCP, and the packet is taken again with what it answers: rules.h. What is not answered within
** --rules-wait seconds (5) is not taken, and its pharmacy asks again; at most --rules-most requests (256) are under way. --rules-ca has the
** certificates to trust, --rules-token a file with what stands behind `Authorization: Bearer`.
**
** With --keys packets are signed, and a packet whose signature lacks or does not hold is not taken: signed.h. FOLDER has `keys`, those of all
** nodes, and NODE.key, as hosts/permissions writes them; both are read again when they change.
**
** With --at-least a log of fewer calls is refused: it was cut, or is an old copy, and who has seen more of it knows.
**
** A pharmacy is ticked while an entry of it is open. So many entries of a pharmacy and rows of a payer as --reserve says, a tenth of the cap
** where it is not there, are kept for reversals: reserve.c.
**
** Status 0: it was told to end; 1: a next try may go better; 75: another host has the node; 78: settings, name or log are refused, the
** servers have lost what was seen, or a sync has failed.
** C11 and POSIX; libnats is Debian's libnats-dev. `make` builds it over the library that ../../bindings/make lays out.
*/
#include <fcntl.h>
#include <unistd.h>

#include "rules.h"
#include "signed.h"
#include "stream.h"

/* How long requests that are under way are waited for, where the host is told to end. */
#define RULES_SECONDS 5.0
/* How long a turn waits at most, so that a signal is heard of. */
#define TURN_SECONDS 0.1
/* How often it is said that an entry has no answer, and how long it has to be open for that. */
#ifndef OPEN_SECONDS
#define OPEN_SECONDS 60
#endif

static volatile sig_atomic_t is_stopping;

static void stop(int number) {
    (void)number;
    is_stopping = 1;
}

/* Has descriptors 0 to 2 open: the log would be taken for standard output otherwise. */
static void take_descriptors(void) {
    int made = open("/dev/null", O_RDWR);
    while (made >= 0 && made <= 2) made = open("/dev/null", O_RDWR);
    if (made >= 0) close(made);
}

double chance(void) {
    return (double)random() / (double)RAND_MAX;
}

/* Finishes what was taken: no more is taken, what was is served, synced and said. */
static void drain(struct host *host) {
    service_tell("STOPPING=1");
    say("info", "draining", NULL);
    carrier_stop(host->carrier);
    for (struct message *batch; (batch = take_all(host->carrier, 0, true)) != NULL;) turn(host, batch, false);
    host_settle(host);
    for (double end = now() + RULES_SECONDS; rules_under_way(host->rules) > 0 && now() < end;)
        turn(host, take_all(host->carrier, TURN_SECONDS, true), false);
    later_send(&host->later, host->carrier, true);
}

/* Moves the log to another host, where one follows; whether it went. */
static bool move(struct host *host) {
    host->carrier->is_silent = true;
    const char *whom = move_begin(host->candidate);
    if (whom != NULL) {
        carrier_stop(host->carrier);
        for (struct message *batch; (batch = take_all(host->carrier, 0, true)) != NULL;) turn(host, batch, false);
        later_send(&host->later, host->carrier, true);
        natsConnection_FlushTimeout(host->carrier->connection, 1000);
        move_end(host->candidate, whom, &host->served);
        say("info", "moved", FACTS(TEXT("to", whom)));
    }
    reply(host->carrier, host->mover, whom == NULL ? "refused NoStandBy" : "ok", whom == NULL ? 17 : 2);
    natsMsg_Destroy(host->mover);
    host->mover = NULL;
    host->served.size = 0;
    host->has_moved = whom != NULL;
    host->carrier->is_silent = false;
    return host->has_moved;
}

void host_tell_open(struct host *host) {
    uint64_t number = 0, open = 0, seconds;
    if (now() < host->next_open) return;
    host->next_open = now() + OPEN_SECONDS;
    if ((seconds = counts_oldest(&number, &open)) < OPEN_SECONDS) return;
    say("warning", "an entry has no answer yet", FACTS(NUMBER("claim", number), NUMBER("seconds", seconds), NUMBER("open", open)));
}

/* Serves until it is told to end, or the connection is closed for good. */
static void serve_for_ever(struct host *host) {
    bool ticks = begins(host->given.name, 2, "ph");
    host->next_tick = now() + host->given.tick * chance();
    host->next_word = now() + 1;
    while (!is_stopping && !host->carrier->is_closed) {
        double wait = later_send(&host->later, host->carrier, false);
        if (ticks && host->next_tick - now() < wait) wait = host->next_tick - now();
        if (sync_wait(host) < wait) wait = sync_wait(host);
        struct message *batch = take_all(host->carrier, wait < TURN_SECONDS ? wait : TURN_SECONDS, takes_more(host));
        bool is_due = ticks && now() >= host->next_tick;
        if (host->candidate != NULL) candidate_look(host->candidate);
        /* No two hosts tick together for long, since the time between two ticks is never quite the same. */
        if (is_due) host->next_tick = now() + host->given.tick * (0.8 + 0.4 * chance());
        turn(host, batch, is_due && counts_has_open());
        if (host->mover != NULL && move(host)) return;
        if (now() < host->next_word) continue;
        host->next_word = now() + 1;
        service_tell("WATCHDOG=1");
        if (ticks) host_tell_open(host);
        if (host->given.says) say("info", "serves", FACTS(NUMBER("calls", node_calls(&host->node)), NUMBER("syncs", host->node.log.syncs)));
    }
}

void host_learn(struct host *host) {
    uint64_t calls = node_calls(&host->node);
    if ((double)calls < host->given.at_least)
        fail_with(REFUSED, "the log has fewer calls than are known: see docs/RESTORING.md",
                  FACTS(TEXT("file", host->given.log), NUMBER("calls", calls), NUMBER("at_least", host->given.at_least)));
    reserve_begin(host);
    counts_node(node_calls(&host->node), host->node.at_start, host->rows, 0, false);
    if (begins(host->given.name, 2, "ph")) node_open_entries(&host->node, counts_entered);
}

/* Opens the node over the file of its log; false where the host is told to end before. */
static bool open_node(struct host *host) {
    const struct given *given = &host->given;
    if (host->candidate == NULL) {
        host->node = node_of_file(given->settings, given->name, given->log);
        host_learn(host);
        return true;
    }
    struct bytes text = settings_of(given->settings);
    host->node = (struct served){ .name = given->name, .node = VOGRILAS_NODE_INIT, .log = log_open(given->log) };
    host->node.copy = &host->candidate->copy;
    bool is_open = candidate_open(host->candidate, given, &host->node.log, &is_stopping);
    struct bytes log = log_bytes(&host->node.log);
    log.size = (size_t)host->candidate->copy.whole.size;
    if (is_open && node_open(&host->node, &text, &log) != log.size)
        fail_with(REFUSED, "the log has something else than records", FACTS(TEXT("file", given->log)));
    /* The file was synced as it was opened. */
    if (is_open) node_kept(&host->node, 0);
    host->candidate->copy.node = &host->node;
    if (is_open && log.size == 0) host->node.settings = text;
    else free(text.at);
    free(log.at);
    return is_open;
}

/* Lets messages go that came while another host had the log. */
static void release(struct host *host) {
    for (struct message *batch = take_all(host->carrier, 0, true), *next; batch != NULL; batch = next) {
        next = batch->next;
        natsMsg_Destroy(batch->text);
        free(batch);
    }
}

static void open_carrier(struct host *host) {
    host->carrier = carrier_open(host->given.name, &host->given.access, &is_stopping);
    host->carrier->keys = host->keys;
}

/* Hears the node's callers while the log is being moved here, or no more. */
static void hear_callers(void *closure, bool is_called) {
    struct host *host = closure;
    if (is_called) {
        open_carrier(host);
        host->carrier->is_silent = true;
        return;
    }
    carrier_stop(host->carrier);
    release(host);
    carrier_close(host->carrier);
    host->carrier = NULL;
}

/* Follows the log in its stream until this host has it, and begins one that is empty; false where it is told to end before. */
static bool own(struct host *host) {
    host->candidate->hears = hear_callers;
    host->candidate->closure = host;
    if (!candidate_own(host->candidate)) return false;
    if (host->candidate->called > 0 && !move_is_handed(host->candidate)) {
        /* Who was to hand the log over has died: nobody knows which calls it has served. */
        release(host);
        host->candidate->called = 0;
    }
    node_keep(&host->node, false);
    host->node.at_start = node_calls(&host->node);
    host->candidate->looked = now();
    host_learn(host);
    say("info", "has the log", FACTS(TEXT("owner", host->candidate->stream.owner)));
    return true;
}

/* Serves the node of a log that this host has; the status: 1 where the connection is closed for good. */
static int serve_node(struct host *host) {
    if (host->carrier == NULL) open_carrier(host);
    host->carrier->is_silent = false;
    host->rules = rules_start(&host->given, host->carrier);
    host->last = &host->first;
    /* Of a log in a stream, and of a payer that asks, each turn waits for its sync. */
    if (host->candidate == NULL && host->rules == NULL && host->given.log != NULL) host->syncs = syncs_start(&host->node.log, host->carrier);
    if (!is_stopping) {
        say("info", "ready", NULL);
        service_tell("READY=1");
        printf("%s ready\n", host->given.name);
        fflush(stdout);
        serve_for_ever(host);
    }
    bool is_lost = host->carrier->is_closed;
    if (!is_lost && !host->has_moved) drain(host);
    syncs_stop(host->syncs);
    rules_stop(host->rules);
    carrier_close(host->carrier);
    return is_lost ? 1 : host->has_moved ? OVERTAKEN : 0;
}

int main(int count, char **word) {
    take_descriptors();
    struct host host = { .given = words(count, word), .is_stopping = &is_stopping };
    said_for(host.given.name, host.given.says);
    rules_check(&host.given.rules);
    if (host.given.last == 0) host.keys = keys_open(host.given.keys, host.given.name);
    struct sigaction action = { .sa_handler = stop }, ignored = { .sa_handler = SIG_IGN };
    sigaction(SIGTERM, &action, NULL);
    sigaction(SIGINT, &action, NULL);
    sigaction(SIGPIPE, &ignored, NULL);
    srandom((unsigned)getpid() ^ (unsigned)time(NULL));
    if (host.given.last > 0) return range_serve(&host.given, &is_stopping);
    struct candidate candidate;
    if (host.given.is_stream) host.candidate = &candidate;
    bool has_log = open_node(&host);
    if (host.given.watch != NULL) watch_start(host.given.watch, host.given.name, host.given.log);
    has_log = has_log && (host.candidate == NULL || own(&host));
    int status = has_log ? serve_node(&host) : 0;
    if (host.candidate != NULL) candidate_leave(host.candidate);
    nats_Close();
    node_close(&host.node);
    keys_close(host.keys);
    free(host.line.at);
    if (status == 1) fail("the connection was closed for good", NULL);
    say("info", "ended", NULL);
    return status;
}
