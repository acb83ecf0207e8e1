/*
** The rooms of the host: bytes (bytes.c), what it says (said.c), the file of a log (file.c), the node with its log (log.c), the way to
** servers (access.c), the carrier (carrier.c), packets that are held back or go out later (packets.c), callers who wait (waits.c), turns (turn.c,
** serving.c, telling.c) and their syncs (syncs.c), room for reversals (reserve.c), what it has seen (counts.c, metrics.c), who asks for that (watch.c), and what a command line
** asks for (words.c).
** stream.h has those of a log in a stream, rules.h those of a payer that asks its own system, signed.h those of packets that are signed.
*/
#ifndef NODE_H
#define NODE_H
#include <nats/nats.h>
#include <pthread.h>
#include <signal.h>
#include <stdbool.h>
#include <stdint.h>
#include <stdio.h>
#include <stdlib.h>
#include <string.h>
#include <time.h>

#include "counts.h"
#include "vogrilas.h"

/* The status of a host whose node is refused: its settings, its name or its log. It stays so until people have looked. */
#define REFUSED 78
/* The status of a host of a log in a stream that is started again as a stand-by: another host has the log, or its copy is gone. It has said
   nothing that is not in the log. */
#define OVERTAKEN 75
/* A packet has at most 131,144 printed bytes, a request 131,072, its reference 256; what is longer is none. */
#define MOST_BYTES 131400
/* An answer has at most 32,768 bytes, as what an envelope carries. */
#define MOST_ANSWER 32768
/* A settings file has at most 16 MiB. */
#define MOST_SETTINGS (16u << 20)

/* Bytes that grow. */
struct bytes {
    char *at;
    size_t size, room;
};

void add(struct bytes *bytes, const void *more, size_t size);
void add_text(struct bytes *bytes, const char *text);
/* Adds what printf would print, which has at most 1,000 bytes. */
void add_form(struct bytes *bytes, const char *form, ...) __attribute__((format(printf, 2, 3)));
void add_number(struct bytes *bytes, uint64_t number);
/* Here, so that the length of a word that is known is known too. */
static inline bool begins(const char *text, size_t size, const char *word) {
    return size >= strlen(word) && memcmp(text, word, strlen(word)) == 0;
}
/* All bytes of an open file; one that has more than so many is refused. */
struct bytes whole(int file, const char *path, size_t most);
/* Seconds of a clock that nobody sets, and of the clock of the day. */
double now(void);
double wall(void);

/* A fact of an event, by its name: a text, which is left out where it is NULL, or a number. */
struct fact {
    const char *name, *text;
    uint64_t number;
    bool is_number;
};

#define TEXT(name, text) ((struct fact){ (name), (text), 0, false })
#define NUMBER(name, number) ((struct fact){ (name), NULL, (uint64_t)(number), true })
#define FACTS(...) ((const struct fact[]){ __VA_ARGS__, { NULL, NULL, 0, false } })

/* What is told on standard error: an object of JSON a line for each event, or words for people: its time, its level, the node, what happened,
   in words that are the same each time, and the facts: `reason`, `file`, `claim` .. No line has a byte of a message. */
void said_for(const char *node, bool for_people);
/* Of which node of a range the calling thread tells from now on; with NULL of no one of them. */
void said_by(const char *node);
void say(const char *level, const char *what, const struct fact *facts);
/* The same of what may happen often: a line a second for each reason, with how many others there were before it (`more`). */
void say_some(const char *level, const char *what, const char *reason, const struct fact *facts);
/* Says what is wrong, and ends the process with this status: 1 where a next try may go better, or REFUSED. */
_Noreturn void fail_with(int status, const char *what, const struct fact *facts);
_Noreturn void fail(const char *what, const struct fact *facts);
_Noreturn void fail_memory(void);
/* The same of a file that cannot be opened, as errno has it: what may pass is status 1, and what stays so is refused. */
_Noreturn void fail_open(const char *what, const char *path);

/* The file of a log, and how often it was synced; whether it is a copy of a log in a stream. `path` is NULL where nothing is kept. */
struct log {
    const char *path;
    int file;
    uint64_t syncs;
    bool is_copy;
};

/* Opens the file for this process alone, unless a sync of it has failed. */
struct log log_open(const char *path);
struct bytes log_bytes(const struct log *log);
/* Cuts what a crash has left of a record, and keeps it beside the log; `bytes` are all that the file has. */
void log_cut(const struct log *log, const struct bytes *bytes, size_t kept);
void log_write(const struct log *log, const char *bytes, size_t size);
/* Has on disk what was written; the file and its name, where it may be new. Both end the process where that fails. */
void log_sync(struct log *log);
/* The two parts of a sync: what may be done by any thread, which gives 0 or an error; and what is made of it, where a failure ends the process. */
int log_to_disk(const struct log *log);
void log_synced(struct log *log, int error, double seconds);
void log_sync_all(const struct log *log);
/* Has the name of a log on disk, and those of all others in its folder. */
void log_sync_folder(const struct log *log);
/* The name of a file beside a log. */
char *beside(const char *path, const char *ending);
/* Draws bytes that nobody can guess. */
void draw(void *to, size_t size);

/* A node with its log; `copy` is NULL where the log is a file alone, and not in a stream. `settings`: those of a node that has no log yet, for
   the head that may come of the stream; else nothing. */
struct served {
    const char *name;
    vogrilas_node node;
    struct log log;
    struct copy *copy;
    struct bytes settings;
    uint64_t at_start;
};

struct bytes settings_of(const char *settings);
/* Opens the node over the bytes of its log; how many of them stand whole. Ends the process where they are refused. */
size_t node_open(struct served *node, const struct bytes *settings, const struct bytes *log);
/* Settings for many nodes, and the node of a range over its log, which is cut where a crash has torn it. Both end the process where they are refused. */
vogrilas_settings settings_open(const char *path);
void node_open_under(struct served *node, vogrilas_settings *settings);
/* A node whose log is a file alone; where that is NULL a switch, which keeps nothing and begins anew. */
struct served node_of_file(const char *settings, const char *name, const char *log);
void node_serve(struct served *node, const char *line, size_t size);
/* The same as it comes; where the line is a call the time of day stands before it, in milliseconds, so its record has it. */
void node_serve_now(struct served *node, const char *line, size_t size);
/* Makes the call of a record, or of a log's head, anew: the node's own record has to be this one. For a stand-by, which keeps a copy. */
void node_make(struct served *node, const char *record, size_t size);
/* Has the records where they have to be. Only then may be used what was written. `speaks`: something is to be said even if there are no
   records, so the owner of a log in a stream first shows that it has it still. */
void node_keep(struct served *node, bool speaks);
/* The first part of it: has them there. */
void node_append(struct served *node, const struct bytes *records, bool speaks);
/* Appends the records behind so many that were appended before, to a log that is a file alone; how many bytes those are. */
size_t node_append_after(struct served *node, size_t appended);
/* Notes that so many bytes of records stand where they have to: the one place behind each way in which they come there, that of an owner,
   of its log in a file or in a stream, and that of a stand-by. */
void node_kept(struct served *node, size_t size);
struct bytes node_records(struct served *node);
struct bytes node_written(struct served *node);
void node_clear(struct served *node);
uint64_t node_calls(struct served *node);
/* A payer or a pharmacy that is stopped reads all that it keeps for each question of what it has: this one, and the two below. */
uint64_t node_count(struct served *node);
/* The most that node_count tells: the cap in the settings. */
uint64_t node_most(struct served *node);
/* Whether the node holds an answer for an entry of a pharmacy. */
bool node_has_answer(struct served *node, uint16_t pharmacy, uint64_t number);
/* The answer to an entry of a pharmacy that a payer gave, in printed bytes, whether or not its record is on disk: what a payer gave it gives
   again. False where the entry is open, or its answer is a switch's. */
bool node_heard(struct served *node, uint16_t pharmacy, uint64_t number, struct bytes *text);
/* Whether an entry of a pharmacy is open, and its request has a route: so a payer is to answer it. */
bool node_awaits_payer(struct served *node, uint16_t pharmacy, uint64_t number);
/* Tells each entry of a pharmacy that is open, by one question. */
void node_open_entries(struct served *node, void (*entry)(uint64_t number));
/* Whether the node is up: one byte is no packet, as it says then, and one that is stopped takes none. For when nothing is to be kept or said. */
bool node_is_up(struct served *node);
void node_close(struct served *node);

/* The head of a packet: what it carries, 1 a request and 2 an answer, and for which entry of which pharmacy. */
struct head {
    uint8_t kind;
    uint16_t pharmacy;
    uint64_t number;
};

#define ENVELOPE_BYTES 18

/* Reads so many bytes at the start of printed bytes; false where fewer stand there. */
bool unprinted(const char *text, size_t size, unsigned char *bytes, size_t count);
/* Reads all of them; how many there are, 0 where they are more than there is room, or none. */
size_t unprinted_all(const char *text, size_t size, unsigned char *bytes, size_t room);
/* Reads the head of a packet in printed bytes; false of anything else. */
bool head_of(const char *text, size_t size, struct head *head);
/* Adds bytes as printed ones, in one word: a space is spelled too. */
void add_printed(struct bytes *line, const void *at, size_t size);

/* Who a message is from. */
enum sender { FROM_NODE, FROM_CALLER, FROM_OPERATOR };
#define SENDERS 3

/* A message that waits, or is being served. */
struct message {
    struct message *next;
    natsMsg *text;
    double came;
    enum sender from;
    /* Of a packet: which node has sent it, and its head, whose kind is 0 where it has none. */
    char sender[9];
    struct head head;
    bool is_served;
    /* What came of it was told; it was told or waits without a line of the node; it is no message, but stands for a tick. */
    bool is_told, is_heard, is_tick;
    /* It would have the node enter a billing while only the reserve is left. */
    bool is_over;
    /* It is a packet whose signature lacks or does not hold, and why it is not taken. */
    bool is_faulty;
    enum why fault;
    /* What became of the request in this packet at the payer's own system, which was asked for it; else nothing. */
    struct asked *asked;
};

/* Where servers are, who comes, and whether they keep the node's packets until it has them (JetStream). */
struct access {
    const char *urls, *authorities, *credentials, *login;
    double ping;
    bool is_kept;
};

/* The carriers of a range that have something for their nodes, in the order in which they had it; one thread takes them. Once it has ended they
   take no more messages. */
struct ready {
    pthread_mutex_t lock;
    pthread_cond_t came;
    struct carrier *first, **last;
    volatile bool is_ended;
};

/* A connection, and the messages that came and wait, in order. */
struct carrier {
    const char *name;
    /* Of a node of a range, which shares the connection: where it stands where something is there for the node; by what the node is counted, and its
       host. The next two of the others, as they are marked and as they were taken. */
    struct ready *ready;
    struct counts *counts;
    struct host *host;
    struct carrier *next, *next_taken;
    bool is_marked;
    /* The keys by which packets of the node are signed; NULL where they are not. */
    struct keys *keys;
    natsConnection *connection;
    natsSubscription *subscriptions[SENDERS];
    pthread_mutex_t lock;
    pthread_cond_t came;
    struct message *first, **last, *spare;
    size_t spare_count;
    /* How many packets and replies the node's thread has sent in a turn. */
    size_t said;
    /* How many of these have a place of those that each kind of sender has, and their bytes. */
    struct most {
        size_t count, bytes;
    } waiting[SENDERS];
    bool is_kept, is_woken;
    volatile bool is_closing, is_closed;
    /* Two hosts hear the callers: what has no room here is the other's. */
    volatile bool is_silent;
};

/* Options of a connection that comes again by itself for as long as the process runs, and leaves a server that is silent. */
natsOptions *access_options(const struct access *access, const char *name);
/* Connects as soon as there is a server; NULL where the host is told to end before. */
natsConnection *access_connect(natsOptions *options, volatile sig_atomic_t *is_stopping);

struct carrier *carrier_open(const char *name, const struct access *access, volatile sig_atomic_t *is_stopping);
/* The three parts of it: a carrier without a connection; its connection, in a range one that calls by few threads; and what it hears, which a
   server knows of once `carrier_heard` has returned. */
struct carrier *carrier_made(const char *name, const struct access *access);
void carrier_connect(struct carrier *carrier, const struct access *access, bool is_range, volatile sig_atomic_t *is_stopping);
void carrier_hear(struct carrier *carrier);
void carrier_heard(struct carrier *carrier);
void ready_begin(struct ready *ready);
/* All carriers of a range that have something, by their `next_taken`; where there is none, those that come within so many seconds, or NULL. */
struct carrier *ready_take(struct ready *ready, double seconds);
/* All messages that wait; where there is none, those that come within so many seconds, or none. With `takes` false, and where it is woken, it
   ends before: then there may be none. */
struct message *take_all(struct carrier *carrier, double seconds, bool takes);
/* Has `take_all` end, now or the next time; called by any thread. */
void carrier_wake(struct carrier *carrier);
/* Sends a packet with the signature that was handed over beside it, or with the node's own where none was and it has keys. */
void send_packet(struct carrier *carrier, const char *to, size_t to_size, const char *text, size_t size, const char *handed);
/* Publishes a packet, with its signature unless that is NULL. */
void publish_packet(natsConnection *connection, const char *subject, const char *text, size_t size, const char *signature);
/* Replies to a message. A reply goes to an inbox alone: elsewhere the host would speak in its own name what a caller wrote. */
void reply(struct carrier *carrier, natsMsg *to, const char *line, size_t size);
/* Tells a server that keeps a packet that the node has it on disk, or has refused it, which is as good. */
void acknowledge(struct carrier *carrier, natsMsg *packet);
/* Takes a caller's line once more, as if it came now. It had its place before, and takes none from those that come. */
void carrier_again(struct carrier *carrier, natsMsg *text);
/* Keeps messages that are done with, without their texts, for those that come. */
void carrier_spare(struct carrier *carrier, struct message *batch);
/* Takes a message back that was elsewhere meanwhile. */
void carrier_back(struct carrier *carrier, struct message *one);
/* The sender that a packet's subject names, in `sender`; false where the subject is no packet's. */
bool sender_of(const char *node, const char *subject, char sender[9]);
/* Takes no more messages; those that had come wait in the list when it returns. */
void carrier_stop(struct carrier *carrier);
void carrier_close(struct carrier *carrier);

/* The syncs of a log by a thread of their own (syncs.c), one at a time. Who begins one has appended what it is for; `syncs_ended` is true once
   behind each that has ended, and with `waits` where one is under way. A failure ends the process there, so nothing is told behind it. */
struct syncs *syncs_start(struct log *log, struct carrier *carrier);
/* The same of a log of a range, by threads that all its logs share. They are stopped with the pool, and not with the syncs of one log. */
struct sync_pool *sync_pool_start(int count);
void sync_pool_stop(struct sync_pool *pool);
struct syncs *syncs_in(struct sync_pool *pool, struct log *log, struct carrier *carrier);
void syncs_begin(struct syncs *syncs);
bool syncs_ended(struct syncs *syncs, bool waits);
void syncs_stop(struct syncs *syncs);

/* Those who wait for answers of a node of a range, and of which node they are looked at from now on. */
struct waits *waits_made(void);
void waits_for(struct waits *waits);
/* How many callers may wait for answers, whatever else waits. */
#define MOST_WAITS 65536

/* Whether a caller's line is `wait NUMBER`; it asks for the answer to an entry, and is replied to once there is one. */
bool is_wait(const struct message *one);
/* Notes that who sent such a line waits, and keeps its text; false where too many do. */
bool waits_add(struct message *one);
/* Whether anybody waits for an entry. */
bool waits_has(uint64_t number);
/* An entry has its answer, in this line: it is replied to who waited for it, and they wait no more. */
void waits_told(struct carrier *carrier, uint64_t number, const char *line, size_t size);
/* An entry has its answer: the lines of who waited for it are served in the next turn. */
void waits_settled(struct carrier *carrier, uint64_t number);

/* Says that a message was refused or lost, and why: who sent it, and which claim it is of, where it says that. */
void say_refused(const struct message *one, const char *node, const char *level, const char *what, const char *reason);

/* Packets of a tick, which go out spread over the time until the next one. */
struct later {
    struct bytes packets;
    size_t sent, count, gone;
    double start, seconds;
};

void later_add(struct later *later, const char *to, size_t to_size, const char *text, size_t size);
/* Has what was added go out from now on, over so many seconds. */
void later_begin(struct later *later, double seconds);
/* Sends what is due, or all; how many seconds until more is. */
double later_send(struct later *later, struct carrier *carrier, bool all);

/* Requests that go out or went out a moment ago: the same once more may be lost, as a packet may be. One that did not go is forgotten. */
bool held_is(double seconds, const struct message *one);
void held_went(double seconds, const struct message *one);
void held_forget(const struct message *one);

/* A payer's own system: where it is, how TCP frames messages, who is trusted, a file with a token; how long it may take, and how many
   requests may be under way. */
struct rules_given {
    const char *url, *tcp, *framing, *authorities, *token;
    double wait, most;
};

/* What a command line asks for. `log` is NULL of a switch that has none; `kept` says where a log is kept: in a file alone, or in a stream as
   well; `of_log` is a word that was given and is about a log. */
struct given {
    const char *settings, *name, *log, *watch, *kept, *machine, *keys, *of_log;
    /* The pharmacies of a range, whose logs are in the folder `log`; both are 0 where there is one node. */
    unsigned first, last;
    struct access access;
    struct rules_given rules;
    double tick, hold_back, patience, part, copies, reserve, at_least;
    bool says, is_stream;
};

/* Ends the process where the words are none. */
struct given words(int count, char **word);

/* A node among its carrier and its times; who may come to have its log, where that is in a stream. */
struct host {
    struct given given;
    struct served node;
    struct carrier *carrier;
    struct candidate *candidate;
    struct rules *rules;
    struct keys *keys;
    volatile sig_atomic_t *is_stopping;
    struct bytes line;
    struct later later;
    /* NULL where a turn waits for its sync. Of the records that are not known to be on disk, so many bytes were appended, and so many of those the
       sync under way is for; when the next is to begin, 0 where nothing wants one. */
    struct syncs *syncs;
    size_t appended, syncing;
    double sync_due;
    /* When all was on disk the last time, and whether no more is served until it is. */
    double settled_at;
    bool is_settling;
    /* The messages of which not all was told, in order. */
    struct message *first, **last;
    size_t waiting;
    double next_tick, next_word, next_open;
    /* The entries or rows of the node as the last turn left them, behind so many calls; the most of them; how many are kept for reversals. */
    uint64_t rows, rows_calls, most, reserve;
    /* How many calls the log has on disk, and how many messages were served since the rows were counted. */
    uint64_t calls, served_since;
    /* The operator who has the log moved, and where replies of calls went since another host hears them too, each behind a space. */
    natsMsg *mover;
    struct bytes served;
    bool has_moved;
};

/* Learns how much room the node has, once it is open. */
void reserve_begin(struct host *host);
/* Learns how many rows the node has behind a turn. */
void reserve_count(struct host *host);
/* Marks the messages of a turn for which no room is left but the reserve. */
void reserve_mark(struct host *host, struct message *batch);

/* Serves a message, or refuses it; where it was served, the next last line is for it. What has happened where one was refused. */
void host_serve(struct host *host, struct message *one);
const char *what_refused(const struct message *one);
/* Tells what may be told; of how many messages. Lets those go of which all is told, and tells who waits for an answer that a payer gave. */
size_t host_tell(struct host *host);
void host_let_go(struct host *host);
void host_tell_heard(struct host *host, const struct message *batch);
/* Learns what a node has, once it is open: its room, its calls and rows, and which entries are open. A log of fewer calls than are known is refused. */
void host_learn(struct host *host);
/* Says of a pharmacy which entry has been open longest, where that is long. */
void host_tell_open(struct host *host);
/* Serves all nodes of a range until it is told to end (range.c); the status. */
int range_serve(const struct given *given, volatile sig_atomic_t *is_stopping);
/* A number from 0 to 1, the same for nobody. */
double chance(void);
/* One turn: all that waits is served and appended, and what came of it is told once it is on disk, in this turn or in a later one. */
void turn(struct host *host, struct message *batch, bool is_tick);
/* Has all on disk that was served, and tells what came of it. */
void host_settle(struct host *host);
/* In how many seconds a sync is to begin; a turn does it. */
double sync_wait(const struct host *host);
/* So many words at most are few: what a turn has said leaves at once then. */
#define FEW_WORDS 32
/* Whether more messages are to be served now: not where many wait for their syncs, nor where all is to be on disk for once. */
bool takes_more(const struct host *host);

/* What hosts/torture builds in: a death, behind what was said on a connection or NULL; packets that are taken from the way, or late. */
#ifdef TORMENTED
void torment(natsConnection *said);
void torment_late(natsConnection *connection);
bool torment_packet(natsConnection *connection, const char *subject, const char *text, size_t size, const char *signature);
#else
#define torment(said) ((void)0)
#define torment_late(connection) ((void)0)
#define torment_packet(connection, subject, text, size, signature) false
#endif

/* Serves /metrics, /healthz and /readyz at ADDRESS:PORT, by a thread of its own; of a range also /metrics?node=NODE, all of one node. */
void watch_start(const char *at, const char *node, const char *log);
void watch_range(const char *at, const char *range, const struct counted *nodes, size_t count);
/* Tells systemd one thing, as READY=1, where it listens. */
void service_tell(const char *what);

#endif
