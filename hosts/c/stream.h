/*
** A node's log in a stream of NATS JetStream, of which several servers have a copy: the engine and its replies (engine.c), appends
** behind a fence (stream.c), what a message of the log carries (entry.c), what this machine has seen of the log (seen.c), its own copy
** (copy.c), who has the log (beats.c), how a host comes to have it (candidate.c) or is handed it (move.c), and its node meanwhile
** (warm.c).
**
** A message carries bytes of the log, or none, and in its headers where they begin (Log-At), the SHA-256 digest of the whole log up to
** their end (Log-Digest), who sent it (Log-Owner), and the sequence that it stands behind (Nats-Expected-Last-Sequence): the servers
** take it there or not at all, and look at that when they apply it, one message after another. The sequence of the subject alone is no
** such fence: it is looked at before, and two of two were taken. The first message is the operator's who made the log; its Log-Owner is
** what tells this log from any other of its name. A message without bytes claims the log, or shows that its sender still has it.
*/
#ifndef STREAM_H
#define STREAM_H
#include "node.h"

#define DIGEST_TEXT 65
#define OWNER_TEXT 80
/* The head of a log, and what stands before and behind the body of a record. */
#define HEAD_OF_LOG 46
#define BEFORE_BODY 16
#define BEHIND_BODY 8

/* SHA-256 of bytes that come one after another; the text is that of those so far. */
struct digest {
    uint32_t state[8];
    uint64_t size;
    unsigned char block[64];
};

void digest_begin(struct digest *digest);
void digest_add(struct digest *digest, const void *bytes, size_t size);
void digest_text(const struct digest *digest, char text[DIGEST_TEXT]);

/* A place in a log: how many bytes stand before it, and their digest. */
struct place {
    uint64_t size;
    struct digest digest;
};

/* A connection to the servers for the log alone, and the inbox to which replies come, each under a number of its own. */
struct engine {
    natsConnection *connection;
    natsSubscription *replies;
    char inbox[64];
    uint64_t number;
    volatile bool is_closing;
};

/* False where the host is told to end before there is a server. */
bool engine_open(struct engine *engine, const char *node, const struct access *access, volatile sig_atomic_t *is_stopping);
/* Sends a message, whose reply is to come under the number that is told; false where there is no server now. */
bool engine_send(struct engine *engine, natsMsg *message);
natsMsg *engine_message(struct engine *engine, const char *subject, const char *bytes, size_t size);
/* The reply under the last number, as it comes within so many seconds, or NULL. A server that knows no leader is passed over. */
natsMsg *engine_reply(struct engine *engine, double seconds);
void engine_close(struct engine *engine);
/* The number behind a key of a reply, or 0; and the code of its error, or 0. */
uint64_t reply_number(const char *reply, const char *key);
uint64_t reply_error(const char *reply);

/* What a message of a log carries. */
struct entry {
    uint64_t sequence, at;
    char digest[DIGEST_TEXT], owner[OWNER_TEXT];
    struct bytes bytes;
};

/* Reads a message out of the engine's reply; false where no host made it. */
bool entry_of(const char *reply, struct entry *entry);
void entry_free(struct entry *entry);

/* What became of a message that was to be appended, and of one that was asked for. */
enum appended { TAKEN, REFUSED_LATER, REFUSED_EARLIER, NOT_SENT };
enum found { FOUND, NOT_THERE, NO_STREAM, NO_WORD };

/* A log in its stream, as its owner or a stand-by knows it. */
struct stream {
    struct engine engine;
    const char *node;
    char name[24], subject[24], owner[OWNER_TEXT];
    /* The sequence of the last message that this host knows, and how many bytes one message carries at most. */
    uint64_t last;
    size_t part;
    /* Called several times a second while a word is awaited: whether to go on waiting. */
    bool (*waits)(void *closure);
    void *closure;
};

void stream_begin(struct stream *stream, const char *node, const char *machine, size_t part);
/*
** Appends bytes that stand at a place, or none, behind the last message, in as many messages as they want, and waits for each until the
** servers have said what became of it: without a word the same message is sent again. The place goes on where they were taken.
** NOT_SENT: the host was told to end, and no word came.
*/
enum appended stream_append(struct stream *stream, struct place *place, const char *bytes, size_t size);
/* Asks for a message by its sequence. */
enum found stream_read(struct stream *stream, uint64_t sequence, struct entry *entry);

/* What a machine has seen of a log, beside its file: the name of its stream's first message, and the last message behind which its
   file had all records whole. `vouched`: its end is known to this machine, so it may take over. */
struct seen {
    char made[OWNER_TEXT], digest[DIGEST_TEXT];
    uint64_t sequence, size;
    bool vouched;
};

/* Opens LOG.seen, and reads it; false where it is not there, or is none. */
bool seen_open(int *file, const char *log, struct seen *seen);
void seen_write(int file, const struct seen *seen);

/*
** This machine's copy of a log: a file that has the stream's records, as far as they came whole. It has no byte that the servers have not
** said to have, so it never has to be cut but for what a crash of this machine left of a write.
*/
struct copy {
    struct stream *stream;
    struct log *log;
    /* The node whose records are made anew once they are on disk, and those that it has not made. */
    struct served *node;
    struct bytes unmade;
    int seen_file;
    struct seen seen;
    /* What this machine had seen where its file has less than that: the log is read anew, and is known to its end once it comes to this. */
    struct seen known;
    /* Behind the last whole record; then what has come of the next one; and how many bytes the file has. */
    struct place whole;
    struct bytes pending;
    uint64_t file_size;
    bool is_unsynced;
    /* Called once the servers have what was appended, and once this machine has it; there others' copies are asked for, and waited for. */
    void (*is_taken)(void *closure);
    void (*is_kept)(void *closure);
    void *closure;
};

/* Looks at the file and at what was seen; ends the process where the file is not what it was. */
void copy_open(struct copy *copy, struct log *log, struct stream *stream);
/* Takes the next message of the stream into the file; or says why it does not fit what this machine has, and takes nothing of it. */
const char *copy_take(struct copy *copy, const struct entry *entry);
/* Has on disk what was taken, and notes how far that is. */
void copy_sync(struct copy *copy);
/* Has the node make the records that were taken. */
void copy_make(struct copy *copy);
/* Appends records to the stream, and then to the file: one that returns has them on the servers and on this machine's disk. It ends the
   process where another host has the log. Without records it shows that this host has the log still. */
void copy_append(struct copy *copy, const char *records, size_t size);
/* Notes the last message behind which all is whole. */
void copy_note(struct copy *copy, uint64_t sequence);
/* Ends the process for what became of a message that was not taken. */
_Noreturn void end_refused(const struct stream *stream, enum appended became);

/* What another host that has the log said last, and when. */
struct heard {
    uint64_t sequence;
    double heard;
    bool leaves, wants, is_new;
};

/* What hosts say of a log: this one has it; it has it, and wants to hear who follows; it follows it, has so much on its disk, and knows its
   end; it leaves it. An operator: its end is here. And for a move to one of them: it is to have the log; it hears the node's callers; these
   calls were served. */
enum beat { BEAT_HAS, BEAT_WANTS, BEAT_FOLLOWS, BEAT_LEAVES, BEAT_VOUCHES, BEAT_MOVES, BEAT_READY, BEAT_SERVED };

/* A host that follows, how far, and when it said so. */
struct followed {
    char owner[OWNER_TEXT];
    uint64_t sequence;
    double heard;
};

/* What others say of a log, and what this host says. */
struct beats {
    pthread_mutex_t lock;
    pthread_cond_t came;
    natsConnection *connection;
    natsSubscription *subscription;
    const char *self;
    char subject[32];
    struct heard has;
    bool is_vouched;
    uint64_t vouched, copied;
    double said, followed;
    struct followed follows[MOST_FOLLOWERS];
    /* The host that follows last; who moves the log to this one, whether that has handed it over, and where replies of calls that it
       served went, a space before each; whether the host to which this one moves it hears the node's callers. */
    char follower[OWNER_TEXT], mover[OWNER_TEXT];
    struct bytes served;
    bool is_handed, is_ready;
};

void beats_open(struct beats *beats, const struct stream *stream);
struct heard beats_heard(struct beats *beats);
/* The last sequence that a host which has the log told of. */
uint64_t beats_told(struct beats *beats);
/* Counts anew from now on how long nobody was heard. */
void beats_forget(struct beats *beats);
/* Whether somebody has told of the log's end, and it is not behind this sequence. */
bool beats_vouch(struct beats *beats, uint64_t sequence);
/* The hosts that follow, by their machines, and how far each is behind this sequence; how many they are. */
int beats_followers(struct beats *beats, uint64_t sequence, struct follower follower[MOST_FOLLOWERS]);
/* Whether another host has on its disk what stands up to this sequence. */
bool beats_copied(struct beats *beats, uint64_t sequence);
/* Whether nobody has told of a later sequence. */
bool beats_level(struct beats *beats, uint64_t sequence);
/* Tells one host something, and more. */
void beats_tell(struct beats *beats, enum beat beat, uint64_t sequence, const char *whom, const char *more);
/* Waits until something is heard, or so many seconds. */
void beats_wait(struct beats *beats, double seconds);
/* Waits until something is heard, or so many seconds, unless another host has so much on its disk. */
void beats_wait_copied(struct beats *beats, uint64_t sequence, double seconds);
/* Says something, unless that was done less than so many seconds ago. */
void beats_say(struct beats *beats, enum beat beat, uint64_t sequence, double every);
void beats_close(struct beats *beats);

/* A host that may come to have the log, or has it. */
struct candidate {
    struct stream stream;
    struct copy copy;
    struct beats beats;
    volatile sig_atomic_t *is_stopping;
    double patience, looked, level, next_word, stopping;
    bool owns, is_told, has_copies;
    /* Whether what the servers showed last is not what this machine has: their copies may differ, or one of them is of another log. Such a
       host goes on looking, takes no log over and counts for nobody's copy. `said_differs`: when that was said. */
    bool differs;
    double said_differs;
    /* Who sent the last message that was read, and whether that is another than before. */
    char owner[OWNER_TEXT];
    bool is_new_owner;
    /* Called where the log is to be moved to this host: it is to hear the node's callers from then on, or no more. */
    void (*hears)(void *closure, bool is_called);
    void *closure;
    double called;
};

/* Connects, and looks at what this machine has; false where the host is told to end before that is done. */
bool candidate_open(struct candidate *candidate, const struct given *given, struct log *log, volatile sig_atomic_t *is_stopping);
/* Follows the log until this host has it; false where it is told to end before. */
bool candidate_own(struct candidate *candidate);
/* Sees that this host has the log still, and says so; ends the process where another has it. */
void candidate_look(struct candidate *candidate);
/*
** The log is moved to another host without a call being lost, or made twice: that host hears the node's callers first; this one hears no
** more, serves what came, and says which calls it served since the other heard them too; then it leaves. move_begin is for the owner: the
** host to which it moves, once that hears the callers, or NULL. move_end hands over; `served` is where the replies went.
*/
const char *move_begin(struct candidate *candidate);
void move_end(struct candidate *candidate, const char *whom, const struct bytes *served);
/* For the other host: begins to hear the callers where it is asked to, and ceases where nothing came of it. */
void move_look(struct candidate *candidate);
/* Whether the calls that came meanwhile are to be served, but for those that were: the log was handed over. */
bool move_is_handed(struct candidate *candidate);
bool move_was_served(struct candidate *candidate, const char *reply);
/* For the other host, once it has the log: after some seconds no call comes any more that both heard. */
void move_took(struct candidate *candidate);

/* Tells others that the log is free, where this host had it. */
void candidate_leave(struct candidate *candidate);

#endif
