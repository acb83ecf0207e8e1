/*
** One node of the network in your own process: a pharmacy, a switch or a payer, with its log.
**
** The library keeps the node and does what lines ask of it. It reads and writes no file, opens no socket, starts no thread and
** never waits: your program has the log's file and whatever carries the packets. A node is its log: one that is opened from the
** bytes of a log has made every call of it anew, and sent every byte that the log has as sent.
**
** A turn of a host:
**
**     vogrilas_serve(&node, line, size);      as often as lines are there
**     vogrilas_records(&node, ..);            append these bytes to the log's file, and sync it
**     vogrilas_kept(&node, size);             say that so many bytes are on disk
**     vogrilas_written(&node, ..);            send and answer what stands here
**     vogrilas_clear(&node);
**
** What a node tells before its records are on disk, a crash takes back: two answers to one claim, or a payment that nobody has
** made. So the node waits for your word: from vogrilas_open(), and from each call that it makes, until vogrilas_kept() has said
** that all is on disk, every call that tells of the node says VOGRILAS_UNSYNCED and tells nothing, but for two: vogrilas_heard(), whose
** answers a crash takes back for no one, and vogrilas_written(), which tells of each call as soon as the records of it and of all
** before it are on disk. So a host may serve and append while it syncs what came before. docs/DEPLOYING.md says what a host owes, docs/FORMATS.md has the lines, and examples/embed a
** whole host. bindings/make lays out the library: link lib/libvogrilas.a, or -lvogrilas.
**
** The calls, by what they are for:
**
**     settings      vogrilas_open_settings, vogrilas_open_under, vogrilas_close_settings: for many nodes in one process
**     a node        vogrilas_open, vogrilas_serve, vogrilas_submit, vogrilas_take, vogrilas_adjudicate, vogrilas_records,
**                   vogrilas_records_after, vogrilas_kept, vogrilas_written, vogrilas_clear, vogrilas_close
**     what it has   vogrilas_calls, vogrilas_count, vogrilas_most, vogrilas_request, vogrilas_answer, vogrilas_heard, vogrilas_payments
**     messages      vogrilas_make_billing, vogrilas_make_reversal, vogrilas_describe
**     no node       vogrilas_print, vogrilas_unprint, vogrilas_audit, vogrilas_version
**
** All memory is the caller's, apart from a node's own, which vogrilas_close() gives back: what a call tells it copies into a
** buffer that is lent for the call alone. Where the buffer is too short, it says VOGRILAS_SHORT_BUFFER and how much is wanted.
**
** What is proved, of the code that the library is compiled from: each call says a code for the cause that stands here, and makes
** of the node and of what it is lent what stands here beside that code, for every settings, log, line and message; and it is safe:
** it never reads or writes outside what it is lent, never frees twice, and returns. Where something is tested and not proved, the
** call's own words say so. Not proved is the compiler, nor that this header says the same as the exports of crates/vogrilas_c
** (tests/library compares names, parameters, codes and layouts), nor what the caller owes:
**
**   - What vogrilas_kept() is told is true: the bytes stand at the end of the log's file, whole and in order, and a sync of the
**     file has succeeded since; of a new file also a sync of its folder. Nobody else writes the file.
**   - A node begins as VOGRILAS_NODE_INIT (zeros), settings as VOGRILAS_SETTINGS_INIT, and from then on only the library changes them.
**     Each may be moved to another place by copying its bytes, if the old place is not used again.
**   - One call at a time for each node, and for each handle of settings, the one that vogrilas_open_under() is given among them.
**     Different nodes may be in calls of different threads at the same time, also those that share settings, and a node or
**     settings may go from one thread to another, if a lock, or the start or the end of a thread, stands between their calls.
**   - Pointers are never NULL, also where a size is 0, and lead to so much memory as the size says. What a call writes to does
**     not overlap anything else that it is lent.
**   - malloc, realloc and free are one allocator's, and align as the C standard asks. No call is made in a signal handler, nor
**     in the child that a process with threads has forked.
*/
#ifndef VOGRILAS_H
#define VOGRILAS_H

#include <stdbool.h>
#include <stddef.h>
#include <stdint.h>
#include <string.h>

#ifdef __cplusplus
extern "C" {
#endif

/* The version of this header, as vogrilas_version() tells that of the library. */
#define VOGRILAS_VERSION 8000

/*
** What a call says: VOGRILAS_OK, or why it was not made. A call that was not made has changed nothing, apart from what its
** own words say. VOGRILAS_NO_MEMORY may stand in place of any other answer.
*/
typedef uint32_t vogrilas_code;

enum {
    VOGRILAS_OK = 0,
    VOGRILAS_NO_MEMORY = 1,       /* memory was refused */
    VOGRILAS_CLOSED = 2,          /* there is no node behind the handle, or there are no settings behind theirs */
    VOGRILAS_OPEN = 3,            /* there is one already, or there are some */
    VOGRILAS_SHORT_BUFFER = 4,    /* the buffer is too short; the size that is wanted is told */
    VOGRILAS_NAME = 5,            /* the name is none: ph, sw or pr and a number, as ph1 */
    VOGRILAS_SETTINGS = 6,        /* the settings are none, or open no world */
    VOGRILAS_NO_SUCH_NODE = 7,    /* the settings have no such node */
    VOGRILAS_OTHER_NODE = 8,      /* the log is another node's */
    VOGRILAS_NOT_A_LOG = 9,       /* the bytes do not begin as a log does */
    VOGRILAS_LOG_VERSION = 10,    /* the log is of another version */
    VOGRILAS_DAMAGED_HEAD = 11,   /* the head of the log is damaged */
    VOGRILAS_NO_KIND = 12,        /* the log is of no kind of node */
    VOGRILAS_OTHER_SETTINGS = 13, /* the log is of other settings */
    VOGRILAS_DAMAGED = 14,        /* a record of the log is damaged; its place is told */
    VOGRILAS_BAD_RECORD = 15,     /* a record of the log is no call that the node makes; its place is told */
    VOGRILAS_BAD_TEXT = 16,       /* a text spells no bytes; the place is told */
    VOGRILAS_UNANSWERED = 17,     /* the entry is open: it has no answer yet */
    VOGRILAS_NOT_FOUND = 18,      /* there is no such entry, slot or row */
    VOGRILAS_NO_RUN = 19,         /* the logs are those of no legal run */
    VOGRILAS_UNSYNCED = 20,       /* the host has not said that all is on disk: this is not told */
    VOGRILAS_TOO_MANY = 21,       /* more bytes are said to be on disk than there are records */
    VOGRILAS_FIELD_EMPTY = 22,    /* a field has no byte; its number is told here and below */
    VOGRILAS_FIELD_TOO_LONG = 23, /* a text has more bytes than its field, or a number more digits */
    VOGRILAS_FIELD_SEPARATOR = 24, /* a separator of the message stands in a text */
    VOGRILAS_FIELD_SPACE = 25,    /* a text ends in a space, which would not come back */
    VOGRILAS_FIELD_DIGITS = 26,   /* just so many digits are wanted */
    VOGRILAS_FIELD_DAY = 27,      /* the calendar has no such day */
    VOGRILAS_NOT_A_REST = 28      /* what the log's file begins with, after closed logs, is no rest of this node */
};

/* The words for a code, for people. */
static inline const char *vogrilas_code_text(vogrilas_code code) {
    switch (code) {
    case VOGRILAS_OK: return "ok";
    case VOGRILAS_NO_MEMORY: return "out of memory";
    case VOGRILAS_CLOSED: return "there is no node behind the handle";
    case VOGRILAS_OPEN: return "the handle has a node already";
    case VOGRILAS_SHORT_BUFFER: return "the buffer is too short";
    case VOGRILAS_NAME: return "the name is no node's";
    case VOGRILAS_SETTINGS: return "settings refused";
    case VOGRILAS_NO_SUCH_NODE: return "the settings have no such node";
    case VOGRILAS_OTHER_NODE: return "the log is another node's";
    case VOGRILAS_NOT_A_LOG: return "not a log";
    case VOGRILAS_LOG_VERSION: return "the log is of another version";
    case VOGRILAS_DAMAGED_HEAD: return "the head of the log is damaged";
    case VOGRILAS_NO_KIND: return "the log is of no kind of node";
    case VOGRILAS_OTHER_SETTINGS: return "the log is of other settings";
    case VOGRILAS_DAMAGED: return "a record of the log is damaged";
    case VOGRILAS_BAD_RECORD: return "a record of the log is no call of the node";
    case VOGRILAS_BAD_TEXT: return "the text spells no bytes";
    case VOGRILAS_UNANSWERED: return "the entry has no answer yet";
    case VOGRILAS_NOT_FOUND: return "there is no such entry";
    case VOGRILAS_NO_RUN: return "no legal run";
    case VOGRILAS_UNSYNCED: return "not all is on disk";
    case VOGRILAS_TOO_MANY: return "more bytes than there are records";
    case VOGRILAS_FIELD_EMPTY: return "the field is empty";
    case VOGRILAS_FIELD_TOO_LONG: return "the field is too long";
    case VOGRILAS_FIELD_SEPARATOR: return "a separator stands in the field";
    case VOGRILAS_FIELD_SPACE: return "the field ends in a space";
    case VOGRILAS_FIELD_DIGITS: return "the field has to be digits";
    case VOGRILAS_FIELD_DAY: return "the field is no day";
    case VOGRILAS_NOT_A_REST: return "what the log begins with is no rest of this node";
    default: return "no code of this version";
    }
}

/* A node, or none. Its fields are the library's own. */
typedef struct vogrilas_node {
    void *at;
    bool held;
} vogrilas_node;

/* What a node is at first. */
#define VOGRILAS_NODE_INIT { NULL, false }

/* Settings, or none. Their fields are the library's own. */
typedef struct vogrilas_settings {
    void *at;
    bool held;
} vogrilas_settings;

/* What settings are at first. */
#define VOGRILAS_SETTINGS_INIT { NULL, false }

/*
** The version of the library: 1000000 * first + 1000 * second + third. It is VOGRILAS_VERSION where library and header
** belong together.
*/
uint32_t vogrilas_version(void);

/*
** Opens a node: `settings` are the bytes of a settings file, `name` is as "ph1", `log` has all bytes of the log's file, none
** where there is no file yet. The file may be one that goes on after closed ones, as `claimnode --turn` leaves it: then the node
** begins with what it left at rest, which stands in the file before the log. `seed` has 16 bytes that nobody can guess, as getentropy() draws them: the maps of a payer hash
** with them, so that nobody can choose prescription numbers that make it slow. Of fewer bytes the rest count as zeros, and of
** more the first 16 count. It is proved that no code, no answer and no record hangs on the seed; what the hashes are is not.
**
** VOGRILAS_OK: the node made each call of the log anew, and sent every byte that the log has. *kept is how many bytes of the
** file stay, with those before the log: behind them stand zeros, or a record that a crash has cut off, so cut the file there. vogrilas_records() has the
** head of a log that begins, and nothing of another: append it before anything else. Nothing is to be written. An earlier process
** may have ended before its last sync, so sync the file and its folder, then call vogrilas_kept(), also where there is no head:
** until then the node is VOGRILAS_UNSYNCED.
**
** Any other code: the handle is as it was. The first cause that stands is told, in this order: VOGRILAS_OPEN; VOGRILAS_NAME;
** VOGRILAS_SETTINGS; VOGRILAS_NO_SUCH_NODE; VOGRILAS_NOT_A_REST, what stands before the log is damaged, or of another node or of
** other settings; what is wrong with the log's bytes, the first from their start (VOGRILAS_NOT_A_LOG, also of a file that ends before
** the rest does that it begins with; VOGRILAS_LOG_VERSION, VOGRILAS_DAMAGED_HEAD, VOGRILAS_NO_KIND, VOGRILAS_OTHER_SETTINGS,
** VOGRILAS_DAMAGED, VOGRILAS_BAD_RECORD); VOGRILAS_OTHER_NODE; VOGRILAS_BAD_RECORD where the node does not make the log. *kept is the
** place in the file of the faulty record at VOGRILAS_DAMAGED and VOGRILAS_BAD_RECORD, from 0, and unchanged at the others. A damaged
** log is never cut: set it aside, and look at it.
*/
vogrilas_code vogrilas_open(vogrilas_node *node, const void *settings, size_t settings_size, const void *name,
                            size_t name_size, const void *log, size_t log_size, const void *seed, size_t seed_size,
                            size_t *kept);

/*
** Opens settings once for any number of nodes: `text` are the bytes of a settings file, and `seed` is as of vogrilas_open(), for all
** nodes that are opened under them. What nodes of the same settings have in common is made here, and is in memory once.
**
** VOGRILAS_OK: there are settings. Any other code: the handle is as it was, and the first of these stands: VOGRILAS_OPEN, there are
** some already; VOGRILAS_SETTINGS, the text spells none, or those that open no world.
*/
vogrilas_code vogrilas_open_settings(vogrilas_settings *settings, const void *text, size_t text_size, const void *seed, size_t seed_size);

/*
** Opens a node as vogrilas_open() does, under settings that were opened before: node, codes, *kept, and what is to be done next are those of
** vogrilas_open() with the text that the settings were opened from, which is proved, and this costs no more than the node's own
** memory and the walk over its log. VOGRILAS_CLOSED: there are no settings; then nothing has changed. The settings are as they were at each code.
*/
vogrilas_code vogrilas_open_under(vogrilas_node *node, vogrilas_settings *settings, const void *name, size_t name_size, const void *log,
                                  size_t log_size, size_t *kept);

/*
** Lets settings go. Nodes that were opened under them stay, and go on as they did: the last of all who share them gives their memory
** back, in the thread that lets it go. A handle without settings stays as it is, so a second close does nothing.
*/
void vogrilas_close_settings(vogrilas_settings *settings);

/*
** Does what a line asks, and adds to the records and to what was written. A line has no newline at its end:
**
**     submit TEXT            of a pharmacy: enters a request, and sends it
**     submit-as NAME TEXT    the same once for each name, which is 1 to 64 bytes, printed, and a space in it \x20
**     tick                   of a pharmacy: time goes on, and what is due is sent again
**     take FROM TEXT         a packet has come from this node
**     adjudicate FROM ADVICE TEXT    of a payer that asks: the same, with its own system's answer to the request in the packet
**     plan PRODUCT PRICE     of a payer: another price
**     terms FEE COPAY        of a payer: another fee and another copay, in cents
**     retry SWITCHES AGAIN TRIES    of a pharmacy: the switches that it tries in turn, as sw1,sw3; after how many ticks an entry is
**                            sent again, and how often to one switch
**     cap ENTRIES            of a switch that is stopped: how many slots its table has at most, from its next start on
**     stop / start           the node stops, and starts again from what it keeps
**     answer NUMBER          of a pharmacy: what is known of this entry
**
** TEXT is printed bytes, as vogrilas_print() writes them; ADVICE too, but a space in it is \x20. All but `answer` may stand behind `at TIME`, in milliseconds as the host
** counts them: the record of the call has it then. What is written, each on a line:
**
**     send TO TEXT           a packet for this node. `take OWN TEXT` is the line that it is there, with the sender's name
**     number N               the call was made, and its entry has this number (submit)
**     ok                     the call was made (tick, take, adjudicate, plan, terms, retry, cap, stop, start)
**     known N                the name has an entry already, of this request and with this number: nothing has changed
**     idle                   a tick without an open entry: nothing has changed, and there is no record
**     answer TEXT / open / none      to the question
**     refused NAME           the call was not made, and nothing has changed; `refused Line`: the line asks nothing
**
** VOGRILAS_OK: the line was served. VOGRILAS_CLOSED: there is no node. VOGRILAS_NO_MEMORY: there is no node any more, for
** it may have made the call and have no record of it. What was not yet on disk is lost, and nobody has heard of it: open the
** node again from its log.
*/
vogrilas_code vogrilas_serve(vogrilas_node *node, const void *line, size_t line_size);

/*
** Serves the line `submit TEXT` of these very bytes, or the line `take FROM TEXT`: for callers that have bytes and no text. The
** number of the entry is in what is written, once it is on disk: vogrilas_number_in() reads it.
** The codes are those of vogrilas_serve(), and VOGRILAS_NAME where `from` is no node's name; then nothing has changed.
*/
vogrilas_code vogrilas_submit(vogrilas_node *node, const void *request, size_t request_size);
vogrilas_code vogrilas_take(vogrilas_node *node, const void *from, size_t from_size, const void *packet, size_t packet_size);

/*
** Serves the line `adjudicate FROM ADVICE TEXT` of these very bytes, at a payer whose settings ask: the packet is taken together
** with an advice, the bytes of the answer (as of D.0) that the payer's own system has given to the request in it. The book enters
** what the advice says of each claim that is to be priced; what the book knows by itself (a number that it has answered, a
** duplicate, a fill that is paid, every reversal) it answers without looking at the advice, so a host may give one at once, or
** first vogrilas_take() the packet, and ask its system where that is `refused NotAdvised`.
**
** What is written is that of `take`. `refused NotAdvised`: the advice says of a claim neither paid nor rejected, since it is no
** answer, is one of other places, has amounts out of their range, or says something else there. `refused NotAsked`: this payer's
** settings do not ask. Nothing has changed at both, and the log has no record of it.
** The codes are those of vogrilas_take().
*/
vogrilas_code vogrilas_adjudicate(vogrilas_node *node, const void *from, size_t from_size, const void *packet,
                                  size_t packet_size, const void *advice, size_t advice_size);

/*
** Copies what is to be appended to the log, and synced: the records that vogrilas_kept() has not said to be on disk.
**
** VOGRILAS_OK: the bytes stand at the start of the buffer, and *size is how many they are. VOGRILAS_SHORT_BUFFER: *size is
** how many they are, and the buffer is unchanged; ask again with more room. VOGRILAS_CLOSED: there is no node, and buffer and
** *size are as they were.
*/
vogrilas_code vogrilas_records(vogrilas_node *node, void *buffer, size_t room, size_t *size);

/*
** Copies what comes after the first `passed` bytes of that, nothing where there are no more: for a host that has appended those and waits
** for their sync, and appends these meanwhile. The codes are those of vogrilas_records().
**
** Two syncs on the way, of a host that syncs by a thread of its own; `appended` and `syncing` are 0 at first:
**
**     vogrilas_records_after(&node, appended, ..);  append these bytes; appended += size
**     where no sync is under way:                   syncing = appended; begin one
**     vogrilas_serve(&node, line, size); ..         as before, while it is under way
**     where it has ended well:                      vogrilas_kept(&node, syncing); appended -= syncing
**     vogrilas_written(&node, ..);                  what stands here may be sent: that of the calls before the sync
**     vogrilas_clear(&node);
*/
vogrilas_code vogrilas_records_after(vogrilas_node *node, size_t passed, void *buffer, size_t room, size_t *size);

/*
** Says that so many bytes of the records are on disk: appended to the log's file, the first of what vogrilas_records() copies, and
** synced with all that stands in the file before them. The node never asks; whatever it promises of crashes stands on this word.
**
** VOGRILAS_OK: vogrilas_records() has what is left, and where nothing is, the node tells again what it has; vogrilas_written() has the
** words of the calls whose records these were. A host that appends in pieces says each piece; one that has no records says 0, which is what a node wants that was just opened. VOGRILAS_TOO_MANY: there
** are fewer records. VOGRILAS_CLOSED: there is no node. Nothing has changed at both.
*/
vogrilas_code vogrilas_kept(vogrilas_node *node, size_t size);

/*
** Copies what came of the lines, as far as it may be told: in order, the words of the lines from the first on, up to one that waits. A
** line waits until vogrilas_kept() has said so of all records that there were once it was served, its own and those before it. Where all is
** on disk that is all of it.
**
** Codes, buffer and *size are as of vogrilas_records(), and VOGRILAS_UNSYNCED: no word may be told, since vogrilas_kept() was not called
** since vogrilas_open(), or there are records that are not on disk, and every line waits for some. Then buffer and *size are as they were.
*/
vogrilas_code vogrilas_written(vogrilas_node *node, void *buffer, size_t room, size_t *size);

/*
** The number of the entry that a submission made, or made before under its name, in what was written: of the first line from *place
** on that served a call, which *place is behind then. 0: that call was refused, or was no submission, or no line is left. So behind
** one vogrilas_submit(), and from place 0, it is the entry's number, and behind several it gives them one by one. Tested, not proved.
*/
static inline uint64_t vogrilas_number_in(const void *written, size_t size, size_t *place) {
    const char *text = (const char *)written;
    while (*place < size) {
        const char *line = text + *place;
        const char *end = (const char *)memchr(line, '\n', size - *place);
        size_t length = end == NULL ? size - *place : (size_t)(end - line);
        *place += length + (end != NULL);
        if (length >= 5 && memcmp(line, "send ", 5) == 0) continue;
        uint64_t number = 0;
        size_t at = length > 7 && memcmp(line, "number ", 7) == 0 ? 7 : length > 6 && memcmp(line, "known ", 6) == 0 ? 6 : length;
        for (; at < length; at++) number = 10 * number + (uint64_t)(line[at] - '0');
        return number;
    }
    return 0;
}

/*
** Tells how many calls the node's log has, those of closed logs before it included: a number that never falls, whatever is closed.
** A host that knows how many there were once can tell by it a log that was cut, or an older copy.
** VOGRILAS_OK: *calls is told. VOGRILAS_UNSYNCED, VOGRILAS_CLOSED: it is as it was.
*/
vogrilas_code vogrilas_calls(vogrilas_node *node, uint64_t *calls);

/*
** Tells how many entries the journal of a pharmacy has (their numbers go from 1 to this), how many slots the table of a switch,
** or how many rows the book of a payer. A stopped pharmacy or payer has what it keeps, a stopped switch none.
**
** VOGRILAS_OK: *count is told. VOGRILAS_UNSYNCED, VOGRILAS_CLOSED, VOGRILAS_NO_MEMORY: *count is as it was, and the node too.
*/
vogrilas_code vogrilas_count(vogrilas_node *node, uint64_t *count);

/*
** Tells the most that vogrilas_count() can tell: the cap of the pharmacy or the payer in the settings, or that of the switch, which
** a line `cap ENTRIES` may have changed. A node that has as many entries or rows refuses what is new, a reversal too (JournalFull,
** BookFull); a switch forgets its oldest.
**
** VOGRILAS_OK: *most is told. VOGRILAS_UNSYNCED, VOGRILAS_CLOSED: *most is as it was, and the node too.
*/
vogrilas_code vogrilas_most(vogrilas_node *node, uint64_t *most);

/*
** Copies the request of a pharmacy's entry, by its number from 1: the bytes that were submitted.
**
** VOGRILAS_OK and VOGRILAS_SHORT_BUFFER are as of vogrilas_records(). VOGRILAS_NOT_FOUND: the node has no such entry, or is no
** pharmacy. VOGRILAS_UNSYNCED, VOGRILAS_CLOSED, VOGRILAS_NO_MEMORY. Buffer and *size are as they were at these four, and the
** node at each code.
*/
vogrilas_code vogrilas_request(vogrilas_node *node, uint64_t number, void *buffer, size_t room, size_t *size);

/*
** Copies the answer that the node holds for a request, by its pharmacy and its number there: a pharmacy has those to its own
** entries (give its own number), a switch those in its table, a payer those of its book.
**
** VOGRILAS_OK: the entry is settled, and the answer's bytes stand in the buffer; VOGRILAS_SHORT_BUFFER as of
** vogrilas_records(). VOGRILAS_UNANSWERED: it is an open entry of this pharmacy. VOGRILAS_NOT_FOUND: this node has no answer
** for it, and no entry. VOGRILAS_UNSYNCED, VOGRILAS_CLOSED, VOGRILAS_NO_MEMORY. Buffer and *size are as they were at these five,
** and the node at each code. So with no room the code alone says whether an entry is settled (VOGRILAS_SHORT_BUFFER), open, or not there.
*/
vogrilas_code vogrilas_answer(vogrilas_node *node, uint16_t pharmacy, uint64_t number, void *buffer, size_t room, size_t *size);

/*
** Copies the answer of a pharmacy's own entry that a payer gave, also while the records of it are not on disk: where they are lost, the
** payer gives the same bytes again, and no other answer is ever held under that number. So who waits for an answer need not wait for the
** disk. An answer to a request that has no route by the node's settings, and one with the status R (501-F1, its sixth byte), which no payer
** gives, is a switch's, which a later route may take back: that one is told by vogrilas_answer() alone. Where routes have grown a host takes
** no late rejection of a request that has one now: one with the status R to an entry of which this call says VOGRILAS_UNANSWERED.
**
** VOGRILAS_OK and VOGRILAS_SHORT_BUFFER are as of vogrilas_records(). VOGRILAS_UNSYNCED: the request has no route, or the answer is a
** rejection by a switch; ask vogrilas_answer() once all is on disk. VOGRILAS_UNANSWERED: it is an open entry. VOGRILAS_NOT_FOUND: the node has no such entry, or is
** another. VOGRILAS_CLOSED, VOGRILAS_NO_MEMORY. Buffer and *size are as they were at these five, and the node at each code.
*/
vogrilas_code vogrilas_heard(vogrilas_node *node, uint16_t pharmacy, uint64_t number, void *buffer, size_t room, size_t *size);

/* A payment. Texts are bytes with spaces at their ends and no 0 behind them; amounts are cents. */
typedef struct vogrilas_payment {
    uint64_t serial;            /* the authorization (503-F3): its last twelve digits, behind four of the payer */
    uint64_t prescription;      /* 402-D2 */
    uint64_t reversed_number;   /* the request that reversed it, by its pharmacy and its number there: 0 and 0 where it stands */
    uint32_t cost;              /* ingredient cost paid, 506-F6 */
    uint32_t fee;               /* dispensing fee paid, 507-F7 */
    uint32_t copay;             /* what the patient pays, 505-F5 */
    uint32_t total;             /* what the plan pays, 509-F9: cost + fee - copay */
    uint16_t payer;             /* the payer that gave the authorization */
    uint16_t reversed_pharmacy;
    uint8_t bin[6];             /* 101-A1 */
    uint8_t pcn[10];            /* processor control number, 104-A4 */
    uint8_t qualifier[2];       /* of the service provider, 202-B2 */
    uint8_t provider[15];       /* the service provider, 201-B1 */
    uint8_t fill_number;        /* 403-D3 */
} vogrilas_payment;

/*
** Copies the payments of a node as one list, for a caller that walks them:
**
**   - of a pharmacy those that it counts: which an answer to one of its claims names as paid, or as paid before, and no answer
**     as reversed; each once, in the order in which they were named, and none with a reversal;
**   - of a payer those of its book, standing and reversed, in the order in which they were made;
**   - of a switch none.
**
** The list is made anew by each call, in the time of one walk over the journal or the book, so keep it as long as the node
** makes no call. `room` is how many payments the array holds.
**
** VOGRILAS_OK: they stand at the start of the array, and *count is how many. VOGRILAS_SHORT_BUFFER: *count is how many there
** are, and the array is unchanged. VOGRILAS_UNSYNCED, VOGRILAS_CLOSED, VOGRILAS_NO_MEMORY: both are as they were. The node is as
** it was at each.
*/
vogrilas_code vogrilas_payments(vogrilas_node *node, vogrilas_payment *payments, size_t room, size_t *count);

/*
** Notes that what vogrilas_written() copies was used: the words that may be told are forgotten, and those that wait are not. VOGRILAS_UNSYNCED:
** no word may be told, as there. VOGRILAS_CLOSED: there is no node. Nothing has changed at both.
*/
vogrilas_code vogrilas_clear(vogrilas_node *node);

/* Lets the node go, with what is not on disk. A handle without a node stays as it is, so a second close does nothing. */
void vogrilas_close(vogrilas_node *node);

/*
** Copies the printed text of bytes: printable ASCII characters as they are, and the others as \F, \G, \S (the separators of a
** message), \\ or \xHH. VOGRILAS_OK and VOGRILAS_SHORT_BUFFER are as of vogrilas_records(); VOGRILAS_NO_MEMORY: buffer and *size
** are as they were. Four times as many bytes are always room enough.
*/
vogrilas_code vogrilas_print(const void *bytes, size_t bytes_size, void *buffer, size_t room, size_t *size);

/*
** Copies the bytes that a printed text spells. VOGRILAS_BAD_TEXT: *size is the place of the first byte that spells nothing, and
** the buffer is unchanged. The other codes are as of vogrilas_print(). As many bytes as the text has are always room enough.
*/
vogrilas_code vogrilas_unprint(const void *text, size_t text_size, void *buffer, size_t room, size_t *size);

/*
** The header of a request. A text ends at its first 0 byte, so that `.pcn = "A1"` and snprintf() write it; spaces behind it are
** the library's, up to the width of the field. Version D0, the code and the count of one transaction are the library's too.
*/
typedef struct vogrilas_header {
    char bin[7];       /* BIN number, 101-A1: six digits */
    char pcn[11];      /* processor control number, 104-A4: at most 10 bytes */
    char qualifier[3]; /* of the service provider, 202-B2: at most 2 */
    char provider[16]; /* the service provider, 201-B1: at most 15 */
    char date[9];      /* date of service, 401-D1: a day, CCYYMMDD */
    char vendor[11];   /* software vendor and certification, 110-AK: at most 10 */
} vogrilas_header;

/* A billing (B1) of one transaction. Zeros are no billing, but a beginning of one. */
typedef struct vogrilas_billing {
    uint64_t prescription;  /* 402-D2: at most 12 digits */
    uint64_t quantity;      /* quantity dispensed, 442-E7, in thousandths of a unit: at most 10 digits */
    uint32_t cost;          /* ingredient cost submitted, 409-D9, in cents: at most 8 digits */
    uint32_t fee;           /* dispensing fee submitted, 412-DC, in cents: at most 8 digits */
    vogrilas_header header;
    char cardholder[21];    /* cardholder ID, 302-C2: 1 to 20 bytes */
    char product[20];       /* product, 407-D7, a National Drug Code: 1 to 19 bytes */
    uint8_t fill_number;    /* 403-D3: at most 99 */
} vogrilas_billing;

/* A reversal (B2) of one transaction: the prescription, the fill and the header of its billing name what is reversed. */
typedef struct vogrilas_reversal {
    uint64_t prescription;
    vogrilas_header header;
    char product[20];
    uint8_t fill_number;    /* VOGRILAS_NO_FILL leaves it out */
} vogrilas_reversal;

#define VOGRILAS_NO_FILL 255

/*
** Copies the message that fields say: the bytes that vogrilas_submit() takes. They read back as these fields, and as the claim or
** the reversal that they ask for, which is proved of every message that is made.
**
** VOGRILAS_OK and VOGRILAS_SHORT_BUFFER are as of vogrilas_records(); 512 bytes are room for the longest. VOGRILAS_FIELD_EMPTY to
** VOGRILAS_FIELD_DAY: a field is wrong, the first in the order of the message; *field is its number, as 302 of 302-C2, and the
** code says why. VOGRILAS_NO_MEMORY: no field is wrong. Buffer and *size are as they were at all of these, and *field at every code
** but those of fields.
*/
vogrilas_code vogrilas_make_billing(const vogrilas_billing *fields, void *buffer, size_t room, size_t *size, uint32_t *field);
vogrilas_code vogrilas_make_reversal(const vogrilas_reversal *fields, void *buffer, size_t room, size_t *size, uint32_t *field);

/*
** Copies a description of a message, as claimdecode writes it: each field with its place, number, name and value, and what it
** means; the reasons for which a request is rejected; the rulings of an answer. A request, an answer, an envelope or a record
** of a journal or a book is told by its first two bytes. `json` is 0 for lines for people, and anything else for one object of
** JSON, whose members docs/FORMATS.md has. VOGRILAS_OK and VOGRILAS_SHORT_BUFFER are as of vogrilas_records(); VOGRILAS_NO_MEMORY:
** buffer and *size are as they were. It is proved that what is copied is that text: one function of `json` and of the message, the
** one of which claimdecode's own texts are proved to be, of a message on line 1.
*/
vogrilas_code vogrilas_describe(const void *message, size_t message_size, uint32_t json, void *buffer, size_t room,
                                size_t *size);

/*
** Judges logs: whether they are one of each node of the settings, and all of them those of one legal run, packets compared byte
** for byte. The logs stand in `logs` one behind another, in any order, and `sizes` has the size of each, `count` of them. A torn
** end of a log is let pass. Each has all calls of its node: a file that goes on after closed ones is VOGRILAS_NOT_A_LOG here, and
** `claimnode --join` makes all of them one log. What is told is what claimaudit writes: a line for each log, then `one legal run of N events` and
** what it left, or `no legal run` and why; `json` is 0 for these lines, and anything else for one object of JSON.
**
** VOGRILAS_OK: there is such a run, VOGRILAS_NO_RUN: there is none; what is told stands in the buffer at both, *size bytes.
** VOGRILAS_SHORT_BUFFER: *size is how many bytes are told, the buffer is unchanged, and nothing is said of the run; ask again with
** more room (64 KiB did for lines of a hundred nodes). Nothing is judged, and the buffer is unchanged, at the first of these that
** stands: VOGRILAS_NOT_A_LOG: the sizes do not add up to `logs_size`, and *size is `count`. VOGRILAS_SETTINGS: the settings are
** none, or open no world; *size is as it was. VOGRILAS_NOT_A_LOG, VOGRILAS_LOG_VERSION, VOGRILAS_DAMAGED_HEAD, VOGRILAS_NO_KIND,
** VOGRILAS_OTHER_SETTINGS, VOGRILAS_DAMAGED or VOGRILAS_BAD_RECORD (a record is no call): the first log that is none under these
** settings, by its first fault, and *size is which one, from 0. Before these VOGRILAS_BAD_RECORD stands for the first log with a
** reference that no node keeps: of a call that is no submission, of more than 64 bytes, or of an earlier submission too.
** VOGRILAS_NO_MEMORY, *size as it was, may stand in place of any.
**
** All of this is proved, of the settings that the text spells and the logs that the bytes are; and so is that what is told is the
** text that claimaudit is proved to tell of them, in these two forms.
*/
vogrilas_code vogrilas_audit(const void *settings, size_t settings_size, const void *logs, size_t logs_size,
                             const size_t *sizes, size_t count, uint32_t json, void *buffer, size_t room, size_t *size);

#ifdef __cplusplus
}
#endif

#endif
