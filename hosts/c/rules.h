/*
** A payer's own system rules on what its node does not rule by a plan: such a request goes to it over HTTP (rules_http.c) or framed TCP
** (rules_frame.c), many at once, and the packet is taken again with what it answers, the advice (rules.c). What went wrong has a name
** (advice.c). One thread has all requests that are under way; the node's own thread starts them, takes what came, and waits for none.
**
** A request that is under way stands in `rules.under_way`, which the node's thread alone reads and writes, from the refusal that started it
** to the turn in which it came back. So the same packet starts no second request, and no more than `most` are under way.
*/
#ifndef RULES_H
#define RULES_H
#include <curl/curl.h>

#include "node.h"

/* No envelope carries more, so no answer has more bytes. */
#define MOST_ANSWER 32768
#define MOST_TOKEN 4096

/* What came of a request: an advice, or what went wrong. */
enum came {
    CAME_ADVICE,
    CAME_TIMED_OUT,
    CAME_UNREACHABLE,
    CAME_BROKEN,
    CAME_STATUS,
    CAME_EMPTY,
    CAME_TOO_LONG,
    CAME_BAD_FRAME,
    CAME_OTHER_PLACES,
    CAME_OTHER_REQUEST,
    CAMES
};

/* A request on its way to the payer's system and back. */
struct asked {
    struct asked *next;
    struct rules *rules;
    /* The message as which it comes back to the node's thread, which has the packet. */
    struct message *message;
    uint16_t pharmacy;
    uint64_t number, rows;
    struct bytes request, answer;
    size_t heads_size;
    enum came came;
    long status;
    /* More of what went wrong, in words of the library that carries it: no byte of a message is in them. */
    const char *why;
    double began, until;
    CURL *handle;
    struct curl_slist *heads;
};

/* A connection that frames messages. It carries one request at a time, since an answer says of none which request it is for. */
struct line {
    CURL *handle;
    curl_socket_t socket;
    bool is_open, is_reused;
    struct asked *asked;
    struct bytes out, in;
    size_t sent;
};

/* The payer's system, as the node's thread and that of the requests know it. */
struct rules {
    struct rules_given given;
    const char *node;
    struct carrier *carrier;
    size_t most, under_way_count;
    struct asked **under_way;
    /* What the node's thread has started and the other has not yet taken up, and whether that is to end. */
    pthread_mutex_t lock;
    struct asked *first, **last;
    bool is_stopping;
    pthread_t thread;
    CURLM *multi;
    char *url;
    struct line *lines;
    char token[MOST_TOKEN];
};

/* Ends the process where the words are none, or a file that they name is not there. */
void rules_check(const struct rules_given *given);
/* The URL of the system; of framed TCP that to which a connection is opened. */
char *rules_url(const struct rules_given *given);
/* Reads the token in a file; false where it has none, and then the token is as it was. */
bool token_is_one(const char *text);
bool token_read(const char *path, char token[MOST_TOKEN]);
/* Starts the thread; NULL where no system is named. */
struct rules *rules_start(const struct given *given, struct carrier *carrier);
/* Whether the node has refused a packet since its payer asks. */
bool rules_want(const struct message *one, const char *line, size_t size);
/* Starts a request for a packet that was refused so, of a book that has so many rows, and keeps the packet's text; or lets it go, as a packet
   may be lost: the same is under way, or as many as may be are, or there is no system. */
void rules_ask(struct rules *rules, struct message *one, uint64_t rows);
/* Whether an advice came for a message: then it is taken with it, and else not at all. */
bool rules_has_advice(const struct message *one);
/* Notes what the node says of a packet that was taken with its advice. */
void rules_note(struct message *one, const char *line, size_t size);
/* Lets a message go that came back; one that brought no advice is told and counted. */
void rules_forget(struct message *one);
size_t rules_under_way(const struct rules *rules);
/* Ends the thread, and what is under way with it. */
void rules_stop(struct rules *rules);

/* What went wrong, by name; of an answer that is no advice for this request what it lacks. */
const char *came_name(enum came came);
const char *advice_fault(const struct bytes *request, const struct bytes *answer);
/* Tells a fault of a request by its name, once a second. */
void fault_say(const char *name, const struct asked *asked);

/* Of the thread of the requests: what came of one goes to the node's thread. */
void rules_came(struct asked *asked, enum came came, const char *why);
/* HTTP: starts a request; takes what one has come to. */
void http_begin(struct asked *asked);
void http_done(struct rules *rules, CURL *handle, CURLcode code);
/* Framed TCP: starts a request; notes a connection that is open, or is not to be had; moves bytes; what to wait for, and how many seconds. */
void frame_begin(struct asked *asked);
void frame_done(struct rules *rules, CURL *handle, CURLcode code);
void frame_step(struct rules *rules);
unsigned frame_waits(struct rules *rules, struct curl_waitfd *wait, double *seconds);
/* Sets what requests of both kinds have: who is trusted, how long, and nobody between. */
void rules_set(const struct rules *rules, CURL *handle, double seconds);

#endif
