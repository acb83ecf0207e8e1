/* NATS: what comes waits in a list until the node's thread takes it; what is sent may be lost, as a packet may be. */
#include <math.h>

#include "signed.h"

#define STOP_MS 5000
/* So many messages are kept to be used again. */
#define MOST_SPARE 4096
/* What libnats holds at most of each kind, until it is looked at here, which takes no turn of the node. */
#define MOST_COMING 65536
#define MOST_COMING_BYTES (64u << 20)

/* What may wait for the node at most, of each kind of sender for itself, so that no line has a packet lost. What comes beyond it is told to
   come again (`refused Busy`), or is lost, as a packet may be. */
static const struct most most_of[SENDERS] = {
    [FROM_NODE] = { 65536, 64u << 20 },
    [FROM_CALLER] = { 4096, 16u << 20 },
    [FROM_OPERATOR] = { 256, 4u << 20 },
};

static void check(const char *what, natsStatus status) {
    if (status != NATS_OK) fail("nothing can be heard or said", FACTS(TEXT("reason", natsStatus_GetText(status)), TEXT("by", what)));
}

/* Has the thread of a range look at this carrier: something came for its node, or is to be done. */
static void mark(struct carrier *carrier) {
    struct ready *ready = carrier->ready;
    if (ready == NULL) return;
    pthread_mutex_lock(&ready->lock);
    if (!carrier->is_marked) {
        carrier->is_marked = true;
        carrier->next = NULL;
        *ready->last = carrier;
        ready->last = &carrier->next;
        pthread_cond_signal(&ready->came);
    }
    pthread_mutex_unlock(&ready->lock);
}

/* Puts a message at the end of the list; the lock is held. */
static void join(struct carrier *carrier, struct message *one) {
    one->next = NULL;
    *carrier->last = one;
    carrier->last = &one->next;
    pthread_cond_signal(&carrier->came);
    mark(carrier);
}

/* The thread of a library that calls here tells and counts for this node. */
static void stand_for(const struct carrier *carrier) {
    counts_for(carrier->counts);
    said_by(carrier->ready == NULL ? NULL : carrier->name);
}

/* A message that nobody has, or NULL for want of memory; the lock is held. */
static struct message *fresh(struct carrier *carrier) {
    struct message *one = carrier->spare;
    if (one == NULL) return malloc(sizeof *one);
    carrier->spare = one->next;
    carrier->spare_count--;
    return one;
}

static void let_free(struct message *batch) {
    for (struct message *next; batch != NULL; batch = next) {
        next = batch->next;
        free(batch);
    }
}

void carrier_spare(struct carrier *carrier, struct message *batch) {
    pthread_mutex_lock(&carrier->lock);
    for (struct message *next; batch != NULL && carrier->spare_count < MOST_SPARE; batch = next) {
        next = batch->next;
        batch->next = carrier->spare;
        carrier->spare = batch;
        carrier->spare_count++;
    }
    pthread_mutex_unlock(&carrier->lock);
    let_free(batch);
}

/* Whether there is room for a message in the list, which it joins then and counts in; `sender` is that of a packet. Called by threads of
   libnats. */
static bool put(struct carrier *carrier, natsMsg *text, enum sender from, const char sender[9]) {
    size_t size = (size_t)natsMsg_GetDataLength(text);
    struct message made = { .text = text, .from = from, .came = now() }, *one = NULL;
    if (sender != NULL) memcpy(made.sender, sender, sizeof made.sender);
    if (sender != NULL && !head_of(natsMsg_GetData(text), size, &made.head)) made.head.kind = 0;
    pthread_mutex_lock(&carrier->lock);
    struct most *waiting = &carrier->waiting[from];
    bool has_room = waiting->count < most_of[from].count && waiting->bytes + size <= most_of[from].bytes;
    has_room = has_room && !(carrier->ready != NULL && carrier->ready->is_ended);
    if (has_room && (one = fresh(carrier)) != NULL) {
        *one = made;
        waiting->count++;
        waiting->bytes += size;
        join(carrier, one);
    }
    pthread_mutex_unlock(&carrier->lock);
    return one != NULL;
}

void carrier_back(struct carrier *carrier, struct message *one) {
    pthread_mutex_lock(&carrier->lock);
    join(carrier, one);
    pthread_mutex_unlock(&carrier->lock);
}

static void taken(natsConnection *connection, natsSubscription *subscription, natsMsg *text, void *closure) {
    (void)connection, (void)subscription;
    struct carrier *carrier = closure;
    char sender[9];
    stand_for(carrier);
    bool is_packet = natsMsg_GetDataLength(text) <= MOST_BYTES && sender_of(carrier->name, natsMsg_GetSubject(text), sender);
    if (!is_packet) counts_dropped(NOT_A_PACKET);
    if (!is_packet) acknowledge(carrier, text);
    if (is_packet && put(carrier, text, FROM_NODE, sender)) return;
    if (is_packet) counts_dropped(FULL);
    const struct message lost = { .text = text, .from = FROM_NODE };
    if (is_packet) say_refused(&lost, carrier->name, "warning", "a packet was lost", "full");
    else say_some("warning", "a message is no packet", "not_a_packet", FACTS(TEXT("subject", natsMsg_GetSubject(text))));
    natsMsg_Destroy(text);
}

/* Whether a reply is the word to the server that keeps a packet. */
static bool is_acknowledgement(const struct carrier *carrier, const char *subject) {
    char head[64];
    if (!carrier->is_kept) return false;
    snprintf(head, sizeof head, "$JS.ACK.claims-%s.%s.", carrier->name, carrier->name);
    return begins(subject, strlen(subject), head);
}

/* Replies to a message; called by threads of libnats too. */
static void reply_to(struct carrier *carrier, natsMsg *to, const char *line, size_t size) {
    const char *subject = natsMsg_GetReply(to);
    if (subject == NULL) return;
    /* A list that is longer than a message may be: the server would not take it, and fewer are to be asked for. */
    if (size > MOST_BYTES) {
        counts_refusal("TooLong", 7);
        line = "refused TooLong";
        size = strlen(line);
    }
    if (begins(subject, strlen(subject), "_INBOX.")) natsConnection_Publish(carrier->connection, subject, line, (int)size);
    else if (!is_acknowledgement(carrier, subject)) {
        counts_dropped(NO_INBOX);
        say_some("warning", "a reply was asked for elsewhere than in an inbox", "reply", FACTS(TEXT("subject", subject)));
    }
}

/* Takes a line of a caller or an operator, or refuses it. */
static void asked(struct carrier *carrier, natsMsg *text, enum sender from) {
    bool is_line = natsMsg_GetDataLength(text) <= MOST_BYTES;
    stand_for(carrier);
    if (is_line && put(carrier, text, from, NULL)) return;
    const struct message lost = { .text = text, .from = from };
    /* What two hosts hear one of them tells. */
    if (!carrier->is_silent) {
        counts_refusal(is_line ? "Busy" : "Line", 4);
        say_refused(&lost, carrier->name, "warning", "a call was refused", is_line ? "Busy" : "Line");
        reply_to(carrier, text, is_line ? "refused Busy" : "refused Line", 12);
    }
    natsMsg_Destroy(text);
}

void carrier_again(struct carrier *carrier, natsMsg *text) {
    pthread_mutex_lock(&carrier->lock);
    struct message *one = fresh(carrier);
    if (one == NULL) fail_memory();
    *one = (struct message){ .text = text, .from = FROM_CALLER, .came = now() };
    join(carrier, one);
    pthread_mutex_unlock(&carrier->lock);
}

static void called(natsConnection *connection, natsSubscription *subscription, natsMsg *text, void *carrier) {
    (void)connection, (void)subscription;
    asked(carrier, text, FROM_CALLER);
}

static void operated(natsConnection *connection, natsSubscription *subscription, natsMsg *text, void *carrier) {
    (void)connection, (void)subscription;
    asked(carrier, text, FROM_OPERATOR);
}

bool sender_of(const char *node, const char *subject, char sender[9]) {
    size_t size = strlen(subject), node_size = strlen(node), before = strlen("claims.") + node_size + strlen(".from.");
    if (size < before || size - before > 7 || !begins(subject, size, "claims.")) return false;
    if (memcmp(subject + strlen("claims."), node, node_size) != 0) return false;
    if (memcmp(subject + strlen("claims.") + node_size, ".from.", strlen(".from.")) != 0) return false;
    memcpy(sender, subject + before, size - before + 1);
    if (strncmp(sender, "ph", 2) != 0 && strncmp(sender, "sw", 2) != 0 && strncmp(sender, "pr", 2) != 0) return false;
    if (sender[2] < '1' || sender[2] > '9') return false;
    for (const char *digit = sender + 2; *digit != '\0'; digit++)
        if (*digit < '0' || *digit > '9') return false;
    return true;
}

/* The number of an entry that a caller asks for, or 0. */
static uint64_t number_asked(const char *text, size_t size) {
    char digits[24] = "";
    size_t before = begins(text, size, "answer ") ? 7 : begins(text, size, "wait ") ? 5 : 0;
    if (before == 0) return 0;
    memcpy(digits, text + before, size - before < sizeof digits ? size - before : sizeof digits - 1);
    return strtoull(digits, NULL, 10);
}

void say_refused(const struct message *one, const char *node, const char *level, const char *what, const char *reason) {
    static const char *const from[] = { "a node", "a caller", "an operator" };
    const char *text = natsMsg_GetData(one->text), *who = from[one->from];
    size_t size = (size_t)natsMsg_GetDataLength(one->text);
    struct head head = { .number = 0 };
    char sender[9];
    if (one->from == FROM_NODE) {
        if (sender_of(node, natsMsg_GetSubject(one->text), sender)) who = sender;
        if (!head_of(text, size, &head)) head.number = 0;
    } else {
        head.number = number_asked(text, size);
    }
    struct fact facts[4] = { TEXT("from", who) };
    int count = 1;
    if (head.number > 0 && one->from == FROM_NODE) facts[count++] = NUMBER("pharmacy", head.pharmacy);
    if (head.number > 0) facts[count++] = NUMBER("claim", head.number);
    facts[count] = (struct fact){ NULL, NULL, 0, false };
    say_some(level, what, reason, facts);
}

static void came_again(natsConnection *connection, void *closure) {
    (void)closure;
    char url[256] = "";
    natsConnection_GetConnectedUrl(connection, url, sizeof url);
    /* A password of the URL is nobody's to read. */
    const char *at = strrchr(url, '@');
    say("info", "connected again", FACTS(TEXT("server", at == NULL ? url : at + 1)));
    counts_connected(true);
}

static void went(natsConnection *connection, void *closure) {
    const char *why = NULL;
    counts_connected(false);
    if (((struct carrier *)closure)->is_closing) return;
    natsConnection_GetLastError(connection, &why);
    say("warning", "no server, trying again", FACTS(TEXT("reason", why)));
}

static void closed(natsConnection *connection, void *closure) {
    (void)connection;
    ((struct carrier *)closure)->is_closed = true;
}

static void erred(natsConnection *connection, natsSubscription *subscription, natsStatus status, void *closure) {
    (void)subscription, (void)closure;
    const char *why = NULL;
    natsConnection_GetLastError(connection, &why);
    say("warning", "the client of servers has a fault", FACTS(TEXT("reason", natsStatus_GetText(status)), TEXT("more", why)));
}

static natsOptions *options_of(struct carrier *carrier, const struct access *access) {
    natsOptions *options = access_options(access, carrier->name);
    check("options", natsOptions_SetReconnectedCB(options, came_again, carrier));
    check("options", natsOptions_SetDisconnectedCB(options, went, carrier));
    check("options", natsOptions_SetClosedCB(options, closed, carrier));
    check("options", natsOptions_SetErrorHandler(options, erred, carrier));
    return options;
}

static void subscribe(struct carrier *carrier, enum sender from, const char *form, natsMsgHandler handler) {
    char subject[64];
    snprintf(subject, sizeof subject, form, carrier->name);
    check(subject, natsConnection_Subscribe(&carrier->subscriptions[from], carrier->connection, subject, handler, carrier));
    check(subject, natsSubscription_SetPendingLimits(carrier->subscriptions[from], MOST_COMING, MOST_COMING_BYTES));
}

/* Has a condition whose waits are over by the clock that nobody sets. */
static void begin_condition(pthread_cond_t *came) {
    pthread_condattr_t kind;
    pthread_condattr_init(&kind);
    pthread_condattr_setclock(&kind, CLOCK_MONOTONIC);
    pthread_cond_init(came, &kind);
    pthread_condattr_destroy(&kind);
}

struct carrier *carrier_made(const char *name, const struct access *access) {
    struct carrier *carrier = calloc(1, sizeof *carrier);
    if (carrier == NULL) fail_memory();
    carrier->name = name;
    carrier->is_kept = access->is_kept;
    carrier->last = &carrier->first;
    pthread_mutex_init(&carrier->lock, NULL);
    begin_condition(&carrier->came);
    return carrier;
}

void carrier_connect(struct carrier *carrier, const struct access *access, bool is_range, volatile sig_atomic_t *is_stopping) {
    natsOptions *options = options_of(carrier, access);
    /* A subscription has a thread of its own otherwise. */
    if (is_range) check("options", natsOptions_UseGlobalMessageDelivery(options, true));
    carrier->connection = access_connect(options, is_stopping);
    natsOptions_Destroy(options);
    if (carrier->connection != NULL) counts_connected(true);
}

void carrier_hear(struct carrier *carrier) {
    subscribe(carrier, FROM_NODE, carrier->is_kept ? "deliver.%s" : "claims.%s.from.*", taken);
    subscribe(carrier, FROM_OPERATOR, "claims.%s.operate", operated);
    if (!begins(carrier->name, strlen(carrier->name), "sw")) subscribe(carrier, FROM_CALLER, "claims.%s.call", called);
}

void carrier_heard(struct carrier *carrier) {
    /* Whoever reads that the node is ready may ask it at once. */
    natsConnection_FlushTimeout(carrier->connection, STOP_MS);
}

struct carrier *carrier_open(const char *name, const struct access *access, volatile sig_atomic_t *is_stopping) {
    struct carrier *carrier = carrier_made(name, access);
    carrier_connect(carrier, access, false, is_stopping);
    if (carrier->connection == NULL) return carrier;
    carrier_hear(carrier);
    carrier_heard(carrier);
    return carrier;
}

void carrier_wake(struct carrier *carrier) {
    pthread_mutex_lock(&carrier->lock);
    carrier->is_woken = true;
    pthread_cond_signal(&carrier->came);
    mark(carrier);
    pthread_mutex_unlock(&carrier->lock);
}

/* The moment so many seconds from now. */
static struct timespec in_seconds(double seconds) {
    struct timespec until;
    double whole_seconds = floor(seconds > 0 ? seconds : 0);
    clock_gettime(CLOCK_MONOTONIC, &until);
    until.tv_sec += (time_t)whole_seconds;
    until.tv_nsec += (long)(((seconds > 0 ? seconds : 0) - whole_seconds) * 1e9);
    if (until.tv_nsec >= 1000000000L) until.tv_sec++, until.tv_nsec -= 1000000000L;
    return until;
}

void ready_begin(struct ready *ready) {
    *ready = (struct ready){ .first = NULL };
    ready->last = &ready->first;
    pthread_mutex_init(&ready->lock, NULL);
    begin_condition(&ready->came);
}

struct carrier *ready_take(struct ready *ready, double seconds) {
    struct timespec until = in_seconds(seconds);
    pthread_mutex_lock(&ready->lock);
    while (ready->first == NULL && pthread_cond_timedwait(&ready->came, &ready->lock, &until) == 0) continue;
    struct carrier *first = ready->first;
    ready->first = NULL;
    ready->last = &ready->first;
    for (struct carrier *one = first; one != NULL; one = one->next) {
        one->is_marked = false;
        one->next_taken = one->next;
    }
    pthread_mutex_unlock(&ready->lock);
    return first;
}

struct message *take_all(struct carrier *carrier, double seconds, bool takes) {
    struct timespec until = in_seconds(seconds);
    pthread_mutex_lock(&carrier->lock);
    while ((carrier->first == NULL || !takes) && !carrier->is_woken && pthread_cond_timedwait(&carrier->came, &carrier->lock, &until) == 0) continue;
    struct message *batch = takes ? carrier->first : NULL;
    carrier->is_woken = false;
    if (takes) {
        carrier->first = NULL;
        carrier->last = &carrier->first;
        memset(carrier->waiting, 0, sizeof carrier->waiting);
    }
    pthread_mutex_unlock(&carrier->lock);
    return batch;
}

void publish_packet(natsConnection *connection, const char *subject, const char *text, size_t size, const char *signature) {
    natsMsg *packet = NULL;
    if (signature == NULL) {
        natsConnection_Publish(connection, subject, text, (int)size);
        return;
    }
    if (natsMsg_Create(&packet, subject, NULL, text, (int)size) != NATS_OK) fail_memory();
    if (natsMsgHeader_Set(packet, SIGNED_HEADER, signature) != NATS_OK) fail_memory();
    natsConnection_PublishMsg(connection, packet);
    natsMsg_Destroy(packet);
}

void send_packet(struct carrier *carrier, const char *to, size_t to_size, const char *text, size_t size, const char *handed) {
    char subject[64] = "claims.", own[SIGNED_TEXT], *at = subject + strlen("claims.");
    size_t own_size = strlen(carrier->name);
    if (to_size + own_size > sizeof subject - sizeof "claims..from.") fail("the node has a packet for no node", NULL);
    if (carrier->keys != NULL && handed == NULL && keys_sign(carrier->keys, text, size, own)) handed = own;
    memcpy(at, to, to_size);
    memcpy(at + to_size, ".from.", strlen(".from."));
    memcpy(at + to_size + strlen(".from."), carrier->name, own_size + 1);
    if (!torment_packet(carrier->connection, subject, text, size, handed)) publish_packet(carrier->connection, subject, text, size, handed);
    counts_sent(to, to_size);
    carrier->said++;
}

void acknowledge(struct carrier *carrier, natsMsg *packet) {
    const char *subject = natsMsg_GetReply(packet);
    if (subject != NULL && is_acknowledgement(carrier, subject)) natsConnection_PublishString(carrier->connection, subject, "+ACK");
}

void reply(struct carrier *carrier, natsMsg *to, const char *line, size_t size) {
    reply_to(carrier, to, line, size);
    carrier->said++;
}

void carrier_stop(struct carrier *carrier) {
    for (int place = 0; place < SENDERS; place++)
        if (carrier->subscriptions[place] != NULL) natsSubscription_DrainTimeout(carrier->subscriptions[place], STOP_MS);
    for (int place = 0; place < SENDERS; place++)
        if (carrier->subscriptions[place] != NULL) natsSubscription_WaitForDrainCompletion(carrier->subscriptions[place], STOP_MS);
}

void carrier_close(struct carrier *carrier) {
    carrier->is_closing = true;
    for (int place = 0; place < SENDERS; place++) natsSubscription_Destroy(carrier->subscriptions[place]);
    natsConnection_FlushTimeout(carrier->connection, 1000);
    natsConnection_Destroy(carrier->connection);
    pthread_mutex_lock(&carrier->lock);
    let_free(carrier->spare);
    carrier->spare = NULL;
    carrier->spare_count = 0;
    pthread_mutex_unlock(&carrier->lock);
}
