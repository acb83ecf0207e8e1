/* Who has a node's log: what hosts say to one another on claims.NODE.owner. It is for speed alone; the servers decide who has the log. */
#include "stream.h"

static const char *const word_of[] = { "has", "wants", "follows", "leaves", "vouches", "moves", "ready", "served" };

/* What was heard: OWNER SEQUENCE WORD, and whom it is for, where it is for one host; then what more there is. */
struct word {
    char owner[OWNER_TEXT], word[16], whom[OWNER_TEXT];
    unsigned long long sequence;
    int more;
};

static bool is_beat(const struct word *heard, enum beat beat) {
    return strcmp(heard->word, word_of[beat]) == 0;
}

/* Notes who has the log. One that leaves it to somebody else has it still. */
static void note_owner(struct beats *beats, const struct word *heard, bool is_for_me) {
    bool leaves = is_beat(heard, BEAT_LEAVES), wants = is_beat(heard, BEAT_WANTS), moves = is_beat(heard, BEAT_MOVES);
    if (!leaves && !wants && !moves && !is_beat(heard, BEAT_HAS)) return;
    beats->has = (struct heard){ .sequence = heard->sequence, .heard = now(), .wants = wants, .is_new = true };
    beats->has.leaves = leaves && (is_for_me || heard->whom[0] == '\0');
    if (leaves && is_for_me) beats->is_handed = true;
}

/* Notes what is said for a move of the log to this host, or from it. */
static void note_move(struct beats *beats, const struct word *heard, const char *more) {
    if (is_beat(heard, BEAT_MOVES)) snprintf(beats->mover, sizeof beats->mover, "%s", heard->owner);
    if (is_beat(heard, BEAT_READY)) beats->is_ready = true;
    if (!is_beat(heard, BEAT_SERVED)) return;
    add_text(&beats->served, more);
    add_text(&beats->served, " ");
}

/* How long a host counts as a stand-by that said that it follows. */
#define FOLLOWS_SECONDS 5.0

/* Notes how far a host follows, in its own place, or in that of who was heard of last. */
static void note_follower(struct beats *beats, const struct word *heard) {
    int at = 0;
    for (int place = 0; place < MOST_FOLLOWERS; place++) {
        if (strcmp(beats->follows[place].owner, heard->owner) == 0) {
            at = place;
            break;
        }
        if (beats->follows[place].heard < beats->follows[at].heard) at = place;
    }
    snprintf(beats->follows[at].owner, sizeof beats->follows[at].owner, "%s", heard->owner);
    beats->follows[at].sequence = heard->sequence;
    beats->follows[at].heard = now();
}

static void note(struct beats *beats, const struct word *heard, const char *text) {
    bool is_for_me = strcmp(heard->whom, beats->self) == 0;
    note_owner(beats, heard, is_for_me);
    if (is_for_me) note_move(beats, heard, text + heard->more);
    if (is_beat(heard, BEAT_FOLLOWS)) {
        snprintf(beats->follower, sizeof beats->follower, "%s", heard->owner);
        beats->followed = now();
        note_follower(beats, heard);
        if (heard->sequence > beats->copied) beats->copied = heard->sequence;
    }
    beats->is_vouched = true;
    if (heard->sequence > beats->vouched) beats->vouched = heard->sequence;
}

static void heard(natsConnection *connection, natsSubscription *subscription, natsMsg *message, void *closure) {
    (void)connection, (void)subscription;
    struct beats *beats = closure;
    struct word word = { .sequence = 0 };
    char form[48];
    snprintf(form, sizeof form, "%%%ds %%llu %%15s %%%ds%%n", OWNER_TEXT - 1, OWNER_TEXT - 1);
    int count = sscanf(natsMsg_GetData(message), form, word.owner, &word.sequence, word.word, word.whom, &word.more);
    if (count >= 3 && strcmp(word.owner, beats->self) != 0) {
        pthread_mutex_lock(&beats->lock);
        note(beats, &word, natsMsg_GetData(message));
        pthread_cond_signal(&beats->came);
        pthread_mutex_unlock(&beats->lock);
    }
    natsMsg_Destroy(message);
}

void beats_open(struct beats *beats, const struct stream *stream) {
    pthread_condattr_t kind;
    *beats = (struct beats){ .connection = stream->engine.connection, .self = stream->owner, .has = { .heard = now() } };
    pthread_mutex_init(&beats->lock, NULL);
    pthread_condattr_init(&kind);
    pthread_condattr_setclock(&kind, CLOCK_MONOTONIC);
    pthread_cond_init(&beats->came, &kind);
    snprintf(beats->subject, sizeof beats->subject, "claims.%s.owner", stream->node);
    natsStatus status = natsConnection_Subscribe(&beats->subscription, beats->connection, beats->subject, heard, beats);
    if (status != NATS_OK) fail("nothing can be heard", FACTS(TEXT("reason", natsStatus_GetText(status)), TEXT("subject", beats->subject)));
}

struct heard beats_heard(struct beats *beats) {
    pthread_mutex_lock(&beats->lock);
    struct heard has = beats->has;
    beats->has.is_new = false;
    pthread_mutex_unlock(&beats->lock);
    return has;
}

uint64_t beats_told(struct beats *beats) {
    pthread_mutex_lock(&beats->lock);
    uint64_t told = beats->has.sequence;
    pthread_mutex_unlock(&beats->lock);
    return told;
}

void beats_forget(struct beats *beats) {
    pthread_mutex_lock(&beats->lock);
    beats->has.heard = now();
    beats->has.leaves = false;
    pthread_mutex_unlock(&beats->lock);
}

bool beats_level(struct beats *beats, uint64_t sequence) {
    pthread_mutex_lock(&beats->lock);
    bool is_level = sequence >= beats->vouched;
    pthread_mutex_unlock(&beats->lock);
    return is_level;
}

bool beats_vouch(struct beats *beats, uint64_t sequence) {
    pthread_mutex_lock(&beats->lock);
    bool is_vouched = beats->is_vouched && sequence >= beats->vouched;
    pthread_mutex_unlock(&beats->lock);
    return is_vouched;
}

int beats_followers(struct beats *beats, uint64_t sequence, struct follower follower[MOST_FOLLOWERS]) {
    int count = 0;
    pthread_mutex_lock(&beats->lock);
    for (const struct followed *one = beats->follows; one < beats->follows + MOST_FOLLOWERS; one++) {
        if (one->heard == 0 || now() - one->heard > FOLLOWS_SECONDS) continue;
        /* The machine stands before the last point; behind it is the number that the host drew. */
        const char *end = strrchr(one->owner, '.');
        int size = end == NULL ? (int)strlen(one->owner) : (int)(end - one->owner);
        snprintf(follower[count].machine, sizeof follower[count].machine, "%.*s", size, one->owner);
        follower[count++].lag = sequence > one->sequence ? sequence - one->sequence : 0;
    }
    pthread_mutex_unlock(&beats->lock);
    return count;
}

bool beats_copied(struct beats *beats, uint64_t sequence) {
    pthread_mutex_lock(&beats->lock);
    bool is_copied = beats->copied >= sequence;
    pthread_mutex_unlock(&beats->lock);
    return is_copied;
}

static struct timespec time_in(double seconds) {
    struct timespec until;
    clock_gettime(CLOCK_MONOTONIC, &until);
    until.tv_nsec += (long)(seconds * 1e9);
    until.tv_sec += until.tv_nsec / 1000000000L;
    until.tv_nsec %= 1000000000L;
    return until;
}

void beats_wait(struct beats *beats, double seconds) {
    struct timespec until = time_in(seconds);
    pthread_mutex_lock(&beats->lock);
    if (!beats->has.is_new) pthread_cond_timedwait(&beats->came, &beats->lock, &until);
    pthread_mutex_unlock(&beats->lock);
}

void beats_wait_copied(struct beats *beats, uint64_t sequence, double seconds) {
    struct timespec until = time_in(seconds);
    pthread_mutex_lock(&beats->lock);
    if (beats->copied < sequence) pthread_cond_timedwait(&beats->came, &beats->lock, &until);
    pthread_mutex_unlock(&beats->lock);
}

void beats_say(struct beats *beats, enum beat beat, uint64_t sequence, double every) {
    char text[OWNER_TEXT + 48];
    if (now() - beats->said < every || natsConnection_Status(beats->connection) != NATS_CONN_STATUS_CONNECTED) return;
    beats->said = now();
    snprintf(text, sizeof text, "%s %llu %s", beats->self, (unsigned long long)sequence, word_of[beat]);
    natsConnection_PublishString(beats->connection, beats->subject, text);
}

void beats_tell(struct beats *beats, enum beat beat, uint64_t sequence, const char *whom, const char *more) {
    struct bytes text = { NULL, 0, 0 };
    add_form(&text, "%s %llu %s %s ", beats->self, (unsigned long long)sequence, word_of[beat], whom);
    add_text(&text, more);
    natsConnection_PublishString(beats->connection, beats->subject, text.at);
    beats->said = now();
    free(text.at);
}

void beats_close(struct beats *beats) {
    natsSubscription_Destroy(beats->subscription);
}
