/* A log goes from one host to another without a call being lost, or made twice. */
#include "stream.h"

/* How lately a host has to have followed, and how long it may take until it hears the node's callers. */
#define FOLLOWED_SECONDS 3.0
#define READY_SECONDS 5.0
/* Until each server of a cluster knows that it does. */
#define KNOWN_MS 100
/* How long a host hears the callers of a node that is to be moved to it, and nothing comes of it. */
#define CALLED_SECONDS 10.0
/* How many bytes of replies one message tells at most. */
#define MOST_TOLD 65536

const char *move_begin(struct candidate *it) {
    struct beats *beats = &it->beats;
    static char whom[OWNER_TEXT];
    pthread_mutex_lock(&beats->lock);
    bool is_there = now() - beats->followed < FOLLOWED_SECONDS;
    strcpy(whom, beats->follower);
    beats->is_ready = false;
    pthread_mutex_unlock(&beats->lock);
    double end = now() + READY_SECONDS;
    bool is_ready = false;
    while (is_there && !is_ready && now() < end) {
        beats_tell(beats, BEAT_MOVES, it->stream.last, whom, "");
        nats_Sleep(50);
        pthread_mutex_lock(&beats->lock);
        is_ready = beats->is_ready;
        pthread_mutex_unlock(&beats->lock);
    }
    if (is_ready) nats_Sleep(KNOWN_MS);
    return is_ready ? whom : NULL;
}

void move_end(struct candidate *it, const char *whom, const struct bytes *served) {
    for (size_t from = 0; from < served->size;) {
        size_t size = served->size - from < MOST_TOLD ? served->size - from : MOST_TOLD;
        /* No reply is cut in two. */
        while (from + size < served->size && served->at[from + size] != ' ') size--;
        struct bytes some = { NULL, 0, 0 };
        add(&some, served->at + from, size);
        beats_tell(&it->beats, BEAT_SERVED, it->stream.last, whom, some.at);
        free(some.at);
        from += size;
    }
    beats_tell(&it->beats, BEAT_LEAVES, it->stream.last, whom, "");
    it->owns = false;
}

void move_took(struct candidate *it) {
    if (it->called > 0 && now() - it->called > CALLED_SECONDS) it->called = 0;
}

void move_look(struct candidate *it) {
    struct beats *beats = &it->beats;
    char mover[OWNER_TEXT];
    pthread_mutex_lock(&beats->lock);
    strcpy(mover, beats->mover);
    beats->mover[0] = '\0';
    bool is_handed = beats->is_handed;
    pthread_mutex_unlock(&beats->lock);
    if (mover[0] != '\0') {
        if (it->called == 0) it->hears(it->closure, true);
        it->called = now();
        beats_tell(beats, BEAT_READY, it->stream.last, mover, "");
    }
    if (it->called == 0 || is_handed || now() - it->called < CALLED_SECONDS) return;
    it->hears(it->closure, false);
    it->called = 0;
}

bool move_is_handed(struct candidate *it) {
    pthread_mutex_lock(&it->beats.lock);
    bool is_handed = it->beats.is_handed;
    pthread_mutex_unlock(&it->beats.lock);
    return is_handed;
}

bool move_was_served(struct candidate *it, const char *reply) {
    struct bytes word = { NULL, 0, 0 };
    pthread_mutex_lock(&it->beats.lock);
    add_form(&word, " %.500s ", reply);
    bool was_served = it->beats.served.at != NULL && strstr(it->beats.served.at, word.at) != NULL;
    pthread_mutex_unlock(&it->beats.lock);
    free(word.at);
    return was_served;
}
