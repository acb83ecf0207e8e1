/*
** The syncs of logs by threads of their own: while one of a log is under way its node goes on, and what it records is appended for the next. A node
** that is alone in its process has one thread, and those of a range share some: each log has at most one sync under way.
*/
#include <signal.h>

#include "node.h"

/* Logs whose syncs are to be made, in the order in which they were asked for, and the threads that make them. */
struct sync_pool {
    pthread_mutex_t lock;
    pthread_cond_t begun, ended;
    struct syncs *first, **last;
    bool is_ending;
    int count;
    pthread_t threads[];
};

struct syncs {
    struct sync_pool *pool;
    struct log *log;
    struct carrier *carrier;
    struct syncs *next;
    bool is_under_way, has_ended;
    /* Of the one that has ended. */
    int error;
    double seconds;
};

static void *serve(void *closure) {
    struct sync_pool *pool = closure;
    pthread_mutex_lock(&pool->lock);
    while (true) {
        struct syncs *syncs = pool->first;
        if (syncs == NULL && pool->is_ending) break;
        if (syncs == NULL) {
            pthread_cond_wait(&pool->begun, &pool->lock);
            continue;
        }
        pool->first = syncs->next;
        if (pool->first == NULL) pool->last = &pool->first;
        pthread_mutex_unlock(&pool->lock);
        double before = now();
        int error = log_to_disk(syncs->log);
        double seconds = now() - before;
        pthread_mutex_lock(&pool->lock);
        syncs->error = error;
        syncs->seconds = seconds;
        syncs->has_ended = true;
        pthread_cond_broadcast(&pool->ended);
        carrier_wake(syncs->carrier);
    }
    pthread_mutex_unlock(&pool->lock);
    return NULL;
}

struct sync_pool *sync_pool_start(int count) {
    struct sync_pool *pool = calloc(1, sizeof *pool + (size_t)count * sizeof *pool->threads);
    if (pool == NULL) fail_memory();
    pool->last = &pool->first;
    pthread_mutex_init(&pool->lock, NULL);
    pthread_cond_init(&pool->begun, NULL);
    pthread_cond_init(&pool->ended, NULL);
    /* Who ends the host by a signal is heard by the node's thread. */
    sigset_t all, before;
    sigfillset(&all);
    pthread_sigmask(SIG_SETMASK, &all, &before);
    for (; pool->count < count; pool->count++)
        if (pthread_create(&pool->threads[pool->count], NULL, serve, pool) != 0) fail("there is no thread for syncs", NULL);
    pthread_sigmask(SIG_SETMASK, &before, NULL);
    return pool;
}

struct syncs *syncs_in(struct sync_pool *pool, struct log *log, struct carrier *carrier) {
    struct syncs *syncs = calloc(1, sizeof *syncs);
    if (syncs == NULL) fail_memory();
    *syncs = (struct syncs){ .pool = pool, .log = log, .carrier = carrier };
    return syncs;
}

struct syncs *syncs_start(struct log *log, struct carrier *carrier) {
    return syncs_in(sync_pool_start(1), log, carrier);
}

void syncs_begin(struct syncs *syncs) {
    struct sync_pool *pool = syncs->pool;
    pthread_mutex_lock(&pool->lock);
    syncs->is_under_way = true;
    syncs->next = NULL;
    *pool->last = syncs;
    pool->last = &syncs->next;
    pthread_cond_signal(&pool->begun);
    pthread_mutex_unlock(&pool->lock);
}

bool syncs_ended(struct syncs *syncs, bool waits) {
    struct sync_pool *pool = syncs->pool;
    pthread_mutex_lock(&pool->lock);
    while (waits && syncs->is_under_way && !syncs->has_ended) pthread_cond_wait(&pool->ended, &pool->lock);
    bool has_ended = syncs->has_ended;
    if (has_ended) syncs->is_under_way = syncs->has_ended = false;
    pthread_mutex_unlock(&pool->lock);
    /* No thread has anything to do with this log until the next one begins. */
    if (has_ended) log_synced(syncs->log, syncs->error, syncs->seconds);
    return has_ended;
}

void sync_pool_stop(struct sync_pool *pool) {
    pthread_mutex_lock(&pool->lock);
    pool->is_ending = true;
    pthread_cond_broadcast(&pool->begun);
    pthread_mutex_unlock(&pool->lock);
    for (int one = 0; one < pool->count; one++) pthread_join(pool->threads[one], NULL);
    pthread_cond_destroy(&pool->begun);
    pthread_cond_destroy(&pool->ended);
    pthread_mutex_destroy(&pool->lock);
    free(pool);
}

void syncs_stop(struct syncs *syncs) {
    if (syncs == NULL) return;
    sync_pool_stop(syncs->pool);
    free(syncs);
}
