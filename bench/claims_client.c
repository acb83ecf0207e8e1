/*
** Enters claims at a pharmacy over NATS, so many at once, and says how many were taken a second, and the median and the 99th of a hundred
** times from asking to the word, in milliseconds, and how many were refused: `claims_client URL COUNT SECONDS AT_ONCE FIRST CLAIM`. It ends
** behind so many claims, or so many seconds. CLAIM is a billing in printed bytes whose prescription is 123456; each claim has one of its
** own, from FIRST on. For bench/streams.
*/
#include <nats/nats.h>
#include <pthread.h>
#include <stdio.h>
#include <stdlib.h>
#include <string.h>
#include <time.h>

struct run {
    natsConnection *connection;
    const char *claim;
    size_t count, sent, taken, refused, first;
    double *started, *took, end;
    pthread_mutex_t lock;
    pthread_cond_t came;
};

static double now(void) {
    struct timespec time;
    clock_gettime(CLOCK_MONOTONIC, &time);
    return (double)time.tv_sec + (double)time.tv_nsec / 1e9;
}

static void check(natsStatus status) {
    if (status == NATS_OK) return;
    fprintf(stderr, "claims_client: %s\n", natsStatus_GetText(status));
    exit(1);
}

/* Sends the next claim; the lock is held. */
static void send_next(struct run *run) {
    char text[600], reply[64];
    const char *number = strstr(run->claim, "D2123456");
    size_t at = run->sent++;
    int size = snprintf(text, sizeof text, "submit %.*sD2%06zu%s", (int)(number - run->claim), run->claim, run->first + at, number + 8);
    snprintf(reply, sizeof reply, "_INBOX.bench.%zu", at);
    run->started[at] = now();
    check(natsConnection_PublishRequest(run->connection, "claims.ph1.call", reply, text, size));
}

static void heard(natsConnection *connection, natsSubscription *subscription, natsMsg *message, void *closure) {
    (void)connection, (void)subscription;
    struct run *run = closure;
    size_t at = strtoul(strrchr(natsMsg_GetSubject(message), '.') + 1, NULL, 10);
    pthread_mutex_lock(&run->lock);
    run->took[run->taken++] = now() - run->started[at];
    if (natsMsg_GetDataLength(message) < 7 || memcmp(natsMsg_GetData(message), "number ", 7) != 0) run->refused++;
    if (run->sent < run->count && now() < run->end) send_next(run);
    if (run->taken == run->sent) pthread_cond_signal(&run->came);
    pthread_mutex_unlock(&run->lock);
    natsMsg_Destroy(message);
}

static int compare(const void *one, const void *other) {
    double a = *(const double *)one, b = *(const double *)other;
    return (a > b) - (a < b);
}

int main(int count, char **word) {
    if (count != 7) return 2;
    struct run run = { .count = strtoul(word[2], NULL, 10), .first = strtoul(word[5], NULL, 10), .claim = word[6] };
    size_t at_once = strtoul(word[4], NULL, 10);
    natsOptions *options = NULL;
    natsSubscription *subscription = NULL;
    run.started = calloc(run.count, sizeof *run.started);
    run.took = calloc(run.count, sizeof *run.took);
    if (run.started == NULL || run.took == NULL || strstr(run.claim, "D2123456") == NULL || at_once > run.count) return 2;
    pthread_mutex_init(&run.lock, NULL);
    pthread_cond_init(&run.came, NULL);
    check(natsOptions_Create(&options));
    check(natsOptions_SetURL(options, word[1]));
    /* Where one claim is asked at a time each goes out at once; else what comes together goes out together. */
    check(natsOptions_SetSendAsap(options, at_once == 1));
    check(natsConnection_Connect(&run.connection, options));
    check(natsConnection_Subscribe(&subscription, run.connection, "_INBOX.bench.*", heard, &run));
    check(natsConnection_Flush(run.connection));
    double started = now();
    run.end = started + strtod(word[3], NULL);
    pthread_mutex_lock(&run.lock);
    for (size_t one = 0; one < at_once; one++) send_next(&run);
    while (run.taken < run.sent) pthread_cond_wait(&run.came, &run.lock);
    pthread_mutex_unlock(&run.lock);
    double seconds = now() - started;
    qsort(run.took, run.taken, sizeof *run.took, compare);
    printf("%.0f %.2f %.2f %zu\n", (double)run.taken / seconds, run.took[run.taken / 2] * 1000, run.took[run.taken * 99 / 100] * 1000, run.refused);
    return 0;
}
