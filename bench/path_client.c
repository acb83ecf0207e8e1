/*
** Has claims paid at a pharmacy over NATS, so many under way at once: each is submitted, and its number waited for, until its answer comes. For
** bench/path: `path_client URL COUNT AT_ONCE FIRST CLAIM` says `ready`, begins with a line that it reads, and then says how many claims were paid
** a second, the median and the 99th of a hundred times from the submission to the answer, in milliseconds, how often it was told to come again
** (`open`, `refused Busy`), how many claims were not paid, and how many syncs of the disk whose counts SYNC_COUNT names (slow_sync.c) began after
** a submission and ended before its answer, which says something of claims one by one. It ends with its input, so that its connection can be looked at before. CLAIM is
** a billing in printed bytes whose prescription is 123456; each claim has one of its own, from FIRST on.
*/
#include <fcntl.h>
#include <nats/nats.h>
#include <pthread.h>
#include <stdbool.h>
#include <stdio.h>
#include <stdlib.h>
#include <string.h>
#include <sys/mman.h>
#include <time.h>
#include <unistd.h>

/* What is told to come again does so after this time; what has come to nothing after so many seconds is given up. */
#define AGAIN_MS 5
#define MOST_SECONDS 120
/* Of so few claims at once each line goes out at once; else what comes together goes out together. */
#define FEW 16

/* Syncs that have begun, and that have ended. */
static const volatile uint64_t nothing[2], *syncs = nothing;

struct claim {
    double started, took;
    uint64_t begun;
    char number[24];
    bool is_over, comes_again;
};

struct run {
    natsConnection *connection;
    const char *text;
    size_t count, at_once, sent, over, again, unpaid, first, in_sequence;
    struct claim *claim;
    pthread_mutex_t lock;
    pthread_cond_t came;
};

static double now(void) {
    struct timespec time;
    clock_gettime(CLOCK_MONOTONIC, &time);
    return (double)time.tv_sec + (double)time.tv_nsec / 1e9;
}

static void check(natsStatus status) {
    if (status == NATS_OK) return;
    fprintf(stderr, "path_client: %s\n", natsStatus_GetText(status));
    exit(1);
}

/* Submits a claim, or waits for the answer to its number; the lock is held. */
static void ask(struct run *run, size_t at) {
    char text[600], reply[64];
    struct claim *claim = &run->claim[at];
    const char *number = strstr(run->text, "D2123456");
    int size = claim->number[0] != '\0'
                   ? snprintf(text, sizeof text, "wait %s", claim->number)
                   : snprintf(text, sizeof text, "submit %.*sD2%06zu%s", (int)(number - run->text), run->text, run->first + at, number + 8);
    snprintf(reply, sizeof reply, "_INBOX.bench.%zu", at);
    claim->comes_again = false;
    check(natsConnection_PublishRequest(run->connection, "claims.ph1.call", reply, text, size));
}

static void begin_next(struct run *run) {
    if (run->sent == run->count) return;
    run->claim[run->sent].started = now();
    run->claim[run->sent].begun = syncs[0];
    ask(run, run->sent++);
}

static bool is(const char *text, size_t size, const char *word) {
    return size >= strlen(word) && memcmp(text, word, strlen(word)) == 0;
}

/* Takes a word on a claim. */
static void take(struct run *run, size_t at, const char *text, size_t size) {
    struct claim *claim = &run->claim[at];
    if (is(text, size, "number ")) {
        size_t digits = size - 7 < sizeof claim->number - 1 ? size - 7 : sizeof claim->number - 1;
        memcpy(claim->number, text + 7, digits);
        ask(run, at);
        return;
    }
    if (is(text, size, "open") || is(text, size, "refused Busy")) {
        run->again++;
        claim->comes_again = true;
        return;
    }
    claim->took = now() - claim->started;
    claim->is_over = true;
    run->in_sequence += syncs[1] > claim->begun ? syncs[1] - claim->begun : 0;
    run->unpaid += !is(text, size, "answer ") || memmem(text, size, "ANP", 3) == NULL;
    run->over++;
    begin_next(run);
    if (run->over == run->count) pthread_cond_signal(&run->came);
}

static void heard(natsConnection *connection, natsSubscription *subscription, natsMsg *message, void *closure) {
    (void)connection, (void)subscription;
    struct run *run = closure;
    size_t at = strtoul(strrchr(natsMsg_GetSubject(message), '.') + 1, NULL, 10);
    pthread_mutex_lock(&run->lock);
    if (!run->claim[at].is_over) take(run, at, natsMsg_GetData(message), (size_t)natsMsg_GetDataLength(message));
    pthread_mutex_unlock(&run->lock);
    natsMsg_Destroy(message);
}

/* Waits until each claim has its answer; what was told to come again does so meanwhile. */
static void wait_for_all(struct run *run) {
    double end = now() + MOST_SECONDS;
    while (run->over < run->count && now() < end) {
        struct timespec until;
        clock_gettime(CLOCK_REALTIME, &until);
        until.tv_nsec += AGAIN_MS * 1000000L;
        if (until.tv_nsec >= 1000000000L) until.tv_sec++, until.tv_nsec -= 1000000000L;
        pthread_cond_timedwait(&run->came, &run->lock, &until);
        if (run->again == 0) continue;
        for (size_t at = 0; at < run->sent; at++)
            if (run->claim[at].comes_again) ask(run, at);
    }
}

static int compare(const void *one, const void *other) {
    double a = *(const double *)one, b = *(const double *)other;
    return (a > b) - (a < b);
}

static void tell(const struct run *run, double seconds) {
    double *took = calloc(run->count, sizeof *took);
    size_t count = 0;
    if (took == NULL) exit(1);
    for (size_t at = 0; at < run->sent; at++)
        if (run->claim[at].is_over) took[count++] = run->claim[at].took;
    qsort(took, count, sizeof *took, compare);
    if (count == 0) count = 1;
    printf("%.0f %.3f %.3f %zu %zu %zu\n", (double)run->over / seconds, took[count / 2] * 1000, took[count * 99 / 100] * 1000, run->again,
           run->unpaid + run->count - run->over, run->in_sequence);
    fflush(stdout);
    free(took);
}

static void look_at_syncs(void) {
    const char *path = getenv("SYNC_COUNT");
    int file = path == NULL ? -1 : open(path, O_RDONLY);
    void *at = file < 0 ? MAP_FAILED : mmap(NULL, sizeof nothing, PROT_READ, MAP_SHARED, file, 0);
    if (at != MAP_FAILED) syncs = at;
    if (file >= 0) close(file);
}

int main(int count, char **word) {
    if (count != 6) return 2;
    look_at_syncs();
    struct run run = { .count = strtoul(word[2], NULL, 10), .first = strtoul(word[4], NULL, 10), .text = word[5] };
    natsOptions *options = NULL;
    natsSubscription *subscription = NULL;
    run.at_once = strtoul(word[3], NULL, 10);
    run.claim = calloc(run.count, sizeof *run.claim);
    if (run.claim == NULL || strstr(run.text, "D2123456") == NULL) return 2;
    pthread_mutex_init(&run.lock, NULL);
    pthread_cond_init(&run.came, NULL);
    check(natsOptions_Create(&options));
    check(natsOptions_SetURL(options, word[1]));
    check(natsOptions_SetSendAsap(options, run.at_once <= FEW));
    check(natsConnection_Connect(&run.connection, options));
    check(natsConnection_Subscribe(&subscription, run.connection, "_INBOX.bench.*", heard, &run));
    check(natsSubscription_SetPendingLimits(subscription, -1, -1));
    check(natsConnection_Flush(run.connection));
    printf("ready\n");
    fflush(stdout);
    if (getchar() == EOF) return 1;
    double started = now();
    pthread_mutex_lock(&run.lock);
    while (run.sent < run.at_once && run.sent < run.count) begin_next(&run);
    wait_for_all(&run);
    pthread_mutex_unlock(&run.lock);
    tell(&run, now() - started);
    while (getchar() != EOF) continue;
    return 0;
}
