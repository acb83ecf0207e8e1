/*
** A client of hosts/front over TCP, for bench/front: PORT CONNECTIONS SECONDS FILE. Each connection has one billing on its way, of the message
** in FILE with a prescription of its own, between 0x02 and 0x03, and sends the next one as its answer comes. Prints claims a second, the median and the
** 99th of a hundred of the times in ms, and how many answers pay nothing.
*/
#define _POSIX_C_SOURCE 200809L
#include <arpa/inet.h>
#include <poll.h>
#include <stdio.h>
#include <stdlib.h>
#include <string.h>
#include <sys/socket.h>
#include <time.h>
#include <unistd.h>

enum { MOST = 1024, ROOM = 65536, MOST_TIMES = 4000000 };

struct caller {
    double asked;
    size_t size;
    char answer[ROOM];
};

static struct caller callers[MOST];
static struct pollfd polled[MOST];
static double times[MOST_TIMES];
static char message[ROOM];
static size_t message_size, place;
static unsigned long number = 2000000;

static double now(void) {
    struct timespec at;
    clock_gettime(CLOCK_MONOTONIC, &at);
    return (double)at.tv_sec + (double)at.tv_nsec / 1e9;
}

static void fail(const char *what) {
    perror(what);
    exit(1);
}

/* Sends the next billing: the six digits of the message's prescription are seven here. */
static void ask(size_t who) {
    char framed[ROOM + 16];
    int size = snprintf(framed, sizeof framed, "\x02%.*s%07lu%s\x03", (int)place, message, number++, message + place + 6);
    callers[who].asked = now();
    callers[who].size = 0;
    if (write(polled[who].fd, framed, (size_t)size) != size)
        fail("write");
}

static void connect_all(size_t count, const char *port) {
    struct sockaddr_in at = {.sin_family = AF_INET, .sin_port = htons((unsigned short)atoi(port)), .sin_addr.s_addr = htonl(INADDR_LOOPBACK)};
    for (size_t who = 0; who < count; who++) {
        polled[who].fd = socket(AF_INET, SOCK_STREAM, 0);
        polled[who].events = POLLIN;
        if (polled[who].fd < 0 || connect(polled[who].fd, (struct sockaddr *)&at, sizeof at) != 0)
            fail("connect");
    }
}

static int compare(const void *one, const void *other) {
    double difference = *(const double *)one - *(const double *)other;
    return (difference > 0) - (difference < 0);
}

int main(int argc, char **argv) {
    if (argc != 5 || atoi(argv[2]) < 1 || atoi(argv[2]) > MOST)
        return 2;
    size_t count = (size_t)atoi(argv[2]), done = 0, others = 0;
    FILE *file = fopen(argv[4], "rb");
    if (file == NULL || (message_size = fread(message, 1, ROOM - 1, file)) == 0)
        fail(argv[4]);
    fclose(file);
    char *found = strstr(message, "D2123456");
    if (found == NULL)
        return 2;
    place = (size_t)(found - message) + 2;
    connect_all(count, argv[1]);
    double start = now(), end = start + atof(argv[3]);
    for (size_t who = 0; who < count; who++)
        ask(who);
    while (now() < end && done < MOST_TIMES && poll(polled, count, 1000) >= 0) {
        for (size_t who = 0; who < count && done < MOST_TIMES; who++) {
            if (polled[who].revents == 0)
                continue;
            struct caller *one = &callers[who];
            ssize_t more = read(polled[who].fd, one->answer + one->size, ROOM - one->size - 1);
            if (more <= 0)
                fail("read");
            one->size += (size_t)more;
            if (one->answer[one->size - 1] != '\x03')
                continue;
            one->answer[one->size] = '\0';
            others += strstr(one->answer, "ANP") == NULL;
            times[done++] = (now() - one->asked) * 1000;
            ask(who);
        }
    }
    double took = now() - start;
    if (done == 0)
        return 1;
    qsort(times, done, sizeof *times, compare);
    printf("%.1f %.3f %.3f %zu\n", (double)done / took, times[done / 2], times[done * 99 / 100], others);
    return 0;
}
