/* /metrics, /healthz and /readyz over HTTP, by a thread of its own, one question at a time; and what systemd is told. */
#include <errno.h>
#include <netdb.h>
#include <stddef.h>
#include <sys/socket.h>
#include <sys/time.h>
#include <sys/un.h>
#include <unistd.h>

#include "node.h"

#define MOST_REQUEST 4096

/* Of a range `nodes` are all of it, and `count` is how many they are; else that is 0. */
struct watch {
    int socket;
    const char *node, *log;
    const struct counted *nodes;
    size_t count;
};

/* Opens the socket that listens at ADDRESS:PORT. */
static int listen_at(const char *at) {
    char address[256];
    const char *port = strrchr(at, ':');
    if (port == NULL || (size_t)(port - at) >= sizeof address) fail("--watch wants ADDRESS:PORT", FACTS(TEXT("given", at)));
    snprintf(address, sizeof address, "%.*s", (int)(port - at), at);
    struct addrinfo hints = { .ai_flags = AI_PASSIVE | AI_NUMERICSERV, .ai_socktype = SOCK_STREAM }, *found = NULL;
    if (getaddrinfo(address, port + 1, &hints, &found) != 0) fail("there is no such address to watch at", FACTS(TEXT("given", at)));
    int one = 1, made = socket(found->ai_family, found->ai_socktype, found->ai_protocol);
    if (made < 0 || setsockopt(made, SOL_SOCKET, SO_REUSEADDR, &one, sizeof one) != 0 ||
        bind(made, found->ai_addr, found->ai_addrlen) != 0 || listen(made, 16) != 0)
        fail("the address to watch at cannot be had", FACTS(TEXT("reason", strerror(errno)), TEXT("given", at)));
    freeaddrinfo(found);
    return made;
}

/* All metrics of a node of a range, which a request names: `GET /metrics?node=ph7`; nothing where it names none. */
static struct bytes text_of_one(const struct watch *watch, const char *request) {
    struct bytes text = { NULL, 0, 0 };
    const char *name = request + strlen("GET /metrics?node=");
    size_t size = strcspn(name, " \r\n");
    for (const struct counted *one = watch->nodes; one < watch->nodes + watch->count; one++) {
        if (strlen(one->node) != size || memcmp(one->node, name, size) != 0) continue;
        counts_for(one->counts);
        text = counts_text(one->node, one->log);
        counts_for(NULL);
    }
    return text;
}

/* Adds the answer to a request: its head, and what was asked for. */
static void add_answer(struct bytes *answer, const struct watch *watch, const char *request) {
    const char *status = "200 OK", *why = counts_unready();
    struct bytes text = { NULL, 0, 0 };
    if (strncmp(request, "GET /metrics ", 13) == 0) {
        text = watch->count > 0 ? counts_range_text(watch->node, watch->nodes, watch->count) : counts_text(watch->node, watch->log);
    } else if (watch->count > 0 && strncmp(request, "GET /metrics?node=", 18) == 0 && (text = text_of_one(watch, request)).size > 0) {
        status = "200 OK";
    } else if (strncmp(request, "GET /healthz ", 13) == 0) {
        status = counts_lives() ? status : "503 Service Unavailable";
        add_text(&text, counts_lives() ? "lives\n" : "the node's thread is not heard of\n");
    } else if (strncmp(request, "GET /readyz ", 12) == 0) {
        status = why == NULL ? status : "503 Service Unavailable";
        add_form(&text, "%s\n", why == NULL ? "ready" : why);
    } else {
        status = "404 Not Found";
        add_text(&text, "GET /metrics, /healthz, /readyz\n");
    }
    add_form(answer, "HTTP/1.0 %s\r\nContent-Type: text/plain; version=0.0.4; charset=utf-8\r\n", status);
    add_form(answer, "Content-Length: %zu\r\nConnection: close\r\n\r\n", text.size);
    add(answer, text.at, text.size);
    free(text.at);
}

static void answer_one(const struct watch *watch, int client) {
    char request[MOST_REQUEST + 1];
    size_t size = 0;
    ssize_t count;
    request[0] = '\0';
    while (size < MOST_REQUEST && strstr(request, "\r\n\r\n") == NULL && (count = recv(client, request + size, MOST_REQUEST - size, 0)) > 0)
        request[size += (size_t)count] = '\0';
    struct bytes answer = { NULL, 0, 0 };
    add_answer(&answer, watch, request);
    for (size_t done = 0; done < answer.size; done += (size_t)count)
        if ((count = send(client, answer.at + done, answer.size - done, MSG_NOSIGNAL)) <= 0) break;
    free(answer.at);
}

static void *serve(void *closure) {
    const struct watch *watch = closure;
    struct timeval limit = { .tv_sec = 2 };
    while (true) {
        int client = accept(watch->socket, NULL, NULL);
        if (client < 0) {
            nats_Sleep(100);
            continue;
        }
        setsockopt(client, SOL_SOCKET, SO_RCVTIMEO, &limit, sizeof limit);
        setsockopt(client, SOL_SOCKET, SO_SNDTIMEO, &limit, sizeof limit);
        answer_one(watch, client);
        close(client);
    }
    return NULL;
}

static void start(const char *at, struct watch given) {
    struct watch *watch = malloc(sizeof *watch);
    pthread_t thread;
    if (watch == NULL) fail_memory();
    *watch = given;
    watch->socket = listen_at(at);
    if (pthread_create(&thread, NULL, serve, watch) != 0) fail("no thread can be had", NULL);
    pthread_detach(thread);
}

void watch_start(const char *at, const char *node, const char *log) {
    start(at, (struct watch){ .node = node, .log = log });
}

void watch_range(const char *at, const char *range, const struct counted *nodes, size_t count) {
    start(at, (struct watch){ .node = range, .nodes = nodes, .count = count });
}

void service_tell(const char *what) {
    const char *at = getenv("NOTIFY_SOCKET");
    struct sockaddr_un address = { .sun_family = AF_UNIX };
    if (at == NULL || strlen(at) >= sizeof address.sun_path) return;
    strcpy(address.sun_path, at);
    /* A name that begins with @ is in no file system: a 0 stands there then. */
    if (at[0] == '@') address.sun_path[0] = '\0';
    int made = socket(AF_UNIX, SOCK_DGRAM, 0);
    if (made < 0) return;
    socklen_t size = (socklen_t)(offsetof(struct sockaddr_un, sun_path) + strlen(at));
    ssize_t sent = sendto(made, what, strlen(what), MSG_NOSIGNAL, (const struct sockaddr *)&address, size);
    (void)sent;
    close(made);
}
