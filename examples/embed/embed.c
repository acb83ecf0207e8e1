/*
** A pharmacy, a switch and a payer in one process: a claim goes there, and its answer comes back.
**
**     embed SETTINGS FOLDER REQUEST
**
** SETTINGS is a settings file, FOLDER is where the logs of ph1, sw1 and pr1 go (or stand already, from an earlier time), and
** REQUEST is a file with one line, a request in printed bytes. The number of the entry is printed, then its answer, each as
** the pharmacy writes it, and then each payment that the pharmacy counts: its authorization, and what the plan pays in cents.
**
** This is a whole host, but for the carrier: here packets go from hand to hand. POSIX, for fsync, and flock.
*/
#define _POSIX_C_SOURCE 200809L
#include <fcntl.h>
#include <inttypes.h>
#include <stdio.h>
#include <stdlib.h>
#include <string.h>
#include <sys/file.h>
#include <sys/stat.h>
#include <unistd.h>

#include "vogrilas.h"

/* Bytes that grow. */
struct bytes {
    char *at;
    size_t size;
};

/* A node with the file of its log. */
struct served {
    const char *name;
    vogrilas_node node;
    int log;
};

/* A packet on its way: the line that tells the addressee of it. */
struct packet {
    size_t to;
    struct bytes line;
    struct packet *next;
};

enum { NODES = 3 };
static struct served nodes[NODES] = {
    { "ph1", VOGRILAS_NODE_INIT, -1 }, { "sw1", VOGRILAS_NODE_INIT, -1 }, { "pr1", VOGRILAS_NODE_INIT, -1 }
};
static struct packet *first, **last = &first;

static void fail(const char *what, const char *why) {
    fprintf(stderr, "embed: %s: %s\n", what, why);
    exit(1);
}

static void *room(size_t size) {
    void *at = malloc(size + 1);
    if (at == NULL) fail("memory", "refused");
    return at;
}

/* All bytes of an open file. */
static struct bytes whole(int file, const char *path) {
    struct stat about;
    if (fstat(file, &about) != 0) fail(path, "not readable");
    struct bytes bytes = { room((size_t)about.st_size), 0 };
    while (bytes.size < (size_t)about.st_size) {
        ssize_t count = read(file, bytes.at + bytes.size, (size_t)about.st_size - bytes.size);
        if (count <= 0) fail(path, "not readable");
        bytes.size += (size_t)count;
    }
    bytes.at[bytes.size] = '\0';
    return bytes;
}

/* All bytes of a file, without the newlines at its end where it is one line. */
static struct bytes file_bytes(const char *path, bool is_line) {
    int file = open(path, O_RDONLY);
    if (file < 0) fail(path, "not there");
    struct bytes bytes = whole(file, path);
    close(file);
    while (is_line && bytes.size > 0 && bytes.at[bytes.size - 1] == '\n') bytes.at[--bytes.size] = '\0';
    return bytes;
}

/* What a node hands out by one of its two calls. */
static struct bytes handed(struct served *one, vogrilas_code (*call)(vogrilas_node *, void *, size_t, size_t *)) {
    size_t size = 0;
    char none = 0;
    vogrilas_code code = call(&one->node, &none, 0, &size);
    struct bytes bytes = { room(size), size };
    if (code == VOGRILAS_SHORT_BUFFER) code = call(&one->node, bytes.at, size, &size);
    if (code != VOGRILAS_OK) fail(one->name, vogrilas_code_text(code));
    bytes.at[size] = '\0';
    return bytes;
}

/* Appends the records to the log, syncs it, and says so. Only then the node tells what was written. */
static void keep(struct served *one) {
    struct bytes records = handed(one, vogrilas_records);
    size_t done = 0;
    while (done < records.size) {
        ssize_t count = write(one->log, records.at + done, records.size - done);
        if (count <= 0) fail(one->name, "the log takes no records");
        done += (size_t)count;
    }
    if (records.size > 0 && fsync(one->log) != 0) fail(one->name, "the log is not synced");
    vogrilas_code code = vogrilas_kept(&one->node, records.size);
    if (code != VOGRILAS_OK) fail(one->name, vogrilas_code_text(code));
    free(records.at);
}

/* Has a file and its name on disk: an earlier process may have ended before it had. */
static void sync_found(int file, const char *path, const char *folder_path) {
    int folder = open(folder_path, O_RDONLY);
    if (fsync(file) != 0) fail(path, "not synced");
    if (folder < 0 || fsync(folder) != 0) fail(folder_path, "not synced");
    close(folder);
}

/* Draws bytes that nobody can guess. */
static void draw(char *to, size_t size) {
    int source = open("/dev/urandom", O_RDONLY);
    if (source < 0 || read(source, to, size) != (ssize_t)size) fail("/dev/urandom", "no random bytes");
    close(source);
}

/* Opens a node from its log, and cuts off what a crash has left behind it. */
static void open_node(struct served *one, struct bytes settings, const char *folder) {
    char path[4096];
    snprintf(path, sizeof path, "%s/%s.log", folder, one->name);
    one->log = open(path, O_RDWR | O_CREAT | O_APPEND, 0666);
    if (one->log < 0) fail(path, "not there");
    if (flock(one->log, LOCK_EX | LOCK_NB) != 0) fail(path, "another process has it");
    struct bytes log = whole(one->log, path);
    size_t kept = 0;
    char seed[16];
    draw(seed, sizeof seed);
    vogrilas_code code = vogrilas_open(&one->node, settings.at, settings.size, one->name, strlen(one->name), log.at, log.size,
                                       seed, sizeof seed, &kept);
    if (code != VOGRILAS_OK) fail(path, vogrilas_code_text(code));
    if (kept < log.size && ftruncate(one->log, (off_t)kept) != 0) fail(path, "not cut");
    sync_found(one->log, path, folder);
    keep(one);
    free(log.at);
}

/* A line of these words. */
static struct bytes line_of(const char *word, const char *name, const char *text) {
    size_t size = strlen(word) + strlen(name) + strlen(text) + 2;
    struct bytes line = { room(size), 0 };
    line.size = (size_t)snprintf(line.at, size + 1, "%s%s%s%s%s", word, *name ? " " : "", name, *text ? " " : "", text);
    return line;
}

/* Takes a packet from a node: `TO TEXT`. */
static void post(struct served *from, char *text) {
    char *rest = strchr(text, ' ');
    if (rest == NULL) fail(from->name, "an odd packet");
    *rest++ = '\0';
    for (size_t to = 0; to < NODES; to++) {
        if (strcmp(nodes[to].name, text) != 0) continue;
        struct packet *packet = room(sizeof *packet);
        packet->to = to;
        packet->line = line_of("take", from->name, rest);
        packet->next = NULL;
        *last = packet;
        last = &packet->next;
    }
}

/* Serves a line; posts what is sent, and gives the last line of what was written. */
static struct bytes serve(struct served *one, struct bytes line) {
    vogrilas_code code = vogrilas_serve(&one->node, line.at, line.size);
    if (code != VOGRILAS_OK) fail(one->name, vogrilas_code_text(code));
    free(line.at);
    keep(one);
    struct bytes said = handed(one, vogrilas_written), answer = { NULL, 0 };
    vogrilas_clear(&one->node);
    for (char *at = strtok(said.at, "\n"); at != NULL; at = strtok(NULL, "\n")) {
        if (strncmp(at, "send ", 5) == 0) {
            post(one, at + 5);
        } else {
            free(answer.at);
            answer = line_of(at, "", "");
        }
    }
    free(said.at);
    return answer;
}

/* Carries packets until none is on its way. */
static void carry(void) {
    while (first != NULL) {
        struct packet *packet = first;
        first = packet->next;
        if (first == NULL) last = &first;
        struct bytes answer = serve(&nodes[packet->to], packet->line);
        free(answer.at);
        free(packet);
    }
}

/* Prints what a pharmacy counts as paid. */
static void print_payments(struct served *pharmacy) {
    size_t count = 0;
    vogrilas_payment none;
    vogrilas_code code = vogrilas_payments(&pharmacy->node, &none, 0, &count);
    vogrilas_payment *paid = room(count * sizeof *paid);
    if (code == VOGRILAS_SHORT_BUFFER) code = vogrilas_payments(&pharmacy->node, paid, count, &count);
    if (code != VOGRILAS_OK) fail(pharmacy->name, vogrilas_code_text(code));
    for (size_t one = 0; one < count; one++)
        printf("paid %04" PRIu16 "%012" PRIu64 " %" PRIu32 "\n", paid[one].payer, paid[one].serial, paid[one].total);
    free(paid);
}

int main(int count, char **words) {
    if (count != 4) {
        fprintf(stderr, "usage: embed SETTINGS FOLDER REQUEST\n");
        return 2;
    }
    if (vogrilas_version() != VOGRILAS_VERSION) fail("library", "of another version");
    struct bytes settings = file_bytes(words[1], false), request = file_bytes(words[3], true);
    for (size_t one = 0; one < NODES; one++) open_node(&nodes[one], settings, words[2]);
    struct bytes number = serve(&nodes[0], line_of("submit", "", request.at));
    puts(number.at);
    if (strncmp(number.at, "number ", 7) == 0) {
        carry();
        struct bytes answer = serve(&nodes[0], line_of("answer", "", number.at + 7));
        puts(answer.at);
        free(answer.at);
        print_payments(&nodes[0]);
    }
    for (size_t one = 0; one < NODES; one++) {
        vogrilas_close(&nodes[one].node);
        close(nodes[one].log);
    }
    free(number.at);
    free(request.at);
    free(settings.at);
    return 0;
}
