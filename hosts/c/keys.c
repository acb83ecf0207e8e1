/* The keys of a network: FOLDER/keys, which all hosts have, and FOLDER/NODE.key, which is a node's own. hosts/permissions writes both. The nodes
   of a range have what the first file says in memory once. */
#include <errno.h>
#include <fcntl.h>
#include <sys/stat.h>
#include <unistd.h>

#include "signed.h"

#define LOOK_SECONDS 1.0
#define MOST_WORDS 7

/* A key that signatures of a node hold under. A node has two where its key is being turned. */
struct known {
    char node[9];
    unsigned char key[crypto_sign_PUBLICKEYBYTES];
};

/* How many nodes of this process have the keys and routes of a ring, and of which file. */
struct shared {
    size_t users;
    struct stat seen;
};

/* What the two files say. */
struct ring {
    unsigned char network[NETWORK_BYTES], secret[crypto_sign_SECRETKEYBYTES];
    bool has_network;
    struct known *known;
    struct route *route;
    size_t count, routes;
    /* NULL of a ring that no other shares. */
    struct shared *shared;
};

/* The ring that was read last, without a node's own key, while a node has it. */
static struct ring latest;

/* Why they are refused: what, in which file, and in which line of it, or 0. */
struct fault {
    const char *reason, *file;
    size_t line;
};

struct keys {
    const char *node;
    char *path, *own_path;
    struct ring ring;
    /* The files as they were read last. */
    struct stat seen[2];
    double looked;
};

static void ring_free(struct ring *ring) {
    bool is_last = ring->shared == NULL || --ring->shared->users == 0;
    if (is_last && ring->shared != NULL && latest.shared == ring->shared) latest = (struct ring){ .shared = NULL };
    if (is_last) {
        free(ring->known);
        free(ring->route);
        free(ring->shared);
    }
    sodium_memzero(ring, sizeof *ring);
}

/* Whether a file is the same, as it was. */
static bool is_same(const struct stat *now_is, const struct stat *was) {
    return was->st_ino == now_is->st_ino && was->st_size == now_is->st_size && was->st_mtim.tv_sec == now_is->st_mtim.tv_sec &&
           was->st_mtim.tv_nsec == now_is->st_mtim.tv_nsec;
}

/* The bytes of a file; none, and why, where it is no file that can be read. */
static struct bytes text_of(const char *path, struct fault *fault) {
    struct bytes text = { NULL, 0, 0 };
    struct stat at;
    int file = open(path, O_RDONLY | O_NONBLOCK);
    *fault = (struct fault){ file < 0 ? strerror(errno) : "it is no file", path, 0 };
    if (file >= 0 && fstat(file, &at) == 0 && S_ISREG(at.st_mode) && at.st_size <= (off_t)MOST_SETTINGS) text = whole(file, path, MOST_SETTINGS);
    if (file >= 0) close(file);
    return text;
}

static bool read_digits(const char *word, unsigned char *to, size_t size) {
    size_t found = 0;
    return sodium_hex2bin(to, size, word, strlen(word), NULL, &found, NULL) == 0 && found == size;
}

/* Room for one more in a list, whose room doubles. */
static void *grown(void *list, size_t count, size_t size) {
    if ((count & (count - 1)) != 0) return list;
    void *at = realloc(list, (count == 0 ? 1 : 2 * count) * size);
    if (at == NULL) fail_memory();
    return at;
}

/* Takes the words of a line of FOLDER/keys; false where they are none. */
static bool take_words(struct ring *ring, char *const word[MOST_WORDS], int count) {
    if (count == 2 && strcmp(word[0], "network") == 0) {
        ring->has_network = read_digits(word[1], ring->network, sizeof ring->network);
        return ring->has_network;
    }
    if (count == 3 && strcmp(word[0], "key") == 0 && strlen(word[1]) < sizeof ring->known->node) {
        ring->known = grown(ring->known, ring->count, sizeof *ring->known);
        struct known *known = &ring->known[ring->count++];
        snprintf(known->node, sizeof known->node, "%s", word[1]);
        return read_digits(word[2], known->key, sizeof known->key);
    }
    bool is_rejected = count == 6 && strcmp(word[0], "rejected") == 0;
    if (!is_rejected && (count != 7 || strcmp(word[0], "route") != 0)) return false;
    ring->route = grown(ring->route, ring->routes, sizeof *ring->route);
    struct route *route = &ring->route[ring->routes++];
    return is_rejected ? rejected_of_words(word + 1, route) : route_of_words(word + 1, route);
}

static bool take_line(struct ring *ring, char *line) {
    char *word[MOST_WORDS], *rest = NULL;
    int count = 0;
    if (*line == '#' || *line == '\0') return true;
    for (char *at = strtok_r(line, " ", &rest); at != NULL; at = strtok_r(NULL, " ", &rest)) {
        if (count == MOST_WORDS) return false;
        word[count++] = at;
    }
    return take_words(ring, word, count);
}

static int order(const void *one, const void *other) {
    return strcmp(((const struct known *)one)->node, ((const struct known *)other)->node);
}

/* The first key of a node; NULL where it has none. */
static const struct known *first_of(const struct ring *ring, const char *node) {
    size_t low = 0, high = ring->count;
    while (low < high) {
        size_t middle = low + (high - low) / 2;
        if (strcmp(ring->known[middle].node, node) < 0) low = middle + 1;
        else high = middle;
    }
    return low < ring->count && strcmp(ring->known[low].node, node) == 0 ? &ring->known[low] : NULL;
}

static bool is_of(const struct ring *ring, const struct known *known, const char *node) {
    return known != NULL && known < ring->known + ring->count && strcmp(known->node, node) == 0;
}

/* Reads what all hosts have; false, and why, where it is refused. */
static bool read_keys(const struct keys *keys, struct ring *ring, struct fault *fault) {
    struct bytes text = text_of(keys->path, fault);
    if (text.at == NULL) return false;
    fault->reason = "the line is none";
    bool is_one = true;
    /* A 0 ends no line, and ends what a line is read as. */
    for (char *line = text.at, *end = text.at, *last = text.at + text.size; is_one && line < last; line = end + 1) {
        fault->line++;
        end = memchr(line, '\n', (size_t)(last - line));
        if (end == NULL) end = last;
        is_one = end < last && memchr(line, '\0', (size_t)(end - line)) == NULL;
        *end = '\0';
        is_one = is_one && take_line(ring, line);
    }
    free(text.at);
    if (is_one && !ring->has_network) *fault = (struct fault){ "it names no network", keys->path, 0 };
    if (ring->count > 0) qsort(ring->known, ring->count, sizeof *ring->known, order);
    routes_sort(ring->route, ring->routes);
    return is_one && ring->has_network;
}

/* Reads the node's own key, one line, `ph1 DIGITS`, which has to go with one of those that all hosts have. */
static bool read_own(const struct keys *keys, struct ring *ring, struct fault *fault) {
    unsigned char seed[crypto_sign_SEEDBYTES], open[crypto_sign_PUBLICKEYBYTES];
    struct bytes text = text_of(keys->own_path, fault);
    if (text.at == NULL) return false;
    char *end = text.at + strcspn(text.at, "\r\n"), *digits = NULL;
    bool is_one = end + strspn(end, "\r\n") == text.at + text.size;
    *end = '\0';
    if (is_one) digits = strchr(text.at, ' ');
    if (digits != NULL) *digits++ = '\0';
    is_one = digits != NULL && read_digits(digits, seed, sizeof seed);
    bool is_own = is_one && strcmp(text.at, keys->node) == 0, is_known = false;
    if (is_own) crypto_sign_seed_keypair(open, ring->secret, seed);
    for (const struct known *known = first_of(ring, keys->node); is_own && is_of(ring, known, keys->node); known++)
        is_known = is_known || memcmp(known->key, open, sizeof open) == 0;
    fault->reason = !is_one ? "one line is wanted, NODE DIGITS" : !is_own ? "it is another node's" : "it is none of the node's in `keys`";
    sodium_memzero(seed, sizeof seed);
    sodium_memzero(text.at, text.size);
    free(text.at);
    return is_known;
}

/* The same, or takes what another node of this process has read of the same file. */
static bool share_keys(const struct keys *keys, struct ring *ring, struct fault *fault) {
    const struct stat *seen = &keys->seen[0];
    if (latest.shared != NULL && is_same(&latest.shared->seen, seen)) {
        *ring = latest;
        ring->shared->users++;
        return true;
    }
    if (!read_keys(keys, ring, fault)) return false;
    /* A file that was not seen is no other's. */
    if (seen->st_ino == 0) return true;
    ring->shared = calloc(1, sizeof *ring->shared);
    if (ring->shared == NULL) fail_memory();
    *ring->shared = (struct shared){ 1, *seen };
    latest = *ring;
    return true;
}

static bool ring_read(const struct keys *keys, struct ring *ring, struct fault *fault) {
    *ring = (struct ring){ .has_network = false };
    if (share_keys(keys, ring, fault) && read_own(keys, ring, fault)) return true;
    ring_free(ring);
    return false;
}

/* Looks at both files; whether one of them is another than it was. */
static bool have_changed(struct keys *keys) {
    const char *const path[] = { keys->path, keys->own_path };
    bool is_other = false;
    for (int at = 0; at < 2; at++) {
        struct stat now_is;
        memset(&now_is, 0, sizeof now_is);
        if (stat(path[at], &now_is) != 0) now_is.st_ino = 0;
        is_other = is_other || !is_same(&now_is, &keys->seen[at]);
        keys->seen[at] = now_is;
    }
    return is_other;
}

static const struct fact *facts_of(const struct fault *fault, struct fact facts[4]) {
    facts[0] = TEXT("reason", fault->reason);
    facts[1] = TEXT("file", fault->file);
    facts[2] = fault->line > 0 ? NUMBER("line", fault->line) : (struct fact){ NULL, NULL, 0, false };
    facts[3] = (struct fact){ NULL, NULL, 0, false };
    return facts;
}

struct keys *keys_open(const char *folder, const char *node) {
    struct fault fault;
    struct fact facts[4];
    if (folder == NULL) return NULL;
    struct keys *keys = calloc(1, sizeof *keys);
    struct bytes own = { NULL, 0, 0 };
    if (keys == NULL) fail_memory();
    if (sodium_init() < 0) fail("libsodium does not begin", NULL);
    add_form(&own, "/%s.key", node);
    keys->node = node;
    keys->path = beside(folder, "/keys");
    keys->own_path = beside(folder, own.at);
    free(own.at);
    have_changed(keys);
    if (!ring_read(keys, &keys->ring, &fault)) fail_with(REFUSED, "the keys are refused", facts_of(&fault, facts));
    keys->looked = now();
    counts_keys(keys->ring.count);
    return keys;
}

void keys_look(struct keys *keys, bool at_once) {
    struct fault fault;
    struct fact facts[4];
    struct ring ring;
    if (!at_once && now() - keys->looked < LOOK_SECONDS) return;
    keys->looked = now();
    if (!have_changed(keys)) return;
    if (!ring_read(keys, &ring, &fault)) {
        say("warning", "the keys are refused, and those before stay", facts_of(&fault, facts));
        return;
    }
    ring_free(&keys->ring);
    keys->ring = ring;
    counts_keys(ring.count);
    say("info", "the keys were read again", FACTS(NUMBER("keys", ring.count)));
}

void keys_close(struct keys *keys) {
    if (keys == NULL) return;
    ring_free(&keys->ring);
    free(keys->path);
    free(keys->own_path);
    free(keys);
}

/* What is signed of a packet, in a place that the next call uses again; how many bytes, 0 where the text spells no packet. */
static size_t signed_bytes(const struct ring *ring, const char *packet, size_t size, const unsigned char **at) {
    static const char what[] = "vogrilas packet 1";
    static unsigned char bytes[sizeof what + NETWORK_BYTES + ENVELOPE_BYTES + MOST_PAYLOAD];
    const size_t before = sizeof what + NETWORK_BYTES;
    memcpy(bytes, what, sizeof what);
    memcpy(bytes + sizeof what, ring->network, NETWORK_BYTES);
    size_t count = unprinted_all(packet, size, bytes + before, sizeof bytes - before);
    *at = bytes;
    return count < ENVELOPE_BYTES ? 0 : before + count;
}

bool keys_sign(const struct keys *keys, const char *packet, size_t size, char text[SIGNED_TEXT]) {
    unsigned char signature[crypto_sign_BYTES];
    const unsigned char *bytes;
    size_t count = signed_bytes(&keys->ring, packet, size, &bytes);
    if (count == 0 || crypto_sign_detached(signature, NULL, bytes, count, keys->ring.secret) != 0) return false;
    int name = snprintf(text, SIGNED_TEXT, "%s ", keys->node);
    sodium_bin2hex(text + name, SIGNED_TEXT - (size_t)name, signature, sizeof signature);
    return true;
}

bool keys_hold(const struct keys *keys, const char *text, const char *node, const char *packet, size_t size) {
    unsigned char signature[crypto_sign_BYTES];
    const unsigned char *bytes;
    size_t name = strlen(node);
    if (strncmp(text, node, name) != 0 || text[name] != ' ' || !read_digits(text + name + 1, signature, sizeof signature)) return false;
    const struct known *known = first_of(&keys->ring, node);
    size_t count = known == NULL ? 0 : signed_bytes(&keys->ring, packet, size, &bytes);
    for (; count > 0 && is_of(&keys->ring, known, node); known++)
        if (crypto_sign_verify_detached(signature, bytes, count, known->key) == 0) return true;
    return false;
}

unsigned keys_route(const struct keys *keys, uint64_t number, const unsigned char *request, size_t size) {
    return route_of(keys->ring.route, keys->ring.routes, number, request, size);
}
