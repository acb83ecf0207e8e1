/* What the targets share, and in the place of said.c what comes back where a host would end. */
#include "fuzz.h"

#include <fcntl.h>
#include <setjmp.h>
#include <unistd.h>

static jmp_buf *back;
static char folder[256];

void said_for(const char *node, bool for_people) {
    (void)node, (void)for_people;
}

void said_by(const char *node) {
    (void)node;
}

void say(const char *level, const char *what, const struct fact *facts) {
    (void)level, (void)what, (void)facts;
}

void say_some(const char *level, const char *what, const char *reason, const struct fact *facts) {
    (void)level, (void)what, (void)reason, (void)facts;
}

_Noreturn void fail_with(int status, const char *what, const struct fact *facts) {
    (void)status, (void)facts;
    if (back == NULL) unexpected(what, "a host that ends", 0);
    longjmp(*back, 1);
}

_Noreturn void fail(const char *what, const struct fact *facts) {
    fail_with(1, what, facts);
}

_Noreturn void fail_memory(void) {
    unexpected("memory", "a host that ends", 0);
}

_Noreturn void fail_open(const char *what, const char *path) {
    unexpected(what, path, 0);
}

bool goes_on(void (*part)(void *closure), void *closure) {
    jmp_buf here, *before = back;
    back = &here;
    bool has_gone = setjmp(here) == 0;
    if (has_gone) part(closure);
    back = before;
    return has_gone;
}

_Noreturn void unexpected(const char *what, const char *file, int line) {
    fprintf(stderr, "host-fuzz: not so: %s:%d: %s\n", file, line, what);
    abort();
}

unsigned next_byte(struct input *input) {
    if (input->size == 0) return 0;
    input->size--;
    return *input->at++;
}

struct bytes next_line(struct input *input) {
    struct bytes line = { NULL, 0, 0 };
    const unsigned char *end = input->size == 0 ? NULL : memchr(input->at, '\n', input->size);
    size_t size = end == NULL ? input->size : (size_t)(end - input->at);
    add(&line, input->at, size);
    input->at += size + (end != NULL);
    input->size -= size + (end != NULL);
    return line;
}

struct bytes the_rest(struct input *input) {
    struct bytes rest = { exact(input->at, input->size), input->size, input->size };
    input->size = 0;
    return rest;
}

char *exact(const void *at, size_t size) {
    char *copy = malloc(size > 0 ? size : 1);
    if (copy == NULL) fail_memory();
    if (size > 0) memcpy(copy, at, size);
    return copy;
}

natsMsg *message_of(const char *subject, const char *reply, const void *at, size_t size) {
    natsMsg *message = NULL;
    if (natsMsg_Create(&message, subject, reply, at, (int)size) != NATS_OK) fail_memory();
    return message;
}

static void remove_folder(void) {
    char words[300];
    snprintf(words, sizeof words, "rm -rf '%s'", folder);
    if (system(words) != 0) return;
}

const char *path_of(const char *name) {
    static char path[300];
    if (folder[0] == '\0') {
        const char *above = getenv("TMPDIR");
        snprintf(folder, sizeof folder, "%s/host-fuzz-XXXXXX", above == NULL ? "/tmp" : above);
        if (mkdtemp(folder) == NULL) unexpected("a folder", folder, 0);
        atexit(remove_folder);
    }
    snprintf(path, sizeof path, "%s/%s", folder, name);
    return path;
}

const char *written_file(const char *name, const void *at, size_t size) {
    const char *path = path_of(name);
    int file = open(path, O_WRONLY | O_CREAT | O_TRUNC, 0600);
    if (file < 0 || write(file, at, size) != (ssize_t)size) unexpected("a file", path, 0);
    close(file);
    return path;
}

struct bytes description_of(const void *at, size_t size) {
    struct bytes text = { NULL, 0, 0 };
    size_t wanted = 0;
    char nothing = 0;
    vogrilas_describe(at, size, 1, &nothing, 0, &wanted);
    text = (struct bytes){ malloc(wanted + 1), wanted, wanted + 1 };
    if (text.at == NULL || vogrilas_describe(at, size, 1, text.at, wanted, &text.size) != VOGRILAS_OK) fail_memory();
    text.at[text.size] = '\0';
    return text;
}

const struct bytes *settings_named(const char *name) {
    static struct {
        char name[16];
        struct bytes text;
    } all[4];
    size_t at = 0;
    char path[400];
    while (all[at].name[0] != '\0' && strcmp(all[at].name, name) != 0) at++;
    if (all[at].name[0] == '\0') {
        const char *above = getenv("HOST_FUZZ_SETTINGS");
        snprintf(path, sizeof path, "%s/%s.toml", above == NULL ? "." : above, name);
        int file = open(path, O_RDONLY);
        if (file < 0) unexpected("settings", path, 0);
        all[at].text = whole(file, path, MOST_SETTINGS);
        close(file);
        snprintf(all[at].name, sizeof all[at].name, "%s", name);
    }
    return &all[at].text;
}

vogrilas_code node_over(vogrilas_node *node, const struct bytes *settings, const char *name, const struct bytes *log, size_t *kept) {
    return vogrilas_open(node, settings->at, settings->size, name, strlen(name), log->at, log->size, "0123456789abcdef", 16, kept);
}

int LLVMFuzzerInitialize(int *count, char ***words);
int LLVMFuzzerTestOneInput(const uint8_t *data, size_t size);

int LLVMFuzzerInitialize(int *count, char ***words) {
    (void)count, (void)words;
    return nats_Open(-1) == NATS_OK ? 0 : 1;
}

int LLVMFuzzerTestOneInput(const uint8_t *data, size_t size) {
    struct input input = { data, size };
    tried(&input);
    return 0;
}
