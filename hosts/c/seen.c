/* LOG.seen: what this machine has seen of a log in its stream, one line in place. It is written behind the log's own sync, and is never
   ahead of the file; older than the file it may be, and then the file is compared with the stream from there on. */
#include <errno.h>
#include <fcntl.h>
#include <unistd.h>

#include "stream.h"

/* The line and the spaces behind it: a write of so few bytes stands whole or not at all, where the process alone dies. */
#define SEEN_BYTES 256

bool seen_open(int *file, const char *log, struct seen *seen) {
    char line[SEEN_BYTES + 1], form[64];
    unsigned long long sequence, size;
    int vouched;
    char *path = beside(log, ".seen");
    *file = open(path, O_RDWR | O_CREAT, 0600);
    if (*file < 0) fail_open("what was seen of the log cannot be opened", path);
    ssize_t count = pread(*file, line, SEEN_BYTES, 0);
    line[count > 0 ? count : 0] = '\0';
    *seen = (struct seen){ .sequence = 0 };
    snprintf(form, sizeof form, "seen 1 %%%ds %%llu %%llu %%%ds %%d", OWNER_TEXT - 1, DIGEST_TEXT - 1);
    bool is_one = sscanf(line, form, seen->made, &sequence, &size, seen->digest, &vouched) == 5;
    if (is_one) seen->sequence = sequence, seen->size = size, seen->vouched = vouched == 1;
    else if (count > 0)
        say("warning", "what was seen of the log is not readable; it is compared with the stream from its beginning",
            FACTS(TEXT("file", path)));
    if (!is_one) *seen = (struct seen){ .sequence = 0 };
    free(path);
    return is_one;
}

void seen_write(int file, const struct seen *seen) {
    char line[SEEN_BYTES + 1];
    int size = snprintf(line, sizeof line, "seen 1 %s %llu %llu %s %d", seen->made, (unsigned long long)seen->sequence,
                        (unsigned long long)seen->size, seen->digest, seen->vouched);
    if (size < 0 || size >= SEEN_BYTES) fail("what was seen of the log is too long to be noted", NULL);
    memset(line + size, ' ', SEEN_BYTES - (size_t)size);
    line[SEEN_BYTES - 1] = '\n';
    if (pwrite(file, line, SEEN_BYTES, 0) != SEEN_BYTES)
        fail("what was seen of the log is not noted", FACTS(TEXT("reason", strerror(errno))));
}
