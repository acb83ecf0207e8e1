/* LOG.seen: what is read of it is what is written again, whatever the file has. */
#include "fuzz.h"
#include "stream.h"

#include <unistd.h>

void tried(struct input *input) {
    struct seen seen, again;
    int file;
    written_file("log.seen", input->at, input->size);
    const char *log = path_of("log");
    bool is_one = seen_open(&file, log, &seen);
    expect(memchr(seen.made, 0, sizeof seen.made) != NULL && memchr(seen.digest, 0, sizeof seen.digest) != NULL);
    expect(is_one || (seen.sequence == 0 && seen.size == 0 && !seen.vouched));
    if (is_one) {
        seen_write(file, &seen);
        close(file);
        expect(seen_open(&file, log, &again));
        expect(strcmp(seen.made, again.made) == 0 && strcmp(seen.digest, again.digest) == 0);
        expect(seen.sequence == again.sequence && seen.size == again.size && seen.vouched == again.vouched);
    }
    close(file);
}
