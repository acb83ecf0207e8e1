/*
** A disk whose syncs take as long as it is told, for bench/path: preloaded, it sleeps SYNC_MICROSECONDS in each fsync and fdatasync in the place
** of the real one. The file that SYNC_COUNT names has how many have begun, and how many have ended, in eight bytes each. What it is told to keep is
** not kept through a power cut.
*/
#define _GNU_SOURCE
#include <fcntl.h>
#include <stdatomic.h>
#include <stdint.h>
#include <stdlib.h>
#include <sys/mman.h>
#include <sys/prctl.h>
#include <time.h>
#include <unistd.h>

static struct count {
    _Atomic uint64_t begun, ended;
} alone, *count = &alone;
static struct timespec takes;

__attribute__((constructor)) static void begin(void) {
    const char *path = getenv("SYNC_COUNT"), *microseconds = getenv("SYNC_MICROSECONDS");
    long all = microseconds == NULL ? 0 : atol(microseconds);
    int file = path == NULL ? -1 : open(path, O_RDWR);
    takes = (struct timespec){ all / 1000000, all % 1000000 * 1000 };
    if (file < 0) return;
    void *at = mmap(NULL, sizeof *count, PROT_READ | PROT_WRITE, MAP_SHARED, file, 0);
    if (at != MAP_FAILED) count = at;
    close(file);
}

static int synced(void) {
    static _Thread_local int is_exact;
    struct timespec left = takes;
    /* A sleep may last fifty microseconds longer else. */
    if (!is_exact) is_exact = prctl(PR_SET_TIMERSLACK, 1) == 0;
    count->begun++;
    while (nanosleep(&left, &left) != 0) continue;
    count->ended++;
    return 0;
}

int fsync(int file) {
    (void)file;
    return synced();
}

int fdatasync(int file) {
    (void)file;
    return synced();
}
