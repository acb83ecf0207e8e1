/*
** A disk that fails, for tests/disks: preloaded into a host, it looks into the folder that TRIAL_DISK names. Where a file `eio` is there, syncs
** of logs fail, where `eio-folder` is there those of folders; where `full` is there, a log takes half of what is written to it, and then
** nothing; where `slow` is there, a sync takes half a second; where `other` is there, the disk has another first byte of a log than the kernel
** shows. Each sync is noted in `synced`. For hosts/torture, where TRIAL_SIZES is set: beside
** a log, LOG.synced has how many bytes it had when its last sync began that has succeeded, and each sync of a log takes so many microseconds
** more, as a disk's does.
*/
#define _GNU_SOURCE
#include <dlfcn.h>
#include <errno.h>
#include <fcntl.h>
#include <limits.h>
#include <stdbool.h>
#include <stdio.h>
#include <stdlib.h>
#include <string.h>
#include <sys/stat.h>
#include <sys/syscall.h>
#include <sys/uio.h>
#include <unistd.h>

static bool is_on(const char *name) {
    char path[PATH_MAX];
    const char *folder = getenv("TRIAL_DISK");
    snprintf(path, sizeof path, "%s/%s", folder == NULL ? "/nonexistent" : folder, name);
    return access(path, F_OK) == 0;
}

/* The name of an open file. */
static const char *name_of(int file) {
    static _Thread_local char name[PATH_MAX];
    char link[64];
    snprintf(link, sizeof link, "/proc/self/fd/%d", file);
    ssize_t size = readlink(link, name, sizeof name - 1);
    name[size < 0 ? 0 : size] = '\0';
    return name;
}

static bool is_log(int file) {
    const char *name = name_of(file);
    size_t size = strlen(name);
    return size > 4 && strcmp(name + size - 4, ".log") == 0;
}

static bool is_folder(int file) {
    struct stat at;
    return fstat(file, &at) == 0 && S_ISDIR(at.st_mode);
}

static void note(int file) {
    char path[PATH_MAX], line[PATH_MAX + 1];
    const char *folder = getenv("TRIAL_DISK");
    if (folder == NULL) return;
    snprintf(path, sizeof path, "%s/synced", folder);
    int to = open(path, O_WRONLY | O_CREAT | O_APPEND, 0600);
    int size = snprintf(line, sizeof line, "%s\n", name_of(file));
    if (to >= 0) syscall(SYS_write, to, line, (size_t)size);
    if (to >= 0) close(to);
}

static void note_size(int file, off_t size) {
    char path[PATH_MAX], line[32];
    if (snprintf(path, sizeof path, "%s.synced", name_of(file)) >= (int)sizeof path) return;
    int to = open(path, O_WRONLY | O_CREAT, 0600);
    /* One call: who is killed has noted all of it or nothing. */
    int written = snprintf(line, sizeof line, "%020lld", (long long)size);
    if (to >= 0) syscall(SYS_write, to, line, (size_t)written);
    if (to >= 0) close(to);
}

static int synced(int file, const char *name) {
    int (*real)(int) = (int (*)(int))dlsym(RTLD_NEXT, name);
    bool notes = getenv("TRIAL_SIZES") != NULL && is_log(file);
    struct stat at;
    if (notes) notes = fstat(file, &at) == 0;
    note(file);
    if (notes) usleep((useconds_t)atoi(getenv("TRIAL_SIZES")));
    if (is_log(file) && is_on("slow")) usleep(500000);
    bool fails = (is_log(file) && is_on("eio")) || (is_folder(file) && is_on("eio-folder"));
    if (!fails) {
        int status = real(file);
        if (status == 0 && notes) note_size(file, at.st_size);
        return status;
    }
    errno = EIO;
    return -1;
}

int fsync(int file) {
    return synced(file, "fsync");
}

int fdatasync(int file) {
    return synced(file, "fdatasync");
}

ssize_t write(int file, const void *bytes, size_t size) {
    static bool has_failed;
    if (is_log(file) && is_on("full")) {
        if (has_failed || size < 2) {
            errno = ENOSPC;
            return -1;
        }
        has_failed = true;
        size /= 2;
    }
    return syscall(SYS_write, file, bytes, size);
}

/* hosts/reread reads so what the disk has. */
ssize_t readv(int file, const struct iovec *parts, int count) {
    off_t at = lseek(file, 0, SEEK_CUR);
    ssize_t size = syscall(SYS_readv, file, parts, count);
    if (size > 0 && at == 0 && is_log(file) && is_on("other")) ((char *)parts[0].iov_base)[0] ^= 1;
    return size;
}
