/* The file of a log: what is appended to it is on disk before anybody hears of it. */
#include <errno.h>
#include <fcntl.h>
#include <libgen.h>
#include <sys/file.h>
#include <sys/stat.h>
#include <unistd.h>

#include "node.h"

char *beside(const char *path, const char *ending) {
    struct bytes name = { NULL, 0, 0 };
    add_text(&name, path);
    add_text(&name, ending);
    return name.at;
}

/* Has the name of a file on disk. */
static bool sync_folder_of(const char *path) {
    char *copy = strdup(path);
    int folder = copy == NULL ? -1 : open(dirname(copy), O_RDONLY);
    bool is_synced = folder >= 0 && fsync(folder) == 0;
    int error = errno;
    if (folder >= 0) close(folder);
    free(copy);
    errno = error;
    return is_synced;
}

static bool write_all(int file, const char *bytes, size_t size) {
    for (size_t done = 0; done < size;) {
        ssize_t count = write(file, bytes + done, size - done);
        if (count < 0 && errno == EINTR) continue;
        if (count <= 0) return false;
        done += (size_t)count;
    }
    return true;
}

/* Writes a new file that nobody else may read, and has it on disk; false where there is one of this name or it fails. */
static bool write_new(const char *path, const char *bytes, size_t size) {
    int file = open(path, O_WRONLY | O_CREAT | O_EXCL, 0600);
    if (file < 0) return false;
    bool is_written = write_all(file, bytes, size) && fsync(file) == 0 && sync_folder_of(path);
    int error = errno;
    close(file);
    errno = error;
    return is_written;
}

/*
** A sync failed: the kernel may hold in memory, as if they were on disk, bytes that are not. A mark beside the log refuses the next start
** until people have looked (docs/OPERATING.md, hosts/reread).
*/
static _Noreturn void fail_synced(const char *path, const char *why) {
    const char *reason = strerror(errno);
    char *mark = beside(path, ".sync-failed");
    write_new(mark, why, strlen(why));
    fail_with(REFUSED, why, FACTS(TEXT("reason", reason), TEXT("file", path), TEXT("mark", mark)));
}

/* Whether a log still has its name. */
static bool has_name(const struct log *log) {
    struct stat here, there;
    return fstat(log->file, &here) == 0 && stat(log->path, &there) == 0 && here.st_ino == there.st_ino && here.st_dev == there.st_dev;
}

struct log log_open(const char *path) {
    char *mark = beside(path, ".sync-failed");
    if (access(mark, F_OK) == 0)
        fail_with(REFUSED, "a sync of the log failed: see docs/OPERATING.md", FACTS(TEXT("file", path), TEXT("mark", mark)));
    free(mark);
    struct log log = { path, open(path, O_RDWR | O_CREAT | O_APPEND, 0600), 0, false };
    if (log.file < 0) fail_open("the log cannot be opened", path);
    struct stat at;
    if (fstat(log.file, &at) != 0 || !S_ISREG(at.st_mode))
        fail_with(REFUSED, "the log is no file that keeps what is written", FACTS(TEXT("file", path)));
    if (flock(log.file, LOCK_EX | LOCK_NB) != 0) fail("another process has the log", FACTS(TEXT("file", path)));
    /* Who closed it in between has put another file in its place, and nothing may be appended to this one. */
    if (!has_name(&log)) fail("the log was replaced while it was opened", FACTS(TEXT("file", path)));
    return log;
}

struct bytes log_bytes(const struct log *log) {
    lseek(log->file, 0, SEEK_SET);
    return whole(log->file, log->path, SIZE_MAX);
}

void log_cut(const struct log *log, const struct bytes *bytes, size_t kept) {
    char ending[64];
    char *name = NULL;
    bool is_kept = false;
    for (int place = 1; place < 1000 && !is_kept; place++) {
        free(name);
        snprintf(ending, sizeof ending, place == 1 ? ".cut-%zu" : ".cut-%zu-%d", kept, place);
        name = beside(log->path, ending);
        if (access(name, F_OK) == 0) continue;
        if (!write_new(name, bytes->at + kept, bytes->size - kept)) {
            if (errno == EIO) fail_synced(log->path, "the torn end is not kept");
            fail("the torn end is not kept", FACTS(TEXT("reason", strerror(errno)), TEXT("file", name)));
        }
        is_kept = true;
    }
    if (!is_kept) fail("the torn end is not kept", FACTS(TEXT("reason", "too many are kept already"), TEXT("file", log->path)));
    if (ftruncate(log->file, (off_t)kept) != 0 || fsync(log->file) != 0) fail_synced(log->path, "the torn end is not cut");
    say("warning", "a torn end was cut",
        FACTS(TEXT("file", log->path), NUMBER("place", kept), NUMBER("bytes", bytes->size - kept), TEXT("kept", name)));
    free(name);
}

void log_sync_folder(const struct log *log) {
    if (!sync_folder_of(log->path)) fail_synced(log->path, "the folder is not synced");
}

void log_sync_all(const struct log *log) {
    if (fsync(log->file) != 0) fail_synced(log->path, "the log is not synced");
    log_sync_folder(log);
}

/* Ends where the log has lost its name, and keeps beside its place what it has: nobody would find the file again. */
static void check_name(const struct log *log) {
    if (has_name(log)) return;
    char ending[64];
    snprintf(ending, sizeof ending, ".removed-%lld", (long long)time(NULL));
    char *name = beside(log->path, ending);
    struct bytes bytes = log_bytes(log);
    bool is_kept = write_new(name, bytes.at, bytes.size);
    const struct fact *facts = FACTS(TEXT("file", log->path), TEXT(is_kept ? "kept" : "not_kept", name), NUMBER("bytes", bytes.size));
    if (log->is_copy) fail_with(OVERTAKEN, "the copy was removed or replaced while the node ran; it is read anew from the stream", facts);
    fail_with(REFUSED, "the log was removed or replaced while the node ran: see docs/OPERATING.md", facts);
}

void log_write(const struct log *log, const char *bytes, size_t size) {
    if (!write_all(log->file, bytes, size))
        fail("the log takes no records", FACTS(TEXT("reason", strerror(errno)), TEXT("file", log->path)));
}

int log_to_disk(const struct log *log) {
#ifndef WRONG_UNSYNCED
    if (fdatasync(log->file) != 0) return errno;
#else
    (void)log;
#endif
    return 0;
}

void log_synced(struct log *log, int error, double seconds) {
    errno = error;
    if (error != 0) fail_synced(log->path, "the log is not synced");
    counts_sync(seconds);
    check_name(log);
    log->syncs++;
}

void log_sync(struct log *log) {
    double before = now();
    int error = log_to_disk(log);
    log_synced(log, error, now() - before);
}
