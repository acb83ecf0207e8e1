/* This machine's copy of a log that is kept in a stream. */
#include <unistd.h>

#include "stream.h"

static _Noreturn void refuse(const struct copy *copy, const char *why) {
    fail_with(REFUSED, why, FACTS(TEXT("file", copy->log->path), TEXT("stream", copy->stream->name)));
}

static uint64_t number_of(const unsigned char *bytes) {
    uint64_t number = 0;
    for (int at = 0; at < 8; at++) number = number << 8 | bytes[at];
    return number;
}

/* How many bytes the head of a log, or the record that begins here, takes; 0 where it is not whole. `is_none`: what stands here is the
   beginning of neither. */
static size_t unit_of(uint64_t place, const char *bytes, size_t left, bool *is_none) {
    const unsigned char *at = (const unsigned char *)bytes;
    *is_none = false;
    if (place == 0) return left < HEAD_OF_LOG ? 0 : HEAD_OF_LOG;
    if (left < BEFORE_BODY) return 0;
    uint64_t body = number_of(at);
    *is_none = ~body != number_of(at + 8);
    bool is_whole = !*is_none && left - BEFORE_BODY >= BEHIND_BODY && left - BEFORE_BODY - BEHIND_BODY >= body;
    return is_whole ? (size_t)body + BEFORE_BODY + BEHIND_BODY : 0;
}

/* Whether the file has these very bytes already, where they are to stand. */
static bool has_already(const struct copy *copy, uint64_t place, const char *bytes, size_t size) {
    char part[65536];
    if (copy->file_size < place + size) return false;
    for (size_t done = 0; done < size;) {
        size_t some = size - done < sizeof part ? size - done : sizeof part;
        ssize_t count = pread(copy->log->file, part, some, (off_t)(place + done));
        if (count <= 0 || memcmp(part, bytes + done, (size_t)count) != 0) return false;
        done += (size_t)count;
    }
    return true;
}

/* Takes whole records, with a log's head before them where it begins; the node makes them anew later. */
static void take_units(struct copy *copy, const char *bytes, size_t size) {
    if (size == 0) return;
    if (!has_already(copy, copy->whole.size, bytes, size)) {
        log_write(copy->log, bytes, size);
        copy->file_size += size;
    }
    copy->is_unsynced = true;
    add(&copy->unmade, bytes, size);
    digest_add(&copy->whole.digest, bytes, size);
    copy->whole.size += size;
}

/* Takes what has come whole; of a file that has more than that already each record is compared. */
static void take_pending(struct copy *copy) {
    size_t from = 0, to = 0;
    bool is_none;
    for (size_t size; (size = unit_of(copy->whole.size + to - from, copy->pending.at + to, copy->pending.size - to, &is_none)) > 0;) {
        to += size;
        if (copy->file_size == copy->whole.size) continue;
        take_units(copy, copy->pending.at + from, to - from);
        from = to;
    }
    take_units(copy, copy->pending.at + from, to - from);
    if (is_none) refuse(copy, "the stream has something else than records");
    memmove(copy->pending.at, copy->pending.at + to, copy->pending.size - to);
    copy->pending.size -= to;
}

void copy_make(struct copy *copy) {
    const struct bytes *unmade = &copy->unmade;
    bool is_none;
    for (size_t from = 0, size; from < unmade->size; from += size) {
        size = unit_of(unmade->at[from] == 'P' ? 0 : 1, unmade->at + from, unmade->size - from, &is_none);
        node_make(copy->node, unmade->at + from, size);
    }
    copy->unmade.size = 0;
}

/* Cuts what a crash of this machine has left of a write, and keeps it beside the log. */
static void cut_torn(struct copy *copy, const struct bytes *bytes) {
    size_t size = (size_t)copy->whole.size;
    bool is_none;
    for (size_t more; (more = unit_of(size, bytes->at + size, bytes->size - size, &is_none)) > 0;) size += more;
    if (size < bytes->size) log_cut(copy->log, bytes, size);
    copy->file_size = size;
}

/* The file has less than this machine has seen: it is set aside, and the log is read anew from the stream. */
static void read_anew(struct copy *copy, struct bytes *bytes) {
    say("warning", "the copy has less than this machine has seen; it is read anew from the stream",
        FACTS(TEXT("file", copy->log->path), NUMBER("bytes", bytes->size), NUMBER("seen", copy->seen.size)));
    if (bytes->size > 0) log_cut(copy->log, bytes, 0);
    bytes->size = 0;
    copy->known = copy->seen;
    copy->seen.sequence = copy->seen.size = 0;
    copy->seen.vouched = false;
}

void copy_open(struct copy *copy, struct log *log, struct stream *stream) {
    char text[DIGEST_TEXT];
    *copy = (struct copy){ .stream = stream, .log = log };
    log->is_copy = true;
    struct bytes bytes = log_bytes(log);
    bool is_known = seen_open(&copy->seen_file, log->path, &copy->seen);
    if (copy->seen.size > bytes.size) read_anew(copy, &bytes);
    digest_begin(&copy->whole.digest);
    digest_add(&copy->whole.digest, bytes.at, (size_t)copy->seen.size);
    copy->whole.size = copy->seen.size;
    digest_text(&copy->whole.digest, text);
    if (copy->seen.sequence > 0 && strcmp(text, copy->seen.digest) != 0)
        refuse(copy, "the copy has other bytes than were seen to be there: see docs/OPERATING.md");
    cut_torn(copy, &bytes);
    log_sync_all(copy->log);
    /* A file that an operator has put there is known to its end; one that a host has begun has been noted before. */
    if (!is_known) {
        copy->seen.vouched = copy->file_size > 0;
        strcpy(copy->seen.made, "-");
    }
    if (!is_known || copy->known.sequence > 0) {
        strcpy(copy->seen.digest, text);
        seen_write(copy->seen_file, &copy->seen);
    }
    stream->last = copy->seen.sequence;
    free(bytes.at);
}

/* Whether the file has other bytes where whole records of these are to stand. */
static bool has_others(const struct copy *copy, const struct bytes *came) {
    uint64_t place = copy->whole.size;
    bool is_none;
    for (size_t from = 0, size; place < copy->file_size; from += size, place += size) {
        size = unit_of(place, came->at + from, came->size - from, &is_none);
        if (size == 0) return false;
        if (!has_already(copy, place, came->at + from, size)) return true;
    }
    return false;
}

/* Why a message does not go on where this copy of the log is: behind all that came, or behind the last whole record, where an end was torn.
   NULL where it does. */
static const char *misfit(const struct copy *copy, const struct entry *entry) {
    char text[DIGEST_TEXT];
    struct bytes came = { NULL, 0, 0 };
    struct digest digest = copy->whole.digest;
    if (entry->at != copy->whole.size && entry->at != copy->whole.size + copy->pending.size) return "a message stands elsewhere";
    if (entry->at != copy->whole.size) add(&came, copy->pending.at, copy->pending.size);
    add(&came, entry->bytes.at, entry->bytes.size);
    digest_add(&digest, came.at, came.size);
    digest_text(&digest, text);
    const char *why = strcmp(text, entry->digest) != 0 ? "the digest of a message differs" : NULL;
    if (why == NULL && has_others(copy, &came)) why = "the file has other records";
    free(came.at);
    return why;
}

void copy_note(struct copy *copy, uint64_t sequence) {
    if (copy->pending.size > 0) return;
    copy->seen.sequence = sequence;
    copy->seen.size = copy->whole.size;
    digest_text(&copy->whole.digest, copy->seen.digest);
    /* What was read anew has come to what this machine had seen before. */
    if (copy->known.sequence == 0 || sequence != copy->known.sequence) return;
    if (strcmp(copy->seen.digest, copy->known.digest) == 0) copy->seen.vouched = copy->known.vouched;
    else say("warning", "the servers have another log than this machine had seen", FACTS(TEXT("stream", copy->stream->name)));
    copy->known.sequence = 0;
}

const char *copy_take(struct copy *copy, const struct entry *entry) {
    const char *why = misfit(copy, entry);
    if (why != NULL) return why;
    if (entry->at == copy->whole.size) copy->pending.size = 0;
    add(&copy->pending, entry->bytes.at, entry->bytes.size);
    take_pending(copy);
    copy->stream->last = entry->sequence;
    copy_note(copy, entry->sequence);
    return NULL;
}

void copy_sync(struct copy *copy) {
    if (copy->is_unsynced) log_sync(copy->log);
    copy->is_unsynced = false;
    seen_write(copy->seen_file, &copy->seen);
}

void end_refused(const struct stream *stream, enum appended became) {
    const struct fact *named = FACTS(TEXT("stream", stream->name), NUMBER("sequence", stream->last));
    if (became == REFUSED_LATER) fail_with(OVERTAKEN, "another host has the log; nothing was said that is not in it", named);
    if (became == REFUSED_EARLIER) fail_with(REFUSED, "the servers have lost what this host has seen: see docs/OPERATING.md", named);
    fail_with(OVERTAKEN, "told to end while the servers said nothing; nothing was said that is not in the log", named);
}

void copy_append(struct copy *copy, const char *records, size_t size) {
    enum appended became = stream_append(copy->stream, &copy->whole, records, size);
    if (became != TAKEN) end_refused(copy->stream, became);
    copy->is_taken(copy->closure);
    torment(NULL);
    if (size > 0) {
        log_write(copy->log, records, size);
        log_sync(copy->log);
        copy->file_size += size;
        torment(NULL);
    }
    copy_note(copy, copy->stream->last);
    seen_write(copy->seen_file, &copy->seen);
    copy->is_kept(copy->closure);
}
