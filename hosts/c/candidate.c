/* How a host comes to have a node's log in a stream, and sees that it has it still: candidates follow it, and one of them claims it. */
#include "stream.h"

/* How often an owner says that it has the log, and a stand-by that it follows. */
#define BEAT_SECONDS 0.15
#define FOLLOW_SECONDS 1.0
/* How long a stand-by waits for a word at most before it looks about. */
#define LOOK_SECONDS 0.05
/* How long a file may have more than the stream shows before that is taken for a loss: a server that begins to lead may lag. */
#define AHEAD_SECONDS 10.0
/* How long a host that is told to end waits for a word on what it has made. */
#define END_SECONDS 10.0
#define HEADER_BYTES 1024
#define MOST_UNMADE (1u << 20)
/* After how long without a copy it is said that there is none; how often it is said that the servers have another log. */
#define SAY_SECONDS 5.0
#define DIFFERS_SECONDS 30.0

/* The fact that events of a log have. */
static const struct fact *named(const struct candidate *it) {
    static _Thread_local struct fact facts[2];
    facts[0] = TEXT("stream", it->stream.name);
    return facts;
}

/* Tells metrics who has the log, and how far each host knows it. */
static void tell_counts(struct candidate *it) {
    struct follower follower[MOST_FOLLOWERS];
    int count = it->owns ? beats_followers(&it->beats, it->stream.last, follower) : 0;
    uint64_t told = beats_told(&it->beats);
    counts_stream(it->owns, it->differs, it->stream.last, !it->owns && told > it->stream.last ? told - it->stream.last : 0, follower, count);
}

static void tell_service(struct candidate *it) {
    if (now() < it->next_word) return;
    it->next_word = now() + 1;
    service_tell("WATCHDOG=1");
    counts_heard();
    tell_counts(it);
}

/* What is done while a word of the servers is awaited. */
static bool waits(void *closure) {
    struct candidate *it = closure;
    if (it->owns) beats_say(&it->beats, it->has_copies ? BEAT_WANTS : BEAT_HAS, it->stream.last, BEAT_SECONDS);
    tell_service(it);
    if (!*it->is_stopping) return true;
    if (it->stopping == 0) it->stopping = now();
    return it->owns && now() - it->stopping < END_SECONDS;
}

/* Asks the others for their copies, as soon as the servers have what was appended. */
static void is_taken(void *closure) {
    struct candidate *it = closure;
    if (it->has_copies) beats_say(&it->beats, BEAT_WANTS, it->stream.last, 0);
}

/* Waits until another host has on its disk what this one has. */
static void is_kept(void *closure) {
    struct candidate *it = closure;
    double started = now();
    bool is_told = false;
    while (it->has_copies && !beats_copied(&it->beats, it->stream.last)) {
        struct heard has = beats_heard(&it->beats);
        if (has.is_new && has.sequence > it->stream.last) end_refused(&it->stream, REFUSED_LATER);
        if (!waits(it)) end_refused(&it->stream, NOT_SENT);
        if (!is_told && now() - started > SAY_SECONDS) say("warning", "no other host has a copy, so nothing is said", named(it));
        is_told = is_told || now() - started > SAY_SECONDS;
        beats_say(&it->beats, BEAT_WANTS, it->stream.last, BEAT_SECONDS);
        beats_wait_copied(&it->beats, it->stream.last, LOOK_SECONDS);
    }
}

/* Asks for a message until there is a word on it; NO_WORD where the host is told to end before. */
static enum found read_surely(struct candidate *it, uint64_t sequence, struct entry *entry) {
    enum found found = NO_WORD;
    while (!*it->is_stopping && (found = stream_read(&it->stream, sequence, entry)) == NO_WORD) tell_service(it);
    return found;
}

/* Says that the servers show something else than this machine has, and looks again a little later: a server that leads may have another
   copy than the others, and where it leads no more all is well. Only people find out which is right. */
static void differ(struct candidate *it, const char *why, uint64_t sequence) {
    it->differs = true;
    if (it->said_differs == 0 || now() - it->said_differs > DIFFERS_SECONDS) {
        say("error", "the servers have another log than this machine: compare their copies by `vogctl log compare`, and see docs/OPERATING.md",
            FACTS(TEXT("reason", why), TEXT("stream", it->stream.name), NUMBER("sequence", sequence), TEXT("file", it->copy.log->path)));
        it->said_differs = now();
    }
    for (int turn = 0; turn < 10 && !*it->is_stopping; turn++) {
        nats_Sleep(100);
        tell_service(it);
    }
}

/* Sees whether the stream is the one that this machine knows: by its first message, and by the last that was seen. */
static void check_stream(struct candidate *it) {
    struct entry entry;
    struct seen *seen = &it->copy.seen;
    bool is_told = false;
    enum found found;
    while ((found = read_surely(it, 1, &entry)) != FOUND) {
        if (*it->is_stopping) return;
        if (!is_told) say("error", "there is no such log: an operator makes it, once, by `vogctl log make`", named(it));
        is_told = true;
        nats_Sleep(200);
        tell_service(it);
    }
    if (!begins(entry.owner, strlen(entry.owner), "made."))
        fail_with(REFUSED, "the first message of the log is not that of `vogctl log make`", named(it));
    if (strcmp(seen->made, "-") == 0) strcpy(seen->made, entry.owner);
    if (strcmp(seen->made, entry.owner) != 0)
        fail_with(REFUSED, "the log was made anew: it is not the one that this machine knows", named(it));
    entry_free(&entry);
    it->differs = seen->sequence > 0;
    while (it->differs && read_surely(it, seen->sequence, &entry) == FOUND) {
        it->differs = strcmp(entry.digest, seen->digest) != 0;
        entry_free(&entry);
        if (it->differs) differ(it, "the digest of the last message that was seen differs", seen->sequence);
    }
    it->differs = false;
}

/* Reads what is new, up to a sequence that was told, or to the end; whether that was all that there is. */
static bool read_on(struct candidate *it, uint64_t told) {
    struct entry entry;
    enum found found = NOT_THERE;
    uint64_t before = it->stream.last;
    while (!*it->is_stopping && it->stream.last < told && (found = stream_read(&it->stream, it->stream.last + 1, &entry)) == FOUND) {
        const char *why = copy_take(&it->copy, &entry);
        it->differs = why != NULL;
        if (it->differs) {
            differ(it, why, entry.sequence);
            entry_free(&entry);
            found = NO_WORD;
            break;
        }
        if (strcmp(entry.owner, it->owner) != 0) it->is_new_owner = true;
        strcpy(it->owner, entry.owner);
        entry_free(&entry);
        /* What comes in a few messages is on disk before the node makes it; a long log is made as it comes. */
        if (it->copy.unmade.size > MOST_UNMADE) copy_make(&it->copy);
        tell_service(it);
    }
    if (it->stream.last > before) {
        copy_sync(&it->copy);
        it->level = now();
    }
    return it->stream.last >= told || found == NOT_THERE;
}

/* Notes that this machine knows the log's end, once another host or an operator has told where it is. */
static void vouch(struct candidate *it) {
    struct seen *seen = &it->copy.seen;
    if (seen->vouched || !beats_vouch(&it->beats, it->stream.last)) return;
    seen->vouched = true;
    it->copy.known.sequence = 0;
    seen_write(it->copy.seen_file, seen);
}

/* Whether this machine may take over: it knows the log's end. One that was just made is vouched for by who made it. */
static bool may_claim(struct candidate *it) {
    const char *why = NULL;
    if (!it->copy.seen.vouched && it->stream.last > 1) why = "nobody vouches for the end of the log: see `vogctl log vouch`";
    if (it->copy.known.sequence > it->stream.last) why = "the servers have lost what this machine had seen, whose copy is gone: see docs/OPERATING.md";
    /* They may have lost it. */
    if (!beats_level(&it->beats, it->stream.last)) why = "the servers do not show what another host has told of";
    if (why != NULL && !it->is_told) say("warning", why, named(it));
    it->is_told = it->is_told || why != NULL;
    return why == NULL;
}

/* Whether the file has no more than the stream. Where it has for long, the servers have lost what was said. */
static bool is_level(struct candidate *it) {
    bool is_level = it->copy.file_size == it->copy.whole.size;
    if (is_level) it->level = now();
    if (now() - it->level > AHEAD_SECONDS)
        fail_with(REFUSED, "the copy has more than the servers, which have lost that: see `vogctl log restore`",
                  FACTS(TEXT("stream", it->stream.name), TEXT("file", it->copy.log->path)));
    return is_level;
}

/* Whether the servers show as the log's last message the one that this machine has; what they lack the claim tells. */
static bool ends_alike(struct candidate *it) {
    struct entry entry;
    if (it->copy.seen.sequence != it->stream.last || it->stream.last == 0) return true;
    if (read_surely(it, it->stream.last, &entry) != FOUND) return true;
    bool is_alike = strcmp(entry.digest, it->copy.seen.digest) == 0;
    entry_free(&entry);
    if (!is_alike) differ(it, "the digest of the last message differs", it->stream.last);
    return is_alike;
}

/* Claims the log; false where another host was faster. */
static bool claim(struct candidate *it) {
    enum appended became = stream_append(&it->stream, &it->copy.whole, "", 0);
    if (became == REFUSED_EARLIER) end_refused(&it->stream, became);
    if (became != TAKEN) return false;
    it->owns = true;
    tell_counts(it);
    it->copy.pending.size = 0;
    it->copy.seen.vouched = true;
    copy_note(&it->copy, it->stream.last);
    copy_sync(&it->copy);
    beats_say(&it->beats, BEAT_HAS, it->stream.last, 0);
    return true;
}

bool candidate_open(struct candidate *it, const struct given *given, struct log *log, volatile sig_atomic_t *is_stopping) {
    *it = (struct candidate){ .patience = given->patience };
    stream_begin(&it->stream, given->name, given->machine, (size_t)given->part);
    it->is_stopping = is_stopping;
    it->stream.waits = waits;
    it->stream.closure = it;
    copy_open(&it->copy, log, &it->stream);
    it->has_copies = given->copies == 2;
    it->copy.is_taken = is_taken;
    it->copy.is_kept = is_kept;
    it->copy.closure = it;
    if (!engine_open(&it->stream.engine, given->name, &given->access, is_stopping)) return false;
    /* The server takes so many bytes, and headers are among them. */
    size_t most = (size_t)natsConnection_GetMaxPayload(it->stream.engine.connection) - HEADER_BYTES;
    if (it->stream.part > most) it->stream.part = most;
    beats_open(&it->beats, &it->stream);
    check_stream(it);
    return !*is_stopping;
}

bool candidate_own(struct candidate *it) {
    double looked = now();
    bool is_end = false;
    it->level = now();
    say("info", "follows", named(it));
    /* A stand-by is as it should be, whoever started it. */
    service_tell("READY=1");
    while (!*it->is_stopping) {
        struct heard has = beats_heard(&it->beats);
        /* A host that was stopped has heard nobody meanwhile: it looks again before it takes a log that is well kept. */
        if (now() - looked > it->patience) beats_forget(&it->beats);
        bool is_alone = now() - has.heard > it->patience || has.leaves;
        bool is_due = now() - looked <= it->patience;
        looked = now();
        if (!is_end || is_alone) is_end = read_on(it, UINT64_MAX);
        else if (has.sequence > it->stream.last) is_end = read_on(it, has.sequence);
        vouch(it);
        /* Whom another has just overtaken is not who is silent. A log that was just made is nobody's. */
        if (it->is_new_owner) beats_forget(&it->beats);
        is_alone = (is_alone && !it->is_new_owner) || it->stream.last == 1;
        it->is_new_owner = false;
        if (is_alone) copy_make(&it->copy);
        if (is_end && is_alone && is_due && may_claim(it) && is_level(it) && ends_alike(it)) {
            if (claim(it)) return true;
            beats_forget(&it->beats);
            is_end = false;
            looked = now();
        }
        bool is_asked = has.is_new && has.wants && it->stream.last >= has.sequence;
        if (it->copy.seen.vouched && !it->differs) beats_say(&it->beats, BEAT_FOLLOWS, it->stream.last, is_asked ? 0 : FOLLOW_SECONDS);
        copy_make(&it->copy);
        if (!it->differs) move_look(it);
        tell_service(it);
        beats_wait(&it->beats, LOOK_SECONDS);
    }
    return false;
}

void candidate_look(struct candidate *it) {
    struct heard has = beats_heard(&it->beats);
    bool was_away = now() - it->looked > it->patience;
    it->looked = now();
#ifdef WRONG_UNFENCED
    return;
#endif
    move_took(it);
    if (has.is_new && has.sequence > it->stream.last) end_refused(&it->stream, REFUSED_LATER);
    /* Who was stopped, or hears another who knows as much, has the servers say who has the log before anything is said. */
    if (was_away || (has.is_new && has.sequence == it->stream.last)) copy_append(&it->copy, "", 0);
    beats_say(&it->beats, BEAT_HAS, it->stream.last, BEAT_SECONDS);
    if (now() < it->next_word) return;
    it->next_word = now() + 1;
    tell_counts(it);
}

void candidate_leave(struct candidate *it) {
    if (it->owns) beats_say(&it->beats, BEAT_LEAVES, it->stream.last, 0);
    beats_close(&it->beats);
    engine_close(&it->stream.engine);
}
