/* Appends behind a fence, and reads, of one log in its stream. */
#include <unistd.h>

#include "stream.h"

#define WRONG_LAST_SEQUENCE 10071
#define NO_MESSAGE 10037
#define NO_SUCH_STREAM 10059
/* How often whoever waits for a word looks about. */
#define LOOK_SECONDS 0.1
/* After how long without a word the same message is sent again, and at most. */
#define AGAIN_SECONDS 0.5
#define MOST_AGAIN_SECONDS 4.0
#define READ_SECONDS 1.0
/* After how long without a word it is said that there is none. */
#define SAY_SECONDS 5.0

void stream_begin(struct stream *stream, const char *node, const char *machine, size_t part) {
    unsigned char drawn[4];
    char host[32] = "machine";
    if (machine == NULL) gethostname(host, sizeof host - 1);
    draw(drawn, sizeof drawn);
    stream->node = node;
    stream->part = part;
    snprintf(stream->name, sizeof stream->name, "LOG_%s", node);
    snprintf(stream->subject, sizeof stream->subject, "log.%s", node);
    snprintf(stream->owner, sizeof stream->owner, "%.32s.%02x%02x%02x%02x", machine == NULL ? host : machine, drawn[0], drawn[1], drawn[2],
             drawn[3]);
}

static void set_header(natsMsg *message, const char *name, const char *value) {
    natsStatus status = natsMsgHeader_Set(message, name, value);
    if (status != NATS_OK) fail("a message has no header", FACTS(TEXT("reason", natsStatus_GetText(status)), TEXT("header", name)));
}

/* The message that appends bytes at a place, of which the digest behind them is told. */
static natsMsg *message_of(struct stream *stream, uint64_t at, const char *digest, const char *bytes, size_t size) {
    char text[24];
    natsMsg *message = engine_message(&stream->engine, stream->subject, bytes, size);
    /* libnats sends no such header for 0 by itself, and two hosts would both begin an empty log. */
    snprintf(text, sizeof text, "%llu", (unsigned long long)stream->last);
#ifndef WRONG_NO_EXPECTATION
    set_header(message, "Nats-Expected-Last-Sequence", text);
#endif
    snprintf(text, sizeof text, "%llu", (unsigned long long)at);
    set_header(message, "Log-At", text);
    set_header(message, "Log-Digest", digest);
    set_header(message, "Log-Owner", stream->owner);
    return message;
}

/* Whether the message behind the last that was known is this very one: it was taken, and the word on it was lost. */
static enum appended settle(struct stream *stream, uint64_t at, const char *digest) {
    struct entry entry;
    enum found found;
    while ((found = stream_read(stream, stream->last + 1, &entry)) != FOUND) {
        if (!stream->waits(stream->closure)) return NOT_SENT;
    }
    bool is_mine = entry.at == at && strcmp(entry.digest, digest) == 0 && strcmp(entry.owner, stream->owner) == 0;
    entry_free(&entry);
    return is_mine ? TAKEN : REFUSED_LATER;
}

/* What a reply says of a message; false where it says nothing of it, so that it is sent again. */
static bool judge(struct stream *stream, const char *reply, uint64_t at, const char *digest, enum appended *became) {
    static const char wrong[] = "wrong last sequence: ";
    uint64_t error = reply_error(reply), sequence = reply_number(reply, "seq");
    const char *told = strstr(reply, wrong);
    if (error == 0 && sequence > 0 && strstr(reply, stream->name) != NULL) {
#ifndef WRONG_NO_EXPECTATION
        if (sequence != stream->last + 1)
            fail_with(REFUSED, "the servers took a message elsewhere than it was to stand",
                      FACTS(TEXT("stream", stream->name), NUMBER("sequence", sequence)));
#endif
        stream->last = sequence - 1;
        *became = TAKEN;
        return true;
    }
    if (error != WRONG_LAST_SEQUENCE || told == NULL) return false;
    uint64_t last = strtoull(told + strlen(wrong), NULL, 10);
    if (last == stream->last) return false;
    if (last == stream->last + 1) *became = settle(stream, at, digest);
    else *became = last > stream->last ? REFUSED_LATER : REFUSED_EARLIER;
    return true;
}

/* Appends one message: sends it, and the same again, until there is a word on it. */
static enum appended append_one(struct stream *stream, uint64_t at, const char *digest, const char *bytes, size_t size) {
    natsMsg *message = message_of(stream, at, digest, bytes, size);
    enum appended became = NOT_SENT;
    double started = now(), due = started, wait = AGAIN_SECONDS;
    bool is_judged = false, is_told = false, is_sent = false;
    do {
        if (now() >= due && engine_send(&stream->engine, message)) {
            if (is_sent) counts_appended_again();
            is_sent = true;
            due = now() + wait;
            wait = wait * 2 < MOST_AGAIN_SECONDS ? wait * 2 : MOST_AGAIN_SECONDS;
        }
        natsMsg *reply = engine_reply(&stream->engine, LOOK_SECONDS);
        if (reply != NULL) is_judged = judge(stream, natsMsg_GetData(reply), at, digest, &became);
        natsMsg_Destroy(reply);
        if (is_judged) break;
        if (!is_told && now() - started > SAY_SECONDS)
            say("warning", "the servers say nothing of the log, trying again", FACTS(TEXT("stream", stream->name)));
        is_told = is_told || now() - started > SAY_SECONDS;
    } while (stream->waits(stream->closure));
    natsMsg_Destroy(message);
    if (became == TAKEN) {
        stream->last++;
        counts_appended(now() - started);
    }
    return became;
}

enum appended stream_append(struct stream *stream, struct place *place, const char *bytes, size_t size) {
    do {
        char text[DIGEST_TEXT];
        size_t some = size < stream->part ? size : stream->part;
        struct place next = *place;
        digest_add(&next.digest, bytes, some);
        next.size += some;
        digest_text(&next.digest, text);
        enum appended became = append_one(stream, place->size, text, bytes, some);
        if (became != TAKEN) return became;
        *place = next;
        bytes += some;
        size -= some;
        if (size > 0) torment(NULL);
    } while (size > 0);
    return TAKEN;
}

enum found stream_read(struct stream *stream, uint64_t sequence, struct entry *entry) {
    char subject[64], asked[48];
    snprintf(subject, sizeof subject, "$JS.API.STREAM.MSG.GET.%s", stream->name);
    int size = snprintf(asked, sizeof asked, "{\"seq\":%llu}", (unsigned long long)sequence);
    natsMsg *message = engine_message(&stream->engine, subject, asked, (size_t)size);
    bool is_sent = engine_send(&stream->engine, message);
    natsMsg *reply = engine_reply(&stream->engine, is_sent ? READ_SECONDS : LOOK_SECONDS);
    natsMsg_Destroy(message);
    if (reply == NULL) return NO_WORD;
    enum found found = NO_WORD;
    uint64_t error = reply_error(natsMsg_GetData(reply));
    if (error == NO_MESSAGE) found = NOT_THERE;
    else if (error == NO_SUCH_STREAM) found = NO_STREAM;
    else if (error == 0 && reply_number(natsMsg_GetData(reply), "seq") == sequence) found = FOUND;
    if (found == FOUND && !entry_of(natsMsg_GetData(reply), entry))
        fail_with(REFUSED, "the log has a message that no host made", FACTS(TEXT("stream", stream->name), NUMBER("sequence", sequence)));
    natsMsg_Destroy(reply);
    return found;
}
