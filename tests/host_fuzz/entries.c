/* What comes of servers and hosts of a log in a stream: messages of the log, the word on one that was sent, and what hosts say to one another. */
#include "fuzz.h"

#include "../../hosts/c/beats.c"

/* Bytes as base64, as the servers spell them. */
static void add_base64(struct bytes *text, const char *at, size_t size) {
    static const char digits[] = "ABCDEFGHIJKLMNOPQRSTUVWXYZabcdefghijklmnopqrstuvwxyz0123456789+/";
    for (size_t place = 0; place < size; place += 3) {
        uint32_t held = 0;
        size_t some = size - place < 3 ? size - place : 3;
        char four[4] = "====";
        for (size_t byte = 0; byte < 3; byte++) held = held << 8 | (byte < some ? (unsigned char)at[place + byte] : 0);
        for (size_t digit = 0; digit <= some; digit++) four[digit] = digits[held >> (18 - 6 * digit) & 63];
        add(text, four, 4);
    }
}

/* A reply of any bytes is read, or is none. */
static void try_reply(const char *reply) {
    struct entry entry;
    reply_number(reply, "seq");
    reply_error(reply);
    if (!entry_of(reply, &entry)) {
        expect(entry.bytes.at == NULL);
        return;
    }
    expect(strlen(entry.digest) < DIGEST_TEXT && strlen(entry.owner) < OWNER_TEXT && strpbrk(entry.owner, "\r\n") == NULL);
    entry_free(&entry);
}

/* A reply as servers write it is read as what it was made of. */
static void try_written(struct input *input) {
    struct bytes headers = { NULL, 0, 0 }, reply = { NULL, 0, 0 };
    struct entry entry;
    uint64_t sequence = 0, at = 0;
    for (int byte = 0; byte < 8; byte++) sequence = sequence << 8 | next_byte(input), at = at << 8 | next_byte(input);
    struct bytes bytes = the_rest(input);
    add_form(&headers, "NATS/1.0\r\nNats-Expected-Last-Sequence: 1\r\nLog-At: %llu\r\nLog-Digest: %064d\r\nLog-Owner: machine.01020304\r\n\r\n",
             (unsigned long long)at, 7);
    add_form(&reply, "{\"type\":\"io.nats.jetstream.api.v1.stream_msg_get_response\",\"message\":{\"subject\":\"log.ph1\",\"seq\":%llu,\"hdrs\":\"",
             (unsigned long long)sequence);
    add_base64(&reply, headers.at, headers.size);
    add_text(&reply, "\",\"data\":\"");
    add_base64(&reply, bytes.at, bytes.size);
    add_text(&reply, "\",\"time\":\"2026-01-01T00:00:00Z\"}}");
    expect(entry_of(reply.at, &entry));
    expect(entry.sequence == sequence && entry.at == at && strcmp(entry.owner, "machine.01020304") == 0);
    expect(entry.bytes.size == bytes.size && memcmp(entry.bytes.at, bytes.at, bytes.size) == 0);
    entry_free(&entry);
    free(reply.at);
    free(headers.at);
    free(bytes.at);
}

/* Words of other hosts: whatever they say, what is noted are texts that end. */
static void try_beats(struct input *input) {
    struct beats beats = { .self = "self.01020304", .has = { .heard = 1 } };
    pthread_mutex_init(&beats.lock, NULL);
    pthread_cond_init(&beats.came, NULL);
    while (input->size > 0) {
        struct bytes line = next_line(input);
        heard(NULL, NULL, message_of("claims.ph1.owner", NULL, line.at, line.size), &beats);
        free(line.at);
    }
    struct follower follower[MOST_FOLLOWERS];
    expect(beats_followers(&beats, beats.vouched, follower) <= MOST_FOLLOWERS);
    expect(memchr(beats.follower, 0, OWNER_TEXT) != NULL && memchr(beats.mover, 0, OWNER_TEXT) != NULL);
    expect(beats.has.sequence <= beats.vouched && beats.copied <= beats.vouched);
    free(beats.served.at);
    pthread_mutex_destroy(&beats.lock);
    pthread_cond_destroy(&beats.came);
}

void tried(struct input *input) {
    switch (next_byte(input) % 3) {
    case 0: {
        struct bytes text = the_rest(input);
        natsMsg *message = message_of("_INBOX.1", NULL, text.at, text.size);
        try_reply(natsMsg_GetData(message));
        natsMsg_Destroy(message);
        free(text.at);
        break;
    }
    case 1:
        try_written(input);
        break;
    default:
        try_beats(input);
    }
}
