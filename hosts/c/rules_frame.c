/*
** A request to a payer's system over framed TCP: a message between the bytes 0x02 and 0x03, or behind its length in two or four bytes, the high
** byte first; and the answer so, on the same connection. libcurl opens connections, with TLS where that is wanted, and moves their bytes.
*/
#include "rules.h"

#define FRAME_START 0x02
#define FRAME_END 0x03

/* How many bytes a length has; 0 where frames have none. */
static size_t length_bytes(const struct rules *rules) {
    const char *framing = rules->given.framing;
    return strcmp(framing, "length2") == 0 ? 2 : strcmp(framing, "length4") == 0 ? 4 : 0;
}

/* Puts a request into a frame; false where it has a byte that frames. */
static bool put_frame(const struct rules *rules, const struct bytes *request, struct bytes *out) {
    static const char start[] = { FRAME_START }, end[] = { FRAME_END };
    size_t count = length_bytes(rules);
    out->size = 0;
    for (size_t at = count; at-- > 0;) {
        const char byte = (char)(request->size >> (8 * at) & 0xff);
        add(out, &byte, 1);
    }
    if (count == 0 && (memchr(request->at, FRAME_START, request->size) != NULL || memchr(request->at, FRAME_END, request->size) != NULL))
        return false;
    if (count == 0) add(out, start, 1);
    add(out, request->at, request->size);
    if (count == 0) add(out, end, 1);
    return true;
}

/* What stands in a frame that has come; CAMES where it is not whole yet. `used` is how many bytes it has. */
static enum came read_frame(const struct rules *rules, const struct bytes *in, struct bytes *answer, size_t *used) {
    size_t count = length_bytes(rules), size = 0, before = count == 0 ? 1 : count;
    if (in->size < before) return CAMES;
    if (count == 0) {
        const char *end = memchr(in->at, FRAME_END, in->size);
        if (in->at[0] != FRAME_START) return CAME_BAD_FRAME;
        if (end == NULL) return in->size > MOST_ANSWER + before ? CAME_TOO_LONG : CAMES;
        size = (size_t)(end - in->at) - 1;
    }
    for (size_t at = 0; at < count; at++) size = size << 8 | (unsigned char)in->at[at];
    if (size > MOST_ANSWER) return CAME_TOO_LONG;
    *used = before + size + (count == 0);
    if (in->size < *used) return CAMES;
    add(answer, in->at + before, size);
    return size == 0 ? CAME_EMPTY : CAME_ADVICE;
}

/* Closes a connection; a request that it carried has come to this. */
static void close_line(struct rules *rules, struct line *line, enum came came, const char *why) {
    struct asked *asked = line->asked;
    curl_multi_remove_handle(rules->multi, line->handle);
    curl_easy_cleanup(line->handle);
    free(line->out.at);
    free(line->in.at);
    *line = (struct line){ .handle = NULL };
    if (asked != NULL) rules_came(asked, came, why);
}

/* A line that is open and carries nothing, else one that is none yet. There are as many as requests may be under way. */
static struct line *free_line(struct rules *rules) {
    struct line *none = NULL;
    for (struct line *line = rules->lines; line < rules->lines + rules->most; line++) {
        if (line->is_open && line->asked == NULL) return line;
        if (line->handle == NULL && none == NULL) none = line;
    }
    return none;
}

static void open_line(struct rules *rules, struct line *line, double seconds) {
    line->handle = curl_easy_init();
    if (line->handle == NULL) fail_memory();
    rules_set(rules, line->handle, seconds);
    curl_easy_setopt(line->handle, CURLOPT_URL, rules->url);
    curl_easy_setopt(line->handle, CURLOPT_CONNECT_ONLY, 1L);
    curl_easy_setopt(line->handle, CURLOPT_SSL_ENABLE_ALPN, 0L);
    curl_easy_setopt(line->handle, CURLOPT_FRESH_CONNECT, 1L);
    curl_easy_setopt(line->handle, CURLOPT_TCP_KEEPALIVE, 1L);
    curl_easy_setopt(line->handle, CURLOPT_PRIVATE, line);
    curl_multi_add_handle(rules->multi, line->handle);
}

void frame_begin(struct asked *asked) {
    struct rules *rules = asked->rules;
    struct line *line = free_line(rules);
    line->asked = asked;
    line->sent = line->in.size = 0;
    line->is_reused = line->is_open;
    if (!put_frame(rules, &asked->request, &line->out)) {
        line->asked = NULL;
        rules_came(asked, CAME_BAD_FRAME, "a byte of the request frames messages");
    } else if (!line->is_reused) {
        open_line(rules, line, asked->until - now());
    }
}

void frame_done(struct rules *rules, CURL *handle, CURLcode code) {
    struct line *line = NULL;
    curl_easy_getinfo(handle, CURLINFO_PRIVATE, (char **)&line);
    if (code == CURLE_OK) code = curl_easy_getinfo(handle, CURLINFO_ACTIVESOCKET, &line->socket);
    line->is_open = code == CURLE_OK && line->socket != CURL_SOCKET_BAD;
    if (line->is_open) return;
    close_line(rules, line, code == CURLE_OPERATION_TIMEDOUT ? CAME_TIMED_OUT : CAME_UNREACHABLE, curl_easy_strerror(code));
}

/* Sends what is left of a request; false where the connection is broken. */
static bool send_more(struct line *line) {
    CURLcode code = CURLE_OK;
    while (code == CURLE_OK && line->sent < line->out.size) {
        size_t count = 0;
        code = curl_easy_send(line->handle, line->out.at + line->sent, line->out.size - line->sent, &count);
        line->sent += count;
    }
    return code == CURLE_OK || code == CURLE_AGAIN;
}

/* Takes what has come on a connection, and no more than a frame may have; false where it is broken. */
static bool take_more(struct line *line) {
    char part[4096];
    size_t count = 1;
    CURLcode code = CURLE_OK;
    while (code == CURLE_OK && count > 0 && line->in.size <= MOST_ANSWER + sizeof part) {
        code = curl_easy_recv(line->handle, part, sizeof part, &count);
        if (code == CURLE_OK) add(&line->in, part, count);
    }
    return code == CURLE_AGAIN || (code == CURLE_OK && count > 0);
}

/* Moves what a connection has; one that carries nothing has nothing to say, and is closed where it does. */
static void step_line(struct rules *rules, struct line *line) {
    size_t used = 0;
    bool is_whole = (line->asked == NULL || send_more(line)) && take_more(line);
    struct asked *asked = line->asked;
    enum came came = asked == NULL ? CAMES : read_frame(rules, &line->in, &asked->answer, &used);
    if (came != CAMES) {
        bool is_kept = is_whole && used == line->in.size && (came == CAME_ADVICE || came == CAME_EMPTY);
        line->asked = NULL;
        line->in.size = 0;
        if (!is_kept) close_line(rules, line, came, NULL);
        rules_came(asked, came, NULL);
    } else if (!is_whole && asked != NULL && line->is_reused && line->in.size == 0) {
        /* The system has closed a connection that was kept: the request goes over another one. */
        line->asked = NULL;
        close_line(rules, line, CAMES, NULL);
        frame_begin(asked);
    } else if (!is_whole || (asked == NULL && line->in.size > 0)) {
        close_line(rules, line, CAME_BROKEN, "the connection was closed");
    } else if (asked != NULL && now() >= asked->until) {
        close_line(rules, line, CAME_TIMED_OUT, NULL);
    }
}

void frame_step(struct rules *rules) {
    for (struct line *line = rules->lines; line < rules->lines + rules->most; line++)
        if (line->is_open) step_line(rules, line);
}

unsigned frame_waits(struct rules *rules, struct curl_waitfd *wait, double *seconds) {
    unsigned count = 0;
    for (struct line *line = rules->lines; line < rules->lines + rules->most; line++) {
        if (!line->is_open) continue;
        bool sends = line->asked != NULL && line->sent < line->out.size;
        wait[count++] = (struct curl_waitfd){ line->socket, (short)(CURL_WAIT_POLLIN | (sends ? CURL_WAIT_POLLOUT : 0)), 0 };
        double left = line->asked == NULL ? *seconds : line->asked->until - now();
        if (left < *seconds) *seconds = left > 0 ? left : 0;
    }
    return count;
}
