/*
** What a payer's own system answers: in a frame in pieces, over HTTP in pieces, and as an advice. A frame carries what its system put there; no answer
** is longer than it may be; an advice that the node takes has no fault.
*/
#define _GNU_SOURCE
#include "fuzz.h"
#include "rules.h"

#include <netinet/in.h>
#include <sys/socket.h>
#include <unistd.h>

#define carrier_back(carrier, message) ((void)(message))
#include "../../hosts/c/rules.c"
#include "../../hosts/c/rules_frame.c"
#include "../../hosts/c/rules_http.c"

static const char *const framings[] = { "stx", "length2", "length4" };

/* How many bytes the frame at the start of these has, and what it comes to, read at once; the answer is the last `size` of them but for an end. */
static enum came framed(size_t length, const unsigned char *at, size_t count, size_t *size) {
    *size = 0;
    if (count < (length == 0 ? 1 : length)) return CAMES;
    if (length == 0) {
        const unsigned char *end = memchr(at, 3, count);
        if (at[0] != 2) return CAME_BAD_FRAME;
        if (end == NULL) return count > MOST_ANSWER + 1 ? CAME_TOO_LONG : CAMES;
        *size = (size_t)(end - at) - 1;
        return *size > MOST_ANSWER ? CAME_TOO_LONG : *size == 0 ? CAME_EMPTY : CAME_ADVICE;
    }
    for (size_t byte = 0; byte < length; byte++) *size = *size << 8 | at[byte];
    if (*size > MOST_ANSWER) return CAME_TOO_LONG;
    return count < length + *size ? CAMES : *size == 0 ? CAME_EMPTY : CAME_ADVICE;
}

/* An answer in a frame that comes in pieces. */
static void try_frame(struct input *input) {
    struct rules rules = { .given = { .framing = framings[next_byte(input) % 3] } };
    size_t piece = 1 + next_byte(input), length = length_bytes(&rules), used = 0, size = 0;
    struct bytes in = { NULL, 0, 0 }, answer = { NULL, 0, 0 }, all = the_rest(input), out = { NULL, 0, 0 };
    enum came came = CAMES;
    while (came == CAMES && in.size < all.size) {
        size_t some = all.size - in.size < piece ? all.size - in.size : piece;
        add(&in, all.at + in.size, some);
        came = read_frame(&rules, &in, &answer, &used);
    }
    expect(came == framed(length, (const unsigned char *)all.at, in.size, &size));
    if (came == CAME_ADVICE) {
        expect(answer.size == size && memcmp(answer.at, all.at + (length == 0 ? 1 : length), size) == 0);
        expect(used <= in.size);
        /* What came in this frame goes out in the same. */
        expect(put_frame(&rules, &answer, &out) == (length > 0 || memchr(answer.at, 2, size) == NULL));
        expect(out.size == 0 || (out.size == used && memcmp(out.at, all.at, used) == 0));
    }
    free(in.at);
    free(answer.at);
    free(all.at);
    free(out.at);
}

/* Heads and bytes of an answer over HTTP, as libcurl hands them over: each piece its length first, by turns of one kind and the other. */
static void try_http(struct input *input) {
    struct asked asked = { .came = CAMES };
    bool is_open = true, are_heads_open = true;
    for (int turn = 0; input->size > 0 && (is_open || are_heads_open); turn++) {
        size_t count = next_byte(input) * 64u, before = asked.answer.size;
        char *part = malloc(count + 1);
        if (part == NULL) fail_memory();
        memset(part, (int)next_byte(input), count + 1);
        if (turn % 2 == 0 && is_open) {
            is_open = take_bytes(part, 1, count, &asked) == count;
            expect(asked.answer.size == before + (is_open ? count : 0));
        } else if (turn % 2 == 1 && are_heads_open) {
            are_heads_open = pass_head(part, 1, count, &asked) == count;
        }
        free(part);
    }
    expect(asked.answer.size <= MOST_ANSWER && (is_open || asked.came == CAME_TOO_LONG));
    asked.status = 200;
    enum came came = came_of(&asked, CURLE_OK, true);
    expect(came_of(&asked, CURLE_OK, false) == (came == CAME_ADVICE ? CAME_BROKEN : came));
    expect(is_open ? came == (asked.answer.size == 0 ? CAME_EMPTY : CAME_ADVICE) : came == CAME_TOO_LONG);
    free(asked.answer.at);
}

/* A socket that listens on this machine, and its URL. */
static int listening(char url[40]) {
    static int made = -1;
    struct sockaddr_in at = { .sin_family = AF_INET, .sin_addr.s_addr = htonl(INADDR_LOOPBACK) };
    socklen_t size = sizeof at;
    if (made < 0) {
        made = socket(AF_INET, SOCK_STREAM, 0);
        expect(made >= 0 && bind(made, (struct sockaddr *)&at, size) == 0 && listen(made, 8) == 0);
    }
    expect(getsockname(made, (struct sockaddr *)&at, &size) == 0);
    snprintf(url, 40, "http://127.0.0.1:%u/rules", (unsigned)ntohs(at.sin_port));
    return made;
}

/* What a system answers over HTTP, through libcurl, and then goes: its last byte comes as often as is said, in hundreds. */
static void try_posted(struct input *input) {
    static CURLM *multi;
    const struct linger at_once = { 1, 0 };
    char url[40];
    struct rules rules = { .node = "pr1", .url = url };
    struct asked asked = { .rules = &rules, .came = CAMES, .request = { "request", 7, 8 }, .until = now() + 100 };
    size_t more = next_byte(input) * 200u;
    struct bytes said = { NULL, 0, 0 };
    int listens = listening(url), client = -1;
    add(&said, input->at, input->size);
    for (size_t at = 0; at < more && input->size > 0; at++) add(&said, input->at + input->size - 1, 1);
    if (multi == NULL) multi = curl_multi_init();
    rules.multi = multi;
    http_begin(&asked);
    curl_easy_setopt(asked.handle, CURLOPT_FRESH_CONNECT, 1L);
    curl_easy_setopt(asked.handle, CURLOPT_FORBID_REUSE, 1L);
    for (int running; asked.handle != NULL; end_done(&rules)) {
        curl_multi_perform(multi, &running);
        if (client >= 0 && running > 0) curl_multi_poll(multi, NULL, 0, 10, NULL);
        if (client >= 0 || running == 0) continue;
        client = accept(listens, NULL, NULL);
        expect(client >= 0 && setsockopt(client, SOL_SOCKET, SO_LINGER, &at_once, sizeof at_once) == 0);
        expect(send(client, said.at, said.size, MSG_NOSIGNAL | MSG_DONTWAIT) == (ssize_t)said.size && shutdown(client, SHUT_WR) == 0);
    }
    expect(asked.came < CAMES && asked.answer.size <= MOST_ANSWER);
    if (asked.came == CAME_ADVICE) {
        expect(asked.status == 200 && asked.answer.size > 0 && asked.heads_size <= MOST_HEADS);
        /* Where all comes in one piece, the answer stands in it as it is. */
        bool is_apart = strcasestr(said.at, "chunked") != NULL;
        expect(is_apart || memmem(said.at, said.size, asked.answer.at, asked.answer.size) != NULL);
    }
    curl_slist_free_all(asked.heads);
    if (client >= 0) close(client);
    free(asked.answer.at);
    free(said.at);
}

/* What a payer that asks writes once it has the advice: of one that it takes, a packet. */
static struct bytes adjudicated(const struct bytes *request, const struct bytes *answer) {
    static const unsigned char head[] = { 'P', 'S', 1, 1, 0, 1, 0, 0, 0, 0, 0, 0, 0, 1 };
    const struct bytes nothing = { NULL, 0, 0 };
    vogrilas_node node = VOGRILAS_NODE_INIT;
    struct bytes packet = { NULL, 0, 0 };
    size_t size = 0;
    expect(node_over(&node, settings_named("asks"), "pr1", &nothing, &size) == VOGRILAS_OK);
    add(&packet, head, sizeof head);
    for (int at = 24; at >= 0; at -= 8) add(&packet, &(char){ (char)(request->size >> at & 255) }, 1);
    add(&packet, request->at, request->size);
    expect(vogrilas_adjudicate(&node, "sw1", 3, packet.at, packet.size, answer->at, answer->size) == VOGRILAS_OK);
    vogrilas_records(&node, packet.at, 0, &size);
    expect(vogrilas_kept(&node, size) == VOGRILAS_OK);
    struct bytes written = { malloc(200000), 0, 200000 };
    expect(written.at != NULL && vogrilas_written(&node, written.at, 199999, &written.size) == VOGRILAS_OK);
    written.at[written.size] = '\0';
    vogrilas_close(&node);
    free(packet.at);
    return written;
}

/* Any answer to any request, both in printed bytes. */
static void try_advice(struct input *input) {
    static unsigned char room[MOST_ANSWER];
    struct bytes first = next_line(input), second = the_rest(input);
    struct asked asked = { .came = CAMES };
    struct rules rules = { .given = { .tcp = "127.0.0.1:1" } };
    add(&asked.request, room, unprinted_all(first.at, first.size, room, sizeof room));
    add(&asked.answer, room, unprinted_all(second.at, second.size, room, sizeof room));
    asked.request.at = realloc(asked.request.at, asked.request.size + 1);
    asked.answer.at = realloc(asked.answer.at, asked.answer.size + 1);
    const char *fault = advice_fault(&asked.request, &asked.answer);
    asked.rules = &rules;
    enum came framed_as = compared(&asked);
    rules.given.tcp = NULL;
    enum came posted_as = compared(&asked);
    expect(fault[0] != '\0' && (posted_as == CAME_ADVICE || framed_as == posted_as));
    struct bytes written = adjudicated(&asked.request, &asked.answer);
    /* The node says `send` of a packet that it answers: it has taken the advice, unless it had no need of one. */
    bool is_taken = begins(written.at, written.size, "send ");
    struct bytes none = { NULL, 0, 0 };
    add(&none, "", 0);
    struct bytes without = adjudicated(&asked.request, &none);
    bool is_needed = !begins(without.at, without.size, "send ");
    expect(!is_taken || !is_needed || (strcmp(fault, "NoVerdict") == 0 && posted_as == CAME_ADVICE));
    free(none.at);
    free(written.at);
    free(without.at);
    free(asked.request.at);
    free(asked.answer.at);
    free(first.at);
    free(second.at);
}

void tried(struct input *input) {
    unsigned how = next_byte(input) % 4;
    if (how == 0) try_frame(input);
    else if (how == 1) try_http(input);
    else if (how == 2) try_advice(input);
    else try_posted(input);
}
