/*
** What a host hands to its node of the messages that come, and what it sends and replies of what its node writes. Nobody's message becomes two lines,
** or one that its sender may not send; each line of the node goes where it belongs, whole and once, in order.
*/
#include "fuzz.h"
#include "rules.h"
#include "signed.h"
#include "stream.h"

/* In the place of what a node has written, and of what carries replies and packets away: those are noted as the lines that they come of. */
static struct bytes written, gone;
static struct bytes fuzz_written(struct served *node) {
    (void)node;
    return (struct bytes){ exact(written.at, written.size), written.size, written.size };
}

static void fuzz_send(const char *to, size_t to_size, const char *text, size_t size) {
    add_text(&gone, "send ");
    add(&gone, to, to_size);
    add_text(&gone, " ");
    add(&gone, text, size);
    add_text(&gone, "\n");
}

static void fuzz_reply(const char *line, size_t size) {
    add(&gone, line, size);
    add_text(&gone, "\n");
}

#define node_written(node) fuzz_written(node)
#define node_clear(node) ((void)(node))
#define reply(carrier, to, line, size) ((void)(carrier), fuzz_reply(line, size))
#define signed_send(host, one, to, to_size, text, size) ((void)(host), fuzz_send(to, to_size, text, size))
#define later_add(later, to, to_size, text, size) ((void)(later), fuzz_send(to, to_size, text, size))
#define waits_settled(carrier, number) ((void)(number))
/* It has room for each entry up to the last number, which the node gives one after the other. */
#define counts_entered(number) ((void)(number))
#include "../../hosts/c/serving.c"
#include "../../hosts/c/telling.c"

static const char *const names[] = { "ph1", "sw1", "pr1" };

static bool is_among(const char *const words[], const char *line, size_t size) {
    while (*words != NULL && !begins(line, size, *words)) words++;
    return *words != NULL;
}

/* A message of anybody, and the line that it becomes. */
static void try_line(struct input *input) {
    static const char *const of_pharmacy[] = { "submit ", "submit-as ", "answer ", NULL };
    static const char *const of_payer[] = { "count", "row ", "payments ", NULL };
    static const char *const of_no_operator[] = { "take", "adjudicate", "at ", NULL };
    char subject[96], sender[9] = "";
    struct host host = { .given = { .name = names[next_byte(input) % 3] } };
    struct message one = { .from = (enum sender)(next_byte(input) % 3) };
    struct bytes who = next_line(input), text = the_rest(input), line = { NULL, 0, 0 };
    size_t timed;
    snprintf(subject, sizeof subject, "claims.%s.from.%.60s", host.given.name, who.at == NULL || who.size == 0 ? "x" : who.at);
    one.text = message_of(subject, NULL, text.at, text.size);
    bool is_packet = sender_of(host.given.name, subject, sender);
    expect(!is_packet || (strlen(sender) >= 3 && strlen(sender) <= 7 && sender[strspn(sender + 2, "0123456789") + 2] == '\0'));
    /* A node has one name: `sw01` is nobody. */
    expect(!is_packet || sender[2] != '0');
    is_wait(&one);
    say_refused(&one, host.given.name, "info", "a message", "a reason");
    memcpy(one.sender, sender, sizeof sender);
    /* A message of a node that is no packet's waits for no turn. */
    if ((one.from != FROM_NODE || is_packet) && line_of(&host, &one, &line, &timed)) {
        const char *asked = line.at + timed;
        size_t size = line.size - timed;
        expect(memchr(line.at, '\n', line.size) == NULL && size >= text.size && (timed == 0 || begins(line.at, timed, "at ")));
        if (one.from == FROM_NODE) {
            expect(timed > 0 && begins(asked, size, "take ") && begins(asked + 5, size - 5, sender));
            expect(size == 6 + strlen(sender) + text.size && memcmp(asked + size - text.size, text.at, text.size) == 0);
        } else if (one.from == FROM_CALLER) {
            expect(is_among(begins(host.given.name, 2, "ph") ? of_pharmacy : of_payer, asked, size));
        } else {
            expect(!is_among(of_no_operator, asked, size));
        }
    }
    natsMsg_Destroy(one.text);
    free(line.at);
    free(text.at);
    free(who.at);
}

/* Whether each line of what a node writes has its end, and each packet a node and a text; and each is of one of so many messages, of which each has
   one line or list that is its last. `is_mixed`: a packet stands within a list, where no node has one. */
static bool is_of_node(size_t served, bool *is_mixed) {
    bool is_listing = false;
    size_t told = 0;
    *is_mixed = false;
    if (written.size > 0 && written.at[written.size - 1] != '\n') return false;
    for (size_t at = 0, size; at < written.size; at += size + 1) {
        size = (size_t)((char *)memchr(written.at + at, '\n', written.size - at) - written.at) - at;
        bool is_packet = begins(written.at + at, size, "send "), is_item = is_of_list(written.at + at, size);
        if (told == served || (is_packet && memchr(written.at + at + 5, ' ', size - 5) == NULL)) return false;
        *is_mixed = *is_mixed || (is_packet && is_listing);
        is_listing = is_item || (is_packet && is_listing);
        told += !is_packet && !is_item;
    }
    return true;
}

static void tell_all(void *closure) {
    host_tell(closure);
}

/* What a node writes for some messages. */
static void try_tell(struct input *input) {
    struct host host = { .given = { .name = names[next_byte(input) % 3] } };
    struct message all[8] = { { .next = NULL } };
    size_t count = 1 + next_byte(input) % 8, served = 0;
    struct bytes packet = next_line(input);
    for (size_t at = 0; at < count; at++) {
        unsigned how = next_byte(input);
        all[at] = (struct message){ .next = at + 1 < count ? &all[at + 1] : NULL, .is_served = (how & 1) != 0, .from = (enum sender)(how / 2 % 3) };
        all[at].text = message_of("claims.ph1.from.sw1", NULL, packet.at, packet.size);
        served += all[at].is_served;
    }
    host.first = all;
    host.last = &all[count - 1].next;
    written = the_rest(input);
    gone.size = 0;
    bool is_mixed, has_gone = goes_on(tell_all, &host);
    expect(has_gone == is_of_node(served, &is_mixed));
    has_gone = has_gone && !is_mixed;
    expect(!has_gone || gone.size <= written.size);
    size_t from = 0;
    for (size_t at = 0, size; has_gone && at < gone.size; at += size) {
        size = (size_t)((char *)memchr(gone.at + at, '\n', gone.size - at) - gone.at) - at + 1;
        while (from < written.size && (written.size - from < size || memcmp(written.at + from, gone.at + at, size) != 0))
            from += (size_t)((char *)memchr(written.at + from, '\n', written.size - from) - written.at) - from + 1;
        expect(from < written.size);
        from += size;
    }
    for (size_t at = 0; at < count; at++) natsMsg_Destroy(all[at].text);
    free(written.at);
    free(packet.at);
}

void tried(struct input *input) {
    if (next_byte(input) % 2 == 0) try_line(input);
    else try_tell(input);
}
