/* What came of messages: the packets and the last lines of calls whose records are on disk are sent and replied, in the order of the calls. */
#include "rules.h"
#include "signed.h"

/* The part of a tick's time over which its packets go out. */
#define SPREAD 0.8

/* Notes what the last line of a message says of entries, and of what went out. */
static void note(const struct host *host, const struct message *one, const char *line, size_t size, bool has_sent) {
    if (begins(line, size, "number ")) counts_entered(strtoull(line + 7, NULL, 10));
    if (one->from != FROM_NODE) return;
    if (begins(host->given.name, 2, "ph") && begins(line, size, "ok") && one->head.kind != 0) {
        counts_settled(one->head.number);
        waits_settled(host->carrier, one->head.number);
    }
    if (!has_sent) held_forget(one);
}

/* Sends a packet that a line of the node has, behind the message that had it sent; where a tick did, later. */
static void send_line(struct host *host, const struct message *one, const char *line, size_t size) {
    const char *text = memchr(line + 5, ' ', size - 5);
    if (text == NULL) fail("the node has a packet without a text", NULL);
    size_t to_size = (size_t)(text - line - 5), text_size = (size_t)(line + size - text - 1);
    if (one->is_tick) later_add(&host->later, line + 5, to_size, text + 1, text_size);
    else signed_send(host, one, line + 5, to_size, text + 1, text_size);
}

/* Says that the node has refused a message, by the name of the refusal. */
static void tell_refusal(const struct host *host, const struct message *one, const char *name, size_t size) {
    char reason[24];
    const char *space = memchr(name, ' ', size);
    if (space != NULL) size = (size_t)(space - name);
    snprintf(reason, sizeof reason, "%.*s", (int)size, name);
    say_refused(one, host->given.name, "info", what_refused(one), reason);
}

/* Notes the last line of a tick: what it has sent goes out from now on. */
static void ticked(struct host *host, const char *line, size_t size) {
    if (begins(line, size, "refused ")) counts_refusal(line + 8, size - 8);
    later_begin(&host->later, host->given.tick * SPREAD);
}

/* Replies to a message with the last line of what it asked for, or with a list and its end. */
static void answer(struct host *host, struct message *one, const char *line, size_t size, bool has_sent) {
    bool is_wanted = rules_want(one, line, size), is_refused = begins(line, size, "refused ");
    if (is_refused && !(is_wanted && host->rules != NULL)) counts_refusal(line + 8, size - 8);
    if (is_refused) tell_refusal(host, one, line + 8, size - 8);
    note(host, one, line, size, has_sent);
    rules_note(one, line, size);
    if (is_wanted) rules_ask(host->rules, one, node_count(&host->node));
    /* Who waits for an entry that is open is replied to later. */
    bool is_owed = is_wait(one) && size == 4 && begins(line, size, "open") && waits_add(one);
    if (!is_owed && one->text != NULL) reply(host->carrier, one->text, line, size);
}

/* Whether all is said of a message that is to be said. */
static bool is_done(const struct message *one) {
    return !one->is_served || one->is_told;
}

/* The first of these messages of which something is to be said yet. */
static struct message *first_untold(struct message *one) {
    while (one != NULL && is_done(one)) one = one->next;
    return one;
}

/* Tells what a message comes to; the next one of which something is to be said. */
static struct message *answered(struct host *host, struct message *one, const char *line, size_t size, bool has_sent) {
    if (one->is_tick) ticked(host, line, size);
    else answer(host, one, line, size, has_sent);
    one->is_told = true;
    return first_untold(one);
}

/* Whether a line is one of a list, behind which its end comes: an entry, a payment, or a transaction of a row, which begins with its id. */
static bool is_of_list(const char *line, size_t size) {
    return begins(line, size, "entry ") || begins(line, size, "payment ") || (size > 0 && line[0] >= '0' && line[0] <= '9');
}

/* Lets the messages go of which all is said: those before the first whose words wait. */
void host_let_go(struct host *host) {
    struct message *gone = host->first, **behind = &host->first;
    double said = gone == NULL ? 0 : now();
    for (; *behind != NULL && is_done(*behind); behind = &(*behind)->next) {
        struct message *one = *behind;
        rules_forget(one);
        if (one->from == FROM_NODE) acknowledge(host->carrier, one->text);
        if (!one->is_tick && (one->is_served || one->is_heard)) counts_answered(said - one->came);
        natsMsg_Destroy(one->text);
        host->waiting--;
    }
    if (behind == &host->first) return;
    host->first = *behind;
    *behind = NULL;
    if (host->first == NULL) host->last = &host->first;
    carrier_spare(host->carrier, gone);
}

/*
** Sends and replies what the node has written and may say: `send TO TEXT` lines, and behind those of a call its last line, or the lines of a
** list and its end, which are for the next message that was served; how many messages that is said of. A call whose records are not on disk
** says nothing yet, and its message waits.
*/
size_t host_tell(struct host *host) {
    struct bytes written = node_written(&host->node);
    char *line = written.at, *end = written.at + written.size, *list = NULL;
    struct message *one = first_untold(host->first);
    bool has_sent = false;
    size_t told = 0;
    uint64_t again = 0;
    while (line < end) {
        char *stop_at = memchr(line, '\n', (size_t)(end - line));
        if (stop_at == NULL) fail("the node has a line without an end", NULL);
        if (one == NULL) fail("the node has a line for nobody", NULL);
        size_t size = (size_t)(stop_at - line);
        if (begins(line, size, "send ")) {
            send_line(host, one, line, size);
            again += one->is_tick;
            has_sent = true;
        } else if (is_of_list(line, size)) {
            if (list == NULL) list = line;
        } else {
            const char *from = list == NULL ? line : list;
            one = answered(host, one, from, (size_t)(stop_at - from), has_sent);
            list = NULL;
            has_sent = false;
            told++;
        }
        line = stop_at + 1;
    }
    counts_again(again);
    free(written.at);
    node_clear(&host->node);
    return told;
}

/*
** Replies to who waits for answers that came in this turn, before they are on disk, where a payer gave them: where this host dies now the payer
** gives the same bytes again, and the entry never has another answer. So a claim waits for two syncs, that of its submission and that of its
** ruling. What a switch answered by itself is told once it is on disk.
*/
void host_tell_heard(struct host *host, const struct message *batch) {
    if (!begins(host->given.name, 2, "ph")) return;
    for (const struct message *one = batch; one != NULL; one = one->next) {
        if (!one->is_served || one->from != FROM_NODE) continue;
        if (one->head.kind == 0 || !waits_has(one->head.number)) continue;
        host->line.size = 0;
        add(&host->line, "answer ", 7);
        if (node_heard(&host->node, one->head.pharmacy, one->head.number, &host->line))
            waits_told(host->carrier, one->head.number, host->line.at, host->line.size);
    }
}
