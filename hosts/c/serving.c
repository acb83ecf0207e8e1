/* What messages ask of the node: which are served, by which line, and which are refused or lost before that. */
#include <unistd.h>

#include "rules.h"
#include "signed.h"
#include "stream.h"

/* What a packet carries, and where an answer has its status. */
#define ANSWER 2
#define STATUS_AT 5
/* The most digits of an entry's number that is read here. */
#define MOST_DIGITS 18

/* Begins a line that makes a call: with the time of day, which its record has then; how many bytes that is. */
static size_t begin_call(struct bytes *line) {
    add(line, "at ", 3);
    add_number(line, (uint64_t)(wall() * 1000));
    add(line, " ", 1);
    return line->size;
}

/* Begins the line by which a packet is taken: with the advice that came for it, where its payer's own system was asked. */
static void begin_taking(const struct message *one, struct bytes *line) {
    bool has_advice = rules_has_advice(one);
    if (has_advice) add(line, "adjudicate ", 11);
    else add(line, "take ", 5);
    add(line, one->sender, strlen(one->sender));
    add(line, " ", 1);
    if (!has_advice) return;
    add_printed(line, one->asked->answer.at, one->asked->answer.size);
    add(line, " ", 1);
}

/* Whether a caller may ask so: of a pharmacy to enter something and for answers, of a payer what its book has. */
static bool may_call(const struct host *host, const char *text, size_t size) {
    static const char *const of_pharmacy[] = { "submit ", "submit-as ", "answer ", NULL };
    static const char *const of_payer[] = { "count", "row ", "payments ", NULL };
    const char *const *word = begins(host->given.name, 2, "ph") ? of_pharmacy : of_payer;
    while (*word != NULL && !begins(text, size, *word)) word++;
    return *word != NULL;
}

/* The line that a message asks for; false where who sends it may not ask so. A line end in it would make it two lines. `*timed` is the size of
   what stands before it as the time of a call: 0 where the line makes none, and where that is not known here. */
static bool line_of(const struct host *host, const struct message *one, struct bytes *line, size_t *timed) {
    const char *text = natsMsg_GetData(one->text);
    size_t size = (size_t)natsMsg_GetDataLength(one->text);
    if (size > 0 && memchr(text, '\n', size) != NULL) return false;
    line->size = *timed = 0;
    switch (one->from) {
    case FROM_NODE:
        *timed = begin_call(line);
        begin_taking(one, line);
        break;
    case FROM_CALLER:
        if (is_wait(one) && begins(host->given.name, 2, "ph")) {
            add(line, "answer ", 7);
            text += 5, size -= 5;
            break;
        }
        if (!may_call(host, text, size)) return false;
        if (begins(text, size, "submit")) *timed = begin_call(line);
        break;
    case FROM_OPERATOR:
        /* An operator operates one node: packets come from nodes alone, and the time of a call is the host's. */
        if (begins(text, size, "take") || begins(text, size, "adjudicate") || begins(text, size, "at ")) return false;
        break;
    }
    add(line, text, size);
    return true;
}

/* Whether a packet is one that its switch lost on purpose, since the same went out a moment ago. */
static bool is_held_back(const struct host *host, const struct message *one) {
    return one->from == FROM_NODE && begins(host->given.name, 2, "sw") && held_is(host->given.hold_back / 1000, one);
}

static bool is_word(const struct message *one, const char *word) {
    return (size_t)natsMsg_GetDataLength(one->text) == strlen(word) && begins(natsMsg_GetData(one->text), strlen(word), word);
}

/* Whether a call is not this host's: it came while the log was moved here, and the host that had it has served it, or has died. */
static bool is_others(const struct host *host, const struct message *one) {
    const char *to = natsMsg_GetReply(one->text);
    if (host->candidate == NULL || host->candidate->called == 0) return false;
    return !move_is_handed(host->candidate) || (to != NULL && move_was_served(host->candidate, to));
}

/* Whether an operator asks something of the host and not of its node: it dies at once, or its log is moved behind this turn. */
static bool is_deed(struct host *host, struct message *one) {
    if (one->from != FROM_OPERATOR) return false;
    if (is_word(one, "kill")) {
        reply(host->carrier, one->text, "ok", 2);
        natsConnection_FlushTimeout(host->carrier->connection, 500);
        raise(SIGKILL);
        /* The first process of a container lives on. */
        _exit(128 + SIGKILL);
    }
    if (host->candidate == NULL || host->mover != NULL || !is_word(one, "move")) return false;
    host->mover = one->text;
    one->text = NULL;
    return true;
}

/*
** Whether a packet is the rejection of a switch, by its status (501-F1), of an open request that has a route by this host's settings: it was rejected
** before routes grew, or by a switch of other settings. Taken, it could differ from what the payer answers the same request.
*/
static bool is_rerouted(struct host *host, const struct message *one) {
    unsigned char bytes[ENVELOPE_BYTES + STATUS_AT + 1];
    if (one->from != FROM_NODE || one->head.kind != ANSWER || !begins(host->given.name, 2, "ph")) return false;
    if (!unprinted(natsMsg_GetData(one->text), (size_t)natsMsg_GetDataLength(one->text), bytes, sizeof bytes)) return false;
    return bytes[ENVELOPE_BYTES + STATUS_AT] == 'R' && node_awaits_payer(&host->node, one->head.pharmacy, one->head.number);
}

/* Turns away what only the reserve has room for: who calls hears it, and a packet may be lost at any time. */
static void turn_away(struct host *host, struct message *one) {
    say_refused(one, host->given.name, "warning", "a billing was turned away", "WouldBeFull");
    if (one->from == FROM_NODE) {
        counts_dropped(WOULD_BE_FULL);
        return;
    }
    counts_refusal("WouldBeFull", 11);
    reply(host->carrier, one->text, "refused WouldBeFull", 19);
}

/* The number of the entry that a caller's line waits for; 0 where it is written otherwise than a number, which is the node's to refuse. */
static uint64_t waited_for(const struct message *one) {
    char digits[MOST_DIGITS + 1] = "";
    const char *text = natsMsg_GetData(one->text) + 5;
    size_t size = (size_t)natsMsg_GetDataLength(one->text) - 5;
    if (size == 0 || size > MOST_DIGITS || text[0] == '0') return 0;
    memcpy(digits, text, size);
    return strspn(digits, "0123456789") == size ? strtoull(digits, NULL, 10) : 0;
}

/*
** Whether a caller who waits for an entry of this pharmacy is told by this, or waits now: where a payer answers it. No disk has to be waited for
** then, see `host_tell_heard`. All else that is asked of an entry is asked of the node, by a line.
*/
static bool is_waiting(struct host *host, struct message *one) {
    if (!is_wait(one) || !begins(host->given.name, 2, "ph")) return false;
    uint16_t pharmacy = (uint16_t)strtoul(host->given.name + 2, NULL, 10);
    uint64_t number = waited_for(one);
    if (number == 0) return false;
    host->line.size = 0;
    add(&host->line, "answer ", 7);
    if (node_heard(&host->node, pharmacy, number, &host->line)) reply(host->carrier, one->text, host->line.at, host->line.size);
    else if (!node_awaits_payer(&host->node, pharmacy, number)) return false;
    else if (!waits_add(one)) reply(host->carrier, one->text, "open", 4);
    counts_call("answer ", 7);
    one->is_heard = true;
    return true;
}

/* What has happened where a message was refused. */
const char *what_refused(const struct message *one) {
    return one->from == FROM_NODE ? "a packet was refused" : "a call was refused";
}

void host_serve(struct host *host, struct message *one) {
    size_t timed;
    /* What the payer's own system has not answered is not taken: its pharmacy asks again. */
    if (one->asked != NULL && !rules_has_advice(one)) return;
    if (is_others(host, one) || is_deed(host, one)) return;
    if (host->mover != NULL && natsMsg_GetReply(one->text) != NULL) add_form(&host->served, " %.500s", natsMsg_GetReply(one->text));
    if (one->is_faulty) {
        signed_refuse(host, one);
    } else if (one->is_over) {
        turn_away(host, one);
    } else if (is_held_back(host, one)) {
        counts_dropped(HELD_BACK);
    } else if (is_rerouted(host, one)) {
        counts_dropped(REROUTED);
        say_refused(one, host->given.name, "warning", "a packet was not taken", "rerouted");
    } else if (is_waiting(host, one)) {
        return;
    } else if (line_of(host, one, &host->line, &timed)) {
        counts_call(host->line.at + timed, host->line.size - timed);
        if (one->from == FROM_NODE) {
            if (one->asked == NULL) counts_taken(one->sender);
            if (begins(host->given.name, 2, "sw")) held_went(host->given.hold_back / 1000, one);
        }
        if (one->from == FROM_OPERATOR) node_serve_now(&host->node, host->line.at, host->line.size);
        else node_serve(&host->node, host->line.at, host->line.size);
        one->is_served = true;
    } else {
        counts_refusal("Line", 4);
        say_refused(one, host->given.name, "warning", what_refused(one), "Line");
        reply(host->carrier, one->text, "refused Line", 12);
    }
}
