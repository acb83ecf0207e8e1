/*
** Room for reversals. What is full refuses a reversal too, and what was paid could not be taken back any more. So a host takes no
** more billings once only the reserve of entries or rows is left: a pharmacy's refuses them as WouldBeFull, a payer's loses them, as a
** packet may be lost at any time; they stay open, and are asked for again. Reversals go on, and so do repeats of what a payer has.
*/
#include "node.h"

/* The transaction code of a request: behind its BIN number and its version. */
#define CODE_AT 8

/* Whether a request has this code, by its printed bytes behind so many others. */
static bool has_code(const char *text, size_t size, size_t before, const char *code) {
    unsigned char byte[ENVELOPE_BYTES + CODE_AT + 2];
    return unprinted(text, size, byte, before + CODE_AT + 2) && memcmp(byte + before + CODE_AT, code, 2) == 0;
}

/* What a message may have the node enter. */
enum entry { NOTHING, REVERSAL, BILLING };

/* Of a line of a caller or an operator, who submits under a reference or without one. */
static enum entry entry_of_line(const struct message *one, const char *text, size_t size) {
    if (one->from == FROM_NODE) return NOTHING;
    size_t before = 7;
    if (begins(text, size, "submit-as ")) {
        const char *space = memchr(text + 10, ' ', size - 10);
        before = space == NULL ? size : (size_t)(space - text) + 1;
    } else if (!begins(text, size, "submit ")) {
        return NOTHING;
    }
    return has_code(text + before, size - before, 0, "B2") ? REVERSAL : BILLING;
}

/* Of a packet for a payer; what the payer has is asked of one that is up alone. */
static enum entry entry_of_packet(struct host *host, const struct message *one, const char *text, size_t size, bool is_up) {
    struct head head;
    if (one->from != FROM_NODE || one->is_faulty || !head_of(text, size, &head) || head.kind != 1) return NOTHING;
    if (!has_code(text, size, ENVELOPE_BYTES, "B1")) return REVERSAL;
    return is_up && node_has_answer(&host->node, head.pharmacy, head.number) ? NOTHING : BILLING;
}

static enum entry entry_of(struct host *host, const struct message *one, bool is_up) {
    const char *text = natsMsg_GetData(one->text);
    size_t size = (size_t)natsMsg_GetDataLength(one->text);
    if (begins(host->given.name, 2, "ph")) return entry_of_line(one, text, size);
    return entry_of_packet(host, one, text, size, is_up);
}

void reserve_begin(struct host *host) {
    double wanted = host->given.reserve;
    host->most = node_most(&host->node);
    host->reserve = wanted < 0 ? host->most / 10 : wanted < (double)host->most ? (uint64_t)wanted : host->most;
    /* A switch forgets its oldest slot, and is never full. */
    if (begins(host->given.name, 2, "sw")) host->reserve = 0;
    host->rows_calls = node_calls(&host->node);
    host->rows = node_count(&host->node);
    counts_most(host->most, host->reserve);
}

void reserve_count(struct host *host) {
    /* While not all is on disk the node tells of nothing. */
    if (host->appended > 0) return;
    uint64_t calls = node_calls(&host->node);
    bool is_switch = begins(host->given.name, 2, "sw");
    host->calls = calls;
    host->settled_at = now();
    host->is_settling = false;
    /* Without a call the rows are what they were, and what stops keeps them: it is asked again once it is up. */
    if (calls != host->rows_calls && !is_switch && !node_is_up(&host->node)) return;
    if (calls != host->rows_calls) host->rows = node_count(&host->node);
    /* A switch may have got another cap. */
    if (calls != host->rows_calls && is_switch) counts_most(host->most = node_most(&host->node), 0);
    host->rows_calls = calls;
    host->served_since = 0;
}

void reserve_mark(struct host *host, struct message *batch) {
    uint64_t room = host->most - host->reserve, rows = host->rows, waiting = 0;
    bool is_operated = false;
    if (host->reserve == 0 || batch == NULL) return;
    for (const struct message *one = batch; one != NULL; one = one->next) {
        waiting++;
        is_operated = is_operated || one->from == FROM_OPERATOR;
    }
    if (rows + host->served_since + waiting <= room) return;
    host_settle(host);
    rows = host->rows;
    if (rows + waiting <= room) return;
    /* All is on disk here, so the node tells of its rows. One that is stopped refuses every packet, and is asked of none. Where somebody
       may start it in this turn, what asks for a billing counts as new. */
    bool is_up = begins(host->given.name, 2, "ph") || node_is_up(&host->node);
    if (!is_up && !is_operated) return;
    for (struct message *one = batch; one != NULL; one = one->next) {
        enum entry entry = entry_of(host, one, is_up);
        one->is_over = entry == BILLING && rows >= room;
        rows += entry != NOTHING && !one->is_over;
    }
}
