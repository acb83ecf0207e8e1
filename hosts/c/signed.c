/*
** What a signature is for. A request is its pharmacy's, and a payer takes it where a route leads to it. An answer is of the payer to which the
** route of the pharmacy's own request leads; where none does it is of the switch that sent it, and the very rejection that every switch
** makes of that request. Between them a switch hands signatures on, and keeps those of answers, which it may have to give again.
*/
#include "signed.h"

enum { REQUEST = 1, ANSWER = 2 };

/* How many signatures of answers a switch keeps; where two have one place the older is forgotten. */
#define KEPT 16384
/* How many requests of each place are known to have gone to a payer; the oldest is forgotten. */
#define WENT 4

static struct {
    uint64_t number;
    uint16_t pharmacy;
    char text[SIGNED_TEXT];
} kept[KEPT];

/* To which payer a switch has sent a request, the latest of each place first; 0 where nothing is known. */
static struct went {
    uint64_t number;
    uint16_t pharmacy, payer;
} went[KEPT][WENT];

static size_t place_of(const struct head *head) {
    return (size_t)((head->number * 31 + head->pharmacy) % KEPT);
}

static void keep(const struct head *head, const char *text) {
    size_t place = place_of(head);
    kept[place].number = head->number;
    kept[place].pharmacy = head->pharmacy;
    snprintf(kept[place].text, sizeof kept[place].text, "%s", text);
}

/* The signature that was kept of an answer, or NULL. */
static const char *kept_of(const struct head *head) {
    size_t place = place_of(head);
    return kept[place].number == head->number && kept[place].pharmacy == head->pharmacy ? kept[place].text : NULL;
}

/* Notes to which payer a request goes. */
static void note_went(const struct head *head, unsigned payer) {
    struct went *at = went[place_of(head)];
    size_t last = 0;
    while (last < WENT - 1 && (at[last].number != head->number || at[last].pharmacy != head->pharmacy)) last++;
    memmove(at + 1, at, last * sizeof *at);
    at[0] = (struct went){ head->number, head->pharmacy, (uint16_t)payer };
}

/* The payer to which the request of this answer went; 0 of a request that this process has not sent, or has forgotten. */
static unsigned went_to(const struct head *head) {
    const struct went *at = went[place_of(head)];
    for (size_t one = 0; one < WENT; one++)
        if (at[one].number == head->number && at[one].pharmacy == head->pharmacy) return at[one].payer;
    return 0;
}

const char *signed_text(natsMsg *packet) {
    const char *text = NULL;
    return natsMsgHeader_Get(packet, SIGNED_HEADER, &text) == NATS_OK ? text : NULL;
}

/* The bytes of the request or answer in a packet, in a place that the next call uses again; how many. */
static size_t payload_of(const struct message *one, const unsigned char **at) {
    static unsigned char bytes[ENVELOPE_BYTES + MOST_PAYLOAD];
    size_t size = unprinted_all(natsMsg_GetData(one->text), (size_t)natsMsg_GetDataLength(one->text), bytes, sizeof bytes);
    *at = bytes + ENVELOPE_BYTES;
    return size < ENVELOPE_BYTES ? 0 : size - ENVELOPE_BYTES;
}

/* Whether the signature of a message is this node's; files that have changed are read before it is said not to be. */
static bool holds(const struct host *host, const struct message *one, const char *node) {
    const char *text = signed_text(one->text), *packet = natsMsg_GetData(one->text);
    size_t size = (size_t)natsMsg_GetDataLength(one->text);
    if (keys_hold(host->keys, text, node, packet, size)) return true;
    keys_look(host->keys, true);
    return keys_hold(host->keys, text, node, packet, size);
}

/* Of a request, whose pharmacy signs it: a switch takes it from that pharmacy alone, and a payer from switches, where a route leads to it. */
static enum why fault_of_request(const struct host *host, const struct message *one, const struct head *head, const char *sender) {
    char pharmacy[9], payer[9];
    const unsigned char *request;
    bool is_payer = begins(host->given.name, 2, "pr");
    snprintf(pharmacy, sizeof pharmacy, "ph%u", head->pharmacy);
    if (is_payer ? !begins(sender, 2, "sw") : strcmp(sender, pharmacy) != 0) return FORGED;
    if (!holds(host, one, pharmacy)) return FORGED;
    if (!is_payer) return WHYS;
    size_t size = payload_of(one, &request);
    snprintf(payer, sizeof payer, "pr%u", keys_route(host->keys, head->number, request, size) % 100000);
    return strcmp(payer, host->given.name) == 0 ? WHYS : WRONG_PAYER;
}

/* Of an answer at a pharmacy, to a request of its own. */
static enum why fault_of_answer(struct host *host, const struct message *one, const struct head *head, const char *sender) {
    static unsigned char request[MOST_PAYLOAD];
    const unsigned char *answer;
    size_t request_size = 0;
    char payer[9], own[9];
    snprintf(own, sizeof own, "ph%u", head->pharmacy);
    if (strcmp(own, host->given.name) != 0) return FORGED;
    if (vogrilas_request(&host->node.node, head->number, request, sizeof request, &request_size) != VOGRILAS_OK) return FORGED;
    unsigned route = keys_route(host->keys, head->number, request, request_size);
    snprintf(payer, sizeof payer, "pr%u", route % 100000);
    if (!holds(host, one, route == 0 ? sender : payer)) return FORGED;
    size_t size = payload_of(one, &answer);
    return route > 0 || is_rejection(request, request_size, answer, size) ? WHYS : FORGED;
}

/*
** Of an answer at a switch, which is of the payer to which its request went: the switch would hold on to another's, which the pharmacy refuses, and
** to no answer behind it. Where that is not known the answer is lost, as on the way: its pharmacy asks again, and then it is.
*/
static enum why fault_of_passing(const struct host *host, const struct message *one, const struct head *head, const char *sender) {
    if (!begins(sender, 2, "pr") || !holds(host, one, sender)) return FORGED;
    unsigned payer = went_to(head);
    if (payer == 0) return UNASKED;
    return payer == strtoul(sender + 2, NULL, 10) ? WHYS : WRONG_PAYER;
}

/* Why a packet is not taken; WHYS where it is. */
static enum why fault_of(struct host *host, const struct message *one) {
    struct head head;
    char sender[9];
    if (signed_text(one->text) == NULL) return UNSIGNED;
    if (!head_of(natsMsg_GetData(one->text), (size_t)natsMsg_GetDataLength(one->text), &head)) return FORGED;
    if (!sender_of(host->given.name, natsMsg_GetSubject(one->text), sender)) return FORGED;
    if (head.kind == REQUEST) return fault_of_request(host, one, &head, sender);
    if (begins(host->given.name, 2, "ph")) return fault_of_answer(host, one, &head, sender);
    return fault_of_passing(host, one, &head, sender);
}

void signed_mark(struct host *host, struct message *batch) {
    if (host->keys == NULL) return;
    keys_look(host->keys, false);
    for (struct message *one = batch; one != NULL; one = one->next) {
        /* What its payer's own system was asked about was looked at before. */
        if (one->from != FROM_NODE || one->asked != NULL) continue;
        one->fault = fault_of(host, one);
        one->is_faulty = one->fault != WHYS;
    }
}

void signed_refuse(const struct host *host, const struct message *one) {
    static const char *const name[] = { [UNSIGNED] = "unsigned", [FORGED] = "forged", [WRONG_PAYER] = "wrong_payer", [UNASKED] = "unasked" };
    counts_dropped(one->fault);
    say_refused(one, host->given.name, one->fault == UNASKED ? "info" : "warning", "a packet was not taken", name[one->fault]);
}

/* Has the payer of a request give its answer anew: the request goes to it once more, as what came of it a while ago, or of another repeat. */
static void ask_anew(struct host *host, const struct message *one) {
    const unsigned char *request;
    struct head head;
    char payer[9];
    if (!head_of(natsMsg_GetData(one->text), (size_t)natsMsg_GetDataLength(one->text), &head)) return;
    size_t size = payload_of(one, &request);
    unsigned route = keys_route(host->keys, head.number, request, size);
    if (route == 0) return;
    snprintf(payer, sizeof payer, "pr%u", route % 100000);
    note_went(&one->head, route);
    counts_asked_anew();
    send_packet(host->carrier, payer, strlen(payer), natsMsg_GetData(one->text), (size_t)natsMsg_GetDataLength(one->text),
                signed_text(one->text));
}

/* Sends an answer of a switch behind a request: the rejection, which is the switch's own, or what its slot has, which is a payer's. */
static void send_again(struct host *host, const struct message *one, const char *to, size_t to_size, const char *text, size_t size) {
    char payer[9] = "";
    struct head head;
    if (!head_of(text, size, &head)) fail("the node has a packet without a head", NULL);
    if (!node_has_answer(&host->node, head.pharmacy, head.number)) {
        send_packet(host->carrier, to, to_size, text, size, NULL);
        return;
    }
    const char *was = kept_of(&head);
    if (was != NULL) snprintf(payer, sizeof payer, "%.*s", (int)strcspn(was, " "), was);
    if (was != NULL && keys_hold(host->keys, was, payer, text, size)) send_packet(host->carrier, to, to_size, text, size, was);
    else ask_anew(host, one);
}

void signed_send(struct host *host, const struct message *one, const char *to, size_t to_size, const char *text, size_t size) {
    const char *handed = NULL;
    struct head head;
    if (host->keys != NULL && begins(host->given.name, 2, "sw") && one->from == FROM_NODE) {
        bool is_answer = begins(to, to_size, "ph") && head_of(text, size, &head);
        char sender[9] = "";
        sender_of(host->given.name, natsMsg_GetSubject(one->text), sender);
        if (is_answer && begins(sender, strlen(sender), "ph")) {
            send_again(host, one, to, to_size, text, size);
            return;
        }
        handed = signed_text(one->text);
        if (is_answer && handed != NULL) keep(&head, handed);
        if (begins(to, to_size, "pr") && head_of(text, size, &head)) note_went(&head, (unsigned)strtoul(to + 2, NULL, 10));
    }
    send_packet(host->carrier, to, to_size, text, size, handed);
}
