/*
** What went wrong with a request to a payer's own system, by name. The node says of an advice that it is none, NotAdvised; why, for people who have
** to mend their system, is read here out of the library's description of the answer. Nothing hangs on it but what is told and counted.
*/
#include "rules.h"

static const char *const name_of_came[CAMES] = { "Advice", "TimedOut", "Unreachable", "Broken", "Status", "Empty", "TooLong", "BadFrame",
                                                "OtherPlaces", "OtherRequest" };

const char *came_name(enum came came) {
    return name_of_came[came];
}

/* The description of a message as JSON; the host ends where memory is refused. */
static struct bytes described(const struct bytes *message) {
    struct bytes text = { NULL, 0, 0 };
    size_t size = 0;
    add(&text, "", 0);
    vogrilas_code code = vogrilas_describe(message->at, message->size, 1, text.at, 0, &size);
    if (code == VOGRILAS_SHORT_BUFFER) {
        free(text.at);
        text = (struct bytes){ malloc(size + 1), size, size + 1 };
        if (text.at == NULL) fail_memory();
        code = vogrilas_describe(message->at, message->size, 1, text.at, size, &text.size);
    }
    if (code != VOGRILAS_OK) fail("a message is not described", FACTS(TEXT("reason", vogrilas_code_text(code))));
    text.at[text.size] = '\0';
    return text;
}

/* The number behind a key in what is found of a transaction; -1 where that is not found, or has no such number. A quotation mark inside a
   value has a backslash before it, so a value is never taken for a key. */
static long long number_of(const char *json, const char *finding, int transaction, const char *key) {
    char text[64];
    snprintf(text, sizeof text, "\"finding\":\"%s\",\"transaction\":%d,", finding, transaction);
    const char *at = strstr(json, text), *end = at == NULL ? NULL : strchr(at, '}');
    snprintf(text, sizeof text, "\"%s\":", key);
    const char *value = at == NULL ? NULL : strstr(at, text);
    return value == NULL || end == NULL || value > end ? -1 : strtoll(value + strlen(text), NULL, 10);
}

/* Where the separator that ends a part of a message stands, or the message ends. */
static const char *part_end(const char *at, const char *end) {
    for (at++; at < end && (*at < 0x1c || *at > 0x1e); at++) continue;
    return at;
}

/* Whether the transaction that begins here has a value for a field in a segment, whose names have the separator of fields in front. */
static bool has_value(const char *at, const char *end, const char *segment, const char *field) {
    bool is_name = false, is_inside = false;
    for (const char *next; at < end && *at != 0x1d; at = next) {
        next = part_end(at, end);
        if (*at == 0x1e) is_inside = false;
        else if (is_name) is_inside = next - at == 5 && memcmp(at, segment, 5) == 0;
        else if (is_inside && next - at > 3 && memcmp(at, field, 3) == 0) return true;
        is_name = *at == 0x1e;
    }
    return false;
}

/* An advice as a book's answer, so that the description finds no fault with what is not asked of advices: each transaction has one authorization
   number (503-F3), of a book, and a fee (507-F7), which is 0 where it has none; what was approved before (112-AN `S`) is approved. */
static struct bytes as_of_a_book(const struct bytes *advice) {
    static const char status[] = "\x1c" "AM21", pricing[] = "\x1c" "AM23", number[] = "\x1c" "F30001000000000001", fee[] = "\x1c" "F70{";
    static const char again[] = "\x1c" "ANS", once[] = "\x1c" "ANA";
    const char *end = advice->at + advice->size;
    struct bytes text = { NULL, 0, 0 };
    bool is_name = false, is_status = false, lacks_number = false, lacks_fee = false;
    add(&text, "", 0);
    for (const char *at = advice->at, *next; at < end; at = next) {
        bool names = is_name && *at == 0x1c;
        next = part_end(at, end);
        is_name = *at == 0x1e;
        if (*at != 0x1c) is_status = false;
        if (is_status && next - at >= 3 && memcmp(at, number, 3) == 0) continue;
        bool is_again = is_status && next - at == sizeof again - 1 && memcmp(at, again, sizeof again - 1) == 0;
        add(&text, is_again ? once : at, (size_t)(next - at));
        if (*at == 0x1d) {
            lacks_number = true;
            lacks_fee = !has_value(next, end, pricing, fee);
        }
        if (!names || next - at != 5) continue;
        is_status = memcmp(at, status, 5) == 0;
        if (is_status && lacks_number) {
            add(&text, number, sizeof number - 1);
            lacks_number = false;
        } else if (memcmp(at, pricing, 5) == 0 && lacks_fee) {
            add(&text, fee, sizeof fee - 1);
            lacks_fee = false;
        }
    }
    return text;
}

static int rulings_in(const char *json) {
    int count = 0;
    for (const char *at = json; (at = strstr(at, "\"finding\":\"ruling\"")) != NULL; at++) count++;
    return count;
}

/* The name of the fault for which a text reads as no answer; NULL of an answer. */
static const char *unread(const char *json) {
    static const char *const fault[] = { "NoStatus", "BadStatus", "BadClaim", "BadAmount", "BadRejects" };
    char text[64];
    for (size_t at = 0; at < sizeof fault / sizeof *fault; at++) {
        snprintf(text, sizeof text, "\"finding\":\"no_answer\",\"fault\":\"%s\"", fault[at]);
        if (strstr(json, text) != NULL) return fault[at];
    }
    if (strstr(json, "\"kind\":\"answer\"") == NULL) return "NoAnswer";
    return rulings_in(json) == 0 ? "Framing" : NULL;
}

/* Whether a ruling names a prescription that is another than the request's. */
static bool names_another(const char *request, const char *answer, int transaction) {
    long long asked = number_of(request, "order", transaction, "prescription");
    long long told = number_of(answer, "ruling", transaction, "prescription");
    return asked >= 0 && told >= 0 && asked != told;
}

const char *advice_fault(const struct bytes *request, const struct bytes *answer) {
    struct bytes advice = as_of_a_book(answer), asked = described(request), told = described(&advice);
    int transactions = request->size > 20 ? request->at[20] - '0' : 0;
    const char *fault = unread(told.at);
    if (fault == NULL && rulings_in(told.at) != transactions) fault = "OtherPlaces";
    for (int at = 1; fault == NULL && at <= transactions; at++)
        if (names_another(asked.at, told.at, at)) fault = "OtherPrescription";
    free(advice.at);
    free(asked.at);
    free(told.at);
    return fault == NULL ? "NoVerdict" : fault;
}

void fault_say(const char *name, const struct asked *asked) {
    const struct fact status = asked->came == CAME_STATUS ? NUMBER("status", asked->status) : TEXT("status", NULL);
    say_some("warning", "a request came to no ruling", name,
             FACTS(NUMBER("pharmacy", asked->pharmacy), NUMBER("number", asked->number), status, TEXT("by", asked->why)));
}
