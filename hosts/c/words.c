/* What a command line asks for. */
#include "node.h"

/* How many bytes of a log one message carries at most, where --part says nothing else and the server takes as many. */
#define MOST_PART 524288
#define UNSAID (-1)
/* How long a payer's own system may take at most, and how many requests to it may be under way, whatever the words say. */
#define MOST_WAIT 600
#define MOST_REQUESTS 2048

static _Noreturn void usage(int status) {
    fputs("usage: node SETTINGS NODE [LOG] [--nats URL[,URL..]] [--ca FILE] [--creds FILE] [--login FILE] [--tick SECONDS]\n"
          "            [--keys FOLDER] [--jetstream] [--watch ADDRESS:PORT] [--hold-back MS] [--reserve ROWS] [--ping SECONDS] [-v]\n"
          "            [--log file|stream] [--copies 1|2] [--machine NAME] [--patience SECONDS] [--part BYTES] [--at-least CALLS]\n"
          "            [--rules URL | --rules-tcp [tls://]HOST:PORT [--rules-framing stx|length2|length4]] [--rules-ca FILE]\n"
          "            [--rules-token FILE] [--rules-wait SECONDS] [--rules-most REQUESTS]\n"
          "       node SETTINGS phFIRST-phLAST FOLDER ..   a range of pharmacies, with the logs FOLDER/phNUMBER.log\n",
          status == 0 ? stdout : stderr);
    exit(status);
}

/* Where the word behind another one goes; NULL where it takes none. */
static const char **text_of(struct given *given, const char *word) {
    if (strcmp(word, "--nats") == 0) return &given->access.urls;
    if (strcmp(word, "--ca") == 0) return &given->access.authorities;
    if (strcmp(word, "--creds") == 0) return &given->access.credentials;
    if (strcmp(word, "--login") == 0) return &given->access.login;
    if (strcmp(word, "--keys") == 0) return &given->keys;
    if (strcmp(word, "--watch") == 0) return &given->watch;
    if (strcmp(word, "--log") == 0) return &given->kept;
    if (strcmp(word, "--machine") == 0) return &given->machine;
    if (strcmp(word, "--rules") == 0) return &given->rules.url;
    if (strcmp(word, "--rules-tcp") == 0) return &given->rules.tcp;
    if (strcmp(word, "--rules-framing") == 0) return &given->rules.framing;
    if (strcmp(word, "--rules-ca") == 0) return &given->rules.authorities;
    if (strcmp(word, "--rules-token") == 0) return &given->rules.token;
    return NULL;
}

/* Notes a word that is about a log. */
static void note_of_log(struct given *given, const char *word) {
    static const char *const of_log[] = { "--log", "--copies", "--machine", "--patience", "--part", "--at-least" };
    for (size_t at = 0; at < sizeof of_log / sizeof *of_log; at++)
        if (strcmp(word, of_log[at]) == 0) given->of_log = word;
}

/* Refuses a word about a log of a switch that has none. */
static void check_of_log(const struct given *given) {
    said_for(given->name, given->says);
    if (given->of_log == NULL) return;
    fail_with(REFUSED, "a switch without a log takes no word about one", FACTS(TEXT("word", given->of_log)));
}

/* The number behind `ph` at the start of a name, in `*behind` what stands after it; 0 of what no pharmacy is called. */
static unsigned pharmacy_in(const char *name, const char **behind) {
    char *end;
    *behind = name;
    if (strncmp(name, "ph", 2) != 0 || name[2] < '1' || name[2] > '9') return 0;
    unsigned long number = strtoul(name + 2, &end, 10);
    *behind = end;
    return number <= UINT16_MAX ? (unsigned)number : 0;
}

/* Takes a name as that of a range of pharmacies, if it is one: `ph1-ph1000`. What is none is a node's name, or refused as that. */
static void take_range(struct given *given) {
    const char *middle, *end;
    unsigned first = pharmacy_in(given->name, &middle);
    if (first == 0 || *middle != '-') return;
    unsigned last = pharmacy_in(middle + 1, &end);
    if (last < first || *end != '\0') return;
    given->first = first;
    given->last = last;
}

/* Whether a range of nodes has no such word. */
static bool is_of_one(const char *word) {
    static const char *const of_one[] = { "--log", "--copies", "--machine", "--patience", "--part", "--at-least" };
    for (size_t at = 0; at < sizeof of_one / sizeof *of_one; at++)
        if (strcmp(word, of_one[at]) == 0) return true;
    return strncmp(word, "--rules", 7) == 0;
}

/* Refuses, for a range, a word that it has not. */
static void check_of_one(const struct given *given, int count, char **word) {
    said_for(given->name, given->says);
    for (int at = 1; at < count; at++)
        if (is_of_one(word[at])) fail_with(REFUSED, "a range of nodes does not take this word", FACTS(TEXT("word", word[at])));
}

/* The number that a word is. */
static double number_in(const char *word) {
    char *end;
    double number = strtod(word, &end);
    if (end == word || *end != '\0') usage(2);
    return number;
}

/* Where the number behind a word goes; NULL where it takes none. */
static double *number_of(struct given *given, const char *word) {
    if (strcmp(word, "--tick") == 0) return &given->tick;
    if (strcmp(word, "--hold-back") == 0) return &given->hold_back;
    if (strcmp(word, "--reserve") == 0) return &given->reserve;
    if (strcmp(word, "--ping") == 0) return &given->access.ping;
    if (strcmp(word, "--patience") == 0) return &given->patience;
    if (strcmp(word, "--part") == 0) return &given->part;
    if (strcmp(word, "--copies") == 0) return &given->copies;
    if (strcmp(word, "--rules-wait") == 0) return &given->rules.wait;
    if (strcmp(word, "--rules-most") == 0) return &given->rules.most;
    if (strcmp(word, "--at-least") == 0) return &given->at_least;
    return NULL;
}

/* Sees whether the words fit one another, and takes from the environment what they leave out. */
static void complete(struct given *given) {
    bool is_file = given->kept == NULL || strcmp(given->kept, "file") == 0;
    if (!(given->tick > 0) || !(given->hold_back >= 0) || !(given->patience > 0) || !(given->part >= 1)) usage(2);
    if (given->copies != 1 && (given->copies != 2 || is_file)) usage(2);
    if (!(given->reserve == UNSAID || given->reserve >= 0) || !(given->at_least >= 0)) usage(2);
    if (!(given->rules.wait > 0) || !(given->rules.wait <= MOST_WAIT)) usage(2);
    if (!(given->rules.most >= 1) || !(given->rules.most <= MOST_REQUESTS)) usage(2);
    if (given->machine != NULL && (*given->machine == '\0' || strpbrk(given->machine, " \t\r\n") != NULL)) usage(2);
    given->is_stream = !is_file;
    if (!is_file && strcmp(given->kept, "stream") != 0) usage(2);
    /* A server that is silent is left sooner where a word of it is waited for. */
    if (given->access.ping == UNSAID) given->access.ping = is_file ? 5 : 1;
    if (!(given->access.ping > 0)) usage(2);
    const char *at = given->access.urls == NULL ? NULL : strchr(given->access.urls, '@');
    if (at != NULL) {
        fputs("a password on a command line stands in `ps`: give it in NATS_URL, or in a file by --login\n", stderr);
        exit(2);
    }
    if (given->access.urls == NULL) given->access.urls = getenv("NATS_URL");
    if (given->access.urls == NULL) given->access.urls = "nats://127.0.0.1:4222";
    if (given->access.login == NULL) given->access.login = getenv("NATS_LOGIN");
}

struct given words(int count, char **word) {
    struct given given = { .tick = 1, .patience = 0.8, .part = MOST_PART, .copies = 1, .reserve = UNSAID, .access = { .ping = UNSAID } };
    given.rules = (struct rules_given){ .framing = "stx", .wait = 5, .most = 256 };
    const char **plain[] = { &given.settings, &given.name, &given.log };
    size_t found = 0;
    for (int at = 1; at < count; at++) {
        const char **text = text_of(&given, word[at]);
        double *number = number_of(&given, word[at]);
        note_of_log(&given, word[at]);
        if (strcmp(word[at], "-h") == 0 || strcmp(word[at], "--help") == 0) usage(0);
        if (strcmp(word[at], "-v") == 0) given.says = true;
        else if (strcmp(word[at], "--jetstream") == 0) given.access.is_kept = true;
        else if (text != NULL && at + 1 < count) *text = word[++at];
        else if (number != NULL && at + 1 < count) *number = number_in(word[++at]);
        else if (word[at][0] != '-' && found < 3) *plain[found++] = word[at];
        else usage(2);
    }
    if (found < 2 || (found < 3 && !begins(given.name, strlen(given.name), "sw"))) usage(2);
    if (found < 3) check_of_log(&given);
    take_range(&given);
    if (given.last > 0) check_of_one(&given, count, word);
    complete(&given);
    return given;
}
