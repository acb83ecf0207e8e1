/* Requests to a payer's own system: the node's thread starts them and takes what came; a thread of their own has them meanwhile. */
#include <unistd.h>

#include "rules.h"

/* How long the thread waits at most where nothing is to be done. */
#define IDLE_MS 1000
/* Where the headers of a request and of an answer have the count of their transactions, and then, of an answer behind its status, provider
   and date. */
#define COUNT_OF_REQUEST 20
#define COUNT_OF_ANSWER 4
#define PROVIDER_BYTES 25

bool rules_want(const struct message *one, const char *line, size_t size) {
    return one->from == FROM_NODE && one->asked == NULL && size == strlen("refused NotAdvised") && begins(line, size, "refused NotAdvised");
}

/* The place of a request that is under way among all of them; their count where it is not. */
static size_t place_of(const struct rules *rules, const struct head *head) {
    size_t place = 0;
    while (place < rules->under_way_count &&
           (rules->under_way[place]->number != head->number || rules->under_way[place]->pharmacy != head->pharmacy))
        place++;
    return place;
}

/* The request in a packet of printed bytes: what stands behind the head of its envelope. */
static struct bytes request_of(const char *text, size_t size) {
    struct bytes request = { NULL, 0, 0 };
    char *packet = malloc(size + 1);
    size_t count = 0;
    if (packet == NULL) fail_memory();
    vogrilas_code code = vogrilas_unprint(text, size, packet, size, &count);
    if (code != VOGRILAS_OK || count < ENVELOPE_BYTES) fail("a packet spells no bytes", FACTS(TEXT("reason", vogrilas_code_text(code))));
    add(&request, packet + ENVELOPE_BYTES, count - ENVELOPE_BYTES);
    free(packet);
    return request;
}

/* Hands a request to the other thread. */
static void hand(struct rules *rules, struct asked *asked) {
    rules->under_way[rules->under_way_count++] = asked;
    counts_asked(rules->under_way_count);
    pthread_mutex_lock(&rules->lock);
    *rules->last = asked;
    rules->last = &asked->next;
    pthread_mutex_unlock(&rules->lock);
    curl_multi_wakeup(rules->multi);
}

void rules_ask(struct rules *rules, struct message *one, uint64_t rows) {
    const char *text = natsMsg_GetData(one->text);
    size_t size = (size_t)natsMsg_GetDataLength(one->text);
    static bool is_told;
    struct head head;
    if (rules == NULL && !is_told) say("error", "the settings have this payer ask, and no system is named: --rules", NULL);
    if (rules == NULL) is_told = true;
    if (rules == NULL || !head_of(text, size, &head)) return;
    bool is_under_way = place_of(rules, &head) < rules->under_way_count;
    if (is_under_way || rules->under_way_count == rules->most) {
        counts_dropped(is_under_way ? UNDER_WAY : RULES_FULL);
        return;
    }
    struct asked *asked = calloc(1, sizeof *asked);
    struct message *back = calloc(1, sizeof *back);
    if (asked == NULL || back == NULL) fail_memory();
    *back = (struct message){ .text = one->text, .from = FROM_NODE, .asked = asked, .came = one->came, .head = one->head };
    memcpy(back->sender, one->sender, sizeof back->sender);
    *asked = (struct asked){ .rules = rules, .message = back, .pharmacy = head.pharmacy, .number = head.number, .rows = rows };
    asked->request = request_of(text, size);
    asked->began = now();
    asked->until = asked->began + rules->given.wait;
    /* The last word on it is said once it is back. */
    one->text = NULL;
    one->is_served = false;
    hand(rules, asked);
}

bool rules_has_advice(const struct message *one) {
    return one->asked != NULL && one->asked->came == CAME_ADVICE;
}

void rules_note(struct message *one, const char *line, size_t size) {
    struct asked *asked = one->asked;
    char name[40] = "";
    if (asked == NULL || asked->came != CAME_ADVICE) return;
    if (!begins(line, size, "refused ")) {
        counts_ruled();
        return;
    }
    snprintf(name, sizeof name, "%.*s", (int)(size - 8), line + 8);
    const char *fault = strcmp(name, "NotAdvised") == 0 ? advice_fault(&asked->request, &asked->answer) : name;
    counts_unruled(fault);
    fault_say(fault, asked);
}

/* Frees what a request has; the message as which it comes back is another's. */
static void free_asked(struct asked *asked) {
    curl_slist_free_all(asked->heads);
    free(asked->request.at);
    free(asked->answer.at);
    free(asked);
}

void rules_forget(struct message *one) {
    struct asked *asked = one->asked;
    if (asked == NULL) return;
    struct rules *rules = asked->rules;
    struct head head = { 1, asked->pharmacy, asked->number };
    rules->under_way[place_of(rules, &head)] = rules->under_way[rules->under_way_count - 1];
    rules->under_way_count--;
    if (asked->came != CAME_ADVICE) {
        counts_unruled(came_name(asked->came));
        fault_say(came_name(asked->came), asked);
    }
    counts_came(rules->under_way_count);
    free_asked(asked);
    one->asked = NULL;
}

size_t rules_under_way(const struct rules *rules) {
    return rules == NULL ? 0 : rules->under_way_count;
}

/*
** Whether what came is for another request. An answer says of as many transactions as its request has. Where it came in a frame, nothing but
** its place on the connection says which request it is for, so its header has to have the request's provider and date as well: an answer that
** comes when another was waited for is not taken for it. What is no answer at all the node refuses.
*/
static enum came compared(const struct asked *asked) {
    const struct bytes *request = &asked->request, *answer = &asked->answer;
    if (request->size < COUNT_OF_REQUEST + 1 + PROVIDER_BYTES || answer->size < COUNT_OF_ANSWER + 2 + PROVIDER_BYTES) return CAME_ADVICE;
    if (!begins(answer->at, answer->size, "D0")) return CAME_ADVICE;
    if (request->at[COUNT_OF_REQUEST] != answer->at[COUNT_OF_ANSWER]) return CAME_OTHER_PLACES;
    bool is_same = memcmp(request->at + COUNT_OF_REQUEST + 1, answer->at + COUNT_OF_ANSWER + 2, PROVIDER_BYTES) == 0;
    return is_same || asked->rules->given.tcp == NULL ? CAME_ADVICE : CAME_OTHER_REQUEST;
}

void rules_came(struct asked *asked, enum came came, const char *why) {
    asked->came = came == CAME_ADVICE ? compared(asked) : came;
    asked->why = why;
    counts_rules_took(now() - asked->began);
    carrier_back(asked->rules->carrier, asked->message);
}

void rules_set(const struct rules *rules, CURL *handle, double seconds) {
    const struct rules_given *given = &rules->given;
    long ms = seconds > 0.001 ? (long)(seconds * 1000) : 1;
    curl_easy_setopt(handle, CURLOPT_NOSIGNAL, 1L);
    /* A name that is being looked up for too long holds nothing up: the look-up is left to end by itself. */
    curl_easy_setopt(handle, CURLOPT_QUICK_EXIT, 1L);
    curl_easy_setopt(handle, CURLOPT_TIMEOUT_MS, ms);
    curl_easy_setopt(handle, CURLOPT_CONNECTTIMEOUT_MS, ms);
    curl_easy_setopt(handle, CURLOPT_PROTOCOLS_STR, "http,https");
    /* Messages go to whom the words name: no proxy of an environment is between. */
    curl_easy_setopt(handle, CURLOPT_PROXY, "");
    curl_easy_setopt(handle, CURLOPT_SSLVERSION, (long)CURL_SSLVERSION_TLSv1_2);
    curl_easy_setopt(handle, CURLOPT_SSL_VERIFYPEER, 1L);
    curl_easy_setopt(handle, CURLOPT_SSL_VERIFYHOST, 2L);
    if (given->authorities != NULL) curl_easy_setopt(handle, CURLOPT_CAINFO, given->authorities);
}

/* Takes up what the node's thread has started; false where the thread is to end. */
static bool begin_new(struct rules *rules) {
    pthread_mutex_lock(&rules->lock);
    struct asked *asked = rules->first;
    bool is_stopping = rules->is_stopping;
    rules->first = NULL;
    rules->last = &rules->first;
    pthread_mutex_unlock(&rules->lock);
    for (struct asked *next; asked != NULL; asked = next) {
        next = asked->next;
        if (rules->given.tcp != NULL) frame_begin(asked);
        else http_begin(asked);
    }
    return !is_stopping;
}

/* Takes what came of transfers that have ended. */
static void end_done(struct rules *rules) {
    int left;
    for (CURLMsg *done; (done = curl_multi_info_read(rules->multi, &left)) != NULL;) {
        if (done->msg != CURLMSG_DONE) continue;
        if (rules->given.tcp != NULL) frame_done(rules, done->easy_handle, done->data.result);
        else http_done(rules, done->easy_handle, done->data.result);
    }
}

static void *serve(void *closure) {
    struct rules *rules = closure;
    struct curl_waitfd *wait = calloc(rules->most, sizeof *wait);
    if (wait == NULL) fail_memory();
    while (begin_new(rules)) {
        int running;
        double seconds = IDLE_MS / 1000.0;
        curl_multi_perform(rules->multi, &running);
        end_done(rules);
        if (rules->given.tcp != NULL) frame_step(rules);
        unsigned count = rules->given.tcp != NULL ? frame_waits(rules, wait, &seconds) : 0;
        curl_multi_poll(rules->multi, wait, count, (int)(seconds * 1000) + 1, NULL);
    }
    free(wait);
    return NULL;
}

struct rules *rules_start(const struct given *given, struct carrier *carrier) {
    if ((given->rules.url == NULL && given->rules.tcp == NULL) || !begins(given->name, strlen(given->name), "pr")) return NULL;
    struct rules *rules = calloc(1, sizeof *rules);
    if (rules == NULL || curl_global_init(CURL_GLOBAL_DEFAULT) != CURLE_OK) fail_memory();
    *rules = (struct rules){ .given = given->rules, .node = given->name, .carrier = carrier, .most = (size_t)given->rules.most };
    rules->last = &rules->first;
    rules->multi = curl_multi_init();
    rules->url = rules_url(&rules->given);
    rules->under_way = calloc(rules->most, sizeof *rules->under_way);
    rules->lines = calloc(rules->most, sizeof *rules->lines);
    if (rules->multi == NULL || rules->under_way == NULL || rules->lines == NULL) fail_memory();
    /* A connection for each request that may be under way, where they cannot share one. */
    curl_multi_setopt(rules->multi, CURLMOPT_MAX_TOTAL_CONNECTIONS, (long)rules->most);
    curl_multi_setopt(rules->multi, CURLMOPT_MAXCONNECTS, (long)rules->most);
    pthread_mutex_init(&rules->lock, NULL);
    if (pthread_create(&rules->thread, NULL, serve, rules) != 0) fail("there is no thread for requests", NULL);
    return rules;
}

void rules_stop(struct rules *rules) {
    if (rules == NULL) return;
    pthread_mutex_lock(&rules->lock);
    rules->is_stopping = true;
    pthread_mutex_unlock(&rules->lock);
    curl_multi_wakeup(rules->multi);
    pthread_join(rules->thread, NULL);
}
