/* A request to a payer's system over HTTP: the message as it is, and in its heads which one it is. */
#include <stdarg.h>

#include "rules.h"

#define MOST_HEADS 16384

/* Takes bytes of an answer, unless they are more than one may have. */
static size_t take_bytes(char *bytes, size_t size, size_t count, void *closure) {
    struct asked *asked = closure;
    (void)size;
    if (asked->answer.size + count > MOST_ANSWER) {
        asked->came = CAME_TOO_LONG;
        return 0;
    }
    add(&asked->answer, bytes, count);
    return count;
}

/* Lets heads of the answer pass, as many bytes of them as it may have. */
static size_t pass_head(char *bytes, size_t size, size_t count, void *closure) {
    struct asked *asked = closure;
    (void)bytes;
    asked->heads_size += size * count;
    return asked->heads_size > MOST_HEADS ? 0 : size * count;
}

static void add_head(struct asked *asked, const char *form, ...) __attribute__((format(printf, 2, 3)));

static void add_head(struct asked *asked, const char *form, ...) {
    char text[MOST_TOKEN + 40];
    va_list given;
    va_start(given, form);
    vsnprintf(text, sizeof text, form, given);
    va_end(given);
    struct curl_slist *heads = curl_slist_append(asked->heads, text);
    if (heads == NULL) fail_memory();
    asked->heads = heads;
}

static void add_heads(struct asked *asked) {
    struct rules *rules = asked->rules;
    add_head(asked, "Content-Type: application/vnd.ncpdp");
    add_head(asked, "Accept: application/vnd.ncpdp");
    add_head(asked, "Vogrilas-Payer: %s", rules->node);
    add_head(asked, "Vogrilas-Pharmacy: %u", (unsigned)asked->pharmacy);
    add_head(asked, "Vogrilas-Number: %llu", (unsigned long long)asked->number);
    add_head(asked, "Vogrilas-Rows: %llu", (unsigned long long)asked->rows);
    /* A message is sent at once, and not only once the other side has said that it wants it. */
    add_head(asked, "Expect:");
    if (rules->given.token == NULL) return;
    token_read(rules->given.token, rules->token);
    add_head(asked, "Authorization: Bearer %s", rules->token);
}

void http_begin(struct asked *asked) {
    struct rules *rules = asked->rules;
    asked->handle = curl_easy_init();
    if (asked->handle == NULL) fail_memory();
    add_heads(asked);
    rules_set(rules, asked->handle, asked->until - now());
    curl_easy_setopt(asked->handle, CURLOPT_URL, rules->url);
    curl_easy_setopt(asked->handle, CURLOPT_PRIVATE, asked);
    curl_easy_setopt(asked->handle, CURLOPT_HTTPHEADER, asked->heads);
    curl_easy_setopt(asked->handle, CURLOPT_POSTFIELDSIZE, (long)asked->request.size);
    curl_easy_setopt(asked->handle, CURLOPT_POSTFIELDS, asked->request.at);
    curl_easy_setopt(asked->handle, CURLOPT_USERAGENT, "vogrilas");
    /* An answer that says that it is longer is not read at all. */
    curl_easy_setopt(asked->handle, CURLOPT_MAXFILESIZE, (long)MOST_ANSWER);
    curl_easy_setopt(asked->handle, CURLOPT_WRITEFUNCTION, take_bytes);
    curl_easy_setopt(asked->handle, CURLOPT_WRITEDATA, asked);
    curl_easy_setopt(asked->handle, CURLOPT_HEADERFUNCTION, pass_head);
    curl_easy_setopt(asked->handle, CURLOPT_HEADERDATA, asked);
    /* Where one connection carries many requests, the next ones wait for it. */
    curl_easy_setopt(asked->handle, CURLOPT_PIPEWAIT, 1L);
    curl_multi_add_handle(rules->multi, asked->handle);
}

/* Whether an answer says where it ends: by its length, in chunks, or in frames of HTTP/2. One that ends where its connection does may have been
   cut off, and amounts that have lost digits are amounts. */
static bool says_its_end(CURL *handle) {
    curl_off_t length = -1;
    long version = 0;
    struct curl_header *chunked = NULL;
    curl_easy_getinfo(handle, CURLINFO_CONTENT_LENGTH_DOWNLOAD_T, &length);
    curl_easy_getinfo(handle, CURLINFO_HTTP_VERSION, &version);
    return length >= 0 || version >= CURL_HTTP_VERSION_2_0 ||
           curl_easy_header(handle, "Transfer-Encoding", 0, CURLH_HEADER, -1, &chunked) == CURLHE_OK;
}

/* What a transfer that has ended brought. */
static enum came came_of(const struct asked *asked, CURLcode code, bool is_whole) {
    if (asked->status != 0 && asked->status != 200) return CAME_STATUS;
    if (asked->came == CAME_TOO_LONG || code == CURLE_FILESIZE_EXCEEDED) return CAME_TOO_LONG;
    if (code == CURLE_OPERATION_TIMEDOUT) return CAME_TIMED_OUT;
    if (code != CURLE_OK) return asked->status == 0 ? CAME_UNREACHABLE : CAME_BROKEN;
    /* Of a first line that is nearly one of HTTP libcurl tells no status, and no fault. */
    if (asked->status == 0) return CAME_STATUS;
    if (asked->answer.size == 0) return CAME_EMPTY;
    return is_whole ? CAME_ADVICE : CAME_BROKEN;
}

void http_done(struct rules *rules, CURL *handle, CURLcode code) {
    struct asked *asked = NULL;
    curl_easy_getinfo(handle, CURLINFO_PRIVATE, (char **)&asked);
    curl_easy_getinfo(handle, CURLINFO_RESPONSE_CODE, &asked->status);
    bool is_whole = says_its_end(handle);
    curl_multi_remove_handle(rules->multi, handle);
    curl_easy_cleanup(handle);
    asked->handle = NULL;
    const char *why = code != CURLE_OK ? curl_easy_strerror(code) : is_whole ? NULL : "it does not say where it ends";
    rules_came(asked, came_of(asked, code, is_whole), why);
}
