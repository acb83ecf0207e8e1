/* Which system a payer's words name, and whether they may: all is looked at before a log is opened. */
#include <fcntl.h>
#include <unistd.h>

#include "rules.h"

static _Noreturn void refuse(const char *word, const char *why) {
    fail_with(REFUSED, "a word is refused", FACTS(TEXT("reason", why), TEXT("word", word)));
}

bool token_is_one(const char *text) {
    for (const char *at = text; *at != '\0'; at++)
        if (*at <= ' ' || *at > '~') return false;
    return *text != '\0';
}

bool token_read(const char *path, char token[MOST_TOKEN]) {
    char text[MOST_TOKEN];
    int file = open(path, O_RDONLY | O_CLOEXEC);
    ssize_t size = file < 0 ? -1 : read(file, text, sizeof text - 1);
    if (file >= 0) close(file);
    if (size <= 0) return false;
    text[size] = '\0';
    size_t end = strcspn(text, "\r\n");
    /* A line that a 0 ends, or the room for it, would be taken in part. */
    bool is_whole = end < (size_t)size ? text[end] != '\0' : end < sizeof text - 1;
    text[end] = '\0';
    if (is_whole && token_is_one(text)) strcpy(token, text);
    return is_whole && token_is_one(text);
}

char *rules_url(const struct rules_given *given) {
    struct bytes url = { NULL, 0, 0 };
    const char *at = given->url;
    if (given->tcp != NULL) {
        bool says = begins(given->tcp, strlen(given->tcp), "tls://");
        at = given->tcp + (says ? strlen("tls://") : 0);
        add_text(&url, says || given->authorities != NULL ? "https://" : "http://");
    }
    add_text(&url, at);
    return url.at;
}

/* Whether a part of a URL is there, and is this, or anything where that is NULL. */
static bool has_part(CURLU *url, CURLUPart part, const char *text) {
    char *found = NULL;
    bool has = curl_url_get(url, part, &found, 0) == CURLUE_OK && (text == NULL || strcmp(found, text) == 0);
    curl_free(found);
    return has;
}

static bool is_here(CURLU *url) {
    return has_part(url, CURLUPART_HOST, "127.0.0.1") || has_part(url, CURLUPART_HOST, "[::1]") || has_part(url, CURLUPART_HOST, "localhost");
}

static void check_url(const struct rules_given *given, const char *word) {
    char *text = rules_url(given);
    CURLU *url = curl_url();
    if (url == NULL) fail_memory();
    if (curl_url_set(url, CURLUPART_URL, text, CURLU_NON_SUPPORT_SCHEME) != CURLUE_OK) refuse(word, "it is no URL, or no HOST:PORT");
    bool is_tls = has_part(url, CURLUPART_SCHEME, "https");
    if (!is_tls && !has_part(url, CURLUPART_SCHEME, "http")) refuse(word, "http:// or https:// is wanted");
    if (has_part(url, CURLUPART_USER, NULL) || has_part(url, CURLUPART_PASSWORD, NULL))
        refuse(word, "a password on a command line stands in `ps`: give a token in a file by --rules-token");
    if (given->tcp != NULL && (!has_part(url, CURLUPART_PORT, NULL) || !has_part(url, CURLUPART_PATH, "/"))) refuse(word, "HOST:PORT is wanted");
    if (given->token != NULL && !is_tls && !is_here(url)) refuse(word, "a token goes over https:// alone, or to this machine");
    if (given->authorities != NULL && !is_tls) refuse("--rules-ca", "it is for https://");
    curl_url_cleanup(url);
    free(text);
}

void rules_check(const struct rules_given *given) {
    char token[MOST_TOKEN];
    static const char *const framing[] = { "stx", "length2", "length4" };
    bool is_framing = false;
    for (size_t at = 0; at < sizeof framing / sizeof *framing; at++) is_framing = is_framing || strcmp(given->framing, framing[at]) == 0;
    if (given->url == NULL && given->tcp == NULL) return;
    if (given->url != NULL && given->tcp != NULL) refuse("--rules", "one system rules: --rules or --rules-tcp");
    if (!is_framing) refuse("--rules-framing", "stx, length2 or length4 is wanted");
    if (given->tcp != NULL && given->token != NULL) refuse("--rules-token", "a frame carries none");
    if (given->authorities != NULL && access(given->authorities, R_OK) != 0) refuse("--rules-ca", "the file is not there");
    if (given->token != NULL && !token_read(given->token, token)) refuse("--rules-token", "a file with one line of printable characters is wanted");
    check_url(given, given->tcp != NULL ? "--rules-tcp" : "--rules");
}
