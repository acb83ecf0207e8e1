/* Which system a payer's words name, and its token: a word is taken or refused, and a token is one line of its file, whole. */
#include "fuzz.h"
#include "rules.h"

static void check(void *closure) {
    rules_check(closure);
}

void tried(struct input *input) {
    char token[MOST_TOKEN] = "before";
    unsigned how = next_byte(input);
    struct bytes url = next_line(input), framing = next_line(input), file = the_rest(input);
    const char *path = written_file("token", file.at, file.size);
    size_t first = 0;
    while (first < file.size && file.at[first] != '\r' && file.at[first] != '\n') first++;
    bool is_one = token_read(path, token);
    expect(is_one || strcmp(token, "before") == 0);
    expect(!is_one || (token_is_one(token) && strlen(token) == first && memcmp(token, file.at, first) == 0));
    struct rules_given given = { .framing = framing.size == 0 ? "stx" : framing.at };
    if (how % 2 == 0) given.url = url.at;
    else given.tcp = url.at;
    if (how & 2) given.token = path;
    if (goes_on(check, &given)) {
        char *text = rules_url(&given);
        expect(strncmp(text, "http://", 7) == 0 || strncmp(text, "https://", 8) == 0 || given.tcp == NULL);
        expect(given.token == NULL || (is_one && given.tcp == NULL));
        free(text);
    }
    free(url.at);
    free(framing.at);
    free(file.at);
}
