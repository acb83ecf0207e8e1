/* What hosts/torture builds in (-DTORMENTED): deaths at the moments that matter, which kills from outside seldom hit, and packets that are
   lost, doubled and late. TORMENT says how many in a thousand; nothing happens any more once the file that TORMENT_CALM names is there. */
#include "node.h"

#ifdef TORMENTED
#include <unistd.h>

#define MOST_LATE 64

/* A packet that goes out late. */
struct late {
    double due;
    char subject[64];
    struct bytes text, signature;
};

static struct late late[MOST_LATE];

/* Whether something happens that does so many times in a thousand. */
static bool happens(double in_thousand) {
    const char *calm = getenv("TORMENT_CALM");
    return (double)random() / (double)RAND_MAX * 1000 < in_thousand && (calm == NULL || access(calm, F_OK) != 0);
}

void torment(natsConnection *said) {
    const char *rate = getenv("TORMENT");
    if (rate == NULL || !happens(strtod(rate, NULL))) return;
    if (said != NULL) natsConnection_FlushTimeout(said, 500);
    raise(SIGKILL);
}

static bool delay(const char *subject, const char *text, size_t size, const char *signature) {
    int at = 0;
    while (at < MOST_LATE && late[at].due != 0) at++;
    if (at == MOST_LATE) return false;
    late[at] = (struct late){ .due = now() + (double)random() / (double)RAND_MAX };
    snprintf(late[at].subject, sizeof late[at].subject, "%s", subject);
    add(&late[at].text, text, size);
    if (signature != NULL) add_text(&late[at].signature, signature);
    return true;
}

void torment_late(natsConnection *connection) {
    for (int at = 0; at < MOST_LATE; at++) {
        if (late[at].due == 0 || late[at].due > now()) continue;
        publish_packet(connection, late[at].subject, late[at].text.at, late[at].text.size, late[at].signature.at);
        free(late[at].text.at);
        free(late[at].signature.at);
        late[at] = (struct late){ .due = 0 };
    }
}

bool torment_packet(natsConnection *connection, const char *subject, const char *text, size_t size, const char *signature) {
    if (getenv("TORMENT") == NULL) return false;
    if (happens(50)) return true;
    if (happens(50)) publish_packet(connection, subject, text, size, signature);
    return happens(100) && delay(subject, text, size, signature);
}
#endif
