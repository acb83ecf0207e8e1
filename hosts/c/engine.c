/* JetStream over a connection of its own: what is asked, and the replies, which come to one inbox. */
#include "stream.h"

/* A server that knows no leader says so before the one in charge has answered. */
#define NO_LEADER 10008

static void check(const char *what, natsStatus status) {
    if (status != NATS_OK)
        fail("the servers of the log cannot be asked", FACTS(TEXT("reason", natsStatus_GetText(status)), TEXT("by", what)));
}

static void came_again(natsConnection *connection, void *closure) {
    (void)connection, (void)closure;
    say("info", "the log has a server again", NULL);
}

static void went(natsConnection *connection, void *closure) {
    const char *why = NULL;
    if (((struct engine *)closure)->is_closing) return;
    natsConnection_GetLastError(connection, &why);
    say("warning", "the log has no server, trying again", FACTS(TEXT("reason", why)));
}

/* Each message goes out at once: the word on it is waited for. */
static natsOptions *options_of(struct engine *engine, const char *node, const struct access *access) {
    natsOptions *options = access_options(access, node);
    check("options", natsOptions_SetSendAsap(options, true));
    check("options", natsOptions_SetReconnectedCB(options, came_again, engine));
    check("options", natsOptions_SetDisconnectedCB(options, went, engine));
    return options;
}

bool engine_open(struct engine *engine, const char *node, const struct access *access, volatile sig_atomic_t *is_stopping) {
    unsigned char drawn[8];
    char all[80];
    natsOptions *options = options_of(engine, node, access);
    engine->connection = access_connect(options, is_stopping);
    natsOptions_Destroy(options);
    if (engine->connection == NULL) return false;
    draw(drawn, sizeof drawn);
    int size = snprintf(engine->inbox, sizeof engine->inbox, "_INBOX.%s.", node);
    for (size_t at = 0; at < sizeof drawn; at++) size += snprintf(engine->inbox + size, 3, "%02x", drawn[at]);
    snprintf(all, sizeof all, "%s.*", engine->inbox);
    check(all, natsConnection_SubscribeSync(&engine->replies, engine->connection, all));
    return true;
}

natsMsg *engine_message(struct engine *engine, const char *subject, const char *bytes, size_t size) {
    char reply[96];
    natsMsg *message = NULL;
    snprintf(reply, sizeof reply, "%s.%llu", engine->inbox, (unsigned long long)++engine->number);
    check("a message", natsMsg_Create(&message, subject, reply, bytes, (int)size));
    return message;
}

bool engine_send(struct engine *engine, natsMsg *message) {
    /* What is sent without a server would go out when there is one again, long after it was sent anew. */
    return natsConnection_Status(engine->connection) == NATS_CONN_STATUS_CONNECTED &&
           natsConnection_PublishMsg(engine->connection, message) == NATS_OK;
}

natsMsg *engine_reply(struct engine *engine, double seconds) {
    char wanted[96];
    double end = now() + seconds;
    snprintf(wanted, sizeof wanted, "%s.%llu", engine->inbox, (unsigned long long)engine->number);
    while (true) {
        double left = end - now();
        natsMsg *reply = NULL;
        natsStatus status = natsSubscription_NextMsg(&reply, engine->replies, left > 0.001 ? (int64_t)(left * 1000) : 1);
        if (status == NATS_OK && strcmp(natsMsg_GetSubject(reply), wanted) == 0 && reply_error(natsMsg_GetData(reply)) != NO_LEADER)
            return reply;
        natsMsg_Destroy(reply);
        if (status == NATS_TIMEOUT || left <= 0) return NULL;
        if (status == NATS_OK) continue;
        /* Nobody hears what was sent: a stream without a leader. It is asked again a little later. */
        nats_Sleep(left > 0.1 ? 100 : (int64_t)(left * 1000));
        if (status != NATS_NO_RESPONDERS || now() >= end) return NULL;
    }
}

void engine_close(struct engine *engine) {
    engine->is_closing = true;
    natsConnection_FlushTimeout(engine->connection, 1000);
    natsSubscription_Destroy(engine->replies);
    natsConnection_Destroy(engine->connection);
}

uint64_t reply_number(const char *reply, const char *key) {
    char word[32];
    snprintf(word, sizeof word, "\"%s\":", key);
    const char *at = strstr(reply, word);
    return at == NULL ? 0 : strtoull(at + strlen(word), NULL, 10);
}

uint64_t reply_error(const char *reply) {
    return strstr(reply, "\"error\":") == NULL ? 0 : reply_number(reply, "err_code");
}
