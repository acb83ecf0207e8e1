/* Where servers are, and who comes: from the words of the command line to a connection. */
#include <fcntl.h>
#include <unistd.h>

#include "node.h"

#define MOST_SERVERS 16

static void check(const char *what, natsStatus status) {
    if (status != NATS_OK) fail("servers cannot be reached so", FACTS(TEXT("reason", natsStatus_GetText(status)), TEXT("by", what)));
}

/* Parts URLs at commas. */
static int parted(char *urls, const char *part[MOST_SERVERS]) {
    int count = 0;
    char *rest = NULL;
    for (char *at = strtok_r(urls, ", ", &rest); at != NULL && count < MOST_SERVERS; at = strtok_r(NULL, ", ", &rest)) part[count++] = at;
    return count;
}

/* Sets who comes, from a file with one line, USER:PASSWORD. */
static void set_login(natsOptions *options, const char *path) {
    int file = open(path, O_RDONLY);
    if (file < 0) fail_open("the login cannot be read", path);
    struct bytes login = whole(file, path, 4096);
    close(file);
    char *end = strpbrk(login.at, "\r\n"), *password;
    if (end != NULL) *end = '\0';
    password = strchr(login.at, ':');
    if (password == NULL) fail("the login is none", FACTS(TEXT("reason", "one line is wanted, USER:PASSWORD"), TEXT("file", path)));
    *password++ = '\0';
    check(path, natsOptions_SetUserInfo(options, login.at, password));
    free(login.at);
}

static void set_access(natsOptions *options, const struct access *access) {
    const char *part[MOST_SERVERS];
    char *urls = strdup(access->urls);
    if (urls == NULL) fail_memory();
    bool is_tls = strstr(urls, "tls://") != NULL || access->authorities != NULL;
    int count = parted(urls, part);
    if (count == 0) fail("no server is named", NULL);
    check("the URLs of servers", natsOptions_SetServers(options, part, count));
    free(urls);
    if (is_tls) check("tls", natsOptions_SetSecure(options, true));
    if (access->authorities != NULL) check(access->authorities, natsOptions_LoadCATrustedCertificates(options, access->authorities));
    const char *credentials = access->credentials;
    if (credentials != NULL) check(credentials, natsOptions_SetUserCredentialsFromFiles(options, credentials, NULL));
    if (access->login != NULL) set_login(options, access->login);
}

natsOptions *access_options(const struct access *access, const char *name) {
    natsOptions *options = NULL;
    check("options", natsOptions_Create(&options));
    set_access(options, access);
    check("options", natsOptions_SetName(options, name));
    check("options", natsOptions_SetTimeout(options, 5000));
    check("options", natsOptions_SetMaxReconnect(options, -1));
    check("options", natsOptions_SetReconnectWait(options, 200));
    check("options", natsOptions_SetReconnectJitter(options, 200, 500));
    check("options", natsOptions_SetReconnectBufSize(options, 1 << 20));
    check("options", natsOptions_SetPingInterval(options, (int64_t)(access->ping * 1000)));
    check("options", natsOptions_SetMaxPingsOut(options, 2));
    return options;
}

/* Whether a server may be there at the next try. */
static bool may_come(natsStatus status) {
    return status == NATS_NO_SERVER || status == NATS_TIMEOUT || status == NATS_IO_ERROR || status == NATS_CONNECTION_CLOSED;
}

natsConnection *access_connect(natsOptions *options, volatile sig_atomic_t *is_stopping) {
    natsConnection *connection = NULL;
    natsStatus status = NATS_OK;
    bool is_told = false;
    while (!*is_stopping && may_come(status = natsConnection_Connect(&connection, options))) {
        if (!is_told) say("warning", "no server, trying again", FACTS(TEXT("reason", natsStatus_GetText(status))));
        is_told = true;
        nats_Sleep(200);
    }
    if (*is_stopping && status != NATS_OK) return NULL;
    check("the server", status);
    return connection;
}
