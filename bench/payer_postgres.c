/* payer_postgres CONNECTION: what payer_sqlite.c is, over PostgreSQL: a table with a unique index on the fill, one connection, and all lines
 * that wait in one transaction, sent in one go and synced by its commit, before anything is said. A claim is one statement: it is entered
 * with its answer, unless its number or its fill is there; then it is looked up. It is for bench/path alone. */
#include <libpq-fe.h>

#include "payer_plain.h"

/* A claim of the transaction. */
struct claim {
    unsigned char *packet;
    int size;
    long long serial;
};

static PGconn *db;
static struct claim claims[LINES / 10];
static size_t claims_count;
static unsigned char packets[LINES];
static size_t packets_size;
static long long serial = 1;

static void must(int holds)
{
    if (holds) return;
    fprintf(stderr, "payer_postgres: %s", PQerrorMessage(db));
    exit(1);
}

/* The next result, of this kind. */
static PGresult *next(ExecStatusType kind)
{
    PGresult *it = PQgetResult(db);
    must(it != NULL && PQresultStatus(it) == kind);
    return it;
}

static void execute(const char *sql)
{
    PGresult *it = PQexec(db, sql);
    must(PQresultStatus(it) == PGRES_COMMAND_OK);
    PQclear(it);
}

static void prepare(const char *name, const char *sql)
{
    PGresult *it = PQprepare(db, name, sql, 0, NULL);
    must(PQresultStatus(it) == PGRES_COMMAND_OK);
    PQclear(it);
}

static const char *texts(const unsigned char *request, int size, char rx[32], char fill[32])
{
    field(request, size, "D3", fill);
    return field(request, size, "D2", rx);
}

/* Enters a claim, paid; what comes of it is told later. */
static void send_enter(struct claim *claim)
{
    static unsigned char answer[MOST];
    const unsigned char *request = claim->packet + HEAD;
    char rx[32], fill[32], number[24];
    int size = claim->size - HEAD;
    texts(request, size, rx, fill);
    claim->serial = serial++;
    snprintf(number, sizeof number, "%lld", claim->serial);
    int length = composed(request, size, 'P', claim->serial, answer);
    const char *value[] = {(const char *)claim->packet + 4, (const char *)request, (const char *)answer, (const char *)request,
                           (const char *)request + 10, (const char *)request + 21, rx, fill, number};
    const int sizes[] = {10, size, length, 6, 10, 17, 0, 0, 0}, formats[] = {1, 1, 1, 1, 1, 1, 0, 0, 0};
    must(PQsendQueryPrepared(db, "enter", 9, value, sizes, formats, 1));
}

/* Looks up a claim that was not entered, behind the transaction: its own answer, or that of who has its fill. */
static void look_up(struct claim *claim)
{
    static unsigned char answer[MOST];
    const unsigned char *request = claim->packet + HEAD;
    char rx[32], fill[32];
    int size = claim->size - HEAD, length;
    texts(request, size, rx, fill);
    const char *id[] = {(const char *)claim->packet + 4};
    PGresult *it = PQexecPrepared(db, "kept", 1, id, (const int[]){10}, (const int[]){1}, 1);
    must(PQresultStatus(it) == PGRES_TUPLES_OK);
    if (PQntuples(it) == 1) {
        length = PQgetlength(it, 0, 0);
        memcpy(answer, PQgetvalue(it, 0, 0), length);
    } else {
        PQclear(it);
        const char *value[] = {(const char *)request, (const char *)request + 10, (const char *)request + 21, rx, fill};
        it = PQexecPrepared(db, "standing", 5, value, (const int[]){6, 10, 17, 0, 0}, (const int[]){1, 1, 1, 0, 0}, 0);
        must(PQresultStatus(it) == PGRES_TUPLES_OK && PQntuples(it) == 1);
        length = composed(request, size, 'D', atoll(PQgetvalue(it, 0, 0)), answer);
    }
    PQclear(it);
    say(claim->packet, answer, length);
}

/* Enters all claims that wait in one transaction, and has their answers said. */
static void serve(void)
{
    static unsigned char answer[MOST];
    static char is_entered[LINES / 10];
    if (claims_count == 0) return;
    must(PQenterPipelineMode(db));
    for (size_t i = 0; i < claims_count; i++) send_enter(&claims[i]);
    must(PQpipelineSync(db));
    for (size_t i = 0; i < claims_count; i++) {
        PGresult *it = next(PGRES_TUPLES_OK);
        is_entered[i] = PQntuples(it) == 1;
        PQclear(it);
        must(PQgetResult(db) == NULL);
    }
    PQclear(next(PGRES_PIPELINE_SYNC));
    must(PQexitPipelineMode(db));
    for (size_t i = 0; i < claims_count; i++) {
        const unsigned char *request = claims[i].packet + HEAD;
        if (is_entered[i]) say(claims[i].packet, answer, composed(request, claims[i].size - HEAD, 'P', claims[i].serial, answer));
        else look_up(&claims[i]);
    }
    claims_count = packets_size = 0;
}

int main(int count, char **words)
{
    static char heard[LINES];
    size_t have = 0;
    if (count != 2) return 2;
    db = PQconnectdb(words[1]);
    must(PQstatus(db) == CONNECTION_OK);
    execute("create table claims (id bytea primary key, request bytea not null, answer bytea not null, bin bytea, pcn bytea, provider bytea,"
            " rx bigint, fill bigint, serial bigint)");
    execute("create unique index standing on claims (bin, pcn, provider, rx, fill)");
    prepare("enter", "insert into claims values ($1, $2, $3, $4, $5, $6, $7, $8, $9) on conflict do nothing returning serial");
    prepare("kept", "select answer from claims where id = $1");
    prepare("standing", "select serial from claims where bin = $1 and pcn = $2 and provider = $3 and rx = $4 and fill = $5");
    printf("ready 0\n");
    fflush(stdout);
    for (;;) {
        ssize_t got = read(0, heard + have, LINES - have);
        if (got <= 0) break;
        have += got;
        char *at = heard, *end;
        while ((end = memchr(at, '\n', heard + have - at)) != NULL) {
            if (end - at > 9 && memcmp(at, "take sw1 ", 9) == 0) {
                unsigned char *to = packets + packets_size;
                int size = unprinted(at + 9, end - at - 9, to);
                claims[claims_count++] = (struct claim){to, size, 0};
                packets_size += size;
            }
            at = end + 1;
        }
        serve();
        have -= at - heard;
        memmove(heard, at, have);
        if (!tell()) return 1;
    }
    PQfinish(db);
    return 0;
}
