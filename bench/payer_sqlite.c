/* payer_sqlite DATABASE: what one would write in the place of this product's payer: rulings on billings of one transaction over a table
 * in SQLite, with a unique index on the fill. It takes the lines `take sw1 TEXT` of claimnode and writes `send sw1 TEXT` and `ok`, and is
 * as durable: the journal is a write-ahead log, each commit is synced, and nothing is said before. Lines that wait together are one
 * transaction. It knows no reversals, no refusals and one price, and reads just the fields that it needs: it is for bench/against and bench/path. */
#include <sqlite3.h>

#include "payer_plain.h"

static sqlite3 *db;
static sqlite3_stmt *begin, *commit, *kept, *standing, *enter;
static long long serial = 1;

static void must(int status)
{
    if (status != SQLITE_OK && status != SQLITE_DONE && status != SQLITE_ROW) {
        fprintf(stderr, "payer_sqlite: %s\n", sqlite3_errmsg(db));
        exit(1);
    }
}

static sqlite3_stmt *prepared(const char *sql)
{
    sqlite3_stmt *it;
    must(sqlite3_prepare_v2(db, sql, -1, &it, NULL));
    return it;
}

static void done(sqlite3_stmt *it)
{
    must(sqlite3_step(it));
    must(sqlite3_reset(it));
}

/* The answer to a billing, entered; its size. */
static int ruled(const unsigned char *id, const unsigned char *request, int size, unsigned char *answer)
{
    char rx[32], fill[32];
    field(request, size, "D2", rx);
    field(request, size, "D3", fill);
    sqlite3_bind_blob(standing, 1, request, 6, SQLITE_STATIC);
    sqlite3_bind_blob(standing, 2, request + 10, 10, SQLITE_STATIC);
    sqlite3_bind_blob(standing, 3, request + 21, 17, SQLITE_STATIC);
    sqlite3_bind_int64(standing, 4, atoll(rx));
    sqlite3_bind_int64(standing, 5, atoll(fill));
    int found = sqlite3_step(standing);
    must(found);
    char status = found == SQLITE_ROW ? 'D' : 'P';
    int length = composed(request, size, status, found == SQLITE_ROW ? sqlite3_column_int64(standing, 0) : serial, answer);
    must(sqlite3_reset(standing));
    sqlite3_bind_blob(enter, 1, id, 10, SQLITE_STATIC);
    sqlite3_bind_blob(enter, 2, request, size, SQLITE_STATIC);
    sqlite3_bind_blob(enter, 3, answer, length, SQLITE_STATIC);
    if (status == 'P') {
        sqlite3_bind_blob(enter, 4, request, 6, SQLITE_STATIC);
        sqlite3_bind_blob(enter, 5, request + 10, 10, SQLITE_STATIC);
        sqlite3_bind_blob(enter, 6, request + 21, 17, SQLITE_STATIC);
        sqlite3_bind_int64(enter, 7, atoll(rx));
        sqlite3_bind_int64(enter, 8, atoll(fill));
        sqlite3_bind_int64(enter, 9, serial++);
    } else {
        for (int i = 4; i <= 9; i++) sqlite3_bind_null(enter, i);
    }
    done(enter);
    return length;
}

/* One line `take sw1 TEXT`. */
static void serve(const char *line, int size)
{
    static unsigned char packet[MOST], answer[MOST];
    if (size < 9 || memcmp(line, "take sw1 ", 9) != 0) return;
    int n = unprinted(line + 9, size - 9, packet), length;
    sqlite3_bind_blob(kept, 1, packet + 4, 10, SQLITE_STATIC);
    int found = sqlite3_step(kept);
    must(found);
    if (found == SQLITE_ROW) {
        length = sqlite3_column_bytes(kept, 0);
        memcpy(answer, sqlite3_column_blob(kept, 0), length);
    }
    must(sqlite3_reset(kept));
    if (found != SQLITE_ROW) length = ruled(packet + 4, packet + HEAD, n - HEAD, answer);
    say(packet, answer, length);
}

int main(int count, char **words)
{
    static char heard[LINES];
    size_t have = 0;
    if (count != 2) return 2;
    must(sqlite3_open(words[1], &db));
    must(sqlite3_exec(db, "pragma journal_mode = wal; pragma synchronous = full;"
        "create table if not exists claims (id blob primary key, request blob not null, answer blob not null,"
        " bin blob, pcn blob, provider blob, rx integer, fill integer, serial integer) without rowid;"
        "create unique index if not exists standing on claims (bin, pcn, provider, rx, fill) where serial is not null", NULL, NULL, NULL));
    begin = prepared("begin immediate");
    commit = prepared("commit");
    kept = prepared("select answer from claims where id = ?");
    standing = prepared("select serial from claims where bin = ? and pcn = ? and provider = ? and rx = ? and fill = ? and serial is not null");
    enter = prepared("insert into claims values (?, ?, ?, ?, ?, ?, ?, ?, ?)");
    printf("ready 0\n");
    fflush(stdout);
    for (;;) {
        ssize_t got = read(0, heard + have, LINES - have);
        if (got <= 0) break;
        have += got;
        char *at = heard, *end;
        done(begin);
        while ((end = memchr(at, '\n', heard + have - at)) != NULL) {
            serve(at, end - at);
            at = end + 1;
        }
        done(commit);
        have -= at - heard;
        memmove(heard, at, have);
        if (!tell()) return 1;
    }
    sqlite3_stmt *all[] = {begin, commit, kept, standing, enter};
    for (size_t i = 0; i < sizeof all / sizeof *all; i++) sqlite3_finalize(all[i]);
    return sqlite3_close(db) == SQLITE_OK ? 0 : 1;
}
