/*
** What payers have in common that stand beside this product's in a measurement (payer_sqlite.c, payer_postgres.c): the lines `take sw1 TEXT` that
** they read and `send sw1 TEXT` and `ok` that they write, the fields of a billing of one transaction, and the answer to it. They know no
** reversals, no refusals and one price, and read just the fields that they need.
*/
#include <stdio.h>
#include <stdlib.h>
#include <string.h>
#include <unistd.h>

enum { HEAD = 18, HEADER = 56, MOST = 1 << 16, LINES = 1 << 20 };

static char said[4 * LINES];
static size_t said_size;

static int digit(char c)
{
    return c <= '9' ? c - '0' : (c | 32) - 'a' + 10;
}

/* Printed bytes, read; their count. */
static int unprinted(const char *text, int size, unsigned char *bytes)
{
    int n = 0;
    for (int i = 0; i < size && n < MOST; i++) {
        if (text[i] != '\\') { bytes[n++] = text[i]; continue; }
        switch (text[++i]) {
        case 'F': bytes[n++] = 0x1c; break;
        case 'G': bytes[n++] = 0x1d; break;
        case 'S': bytes[n++] = 0x1e; break;
        case 'x': bytes[n++] = digit(text[i + 1]) * 16 + digit(text[i + 2]); i += 2; break;
        default: bytes[n++] = text[i];
        }
    }
    return n;
}

/* Bytes, printed onto what is to be said. */
static void print(const unsigned char *bytes, int size)
{
    for (int i = 0; i < size; i++) {
        char *to = said + said_size;
        unsigned char b = bytes[i];
        if (b >= 0x1c && b <= 0x1e) said_size += sprintf(to, "\\%c", "FGS"[b - 0x1c]);
        else if (b == '\\') said_size += sprintf(to, "\\\\");
        else if (b < 0x20 || b > 0x7e) said_size += sprintf(to, "\\x%02x", b);
        else said[said_size++] = b;
    }
}

/* The value of a field, ended by a zero byte. */
static const char *field(const unsigned char *bytes, int size, const char *id, char *value)
{
    for (int i = HEADER; i + 3 <= size; i++) {
        if (bytes[i] == 0x1c && bytes[i + 1] == id[0] && bytes[i + 2] == id[1]) {
            int n = 0;
            for (i += 3; i < size && (bytes[i] < 0x1c || bytes[i] > 0x1e) && n < 31; i++) value[n++] = bytes[i];
            value[n] = 0;
            return value;
        }
    }
    value[0] = 0;
    return value;
}

/* Cents of an amount that is not negative. */
static long long cents(const char *text)
{
    size_t n = strlen(text);
    char head[32] = {0}, last = n ? text[n - 1] : '{';
    if (n) memcpy(head, text, n - 1);
    return atoll(head) * 10 + (last == '{' ? 0 : last >= 'A' && last <= 'I' ? last - 'A' + 1 : last - '0');
}

static int amount(char *to, const char *id, long long n)
{
    char last = "{ABCDEFGHI"[n % 10];
    return n >= 10 ? sprintf(to, "\x1c%s%lld%c", id, n / 10, last) : sprintf(to, "\x1c%s%c", id, last);
}

static long long least(long long a, long long b)
{
    return a < b ? a : b;
}

/* The answer to a billing, paid or a duplicate of what has this serial; its size. */
static int composed(const unsigned char *request, int size, char status, long long serial, unsigned char *answer)
{
    char rx[32], quantity[32], cost[32], fee[32], auth[32], *to = (char *)answer;
    long long paid_fee = least(cents(field(request, size, "DC", fee)), 150);
    long long paid = least(cents(field(request, size, "D9", cost)), atoll(field(request, size, "E7", quantity)) * 18567 / 100000);
    long long copay = least(1000, paid + paid_fee);
    sprintf(auth, "0001%012lld", serial);
    to += sprintf(to, "D0B11A");
    memcpy(to, request + 21, 25);
    to += 25;
    to += sprintf(to, "\x1d\x1e\x1c" "AM21\x1c" "AN%c\x1c" "F3%s\x1e\x1c" "AM22\x1c" "EM1\x1c" "D2%lld\x1e\x1c" "AM23", status, auth,
                  atoll(field(request, size, "D2", rx)));
    to += amount(to, "F5", copay);
    to += amount(to, "F6", paid);
    to += amount(to, "F7", paid_fee);
    to += amount(to, "F9", paid + paid_fee - copay);
    return to - (char *)answer;
}

/* Has the answer to a packet said. */
static void say(const unsigned char *packet, const unsigned char *answer, int length)
{
    unsigned char head[HEAD];
    memcpy(head, packet, HEAD);
    head[3] = 2;
    for (int i = 0; i < 4; i++) head[14 + i] = length >> (24 - 8 * i);
    said_size += sprintf(said + said_size, "send sw1 ");
    print(head, HEAD);
    print(answer, length);
    said_size += sprintf(said + said_size, "\nok\n");
}

/* Writes what is to be said; 0 where nobody reads it any more. */
static int tell(void)
{
    for (size_t wrote = 0; wrote < said_size;) {
        ssize_t n = write(1, said + wrote, said_size - wrote);
        if (n <= 0) return 0;
        wrote += n;
    }
    said_size = 0;
    return 1;
}
