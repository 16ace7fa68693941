/* A store file made by hand, and two ways to read it: the least that opening has to do.
 *
 *   log make FILE COUNT   writes a store of 2 + 3 COUNT entries: a program, 64 accounts, and COUNT workflows that
 *                         start, move 1 from one account to the next, and end
 *   log walk FILE         reads the file and goes from record to record
 *   log fields FILE       the same, and goes through each field of each record (docs/FORMAT.md)
 *
 * The last two tell the number of entries and the seconds. Compiled with -DKEEP_TEXTS, `fields` keeps each text as an
 * allocation of its own.
 */
#define _POSIX_C_SOURCE 200809L
#include <stdint.h>
#include <stdio.h>
#include <stdlib.h>
#include <string.h>
#include <time.h>

enum { ACCOUNTS = 64 };

static void die(const char *what) {
    perror(what);
    exit(1);
}

/* ---- writing */

static FILE *out;
static uint8_t payload[1 << 16];
static size_t len;

static void u8(unsigned value) { payload[len++] = (uint8_t)value; }

static void u32(uint32_t value) {
    for (int shift = 24; shift >= 0; shift -= 8) u8(value >> shift & 255);
}

static void text(const char *value) {
    size_t bytes = strlen(value);
    u32((uint32_t)bytes);
    memcpy(payload + len, value, bytes);
    len += bytes;
}

static void number(int64_t value) {
    u8(2);
    u32((uint32_t)((uint64_t)value >> 32));
    u32((uint32_t)value);
}

static void put(const void *bytes, size_t count) {
    if (fwrite(bytes, 1, count, out) != count) die("write");
}

static uint32_t entries;

static void record(void) {
    uint8_t head[5] = {0xa5, (uint8_t)(len >> 24), (uint8_t)(len >> 16), (uint8_t)(len >> 8), (uint8_t)len};
    put(head, 5);
    put(payload, len);
    len = 0;
    entries++;
}

static char account[ACCOUNTS][8];
static uint32_t version[ACCOUNTS];
static int64_t balance[ACCOUNTS];

static void row(int at) {
    u8(0), text("acct"), text(account[at]);
    u8(1), u8(0), number(balance[at]);
    version[at] = entries + 1;
}

static void args(int from, int to) {
    u8(4), u32(3);
    u8(3), text(account[from]);
    u8(3), text(account[to]);
    number(1);
}

static void flow(const char *id, int status, int from, int to, uint32_t started) {
    u8(1), text(id);
    u8(1), u8(1), u8((unsigned)status), text("send"), args(from, to);
    if (status == 2) u8(1), u8(0), number(1);
    else u8(0);
    u8(0), u32(started), u32(0), u8(0);
}

static void look(int at) { u8(0), text("acct"), text(account[at]), u32(version[at]); }

static void workflow(uint32_t n) {
    char id[16];
    snprintf(id, sizeof id, "w%07u", n);
    int from = (int)(n % ACCOUNTS), to = (int)((n + 1) % ACCOUNTS);
    uint32_t started = entries + 1;
    u8(3), text(id), u32(entries), u32(0), u32(1);
    flow(id, 1, from, to, started);
    record();
    u8(6), text(id), u32(0), args(from, to), u32(entries);
    u32(2), look(from), look(to);
    balance[from]--, balance[to]++;
    u32(3);
    row(from < to ? from : to), row(from < to ? to : from);
    u8(2), text(id), u32(0), u8(1), u8(2), text("pay"), u8(0), u8(0), number(1);
    record();
    u8(10), text(id), u32(entries), u32(0), u32(1);
    flow(id, 2, from, to, started);
    record();
}

static void make(const char *file, uint32_t count) {
    if (!(out = fopen(file, "wb"))) die(file);
    put("R3STORE1", 8);
    u8(1), text("table acct; txn pay(a, b, n) { put acct[a] = get acct[a] - n; put acct[b] = get acct[b] + n;"
                " return n; } flow send(a, b, n) { return call pay(a, b, n); }");
    u32(0), u32(0), u32(0);
    record();
    u8(2), u32(1), u32(0), u32(ACCOUNTS);
    for (int at = 0; at < ACCOUNTS; at++) {
        snprintf(account[at], sizeof account[at], "a%02d", at);
        balance[at] = 100;
        row(at);
    }
    record();
    for (uint32_t n = 0; n < count; n++) workflow(n);
    put("", 1);
    if (fclose(out)) die(file);
}

/* ---- reading */

static const uint8_t *at, *end;
static uint64_t sum;

static uint32_t get32(void) {
    uint32_t value = (uint32_t)at[0] << 24 | (uint32_t)at[1] << 16 | (uint32_t)at[2] << 8 | at[3];
    at += 4;
    return value;
}

static uint8_t **texts;
static size_t kept, most;

static void keep(uint32_t bytes) {
    if (kept == most) texts = realloc(texts, (most = 2 * most + 16) * sizeof *texts);
    if (!texts || !(texts[kept] = malloc(bytes + 1))) die("texts");
    memcpy(texts[kept++], at, bytes);
}

static void skip_text(void) {
    uint32_t bytes = get32();
#ifdef KEEP_TEXTS
    keep(bytes);
#else
    (void)keep;
#endif
    sum += bytes;
    at += bytes;
}

static void skip_value(void) {
    switch (*at++) {
    case 1: at++; break;
    case 2: at += 8; break;
    case 3: skip_text(); break;
    case 4: for (uint32_t n = get32(); n; n--) skip_value(); break;
    }
}

static void skip_outcome(void) {
    if (*at++) skip_text();
    else skip_value();
}

static void skip_cell(void) {
    switch (*at++) {
    case 0: skip_value(); break;
    case 1:
        at++, skip_text(), skip_value();
        if (*at++) skip_outcome();
        if (*at++) skip_text();
        sum += get32(), sum += get32();
        if (*at++) skip_text();
        break;
    case 2: skip_text(), at++, skip_outcome(); break;
    }
}

static void skip_act(void) {
    uint8_t act = *at++;
    if (act == 2) return;
    skip_text();
    switch (act) {
    case 6: case 7: sum += get32(), skip_value(); break;
    case 8: case 9: sum += get32(), skip_text(); break;
    case 13: skip_text(), sum += get32(); break;
    }
}

static void skip_entry(void) {
    skip_act();
    sum += get32();
    for (uint32_t n = get32(); n; n--) {
        if (*at++ == 0) { skip_text(), skip_text(), sum += get32(); continue; }
        skip_text(), skip_text(), skip_text();
        for (uint32_t keys = get32(); keys; keys--) skip_text(), sum += get32();
    }
    for (uint32_t n = get32(); n; n--) {
        uint8_t kind = *at++;
        skip_text();
        if (kind == 0) skip_text();
        if (kind == 2) sum += get32();
        if (*at++) skip_cell();
    }
}

static double now(void) {
    struct timespec t;
    clock_gettime(CLOCK_MONOTONIC, &t);
    return (double)t.tv_sec + 1e-9 * (double)t.tv_nsec;
}

static void walk(const char *file, int fields) {
    double from = now();
    FILE *in = fopen(file, "rb");
    if (!in || fseek(in, 0, SEEK_END)) die(file);
    long size = ftell(in);
    uint8_t *bytes = malloc((size_t)size + 1);
    rewind(in);
    if (!bytes || fread(bytes, 1, (size_t)size, in) != (size_t)size) die(file);
    at = bytes + 8;
    end = bytes + size;
    while (at < end && *at == 0xa5) {
        at++;
        uint32_t length = get32();
        const uint8_t *next = at + length;
        if (fields) skip_entry();
        if (fields && at != next) { fprintf(stderr, "entry %u isn't walked\n", entries + 1); exit(1); }
        at = next;
        entries++;
    }
    while (kept) free(texts[--kept]);
    printf("%u entries, %ld bytes, %.4f seconds (%u)\n", entries, size, now() - from, (unsigned)(sum & 1));
}

int main(int argc, char **argv) {
    if (argc == 4 && !strcmp(argv[1], "make")) make(argv[2], (uint32_t)atol(argv[3]));
    else if (argc == 3 && !strcmp(argv[1], "walk")) walk(argv[2], 0);
    else if (argc == 3 && !strcmp(argv[1], "fields")) walk(argv[2], 1);
    else {
        fprintf(stderr, "log make FILE COUNT | log walk FILE | log fields FILE\n");
        return 2;
    }
    return 0;
}
