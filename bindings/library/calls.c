/*
 * Calls the library on the machine at hand, from a thread with the stack that a tablet gives a second one.
 *
 *     calls answers FILE   makes stored calls again (crates/replay/stdin) and prints what crates/replay prints of them;
 *                          then calls with a balance row that names no key, and feeds a month; last, on standard
 *                          error, how much stack a call took
 *     calls time FILE      prints how long a call takes with the names and the pack of FILE, in nanoseconds
 *
 * calls.mjs does the same with mbelaguy.wasm.
 */
#define _POSIX_C_SOURCE 200112L
#include "mbelaguy.h"

#include <pthread.h>
#include <stdio.h>
#include <stdlib.h>
#include <string.h>
#include <time.h>

enum {
    TABLES = 5,
    STACK = 512 * 1024,
    LONGEST = 393216, /* bytes of a stored call and its answer */
    AROUND = 64,      /* bytes before and behind a table, which no call may touch */
    FILL = 165,       /* what all bytes are before a call */
    FED = 3100,       /* transfers of a feed; the library takes 1,024 at a time, and counts 3,072 new rows */
    LINES = FED + 2,  /* rows of its report */
    TIGHT = LINES * MBELAGUY_REPORT_ROW + 5,
    WIDE = 3 * FED * MBELAGUY_REPORT_ROW
};

static const uint32_t WIDTHS[TABLES] = {
    MBELAGUY_MINT_ROW, MBELAGUY_INVOCATION_ROW, MBELAGUY_TRANSFER_ROW, MBELAGUY_LEG_ROW, MBELAGUY_NATIVE_ROW};

/* The most bytes that a table is lent: those of crates/replay. */
static const uint32_t MOST[TABLES] = {17408, 29696, 154624, 257024, 112640};

typedef struct call {
    const uint8_t *names, *pack;
    uint32_t names_length, pack_length;
    uint32_t lengths[TABLES];
} call;

static uint8_t *file;
static size_t file_length;
static uint8_t *lent[TABLES]; /* AROUND bytes, a table, AROUND bytes */
static uint8_t *stack; /* STACK bytes, filled before the thread starts */
static int failed;

static void fail(const char *what)
{
    fprintf(stderr, "calls: %s\n", what);
    failed = 1;
}

/* An empty buffer is null, as C++ and Swift have it. */
static const uint8_t *from(const uint8_t *bytes, uint32_t length)
{
    return length ? bytes : NULL;
}

static uint8_t *table(const call *c, int t)
{
    return c->lengths[t] ? lent[t] + AROUND : NULL;
}

static mbelaguy_answer make(const call *c)
{
    return mbelaguy_route(
        from(c->names, c->names_length), c->names_length, from(c->pack, c->pack_length), c->pack_length,
        table(c, 0), c->lengths[0], table(c, 1), c->lengths[1], table(c, 2), c->lengths[2],
        table(c, 3), c->lengths[3], table(c, 4), c->lengths[4]);
}

/* ------------------------------------------------------------------ answers */

static uint32_t number(const uint8_t *at)
{
    return at[0] | at[1] << 8 | at[2] << 16 | (uint32_t)at[3] << 24;
}

/* Whether all bytes are this one. */
static int all(const uint8_t *bytes, size_t length, uint8_t byte)
{
    while (length > 0 && bytes[length - 1] == byte)
        length--;
    return length == 0;
}

/* The rows that suffice by the library, held to what the call answered. Of a call with other names than 88 bytes nothing follows. */
static void check_room(const call *c, const uint32_t numbers[9])
{
    mbelaguy_rows rows = mbelaguy_room(from(c->pack, c->pack_length), c->pack_length);
    const uint32_t enough[TABLES] = {rows.mints, rows.invocations, rows.transfers, rows.legs, rows.natives};
    uint32_t number = numbers[0], place = numbers[1];
    int right = number == MBELAGUY_REFUSED_NAMES;
    if (number == MBELAGUY_ACCEPTED || number == MBELAGUY_REFUSED_ROOM)
        right = rows.number == MBELAGUY_ACCEPTED;
    else if (!right)
        right = rows.number == number && rows.place == place;
    for (int t = 0; t < TABLES; t++)
        if (number == MBELAGUY_ACCEPTED && enough[t] < numbers[2 + t])
            right = 0;
    if (number == MBELAGUY_REFUSED_ROOM && enough[place] <= c->lengths[place] / WIDTHS[place])
        right = 0;
    if (!right)
        fail("other rows suffice than mbelaguy_room says");
}

/* What a call differs in from what is stored of it, or null. */
static const char *difference(const uint8_t *record, size_t length)
{
    static const char *const UNFIT = "cut off, or too long for this program";
    static const char *const TABLE[TABLES] = {
        "another table 0", "another table 1", "another table 2", "another table 3", "another table 4"};
    call c;
    if (length < 28 || length > LONGEST)
        return UNFIT;
    c.names_length = number(record);
    c.pack_length = number(record + 4);
    for (int t = 0; t < TABLES; t++) {
        c.lengths[t] = number(record + 8 + 4 * t);
        if (c.lengths[t] > MOST[t])
            return UNFIT;
    }
    if (c.names_length > length || c.pack_length > length || 28 + c.names_length + c.pack_length > length)
        return UNFIT;
    c.names = record + 28;
    c.pack = c.names + c.names_length;
    const uint8_t *stored = c.pack + c.pack_length, *end = record + length;

    for (int t = 0; t < TABLES; t++)
        memset(lent[t], FILL, AROUND + c.lengths[t] + AROUND);
    mbelaguy_answer answer = make(&c);
    for (int t = 0; t < TABLES; t++)
        if (!all(lent[t], AROUND, FILL) || !all(lent[t] + AROUND + c.lengths[t], AROUND, FILL))
            fail("bytes around a table were written");

    uint32_t numbers[9] = {answer.number, answer.place, answer.mints, answer.invocations, answer.transfers,
                           answer.legs, answer.natives, answer.passes, answer.tests};
    check_room(&c, numbers);
    for (int k = 0; k < 9; k++, stored += 4)
        if (end - stored < 4 || number(stored) != numbers[k])
            return "other numbers";
    for (int t = 0; t < TABLES; t++) {
        size_t used = (size_t)numbers[2 + t] * WIDTHS[t];
        const uint8_t *rows = lent[t] + AROUND;
        if (used > c.lengths[t] || (size_t)(end - stored) < used || memcmp(rows, stored, used) != 0
            || !all(rows + used, c.lengths[t] - used, 0))
            return TABLE[t];
        stored += used;
    }
    return NULL;
}

/* ----------------------------------------------------------------- balances */

/* One key, and a balance row with a zero mint: its account index is the key's, then the number of keys. */
static void check_balances(void)
{
    enum { BALANCES = MBELAGUY_KEY_ROW, TRAILER = BALANCES + MBELAGUY_BALANCE_ROW };
    static const uint8_t names[MBELAGUY_NAMES_BYTES];
    static uint8_t pack[TRAILER + MBELAGUY_TRAILER_BYTES];
    const call c = {names, pack, sizeof names, sizeof pack, {0}};
    uint8_t *starts = pack + TRAILER + MBELAGUY_TRAILER_STARTS;
    starts[4 * MBELAGUY_SECTION_BALANCES] = BALANCES;
    for (int section = MBELAGUY_SECTION_OUTER; section <= MBELAGUY_SECTION_POOLS; section++)
        starts[4 * section] = TRAILER;
    memcpy(pack + TRAILER + MBELAGUY_TRAILER_MARK, "RTP1", 4);
    for (uint8_t index = 0; index < 2; index++) {
        uint32_t number = index ? MBELAGUY_REFUSED_BALANCES : MBELAGUY_ACCEPTED;
        uint32_t place = index ? MBELAGUY_SECTION_BALANCES : 0;
        pack[BALANCES + MBELAGUY_BALANCE_ACCOUNT] = index;
        mbelaguy_answer answer = make(&c);
        mbelaguy_rows rows = mbelaguy_room(pack, sizeof pack);
        if (answer.number != number || answer.place != place || rows.number != number || rows.place != place)
            fail("another answer to a balance row");
    }
}

/* -------------------------------------------------------------------- month */

static uint8_t transfers[FED * MBELAGUY_TRANSFER_ROW], other[MBELAGUY_TRANSFER_ROW];
static uint8_t lines[LINES * MBELAGUY_REPORT_ROW]; /* what their report has to be */
static uint8_t around[AROUND + WIDE + AROUND], before[sizeof around];
static uint8_t *const report = around + AROUND;
static size_t report_length;

static void put(uint8_t *at, uint64_t value)
{
    for (int k = 0; k < 8; k++)
        at[k] = (uint8_t)(value >> (8 * k));
}

/* FED times a little less than 2 to the 64th. */
static void put_sum(uint8_t *at, uint64_t less)
{
    put(at, 0 - FED * less);
    put(at + 8, FED - 1);
}

/*
 * Each transfer is of the greatest amount with a fee of 1, of one mint, from an account of its own, the last account first, to one
 * account behind them all.
 */
static void write_month(void)
{
    uint8_t *own = lines, *last = lines + (LINES - 1) * MBELAGUY_REPORT_ROW;
    for (int k = 0; k < LINES; k++) {
        uint8_t *row = lines + k * MBELAGUY_REPORT_ROW;
        row[MBELAGUY_REPORT_MINT_FLAG] = 1;
        memset(row + MBELAGUY_REPORT_MINT, 3, 32);
        row[MBELAGUY_REPORT_ACCOUNT_FLAG] = k > 0;
        row[MBELAGUY_REPORT_ACCOUNT] = (uint8_t)(k >> 8);
        row[MBELAGUY_REPORT_ACCOUNT + 1] = (uint8_t)k;
    }
    put_sum(own + MBELAGUY_REPORT_DEBITS, 1);
    put_sum(own + MBELAGUY_REPORT_CREDITS, 2);
    put(own + MBELAGUY_REPORT_FEES, FED);
    put_sum(last + MBELAGUY_REPORT_CREDITS, 2);
    put(last + MBELAGUY_REPORT_FEES, FED);
    for (int k = 1; k <= FED; k++) {
        uint8_t *row = lines + k * MBELAGUY_REPORT_ROW, *transfer = transfers + (FED - k) * MBELAGUY_TRANSFER_ROW;
        put(row + MBELAGUY_REPORT_DEBITS, UINT64_MAX);
        memcpy(transfer + MBELAGUY_TRANSFER_SOURCE, row + MBELAGUY_REPORT_ACCOUNT, 32);
        memcpy(transfer + MBELAGUY_TRANSFER_DESTINATION, last + MBELAGUY_REPORT_ACCOUNT, 32);
        memcpy(transfer + MBELAGUY_TRANSFER_MINT_FLAG, row + MBELAGUY_REPORT_MINT_FLAG, 33);
        put(transfer + MBELAGUY_TRANSFER_AMOUNT, UINT64_MAX);
        transfer[MBELAGUY_TRANSFER_FEE_FLAG] = 1;
        put(transfer + MBELAGUY_TRANSFER_FEE, 1);
    }
}

/* A feed into the report as it stands, and what it has to answer. */
static void feed(size_t rows, uint32_t fed, const uint8_t *from, size_t length, mbelaguy_month_answer wanted)
{
    memcpy(before, around, sizeof around);
    mbelaguy_month_answer answer = mbelaguy_month(report, report_length, rows, fed, from, length);
    if (answer.number != wanted.number || answer.place != wanted.place || answer.rows != wanted.rows || answer.fed != wanted.fed)
        fail("another answer to a feed");
    if (answer.number != 0 && memcmp(around, before, sizeof around) != 0)
        fail("a refused feed changed the report");
    if (answer.number == 0 && (memcmp(report, lines, sizeof lines) != 0 || !all(report + sizeof lines, report_length - sizeof lines, 0)))
        fail("another report");
    if (!all(around, AROUND, FILL) || !all(report + report_length, AROUND, FILL))
        fail("bytes around the report were written");
}

static void accepted(size_t rows, uint32_t fed, const uint8_t *from, size_t length)
{
    feed(rows, fed, from, length, (mbelaguy_month_answer){0, 0, LINES, FED});
}

static void refused(uint32_t number, size_t rows, uint32_t fed, const uint8_t *from, size_t length)
{
    feed(rows, fed, from, length, (mbelaguy_month_answer){number, 0, rows, fed});
}

/* Bytes that are spoilt for one feed. */
static void spoilt(uint32_t number, uint8_t *byte, uint8_t by)
{
    uint8_t good = *byte;
    *byte = by;
    refused(number, LINES, FED, transfers, sizeof transfers);
    *byte = good;
}

static void check_month(void)
{
    mbelaguy_month_answer none = mbelaguy_month(NULL, 0, 0, 0, NULL, 0);
    if (none.number != 0 || none.place != 0 || none.rows != 0 || none.fed != 0)
        fail("another answer to a feed where all is empty");
    write_month();
    if (mbelaguy_month(NULL, 0, 0, 0, transfers, sizeof transfers).number != MBELAGUY_REFUSED_REPORT_ROWS
        || mbelaguy_month(NULL, 0, 1, 0, NULL, 0).number != MBELAGUY_REFUSED_REPORT)
        fail("another answer to a feed where the report is empty");
    memset(around, FILL, sizeof around);
    report_length = WIDE;
    accepted(0, 0, transfers, sizeof transfers);
    memset(around, FILL, sizeof around);
    report_length = TIGHT;
    accepted(0, 0, transfers, sizeof transfers);
    memset(report + sizeof lines, FILL, TIGHT - sizeof lines);
    accepted(LINES, FED, NULL, 0);
    memset(report + sizeof lines, FILL, TIGHT - sizeof lines);

    refused(MBELAGUY_REFUSED_TRANSFER_TABLE, LINES, FED, transfers, sizeof transfers - 1);
    spoilt(MBELAGUY_REFUSED_TRANSFER_TABLE, transfers + MBELAGUY_TRANSFER_MINT_FLAG, 2);
    spoilt(MBELAGUY_REFUSED_TRANSFER_TABLE, transfers + MBELAGUY_TRANSFER_FEE_FLAG, 2);
    refused(MBELAGUY_REFUSED_REPORT, LINES + 1, FED, transfers, sizeof transfers);
    refused(MBELAGUY_REFUSED_REPORT, SIZE_MAX, FED, NULL, 0);
    spoilt(MBELAGUY_REFUSED_REPORT, report + (LINES - 1) * MBELAGUY_REPORT_ROW + MBELAGUY_REPORT_ACCOUNT_FLAG, 2);
    spoilt(MBELAGUY_REFUSED_REPORT, report + MBELAGUY_REPORT_ROW + MBELAGUY_REPORT_MINT, 2);
    spoilt(MBELAGUY_REFUSED_REPORT, report + MBELAGUY_REPORT_DEBITS + 12, 1);
    spoilt(MBELAGUY_REFUSED_REPORT, report + MBELAGUY_REPORT_APART + 3, 1);
    memcpy(other, transfers, sizeof other);
    other[MBELAGUY_TRANSFER_DESTINATION] = 255;
    refused(MBELAGUY_REFUSED_REPORT_ROWS, LINES, MBELAGUY_MAX_FED, other, sizeof other);
    refused(MBELAGUY_REFUSED_LIMIT, LINES, MBELAGUY_MAX_FED, transfers, MBELAGUY_TRANSFER_ROW);
}

/* -------------------------------------------------------------- all answers */

/* How far below this function's caller the stack was written, at any time. */
static size_t depth(void)
{
    uint8_t here;
    size_t low = 0;
    while (stack[low] == FILL)
        low++;
    return (size_t)(&here - stack) - low;
}

static void *answers(void *unused)
{
    static const call EMPTY;
    unsigned count = 0, different = 0;
    if (make(&EMPTY).number != MBELAGUY_REFUSED_NAMES)
        fail("another answer where all is empty");
    for (size_t at = 0; at + 4 <= file_length; count++) {
        size_t length = number(file + at), left = file_length - at - 4;
        const char *what = length <= left ? difference(file + at + 4, length) : "cut off, or too long for this program";
        if (what && different++ < 10)
            printf("record %u: %s\n", count, what);
        at += 4 + (length <= left ? length : left);
    }
    printf("%u answers, %u different\n", count, different);
    check_balances();
    check_month();
    fprintf(stderr, "a call took %zu bytes of stack\n", depth());
    if (depth() > MBELAGUY_STACK)
        fail("that is more than the header says");
    return unused;
}

/* --------------------------------------------------------------------- time */

static double now(void)
{
    struct timespec time;
    clock_gettime(CLOCK_MONOTONIC, &time);
    return time.tv_sec * 1e9 + time.tv_nsec;
}

/* The tables have as many rows as the pack needs. The fastest of many batches counts. */
static void *timed(void *unused)
{
    call c = {file, file + MBELAGUY_NAMES_BYTES, MBELAGUY_NAMES_BYTES, 0, {0}};
    c.pack_length = (uint32_t)(file_length - MBELAGUY_NAMES_BYTES);
    mbelaguy_answer answer = make(&c);
    while (answer.number == MBELAGUY_REFUSED_ROOM) {
        c.lengths[answer.place] += WIDTHS[answer.place];
        answer = make(&c);
    }
    double best = 1e9;
    for (int batch = 0; batch < 1000; batch++) {
        double start = now();
        for (int k = 0; k < 100; k++)
            make(&c);
        double each = (now() - start) / 100;
        if (each < best)
            best = each;
    }
    printf("%.0f\n", best);
    return unused;
}

/* --------------------------------------------------------------------- main */

static int read_file(const char *path)
{
    FILE *in = fopen(path, "rb");
    if (!in || fseek(in, 0, SEEK_END) != 0)
        return 0;
    file_length = (size_t)ftell(in);
    rewind(in);
    file = malloc(file_length + 1);
    int whole = file && fread(file, 1, file_length, in) == file_length;
    fclose(in);
    return whole;
}

int main(int count, char **words)
{
    int is_time = count == 3 && strcmp(words[1], "time") == 0;
    if (!is_time && !(count == 3 && strcmp(words[1], "answers") == 0)) {
        fprintf(stderr, "usage: calls answers FILE, or calls time FILE\n");
        return 2;
    }
    if (!read_file(words[2]) || (is_time && file_length < MBELAGUY_NAMES_BYTES)) {
        fprintf(stderr, "calls: cannot read %s\n", words[2]);
        return 2;
    }
    if (mbelaguy_version() != MBELAGUY_VERSION_NUMBER)
        fail("the library has another version than the header");
    for (int t = 0; t < TABLES; t++)
        lent[t] = malloc(AROUND + MOST[t] + AROUND);
    pthread_t thread;
    pthread_attr_t with_stack;
    if (posix_memalign((void **)&stack, 65536, STACK) != 0 || !memset(stack, FILL, STACK)
        || pthread_attr_init(&with_stack) != 0 || pthread_attr_setstack(&with_stack, stack, STACK) != 0
        || pthread_create(&thread, &with_stack, is_time ? timed : answers, NULL) != 0
        || pthread_join(thread, NULL) != 0) {
        fprintf(stderr, "calls: no thread with a stack of %d bytes\n", STACK);
        return 2;
    }
    return failed;
}
