/*
 * Builds a pack by hand, routes it and prints each table: a trader wraps 2 SOL, swaps 1.5 of it for a
 * coin, and closes the account. Then prints a month in which that happens twice.
 * rust/examples/route.rs does the same and prints the same.
 */
#include "mbelaguy.h"

#include <inttypes.h>
#include <stdio.h>
#include <stdlib.h>
#include <string.h>

/* ------------------------------------------------------------- writing a pack */

/* Indexes into the keys. */
enum {
    TRADER,
    WRAPPED,
    COINS,
    POOL,
    POOL_WRAPPED,
    POOL_COINS,
    COIN,
    SPL_TOKEN,
    WRAPPED_SOL,
    SYSTEM,
    AMM_V4,
    KEYS
};

static const uint8_t SPL_TOKEN_ID[32] = {
    0x06, 0xdd, 0xf6, 0xe1, 0xd7, 0x65, 0xa1, 0x93, 0xd9, 0xcb, 0xe1, 0x46, 0xce, 0xeb, 0x79, 0xac,
    0x1c, 0xb4, 0x85, 0xed, 0x5f, 0x5b, 0x37, 0x91, 0x3a, 0x8c, 0xf5, 0x85, 0x7e, 0xff, 0x00, 0xa9};

static const uint8_t WRAPPED_SOL_ID[32] = {
    0x06, 0x9b, 0x88, 0x57, 0xfe, 0xab, 0x81, 0x84, 0xfb, 0x68, 0x7f, 0x63, 0x46, 0x18, 0xc0, 0x35,
    0xda, 0xc4, 0x39, 0xdc, 0x1a, 0xeb, 0x3b, 0x55, 0x98, 0xa0, 0xf0, 0x00, 0x00, 0x00, 0x00, 0x01};

static const uint8_t AMM_V4_ID[32] = {
    0x4b, 0xd9, 0x49, 0xc4, 0x36, 0x02, 0xc3, 0x3f, 0x20, 0x77, 0x90, 0xed, 0x16, 0xa3, 0x52, 0x4c,
    0xa1, 0xb9, 0x97, 0x5c, 0xf1, 0x21, 0xa2, 0xa9, 0x0c, 0xff, 0xec, 0x7d, 0xf8, 0xb6, 0x8a, 0xcd};

/* The pack, and how much of it is written; what goes past its end is dropped, and told at the end. */
static uint8_t pack[MBELAGUY_PACK_MAX];
static size_t length;

static void put(const void *bytes, size_t count)
{
    if (length + count <= sizeof pack)
        memcpy(pack + length, bytes, count);
    length += count;
}

static void put_number(uint64_t value, size_t count)
{
    uint8_t bytes[8];
    for (size_t k = 0; k < count; k++)
        bytes[k] = (uint8_t)(value >> (8 * k));
    put(bytes, count);
}

/* A key row of a made-up key, all its bytes the same, or of a given one. */
static void put_key(const uint8_t *id, uint8_t fill)
{
    uint8_t made[32];
    memset(made, fill, sizeof made);
    put_number(1, 1);
    put(id ? id : made, 32);
}

static void put_balance(uint32_t account, size_t mint)
{
    put_number(account, 4);
    put(pack + mint * MBELAGUY_KEY_ROW + MBELAGUY_KEY_KEY, 32);
}

static void put_instruction(
    uint32_t program, const uint8_t *accounts, uint16_t account_count, const uint8_t *data, uint16_t data_length)
{
    put_number(program, 4);
    put_number(account_count, 2);
    put_number(data_length, 2);
    put(accounts, account_count);
    put(data, data_length);
}

static void put_u64(uint8_t *at, uint64_t value)
{
    for (int k = 0; k < 8; k++)
        at[k] = (uint8_t)(value >> (8 * k));
}

/* A plain token transfer at height 2. */
static void put_inner_transfer(uint8_t source, uint8_t destination, uint8_t owner, uint64_t amount)
{
    uint8_t accounts[] = {source, destination, owner};
    uint8_t data[9] = {3};
    put_u64(data + 1, amount);
    put_number(1, 1);
    put_number(2, 4);
    put_instruction(SPL_TOKEN, accounts, sizeof accounts, data, sizeof data);
}

static void write_pack(void)
{
    uint32_t starts[5];

    starts[MBELAGUY_SECTION_KEYS] = (uint32_t)length;
    for (uint8_t k = TRADER; k <= COIN; k++)
        put_key(NULL, (uint8_t)(k + 1));
    put_key(SPL_TOKEN_ID, 0);
    put_key(WRAPPED_SOL_ID, 0);
    put_key(NULL, 0); /* the System program */
    put_key(AMM_V4_ID, 0);

    starts[MBELAGUY_SECTION_BALANCES] = (uint32_t)length;
    put_balance(POOL_WRAPPED, WRAPPED_SOL);
    put_balance(POOL_COINS, COIN);

    starts[MBELAGUY_SECTION_OUTER] = (uint32_t)length;
    uint8_t fund[12] = {2};
    put_u64(fund + 4, 2000000000);
    uint8_t swap[17] = {16};
    put_u64(swap + 1, 1500000000);
    put_u64(swap + 9, 40000);
    const uint8_t sync[] = {17}, close[] = {9};
    const uint8_t funded[] = {TRADER, WRAPPED}, synced[] = {WRAPPED}, closed[] = {WRAPPED, TRADER, TRADER};
    const uint8_t swapped[] = {SPL_TOKEN, POOL, SYSTEM, POOL_WRAPPED, POOL_COINS, WRAPPED, COINS, TRADER};
    put_instruction(SYSTEM, funded, sizeof funded, fund, sizeof fund);
    put_instruction(SPL_TOKEN, synced, sizeof synced, sync, sizeof sync);
    put_instruction(AMM_V4, swapped, sizeof swapped, swap, sizeof swap);
    put_instruction(SPL_TOKEN, closed, sizeof closed, close, sizeof close);

    starts[MBELAGUY_SECTION_INNER] = (uint32_t)length;
    put_number(2, 4);
    put_number(2, 2);
    put_inner_transfer(WRAPPED, POOL_WRAPPED, TRADER, 1500000000);
    put_inner_transfer(POOL_COINS, COINS, POOL, 42000);

    starts[MBELAGUY_SECTION_POOLS] = (uint32_t)length;
    for (int k = 0; k < 5; k++)
        put_number(starts[k], 4);
    put("RTP1", 4);
}

/* ------------------------------------------------------------ reading the tables */

static uint64_t number(const uint8_t *at, int count)
{
    uint64_t value = 0;
    while (count-- > 0)
        value = value << 8 | at[count];
    return value;
}

/* The first and the last four letters of a key in base58. */
static const char *short_key(const uint8_t *key)
{
    static const char alphabet[] = "123456789ABCDEFGHJKLMNPQRSTUVWXYZabcdefghijkmnopqrstuvwxyz";
    static char texts[8][11]; /* so many may stand in one line */
    static int next;
    uint8_t digits[64];
    char letters[64];
    int count = 0, zeros = 0, length58 = 0;
    while (zeros < 32 && key[zeros] == 0)
        zeros++;
    for (int k = zeros; k < 32; k++) {
        unsigned carry = key[k];
        for (int d = 0; d < count; d++, carry /= 58) {
            carry += (unsigned)digits[d] << 8;
            digits[d] = (uint8_t)(carry % 58);
        }
        for (; carry > 0; carry /= 58)
            digits[count++] = (uint8_t)(carry % 58);
    }
    while (zeros-- > 0)
        letters[length58++] = alphabet[0];
    while (count > 0)
        letters[length58++] = alphabet[digits[--count]];
    char *text = texts[next++ % 8];
    memcpy(text, letters, 4);
    memcpy(text + 4, "..", 2);
    memcpy(text + 6, letters + length58 - 4, 4);
    text[10] = 0;
    return text;
}

/* A sum of 128 bits, in decimal. */
static const char *sum(const uint8_t *at)
{
    static char texts[3][40]; /* so many stand in one line */
    static int next;
    uint8_t left[16];
    char *text = texts[next++ % 3] + 39;
    memcpy(left, at, sizeof left);
    do {
        unsigned rest = 0;
        for (int k = 15; k >= 0; k--) {
            rest = rest << 8 | left[k];
            left[k] = (uint8_t)(rest / 10);
            rest %= 10;
        }
        *--text = (char)('0' + rest);
    } while (number(left, 8) != 0 || number(left + 8, 8) != 0);
    return text;
}

/* The tables that are filled. */
static uint8_t *mints, *invocations, *transfers, *legs, *natives;
static mbelaguy_answer answer;

static const char *const marks[] = {"recorded", "filled in", "in doubt"};

/* The mint of an account beside an amount, and its mark in table 0: '-' where there is none. */
static void print_marked(const uint8_t *account, const uint8_t *flag)
{
    const char *mark = "-";
    for (uint32_t k = 0; k < answer.mints; k++) {
        const uint8_t *row = mints + k * MBELAGUY_MINT_ROW;
        if (memcmp(row + MBELAGUY_MINT_ACCOUNT, account, 32) == 0)
            mark = marks[row[MBELAGUY_MINT_MARK]];
    }
    printf(" mint %s %s", flag[0] ? short_key(flag + 1) : "-", mark);
}

/* A number, or '-' where there is none. */
static void print_optional(const char *name, int given, uint64_t value)
{
    if (given)
        printf(" %s %" PRIu64, name, value);
    else
        printf(" %s -", name);
}

static void print_mint(const uint8_t *row)
{
    printf("mint: account %s mint %s %s\n", short_key(row + MBELAGUY_MINT_ACCOUNT),
           short_key(row + MBELAGUY_MINT_MINT), marks[row[MBELAGUY_MINT_MARK]]);
}

/* How many invocations one lies below, from parent to parent. */
static int depth(const uint8_t *row)
{
    int count = 0;
    for (uint64_t parent; (parent = number(row + MBELAGUY_INVOCATION_PARENT, 4)) != 0; count++)
        row = invocations + (parent - 1) * MBELAGUY_INVOCATION_ROW;
    return count;
}

static void print_invocation(const uint8_t *row)
{
    uint64_t leg = number(row + MBELAGUY_INVOCATION_LEG, 4), parent = number(row + MBELAGUY_INVOCATION_PARENT, 4);
    uint8_t reason = row[MBELAGUY_INVOCATION_REASON];
    printf("%*sinvocation: outer %" PRIu64, 2 * depth(row), "", number(row + MBELAGUY_INVOCATION_OUTER, 4));
    print_optional("inner", row[MBELAGUY_INVOCATION_INNER_FLAG], number(row + MBELAGUY_INVOCATION_INNER, 4));
    print_optional("height", row[MBELAGUY_INVOCATION_HEIGHT_FLAG], number(row + MBELAGUY_INVOCATION_HEIGHT, 4));
    printf(" end %" PRIu64 " bits %d", number(row + MBELAGUY_INVOCATION_END, 4), row[MBELAGUY_INVOCATION_BITS]);
    print_optional("leg", leg != 0, leg - 1);
    print_optional("parent", parent != 0, parent - 1);
    /* Of programs that are no token program nobody expects a transfer. */
    if (reason != MBELAGUY_REASON_TRANSFER && reason != MBELAGUY_REASON_NOT_TOKEN)
        printf(" no transfer: %s", mbelaguy_reason(reason));
    printf("\n");
}

static void print_transfer(const uint8_t *row)
{
    printf("transfer: invocation %" PRIu64 " from %s to %s", number(row + MBELAGUY_TRANSFER_INVOCATION, 4),
           short_key(row + MBELAGUY_TRANSFER_SOURCE), short_key(row + MBELAGUY_TRANSFER_DESTINATION));
    print_marked(row + MBELAGUY_TRANSFER_SOURCE, row + MBELAGUY_TRANSFER_MINT_FLAG);
    printf(" amount %" PRIu64, number(row + MBELAGUY_TRANSFER_AMOUNT, 8));
    print_optional("fee", row[MBELAGUY_TRANSFER_FEE_FLAG], number(row + MBELAGUY_TRANSFER_FEE, 8));
    printf("\n");
}

static void print_leg(const uint8_t *row)
{
    static const char *const protocols[] = {
        "", "PumpSwap", "LaunchLab", "CPMM", "AMM V4", "CLMM", "Orca", "DLMM", "PumpFun"};
    printf("leg: invocation %" PRIu64 " %s pool %s trader %s in %s", number(row + MBELAGUY_LEG_INVOCATION, 4),
           protocols[row[MBELAGUY_LEG_PROTOCOL]], short_key(row + MBELAGUY_LEG_POOL),
           short_key(row + MBELAGUY_LEG_TRADER), short_key(row + MBELAGUY_LEG_INPUT));
    print_marked(row + MBELAGUY_LEG_INPUT, row + MBELAGUY_LEG_INPUT_MINT_FLAG);
    printf(" out %s", short_key(row + MBELAGUY_LEG_OUTPUT));
    print_marked(row + MBELAGUY_LEG_OUTPUT, row + MBELAGUY_LEG_OUTPUT_MINT_FLAG);
    printf(" %s %" PRIu64 " threshold %" PRIu64 "\n", row[MBELAGUY_LEG_EXACT_IN] ? "exact in" : "exact out",
           number(row + MBELAGUY_LEG_AMOUNT, 8), number(row + MBELAGUY_LEG_THRESHOLD, 8));
}

static void print_native(const uint8_t *row)
{
    const char *other = short_key(row + MBELAGUY_NATIVE_OTHER);
    printf("native: invocation %" PRIu64 " account %s ", number(row + MBELAGUY_NATIVE_INVOCATION, 4),
           short_key(row + MBELAGUY_NATIVE_ACCOUNT));
    switch (row[MBELAGUY_NATIVE_KIND]) {
    case MBELAGUY_KIND_FUND:
        printf("fund from %s %" PRIu64 "\n", other, number(row + MBELAGUY_NATIVE_LAMPORTS, 8));
        break;
    case MBELAGUY_KIND_SYNC:
        printf("sync\n");
        break;
    case MBELAGUY_KIND_CLOSE:
        printf("close to %s by %s\n", other, short_key(row + MBELAGUY_NATIVE_AUTHORITY));
        break;
    }
}

static void print_month_line(const uint8_t *row)
{
    const uint8_t *mint = row + MBELAGUY_REPORT_MINT, *account = row + MBELAGUY_REPORT_ACCOUNT;
    printf("month: mint %s account %s debits %s credits %s fees %s apart %" PRIu64 "\n",
           row[MBELAGUY_REPORT_MINT_FLAG] ? short_key(mint) : "-",
           row[MBELAGUY_REPORT_ACCOUNT_FLAG] ? short_key(account) : "-", sum(row + MBELAGUY_REPORT_DEBITS),
           sum(row + MBELAGUY_REPORT_CREDITS), sum(row + MBELAGUY_REPORT_FEES),
           number(row + MBELAGUY_REPORT_APART, 4));
}

static void print_rows(const uint8_t *table, uint32_t count, size_t width, void (*print)(const uint8_t *))
{
    for (uint32_t k = 0; k < count; k++)
        print(table + k * width);
}

/* Memory for a table or a report, which the call clears. */
static uint8_t *lend(size_t bytes)
{
    uint8_t *table = malloc(bytes);
    if (table == NULL && bytes > 0) {
        fprintf(stderr, "no memory\n");
        exit(1);
    }
    return table;
}

int main(void)
{
    static const uint8_t names[MBELAGUY_NAMES_BYTES] = MBELAGUY_NAMES_ORIGINAL;

    write_pack();
    if (length > sizeof pack) {
        fprintf(stderr, "the pack would have %zu bytes\n", length);
        return 1;
    }
    printf("pack: %zu bytes\n", length);

    mbelaguy_rows rows = mbelaguy_room(pack, length);
    size_t mint_bytes = (size_t)rows.mints * MBELAGUY_MINT_ROW;
    size_t invocation_bytes = (size_t)rows.invocations * MBELAGUY_INVOCATION_ROW;
    size_t transfer_bytes = (size_t)rows.transfers * MBELAGUY_TRANSFER_ROW;
    size_t leg_bytes = (size_t)rows.legs * MBELAGUY_LEG_ROW;
    size_t native_bytes = (size_t)rows.natives * MBELAGUY_NATIVE_ROW;
    mints = lend(mint_bytes);
    invocations = lend(invocation_bytes);
    transfers = lend(transfer_bytes);
    legs = lend(leg_bytes);
    natives = lend(native_bytes);

    answer = mbelaguy_route(
        names, sizeof names, pack, length, mints, mint_bytes, invocations, invocation_bytes,
        transfers, transfer_bytes, legs, leg_bytes, natives, native_bytes);
    if (answer.number != MBELAGUY_ACCEPTED) {
        fprintf(stderr, "refusal %" PRIu32 ", place %" PRIu32 ": %s\n", answer.number, answer.place,
                mbelaguy_refusal(answer.number, answer.place));
        return 1;
    }
    printf("passes %" PRIu32 ", tests %" PRIu32 "\n", answer.passes, answer.tests);

    print_rows(mints, answer.mints, MBELAGUY_MINT_ROW, print_mint);
    print_rows(invocations, answer.invocations, MBELAGUY_INVOCATION_ROW, print_invocation);
    print_rows(transfers, answer.transfers, MBELAGUY_TRANSFER_ROW, print_transfer);
    print_rows(legs, answer.legs, MBELAGUY_LEG_ROW, print_leg);
    print_rows(natives, answer.natives, MBELAGUY_NATIVE_ROW, print_native);

    /* Two packs' transfers, here twice the same, one behind the other and fed at once. */
    size_t used = (size_t)answer.transfers * MBELAGUY_TRANSFER_ROW;
    uint8_t *both = lend(2 * used);
    memcpy(both, transfers, used);
    memcpy(both + used, transfers, used);
    size_t most_lines = (size_t)2 * answer.transfers * 3;
    size_t report_bytes = most_lines * MBELAGUY_REPORT_ROW;
    uint8_t *report = lend(report_bytes);
    mbelaguy_month_answer month = mbelaguy_month(report, report_bytes, 0, 0, both, 2 * used);
    if (month.number != MBELAGUY_ACCEPTED) {
        fprintf(stderr, "refusal %" PRIu32 ": %s\n", month.number, mbelaguy_refusal(month.number, month.place));
        return 1;
    }
    printf("transfers fed %" PRIu32 "\n", month.fed);
    print_rows(report, (uint32_t)month.rows, MBELAGUY_REPORT_ROW, print_month_line);

    free(report);
    free(both);
    free(mints);
    free(invocations);
    free(transfers);
    free(legs);
    free(natives);
    return 0;
}
