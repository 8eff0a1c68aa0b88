/*
 * Mbelaguy for C, C++ and Swift: which token did a Solana account hold, and who moved what?
 *
 * One transaction goes in as a pack of bytes, five tables of bytes come out; the transfers of many packs
 * go into one report, a month's totals. Numbers are little-endian, offsets count from the start of the
 * row or thing described, a key is 32 bytes. docs/FORMAT.md says the same at more length.
 *
 * Link libmbelaguy.a, which `./library TARGET` makes. It allocates nothing and keeps nothing between
 * calls, so that several threads may call it at once.
 *
 * mbelaguy.wasm has the same functions for JavaScript. Pointers and lengths are plain numbers: a
 * pointer is a place in the exported `memory`, which is the caller's from `__heap_base` on, and where
 * a function answers with a struct, the place for it comes before the other arguments.
 */
#ifndef MBELAGUY_H
#define MBELAGUY_H

#include <stddef.h>
#include <stdint.h>

#ifdef __cplusplus
extern "C" {
#endif

/* --------------------------------------------------------------- the version */

#define MBELAGUY_VERSION "0.6.0"
#define MBELAGUY_VERSION_NUMBER 1536 /* 65536 * first + 256 * second + third */

/* MBELAGUY_VERSION_NUMBER of the library that is linked. */
uint32_t mbelaguy_version(void);

/* A call takes less stack than this, as measured. A second thread of a tablet's app has 524288 bytes. */
#define MBELAGUY_STACK 81920

/* ------------------------------------------------------------------ the call */

/* What a call returns. After a refusal all but the first two fields are 0. */
typedef struct mbelaguy_answer {
    uint32_t number;      /* 0, or one of MBELAGUY_REFUSED_.. */
    uint32_t place;       /* the section or table that a refusal is about, else 0 */
    uint32_t mints;       /* used rows of table 0 */
    uint32_t invocations; /* used rows of table 1 */
    uint32_t transfers;   /* used rows of table 2 */
    uint32_t legs;        /* used rows of table 3 */
    uint32_t natives;     /* used rows of table 4 */
    uint32_t passes;      /* passes over the plain transfers */
    uint32_t tests;       /* how often one invocation was tested for lying below another */
} mbelaguy_answer;

/*
 * Fills five tables from a pack. Each pointer is followed by the number of its bytes, which may be
 * any; where that number is 0 the pointer may be null. No table overlaps anything else. Whatever
 * the bytes are, there is an answer. Names and pack stay as they are. After a success all bytes behind
 * the last used row of a table are 0; after a refusal all bytes of all tables are.
 */
mbelaguy_answer mbelaguy_route(
    const uint8_t *names, size_t names_length,
    const uint8_t *pack, size_t pack_length,
    uint8_t *mints, size_t mints_length,
    uint8_t *invocations, size_t invocations_length,
    uint8_t *transfers, size_t transfers_length,
    uint8_t *legs, size_t legs_length,
    uint8_t *natives, size_t natives_length);

/* Rows of each table, or a refusal and no rows. */
typedef struct mbelaguy_rows {
    uint32_t number;      /* 0, or MBELAGUY_REFUSED_MARK to .._INVOCATIONS, as they stand below */
    uint32_t place;       /* the section that a refusal is about, else 0 */
    uint32_t mints;       /* rows of table 0 */
    uint32_t invocations; /* rows of table 1 */
    uint32_t transfers;   /* rows of table 2 */
    uint32_t legs;        /* rows of table 3 */
    uint32_t natives;     /* rows of table 4 */
} mbelaguy_rows;

/*
 * How many rows suffice for a pack, whatever the names are: with tables of so many rows
 * mbelaguy_route never answers MBELAGUY_REFUSED_ROOM. The pack is walked once. A pack that is
 * refused with good names gives that refusal.
 */
mbelaguy_rows mbelaguy_room(const uint8_t *pack, size_t pack_length);

/* ----------------------------------------------------------------- the month */

/* What a feed returns. After a refusal rows and fed are what went in. */
typedef struct mbelaguy_month_answer {
    uint32_t number; /* 0, or the number of a feed's refusal */
    uint32_t place;  /* 0, refused or not */
    uint64_t rows;   /* used rows of the report */
    uint32_t fed;    /* transfers fed into it, from the first on */
} mbelaguy_month_answer;

/*
 * Feeds transfers into a report: what was debited, credited and withheld as fees, for each mint and for
 * each account of a mint. The report is the caller's, with its used rows and the number of transfers
 * fed so far; it starts with both 0, whatever its bytes are, and each feed takes what the one before
 * gave. The transfers are used rows of table 2, of one pack or of several behind one another; they stay
 * as they are. Rows behind the used ones must not be fed: they would count as transfers. Each pointer is
 * followed by the number of its bytes, which may be any; where that number is 0 the pointer may be null.
 * The report does not overlap the transfers. Whatever the bytes are, there is an answer.
 *
 * The transfers are fed whole or not at all. After a success all bytes behind the last used row are 0.
 * After a refusal every byte of the report is as it was: here alone nothing is cleared.
 *
 * Feed many packs' rows in one call where you can, because each call reads the whole report once. With
 * room for three more rows a transfer no feed is refused with MBELAGUY_REFUSED_REPORT_ROWS; with less
 * the call has to count the new rows beforehand, which takes time. The same transfers leave the same
 * report in whatever order they come, and however they are cut into feeds.
 */
mbelaguy_month_answer mbelaguy_month(
    uint8_t *report, size_t report_length, size_t rows, uint32_t fed,
    const uint8_t *transfers, size_t transfers_length);

/* ------------------------------------------------------------------ refusals */

#define MBELAGUY_ACCEPTED 0

/* Of a pack. Of those that apply, the one that stands first here is given: 1, 2, 3, 4, 5, 11, 6, 7, 8. */
#define MBELAGUY_REFUSED_NAMES 1       /* the names are not 88 bytes */
#define MBELAGUY_REFUSED_MARK 2        /* the pack is too short or too long, or its mark is another */
#define MBELAGUY_REFUSED_STARTS 3      /* the starts of the sections break their rule */
#define MBELAGUY_REFUSED_SECTION 4     /* place: the lowest section with a partial row or item, a flag
                                          that is neither 0 nor 1, or a height beside flag 0 */
#define MBELAGUY_REFUSED_KEYS 5        /* over MBELAGUY_MAX_KEYS */
#define MBELAGUY_REFUSED_BALANCES 11   /* place: MBELAGUY_SECTION_BALANCES, where a row's account index is
                                          not below the number of keys, whatever its mint is */
#define MBELAGUY_REFUSED_INVOCATIONS 6 /* over MBELAGUY_MAX_INVOCATIONS are kept */
#define MBELAGUY_REFUSED_PASSES 7      /* over MBELAGUY_MAX_PASSES; no pack comes near it */
#define MBELAGUY_REFUSED_ROOM 8        /* place: the lowest table with fewer whole rows than needed */

/* Of a feed. Of those that apply, the one that stands first here is given: 19, 20, 9, 10. */
#define MBELAGUY_REFUSED_TRANSFER_TABLE 19 /* a partial row, or a flag that is neither 0 nor 1 */
#define MBELAGUY_REFUSED_REPORT 20         /* fewer whole rows than are said to be used, a flag that is
                                              neither 0 nor 1, rows that do not ascend, a sum of 2 to the
                                              96th or more, or a count above the transfers fed; never met
                                              by a report that this call made from an empty one */
#define MBELAGUY_REFUSED_REPORT_ROWS 9     /* the report has fewer whole rows than needed */
#define MBELAGUY_REFUSED_LIMIT 10          /* over MBELAGUY_MAX_FED in all */

#define MBELAGUY_MAX_KEYS 256
#define MBELAGUY_MAX_INVOCATIONS 1024
#define MBELAGUY_MAX_PASSES 512
#define MBELAGUY_MAX_FED 4294967295

/* --------------------------------------------------------------------- names */

/* Five constants that are lent with each call. */
#define MBELAGUY_NAMES_BYTES 88
#define MBELAGUY_NAMES_SWAP_BASE_IN 0  /* 8 bytes: discriminator of CPMM swap_base_input */
#define MBELAGUY_NAMES_SWAP_BASE_OUT 8 /* 8 bytes: discriminator of CPMM swap_base_output */
#define MBELAGUY_NAMES_BUY 16          /* 8 bytes: discriminator of PumpSwap buy */
#define MBELAGUY_NAMES_STANDARD 24     /* key: StonkFun platform config, standard */
#define MBELAGUY_NAMES_REWARD 56       /* key: StonkFun platform config, reward */

/* Their values in the original, to initialise an array of MBELAGUY_NAMES_BYTES bytes. */
#define MBELAGUY_NAMES_ORIGINAL { \
    0x8f, 0xbe, 0x5a, 0xda, 0xc4, 0x1e, 0x33, 0xde, \
    0x37, 0xd9, 0x62, 0x56, 0xa3, 0x4a, 0xb4, 0xad, \
    0x66, 0x06, 0x3d, 0x12, 0x01, 0xda, 0xeb, 0xea, \
    0x2f, 0xef, 0xa5, 0x28, 0xc9, 0x6f, 0x3f, 0x91, 0x23, 0xbf, 0x5d, 0x34, 0x21, 0x1a, 0xd7, 0x0f, \
    0xb2, 0x1b, 0x63, 0xb2, 0x40, 0x33, 0x12, 0x61, 0x60, 0x53, 0xd9, 0xaf, 0x7d, 0x48, 0x4d, 0xdc, \
    0x4d, 0x17, 0x9e, 0x3a, 0xee, 0xe2, 0x1d, 0xf1, 0x3f, 0xa1, 0x0e, 0x41, 0x07, 0x2c, 0xd8, 0x9b, \
    0x5d, 0xa3, 0xd3, 0xe5, 0x8a, 0x55, 0xdd, 0x2e, 0xd2, 0xb9, 0xd1, 0xf8, 0x06, 0xd6, 0xfa, 0xb1 }

/* ---------------------------------------------------------------------- pack */

/*
 * Five sections from offset 0 on, one after the other, then the trailer at the very end. A section
 * ends where the next one starts, the last one at the trailer.
 */
#define MBELAGUY_PACK_MAX 61440      /* the most bytes of a pack */
#define MBELAGUY_TRAILER_BYTES 24    /* and the fewest */
#define MBELAGUY_TRAILER_STARTS 0    /* in the trailer: five u32, where each section starts */
#define MBELAGUY_TRAILER_MARK 20     /* in the trailer: the four letters RTP1 */

/* Sections; the places of MBELAGUY_REFUSED_SECTION, and that of MBELAGUY_REFUSED_BALANCES. */
#define MBELAGUY_SECTION_KEYS 0      /* rows: static, loaded writable, loaded readonly keys */
#define MBELAGUY_SECTION_BALANCES 1  /* rows: token balances before, then after */
#define MBELAGUY_SECTION_OUTER 2     /* instructions, back to back */
#define MBELAGUY_SECTION_INNER 3     /* groups, back to back */
#define MBELAGUY_SECTION_POOLS 4     /* keys of graduated pools */

#define MBELAGUY_KEY_ROW 33
#define MBELAGUY_KEY_FLAG 0          /* 1: the source had 32 bytes; 0: it had not */
#define MBELAGUY_KEY_KEY 1           /* key */

#define MBELAGUY_BALANCE_ROW 36
#define MBELAGUY_BALANCE_ACCOUNT 0   /* u32: index into the keys, below their number */
#define MBELAGUY_BALANCE_MINT 4      /* key */

#define MBELAGUY_POOL_ROW 32

/* An instruction: this header, the account indexes (a byte each), the data. */
#define MBELAGUY_INSTRUCTION_HEADER 8
#define MBELAGUY_INSTRUCTION_PROGRAM 0  /* u32: index into the keys */
#define MBELAGUY_INSTRUCTION_ACCOUNTS 4 /* u16: how many account indexes */
#define MBELAGUY_INSTRUCTION_DATA 6     /* u16: how many bytes of data */

/* A group: this header, then so many times a height and an instruction. */
#define MBELAGUY_GROUP_HEADER 6
#define MBELAGUY_GROUP_OUTER 0       /* u32: index of the outer instruction */
#define MBELAGUY_GROUP_COUNT 4       /* u16: how many inner instructions */

#define MBELAGUY_HEIGHT_BYTES 5
#define MBELAGUY_HEIGHT_FLAG 0       /* 1 or 0 */
#define MBELAGUY_HEIGHT_HEIGHT 1     /* u32; 0 where the flag is */

/* -------------------------------------------------------------------- tables */

/* Tables; the places of MBELAGUY_REFUSED_ROOM. Absent fields are 0. */
#define MBELAGUY_TABLE_MINTS 0
#define MBELAGUY_TABLE_INVOCATIONS 1
#define MBELAGUY_TABLE_TRANSFERS 2
#define MBELAGUY_TABLE_LEGS 3
#define MBELAGUY_TABLE_NATIVES 4

/* Table 0, ascending by account. No pack needs more than MBELAGUY_MAX_KEYS rows. */
#define MBELAGUY_MINT_ROW 65
#define MBELAGUY_MINT_ACCOUNT 0      /* key */
#define MBELAGUY_MINT_MINT 32        /* key */
#define MBELAGUY_MINT_MARK 64        /* MBELAGUY_MARK_.. */

#define MBELAGUY_MARK_RECORDED 0     /* a balance, a checked transfer or an initialisation names it */
#define MBELAGUY_MARK_FILLED_IN 1    /* a plain transfer carried it here */
#define MBELAGUY_MARK_IN_DOUBT 2     /* so too, but chains reach the account from two recorded mints */

/*
 * A chain runs along plain transfers, either way, from an account with one recorded mint through accounts
 * with nothing recorded. The same evidence in another order gives the same accounts and marks, and the
 * same mints but for those in doubt.
 *
 * A mint in tables 2 and 3 is as sure as its account's mark in table 0: the source's, the input's, the
 * output's. A leg's mint whose account has no row in table 0 is the one that the swap itself names.
 */

/* Table 1, in execution order. The tables from here on never need more than MBELAGUY_MAX_INVOCATIONS. */
#define MBELAGUY_INVOCATION_ROW 28
#define MBELAGUY_INVOCATION_OUTER 0       /* u32: index of the outer instruction */
#define MBELAGUY_INVOCATION_INNER_FLAG 4  /* 1 for an inner instruction */
#define MBELAGUY_INVOCATION_INNER 5       /* u32: index in its group */
#define MBELAGUY_INVOCATION_HEIGHT_FLAG 9 /* 1 where the height is known */
#define MBELAGUY_INVOCATION_HEIGHT 10     /* u32 */
#define MBELAGUY_INVOCATION_END 14        /* u32: the first later invocation not below it, or all */
#define MBELAGUY_INVOCATION_BITS 18       /* a sum of MBELAGUY_BIT_.. */
#define MBELAGUY_INVOCATION_LEG 19        /* u32: 0, or 1 plus its row in table 3 */
#define MBELAGUY_INVOCATION_PARENT 23     /* u32: 0, or 1 plus its parent's row in this table */
#define MBELAGUY_INVOCATION_REASON 27     /* 0, or why it gave no transfer: MBELAGUY_REASON_.. */

#define MBELAGUY_BIT_TRANSFERS_INSIDE 1   /* token transfers lie below it */
#define MBELAGUY_BIT_SWAPS_INSIDE 2       /* swap legs lie below it */
#define MBELAGUY_BIT_SKIPPED 4            /* a program that routes pass over */
#define MBELAGUY_BIT_RESOLVED 8           /* its program is a key of 32 bytes */
#define MBELAGUY_BIT_OWN_LEG 16           /* it has a row in table 3 */
#define MBELAGUY_BIT_OWN_TRANSFER 32      /* it has a row in table 2 */

/*
 * Why an invocation gave no transfer: the first of these tests that it failed, in this order. 0 stands
 * where MBELAGUY_BIT_OWN_TRANSFER does, and there alone. mbelaguy_reason has the words.
 */
#define MBELAGUY_REASON_TRANSFER 0         /* none: it gave a transfer */
#define MBELAGUY_REASON_NOT_TOKEN 1        /* its program is neither SPL Token nor Token-2022, or is not
                                              resolved */
#define MBELAGUY_REASON_UNSUPPORTED_TAG 2  /* its data is empty, or its first byte is none of 3, 12 and 26;
                                              26 counts under Token-2022 alone, and with 1 for its second
                                              byte */
#define MBELAGUY_REASON_TOO_FEW_ACCOUNTS 3 /* under 3 accounts where the first byte is 3, else under 4 */
#define MBELAGUY_REASON_DATA_TOO_SHORT 4   /* under 9 bytes where the first is 3, under 10 where it is 12,
                                              under 19 where it is 26 */
#define MBELAGUY_REASON_ZERO_KEY 5         /* the key of its source or its destination is missing or zero,
                                              or, where the first byte is not 3, that of its mint */

/*
 * An invocation lies below each earlier one whose end comes after it. The nearest of these is its parent;
 * an outer instruction has none. A parent's row always comes before its children's, so that one walk over
 * the rows draws the tree.
 */

/* Table 2, in execution order. */
#define MBELAGUY_TRANSFER_ROW 150
#define MBELAGUY_TRANSFER_INVOCATION 0    /* u32: row in table 1 */
#define MBELAGUY_TRANSFER_PROGRAM 4       /* key */
#define MBELAGUY_TRANSFER_SOURCE 36       /* key */
#define MBELAGUY_TRANSFER_DESTINATION 68  /* key */
#define MBELAGUY_TRANSFER_MINT_FLAG 100   /* 1 where the source's final mint is known */
#define MBELAGUY_TRANSFER_MINT 101        /* key */
#define MBELAGUY_TRANSFER_AMOUNT 133      /* u64 */
#define MBELAGUY_TRANSFER_FEE_FLAG 141    /* 1 where the fee is known */
#define MBELAGUY_TRANSFER_FEE 142         /* u64 */

/* Table 3, in execution order. */
#define MBELAGUY_LEG_ROW 250
#define MBELAGUY_LEG_INVOCATION 0         /* u32: row in table 1 */
#define MBELAGUY_LEG_PROTOCOL 4           /* MBELAGUY_PROTOCOL_.. */
#define MBELAGUY_LEG_PROGRAM 5            /* key */
#define MBELAGUY_LEG_POOL 37              /* key */
#define MBELAGUY_LEG_TRADER 69            /* key */
#define MBELAGUY_LEG_INPUT 101            /* key: token account */
#define MBELAGUY_LEG_OUTPUT 133           /* key: token account */
#define MBELAGUY_LEG_INPUT_MINT_FLAG 165  /* 1 where the input's mint is known */
#define MBELAGUY_LEG_INPUT_MINT 166       /* key */
#define MBELAGUY_LEG_OUTPUT_MINT_FLAG 198 /* 1 where the output's mint is known */
#define MBELAGUY_LEG_OUTPUT_MINT 199      /* key */
#define MBELAGUY_LEG_EXACT_IN 231         /* 1: the amount goes in; 0: it comes out */
#define MBELAGUY_LEG_AMOUNT 232           /* u64: as the instruction asks, not as moved */
#define MBELAGUY_LEG_THRESHOLD 240        /* u64: least output, or greatest input */
#define MBELAGUY_LEG_MODE 248             /* MBELAGUY_MODE_.. */
#define MBELAGUY_LEG_GRADUATED 249        /* 1: a CPMM pool that section 4 lists */

#define MBELAGUY_PROTOCOL_PUMP_SWAP 1
#define MBELAGUY_PROTOCOL_LAUNCH_LAB 2
#define MBELAGUY_PROTOCOL_CPMM 3
#define MBELAGUY_PROTOCOL_AMM_V4 4
#define MBELAGUY_PROTOCOL_CLMM 5
#define MBELAGUY_PROTOCOL_ORCA 6
#define MBELAGUY_PROTOCOL_DLMM 7
#define MBELAGUY_PROTOCOL_PUMP_FUN 8

#define MBELAGUY_MODE_NONE 0
#define MBELAGUY_MODE_STANDARD 1
#define MBELAGUY_MODE_REWARD 2

/* Table 4, in execution order: actions on wrapped SOL accounts. */
#define MBELAGUY_NATIVE_ROW 109
#define MBELAGUY_NATIVE_INVOCATION 0      /* u32: row in table 1 */
#define MBELAGUY_NATIVE_KIND 4            /* MBELAGUY_KIND_.. */
#define MBELAGUY_NATIVE_ACCOUNT 5         /* key: the wrapped SOL account */
#define MBELAGUY_NATIVE_OTHER 37          /* key: source of a fund, destination of a close */
#define MBELAGUY_NATIVE_AUTHORITY 69      /* key: of a close */
#define MBELAGUY_NATIVE_LAMPORTS 101      /* u64: of a fund */

#define MBELAGUY_KIND_FUND 1
#define MBELAGUY_KIND_SYNC 2
#define MBELAGUY_KIND_CLOSE 3

/* -------------------------------------------------------------------- report */

/*
 * Rows ascend by their first 66 bytes, of which the first that differs decides: a mint's own row, with
 * account flag 0, comes before those of its accounts. Absent fields are 0.
 *
 * Of a transfer the source's row takes the amount as debit; the destination's takes the fee, and the
 * rest as credit; the mint's takes all three. A transfer whose fee is absent or above its amount is
 * counted apart, on its mint's row alone, and not summed. So over all mints' rows, and over all
 * accounts' rows, debits are credits plus fees. Transfers without a mint share rows with mint flag 0.
 */
#define MBELAGUY_REPORT_ROW 118
#define MBELAGUY_REPORT_MINT_FLAG 0       /* 1 where the transfers have a mint */
#define MBELAGUY_REPORT_MINT 1            /* key */
#define MBELAGUY_REPORT_ACCOUNT_FLAG 33   /* 1 on an account's row, 0 on the mint's own */
#define MBELAGUY_REPORT_ACCOUNT 34        /* key */
#define MBELAGUY_REPORT_DEBITS 66         /* u128: low u64, then high u64 */
#define MBELAGUY_REPORT_CREDITS 82        /* u128 */
#define MBELAGUY_REPORT_FEES 98           /* u128 */
#define MBELAGUY_REPORT_APART 114         /* u32: transfers counted apart; 0 on an account's row */

/* ----------------------------------------------- refusals and reasons in words */

/* What an answer's number and place mean, for a person to read. */
static inline const char *mbelaguy_refusal(uint32_t number, uint32_t place)
{
    switch (number) {
    case MBELAGUY_ACCEPTED:
        return "nothing is refused";
    case MBELAGUY_REFUSED_NAMES:
        return "the names are not 88 bytes";
    case MBELAGUY_REFUSED_MARK:
        return "the pack is shorter than 24 or longer than 61,440 bytes, or does not end in RTP1";
    case MBELAGUY_REFUSED_STARTS:
        return "the sections do not start at 0, one after the other, before the trailer";
    case MBELAGUY_REFUSED_SECTION:
        switch (place) {
        case MBELAGUY_SECTION_KEYS:
            return "it ends inside a row, or a flag is neither 0 nor 1";
        case MBELAGUY_SECTION_BALANCES:
        case MBELAGUY_SECTION_POOLS:
            return "it ends inside a row";
        case MBELAGUY_SECTION_OUTER:
            return "it ends inside an instruction";
        case MBELAGUY_SECTION_INNER:
            return "it ends inside a group or an instruction, a flag is neither 0 nor 1, or a height "
                   "stands beside flag 0";
        default:
            break;
        }
        break;
    case MBELAGUY_REFUSED_KEYS:
        return "there are more than 256 keys";
    case MBELAGUY_REFUSED_BALANCES:
        return "a row's account index is not below the number of keys";
    case MBELAGUY_REFUSED_INVOCATIONS:
        return "there are more than 1,024 invocations";
    case MBELAGUY_REFUSED_PASSES:
        return "there would be more than 512 passes over the plain transfers";
    case MBELAGUY_REFUSED_ROOM:
        if (place <= MBELAGUY_TABLE_NATIVES)
            return "it has fewer whole rows than are needed";
        break;
    case MBELAGUY_REFUSED_TRANSFER_TABLE:
        return "the transfers end inside a row, or a flag is neither 0 nor 1";
    case MBELAGUY_REFUSED_REPORT:
        return "the report has fewer whole rows than are said to be used, a flag is neither 0 nor 1, "
               "its rows do not ascend, a sum is 2 to the 96th or more, or a count is above the "
               "transfers fed";
    case MBELAGUY_REFUSED_REPORT_ROWS:
        return "the report has fewer whole rows than are needed";
    case MBELAGUY_REFUSED_LIMIT:
        return "more than 4,294,967,295 transfers would be fed";
    default:
        break;
    }
    return "not known here; the library is of another release";
}

/* What a reason in table 1 means, for a person to read. */
static inline const char *mbelaguy_reason(uint8_t reason)
{
    switch (reason) {
    case MBELAGUY_REASON_TRANSFER:
        return "it gave a transfer";
    case MBELAGUY_REASON_NOT_TOKEN:
        return "its program is neither SPL Token nor Token-2022";
    case MBELAGUY_REASON_UNSUPPORTED_TAG:
        return "another kind of instruction";
    case MBELAGUY_REASON_TOO_FEW_ACCOUNTS:
        return "too few accounts for this kind of transfer";
    case MBELAGUY_REASON_DATA_TOO_SHORT:
        return "data too short for this kind of transfer";
    case MBELAGUY_REASON_ZERO_KEY:
        return "the key of source, destination or mint is missing or zero";
    default:
        return "not known here; the library is of another release";
    }
}

#ifdef __cplusplus
}
#endif

#endif
