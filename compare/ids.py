#!/usr/bin/env python3
"""Decode the fourteen ids of the original from its base58 literals, one line of hex each.

An independent second decoder beside the Rust one: whole-number arithmetic instead of carrying bytes.
The source folder is MBELAGUY_RUST_SRC, else shared/docs/src beside the repository.
"""

import os
import re
import sys
from pathlib import Path

ALPHABET = "123456789ABCDEFGHJKLMNPQRSTUVWXYZabcdefghijkmnopqrstuvwxyz"

NAMES = [
    ("transaction_route.rs", [
        "ROUTE_SPL_TOKEN",
        "ROUTE_TOKEN_2022",
        "ROUTE_WSOL",
        "ROUTE_COMPUTE_BUDGET",
        "ROUTE_ASSOCIATED_TOKEN",
        "ROUTE_MEMO",
    ]),
    ("instr/program_ids.rs", [
        "PUMPFUN_PROGRAM_ID",
        "RAYDIUM_LAUNCHLAB_PROGRAM_ID",
        "PUMPSWAP_PROGRAM_ID",
        "RAYDIUM_CLMM_PROGRAM_ID",
        "RAYDIUM_CPMM_PROGRAM_ID",
        "RAYDIUM_AMM_V4_PROGRAM_ID",
        "ORCA_WHIRLPOOL_PROGRAM_ID",
        "METEORA_DLMM_PROGRAM_ID",
    ]),
]


def source_folder():
    given = os.environ.get("MBELAGUY_RUST_SRC")
    if given:
        return Path(given)
    return Path(__file__).resolve().parent.parent.parent / "shared" / "docs" / "src"


def decode(literal):
    """The 32 bytes of a base58 literal; a leading '1' stands for a leading zero byte."""
    number = 0
    for letter in literal:
        number = number * 58 + ALPHABET.index(letter)
    zeros = len(literal) - len(literal.lstrip("1"))
    body = number.to_bytes((number.bit_length() + 7) // 8, "big")
    key = bytes(zeros) + body
    if len(key) != 32:
        raise ValueError(f"{literal}: {len(key)} bytes")
    return key


def literal_of(text, name):
    pattern = rf'\bconst {name}: Pubkey =\s*(?:solana_sdk::)?pubkey!\("([1-9A-Za-z]+)"\)'
    found = re.findall(pattern, text)
    if len(found) != 1:
        raise ValueError(f"{name}: {len(found)} literals")
    return found[0]


def main():
    for file, names in NAMES:
        text = (source_folder() / file).read_text(encoding="utf-8")
        for name in names:
            print(decode(literal_of(text, name)).hex())


if __name__ == "__main__":
    sys.exit(main())
