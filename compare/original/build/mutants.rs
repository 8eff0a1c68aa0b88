//! The deliberate breaks of the mutated copy. Each stands behind a switch of its own, so that one
//! compiled copy serves for all of them.

/// In `place`, which the text holds once, the expression `right` becomes `wrong` when switched on.
/// The breaks go in one after the other: a place may name what an earlier break has put there.
pub struct Mutant {
    pub name: &'static str,
    pub place: &'static str,
    pub right: &'static str,
    pub wrong: &'static str,
}

const fn mutant(
    name: &'static str,
    place: &'static str,
    right: &'static str,
    wrong: &'static str,
) -> Mutant {
    Mutant { name, place, right, wrong }
}

pub const MUTANTS: &[Mutant] = &[
    // Mints.
    mutant("the later mint wins", "entry.insert(Pubkey::default());", "Pubkey::default()", "mint"),
    mutant(
        "an ambiguity is forgotten at the third record",
        "{ mint } else { Pubkey::default() }",
        "Pubkey::default()",
        "if *entry.get() == Pubkey::default() { mint } else { Pubkey::default() }",
    ),
    mutant("a zero mint is recorded", "&& mint != Pubkey::default() {", "mint != Pubkey::default()", "true"),
    mutant(
        "post balances are not evidence",
        ".chain(&meta.post_token_balances)",
        "&meta.post_token_balances",
        "&meta.post_token_balances[..0]",
    ),
    mutant(
        "a with-fee transfer records nothing",
        "if checked_transfer_with_fee(ix) {\n            let mint",
        "checked_transfer_with_fee(ix)",
        "false",
    ),
    mutant(
        "a checked transfer records its source alone",
        "if checked_transfer(ix) {\n            let mint = account(ix, &keys, 1);\n            record(&mut mints, account(ix, &keys, 0), mint);\n            \
         record(&mut mints, account(ix, &keys, 2), mint);",
        "account(ix, &keys, 2)",
        "Pubkey::default()",
    ),
    mutant(
        "initialise needs three accounts",
        "&& ix.accounts.len() >= 2\n            && matches!",
        "ix.accounts.len() >= 2",
        "ix.accounts.len() >= 3",
    ),
    mutant(
        "initialise with more bytes",
        "matches!((ix.data.first(), ix.data.len()), (Some(1), 1) | (Some(16 | 18), 33))",
        "matches!((ix.data.first(), ix.data.len()), (Some(1), 1) | (Some(16 | 18), 33))",
        "matches!((ix.data.first(), ix.data.len()), (Some(1), 1..) | (Some(16 | 18), 33..))",
    ),
    mutant(
        "a plain transfer of two accounts hands a mint on",
        "&& ix.data.len() >= 9\n                && ix.accounts.len() >= 3",
        "ix.accounts.len() >= 3",
        "ix.accounts.len() >= 2",
    ),
    mutant(
        "a plain transfer of eight bytes hands a mint on",
        "&& ix.data.len() >= 9\n                && ",
        "ix.data.len() >= 9",
        "ix.data.len() >= 8",
    ),
    mutant("one pass only", "if mints.len() == before {", "mints.len() == before", "true"),
    mutant("chains run one way", "source_mint.or(destination_mint)", "source_mint.or(destination_mint)", "source_mint"),
    mutant(
        "an ambiguity spreads",
        "if source_mint == Some(Pubkey::default())",
        "source_mint == Some(Pubkey::default())",
        "false",
    ),
    mutant(
        "an ambiguous destination is filled in",
        "|| destination_mint == Some(Pubkey::default())",
        "destination_mint == Some(Pubkey::default())",
        "false",
    ),
    mutant(
        "chains run through the zero key",
        "if source == Pubkey::default() || destination == Pubkey::default() {",
        "source == Pubkey::default() || destination == Pubkey::default()",
        "false",
    ),
    mutant(
        "ambiguous accounts stay",
        "mints.retain(|_, mint| *mint != Pubkey::default());",
        "*mint != Pubkey::default()",
        "true",
    ),
    // Keys and flattening.
    mutant("a key of another length is resolved", "if bytes.len() != 32 {", "bytes.len() != 32", "false"),
    mutant(
        "a program's index is cut to a byte",
        "let index = index as usize;\n        let bytes",
        "index as usize",
        "usize::from(index as u8)",
    ),
    mutant(
        "a program's index is cut to 16 bits",
        "else { index as usize });\n        let bytes",
        "index as usize",
        "usize::from(index as u16)",
    ),
    mutant(
        "groups out of order are lost",
        "|&i| (meta.inner_instructions[i].index, i)",
        "(meta.inner_instructions[i].index, i)",
        "(0, i)",
    ),
    mutant(
        "groups of one outer in reverse",
        "else { (meta.inner_instructions[i].index, i) }",
        "(meta.inner_instructions[i].index, i)",
        "(meta.inner_instructions[i].index, usize::MAX - i)",
    ),
    // Transfers.
    mutant(
        "a plain transfer of two accounts",
        "3 if ix.accounts.len() >= 3",
        "ix.accounts.len() >= 3",
        "ix.accounts.len() >= 2",
    ),
    mutant(
        "a checked transfer of three accounts",
        "ix.data.len() >= 10\n        && ix.accounts.len() >= 4",
        "ix.accounts.len() >= 4",
        "ix.accounts.len() >= 3",
    ),
    mutant(
        "a with-fee transfer of three accounts",
        "ix.data.len() >= 19\n        && ix.accounts.len() >= 4",
        "ix.accounts.len() >= 4",
        "ix.accounts.len() >= 3",
    ),
    mutant("a checked transfer of nine bytes", "ix.data.len() >= 10", "10", "9"),
    mutant("a with-fee transfer of eighteen bytes", "ix.data.len() >= 19", "19", "18"),
    mutant(
        "a with-fee transfer under SPL Token",
        "ix.program == ROUTE_TOKEN_2022\n        && ix.data.get(..2)",
        "ix.program == ROUTE_TOKEN_2022",
        "token_program(ix.program)",
    ),
    mutant(
        "a checked transfer without its zero test",
        "(destination_index == 2 &&",
        "destination_index == 2",
        "false",
    ),
    mutant(
        "no fee where none is known",
        "(1, 1, if ix.program == ROUTE_SPL_TOKEN { Some(0) } else { None })",
        "None",
        "Some(0)",
    ),
    mutant(
        "no fee of a checked transfer where none is known",
        "(2, 1, if ix.program == ROUTE_SPL_TOKEN { Some(0) } else { None })",
        "None",
        "Some(0)",
    ),
    mutant("a transfer's mint is its destination's", "mint: mints.get(&source)", "&source", "&destination"),
    // Native actions.
    mutant("an unresolved zero program funds", "if !ix.program_resolved {", "!ix.program_resolved", "false"),
    mutant(
        "an unused account may be out of range",
        "if ix.accounts.iter().any(|&index| index as usize >= keys.len())",
        "ix.accounts.iter().any(|&index| index as usize >= keys.len())",
        "false",
    ),
    mutant(
        "an index equal to the key count is in range",
        "else { ix.accounts.iter().any(|&index| index as usize >= keys.len()) }",
        "index as usize >= keys.len()",
        "index as usize > keys.len()",
    ),
    mutant(
        "any known mint serves a native action",
        "mints.get(&target) != Some(&wsol)",
        "mints.get(&target) != Some(&wsol)",
        "mints.get(&target).is_none()",
    ),
    mutant(
        "a fund under any tag",
        "ix.data.get(..4) == Some(&2u32.to_le_bytes())",
        "ix.data.get(..4) == Some(&2u32.to_le_bytes())",
        "true",
    ),
    mutant("a fund with more bytes", "ix.data.len() == 12", "ix.data.len() == 12", "ix.data.len() >= 12"),
    mutant(
        "a close of two accounts",
        "ix.data == [9] && ix.accounts.len() >= 3",
        "ix.accounts.len() >= 3",
        "ix.accounts.len() >= 2",
    ),
    mutant("a sync with more bytes", "ix.data == [17]", "ix.data == [17]", "ix.data.first() == Some(&17)"),
    mutant("a close with more bytes", "ix.data == [9]", "ix.data == [9]", "ix.data.first() == Some(&9)"),
    // Subtrees.
    mutant(
        "an unresolved zero program is skipped as System",
        "let skip_route = ix.program_resolved",
        "ix.program_resolved",
        "true",
    ),
    mutant(
        "Compute Budget is not skipped",
        "|| ix.program == ROUTE_COMPUTE_BUDGET",
        "ix.program == ROUTE_COMPUTE_BUDGET",
        "false",
    ),
    mutant(
        "Associated Token is not skipped",
        "|| ix.program == ROUTE_ASSOCIATED_TOKEN",
        "ix.program == ROUTE_ASSOCIATED_TOKEN",
        "false",
    ),
    mutant("Memo is not skipped", "|| ix.program == ROUTE_MEMO)", "ix.program == ROUTE_MEMO", "false"),
    mutant("equal heights are descendants", "(Some(a), Some(b)) => b > a,", "b > a", "b >= a"),
    mutant("absent heights are descendants", "            _ => false,\n        },", "false", "true"),
    mutant("blocks cross groups", "(Some(a), Some(b)) if b > a => match", "b > a", "true"),
    mutant(
        "deeper transfers are not inside",
        "child.transfer.is_some() || child.has_token_transfers",
        "child.has_token_transfers",
        "false",
    ),
    mutant(
        "deeper swaps are not inside",
        "child.swap_index.is_some() || child.has_known_swap_descendants",
        "child.has_known_swap_descendants",
        "false",
    ),
    // Swap legs.
    mutant(
        "CLMM under any discriminator",
        "== RAYDIUM_CLMM_PROGRAM_ID\n        && (disc == swap_disc || disc == swap_v2)",
        "(disc == swap_disc || disc == swap_v2)",
        "true",
    ),
    mutant(
        "Orca under any discriminator",
        "ORCA_WHIRLPOOL_PROGRAM_ID && (disc == swap_disc || disc == swap_v2)",
        "(disc == swap_disc || disc == swap_v2)",
        "true",
    ),
    mutant(
        "Orca in one direction",
        "(a(if direction { 3 } else { 5 }), a(if direction { 5 } else { 3 }))",
        "(a(if direction { 3 } else { 5 }), a(if direction { 5 } else { 3 }))",
        "(a(3), a(5))",
    ),
    mutant(
        "Orca in the other direction",
        "else { (a(if direction { 3 } else { 5 }), a(if direction { 5 } else { 3 })) }",
        "(a(if direction { 3 } else { 5 }), a(if direction { 5 } else { 3 }))",
        "(a(5), a(3))",
    ),
    mutant(
        "Orca v2 in one direction",
        "(a(if direction { 7 } else { 9 }), a(if direction { 9 } else { 7 }))",
        "(a(if direction { 7 } else { 9 }), a(if direction { 9 } else { 7 }))",
        "(a(7), a(9))",
    ),
    mutant(
        "Orca v2 in the other direction",
        "else { (a(if direction { 7 } else { 9 }), a(if direction { 9 } else { 7 })) }",
        "(a(if direction { 7 } else { 9 }), a(if direction { 9 } else { 7 }))",
        "(a(9), a(7))",
    ),
    mutant(
        "CPMM under any discriminator",
        "else if disc == Some(&SWAP_BASE_OUT[..])",
        "disc == Some(&SWAP_BASE_OUT[..])",
        "true",
    ),
    mutant(
        "DLMM's price impact as exact out",
        "else if disc == Some(&SWAP_EXACT_OUT[..]) || disc == Some(&SWAP_EXACT_OUT2[..])",
        "disc == Some(&SWAP_EXACT_OUT[..]) || disc == Some(&SWAP_EXACT_OUT2[..])",
        "true",
    ),
    mutant(
        "LaunchLab under any discriminator",
        "else if disc == Some(&SELL_EXACT_OUT[..])",
        "disc == Some(&SELL_EXACT_OUT[..])",
        "true",
    ),
    mutant("PumpFun under any discriminator", "if !(v2 || v3)", "!(v2 || v3)", "false"),
    mutant(
        "PumpSwap under any discriminator",
        "else if disc == Some(&SELL[..]) || disc == Some(&SELL_V2[..])",
        "disc == Some(&SELL[..]) || disc == Some(&SELL_V2[..])",
        "true",
    ),
    mutant(
        "AMM V4 under any tag with eight accounts",
        "matches!(ix.data.first(), Some(16 | 17))",
        "matches!(ix.data.first(), Some(16 | 17))",
        "ix.data.first().is_some()",
    ),
    mutant(
        "AMM V4 under any tag with seventeen accounts",
        "matches!(ix.data.first(), Some(9 | 11))",
        "matches!(ix.data.first(), Some(9 | 11))",
        "ix.data.first().is_some()",
    ),
    mutant("CLMM with nine accounts", "{ 13 } else { 10 }", "10", "9"),
    mutant("CLMM v2 with twelve accounts", "if disc == swap_v2 { 13 }", "13", "12"),
    mutant("Orca with ten accounts", "ix.accounts.len() < 11", "11", "10"),
    mutant("Orca v2 with fourteen accounts", "ix.accounts.len() < 15", "15", "14"),
    mutant(
        "CPMM with twelve accounts",
        "RAYDIUM_CPMM_PROGRAM_ID && ix.accounts.len() >= 13",
        "13",
        "12",
    ),
    mutant("DLMM with fourteen accounts", "if v2 { 16 } else { 15 }", "15", "14"),
    mutant("DLMM v2 with fifteen accounts", "let fixed = if v2 { 16 }", "16", "15"),
    mutant("a slice takes one account too many", "used > remaining", "remaining", "remaining + 1"),
    mutant(
        "each slice has all remaining accounts",
        "used = used.checked_add(length)?",
        "used.checked_add(length)?",
        "length",
    ),
    mutant("an unknown slice tag of one byte", "3 => 2, _ => return None }", "return None", "1"),
    mutant("a slice tag of one byte", "3 => 2,", "2", "1"),
    mutant(
        "LaunchLab with fourteen accounts",
        "RAYDIUM_LAUNCHLAB_PROGRAM_ID && ix.accounts.len() >= 15",
        "15",
        "14",
    ),
    mutant("PumpFun v2 buy with 26 accounts", "if buy {\n                        27", "27", "26"),
    mutant("PumpFun v2 sell with 25 accounts", "} else {\n                        26", "26", "25"),
    mutant("PumpFun v3 with sixteen accounts", "} else {\n                    17", "17", "16"),
    mutant(
        "PumpFun pays wrapped SOL from the token account",
        "let source = if buy {\n            if quote == ROUTE_WSOL {",
        "quote == ROUTE_WSOL",
        "false",
    ),
    mutant(
        "PumpFun pays wrapped SOL into the token account",
        "} else if quote == ROUTE_WSOL {",
        "quote == ROUTE_WSOL",
        "false",
    ),
    mutant("PumpSwap with twenty accounts", "ix.accounts.len() >= 21", "21", "20"),
    mutant(
        "PumpSwap with eighteen accounts",
        "ix.accounts.len() == 17)\n",
        "ix.accounts.len() == 17",
        "matches!(ix.accounts.len(), 17 | 18)",
    ),
    mutant("any byte is a truth value", "1 => Some(true),\n        _ => None,", "None", "Some(true)"),
    mutant("a buy's byte 24 is not checked", "if buy && ix.data.len() > 24", "ix.data.len() > 24", "false"),
    mutant("a sell's byte 24 is checked", "if buy && (", "buy", "true"),
    mutant("AMM V4 with seven accounts", "&& ix.accounts.len() >= 8", "8", "7"),
    mutant("AMM V4 with sixteen accounts", "&& ix.accounts.len() >= 17\n", "17", "16"),
    mutant("AMM V4 shifts at eighteen accounts", "usize::from(ix.accounts.len() == 17)", "17", "18"),
    mutant(
        "CPMM keeps the order of amounts",
        "a(4),\n            a(5),\n            exact_in,\n            if exact_in { first } else { second },\n            \
         if exact_in { second } else { first },\n        )\n    } else if ix.program == METEORA_DLMM_PROGRAM_ID",
        "if exact_in { first } else { second }",
        "first",
    ),
    mutant(
        "DLMM keeps the order of amounts",
        "a(4),\n            a(5),\n            exact_in,\n            if exact_in { first } else { second },\n            \
         if exact_in { second } else { first },\n        )\n    } else if ix.program == RAYDIUM_LAUNCHLAB_PROGRAM_ID",
        "if exact_in { first } else { second }",
        "first",
    ),
    mutant(
        "AMM V4 keeps the order of amounts",
        "a(5),\n            a(6),\n            exact_in,\n            if exact_in { first } else { second },",
        "if exact_in { first } else { second }",
        "first",
    ),
    mutant(
        "AMM V4 keeps the order of amounts under tags 9 and 11",
        "a(16 - shift),\n            exact_in,\n            if exact_in { first } else { second },",
        "if exact_in { first } else { second }",
        "first",
    ),
    mutant("CLMM's first version has a pair", "RaydiumClmm if disc == swap_v2", "disc == swap_v2", "true"),
    mutant("Orca's first version has a pair", "OrcaWhirlpool if disc == swap_v2", "disc == swap_v2", "true"),
    mutant(
        "LaunchLab's pair by direction",
        "if input == a(6) { (a(10), a(9)) }",
        "input == a(6)",
        "disc == Some(&crate::mutated::instr::raydium_launchlab::discriminators::BUY_EXACT_IN[..])
            || disc == Some(&crate::mutated::instr::raydium_launchlab::discriminators::BUY_EXACT_OUT[..])",
    ),
    mutant("Orca's pair by direction", "if input == a(7) {", "input == a(7)", "ix.data[41] == 1"),
    mutant(
        "PumpSwap's pair by direction",
        "if input == a(6) { (a(4), a(3)) }",
        "input == a(6)",
        "disc != Some(&crate::mutated::instr::pump_amm::discriminators::SELL[..])
            && disc != Some(&crate::mutated::instr::pump_amm::discriminators::SELL_V2[..])",
    ),
    mutant(
        "a zero pair key is a mint",
        "explicit_pair.map(|pair| pair.0).filter(|mint| *mint != Pubkey::default())",
        "*mint != Pubkey::default()",
        "true",
    ),
    mutant(
        "a zero pair key is the output's mint",
        "explicit_pair.map(|pair| pair.1).filter(|mint| *mint != Pubkey::default())",
        "*mint != Pubkey::default()",
        "true",
    ),
    mutant(
        "any protocol graduates",
        "protocol == SwapProtocol::RaydiumCpmm && graduated",
        "protocol == SwapProtocol::RaydiumCpmm",
        "true",
    ),
    mutant("nothing graduates", "graduated.contains(&pool)", "graduated.contains(&pool)", "false"),
    // Coinciding names.
    mutant(
        "base out wins",
        "let exact_in = if disc == Some(&SWAP_BASE_IN[..]) {",
        "disc == Some(&SWAP_BASE_IN[..])",
        "disc == Some(&SWAP_BASE_IN[..]) && disc != Some(&SWAP_BASE_OUT[..])",
    ),
    mutant(
        "the lent buy wins",
        "if disc == Some(&BUY_EXACT_QUOTE_IN[..])",
        "disc == Some(&BUY_EXACT_QUOTE_IN[..])",
        "disc == Some(&BUY_EXACT_QUOTE_IN[..]) && disc != Some(&BUY[..])",
    ),
    mutant(
        "a sell wins over the lent buy",
        "else if disc == Some(&BUY[..])",
        "disc == Some(&BUY[..])",
        "disc == Some(&BUY[..]) && disc != Some(&SELL[..])",
    ),
    mutant(
        "the reward config wins",
        "config.0 == crate::names::STONKFUN_STANDARD_PLATFORM_CONFIG[..]",
        "config.0 == crate::names::STONKFUN_STANDARD_PLATFORM_CONFIG[..]",
        "config.0 == crate::names::STONKFUN_STANDARD_PLATFORM_CONFIG[..]
            && config.0 != crate::names::STONKFUN_REWARD_PLATFORM_CONFIG[..]",
    ),
];
