//! The deliberate breaks of the month totals (src/month/plain.rs) and of the reasons
//! (src/oracle/reason.rs), by where they stand. Each is behind a switch of its own, so that one compiled
//! copy serves for all those of a file.

/// In `place`, which the text holds once, the expression `right` becomes one of the wrong ones when
/// that is switched on. Places do not overlap.
pub struct Site {
    pub place: &'static str,
    pub right: &'static str,
    /// Each break's name and its expression.
    pub wrong: &'static [(&'static str, &'static str)],
}

pub const MONTH: &[Site] = &[
    // 19: the table.
    Site {
        place: "transfers.len() % TRANSFER == 0\n",
        right: "transfers.len() % TRANSFER == 0",
        wrong: &[("a partial row is left out", "true")],
    },
    Site {
        place: "&& transfers.chunks_exact(TRANSFER).all",
        right: "transfers.chunks_exact(TRANSFER)",
        wrong: &[
            (
                "flags are looked at in the first row only",
                "transfers[..transfers.len().min(TRANSFER)].chunks_exact(TRANSFER)",
            ),
            (
                "flags are not looked at in the last row",
                "transfers[..transfers.len().saturating_sub(1)].chunks_exact(TRANSFER)",
            ),
        ],
    },
    Site {
        place: "row[100] <= 1",
        right: "row[100] <= 1",
        wrong: &[("any mint flag passes", "true"), ("a mint flag of 2 passes", "row[100] <= 2")],
    },
    Site {
        place: "row[141] <= 1",
        right: "row[141] <= 1",
        wrong: &[("any fee flag passes", "true"), ("a fee flag of 2 passes", "row[141] <= 2")],
    },
    // 20: the report.
    Site {
        place: "if rows > report.len() / ROW {",
        right: "rows > report.len() / ROW",
        wrong: &[
            ("rows are compared by bytes that wrap", "rows.wrapping_mul(ROW) > report.len()"),
            ("part of a row holds a row", "rows > report.len().div_ceil(ROW)"),
            ("a report that fills its buffer is refused", "rows > 0 && rows >= report.len() / ROW"),
            ("0 rows with transfers fed are refused", "rows > report.len() / ROW || (rows == 0 && fed > 0)"),
        ],
    },
    Site {
        place: "chunks_exact(ROW).take(rows)",
        right: "rows",
        wrong: &[("rows from the fourth on are not read", "rows.min(3)")],
    },
    Site {
        place: "line[0] > 1",
        right: "line[0] > 1",
        wrong: &[
            ("a report's mint flag of 2 passes", "line[0] > 2"),
            ("any mint flag of a report passes", "false"),
        ],
    },
    Site {
        place: "line[33] > 1",
        right: "line[33] > 1",
        wrong: &[
            ("a report's account flag of 2 passes", "line[33] > 2"),
            ("any account flag of a report passes", "false"),
            ("an account behind a flag of 0 is refused", "line[33] > 1 || (line[33] == 0 && line[34..] != [0; 32])"),
        ],
    },
    Site {
        place: "line <= last",
        right: "line <= last",
        wrong: &[
            ("equal lines pass", "line < last"),
            ("lines that fall pass", "line == last"),
            ("lines are compared by mint and flag only", "line[..34] < last[..34]"),
            ("lines are compared without the mint's flag", "line[1..] <= last[1..]"),
            ("lines are compared last byte first", "line.iter().rev().le(last.iter().rev())"),
        ],
    },
    Site {
        place: "[debits, credits, fees]",
        right: "[debits, credits, fees]",
        wrong: &[
            ("debits of 2 to the 96th pass", "[debits.saturating_sub(1), credits, fees]"),
            ("credits of 2 to the 96th pass", "[debits, credits.saturating_sub(1), fees]"),
            ("fees of 2 to the 96th pass", "[debits, credits, fees.saturating_sub(1)]"),
            ("debits of any size pass", "[0, credits, fees]"),
            ("credits of any size pass", "[debits, 0, fees]"),
            ("fees of any size pass", "[debits, credits, 0]"),
            ("debits one below 2 to the 96th are refused", "[debits.saturating_add(1), credits, fees]"),
            ("credits one below 2 to the 96th are refused", "[debits, credits.saturating_add(1), fees]"),
            ("fees one below 2 to the 96th are refused", "[debits, credits, fees.saturating_add(1)]"),
        ],
    },
    Site {
        place: "if apart > fed {",
        right: "apart > fed",
        wrong: &[
            ("a count above the transfers fed passes", "false"),
            ("a count one above the transfers fed passes", "apart.saturating_sub(1) > fed"),
            ("a count equal to the transfers fed is refused", "apart > 0 && apart >= fed"),
        ],
    },
    // 9, 10, and the order of refusals.
    Site {
        place: "if !is_table(transfers) {",
        right: "!is_table(transfers)",
        wrong: &[
            ("20 comes before 19", "!is_table(transfers) && read(report, rows, fed).is_some()"),
        ],
    },
    Site {
        place: "Some(mut lines) = read(report, rows, fed) else",
        right: "read(report, rows, fed)",
        wrong: &[
            (
                "9 comes before 20 where the buffer holds no row",
                "read(report, rows, fed).or((report.len() < ROW).then(Lines::new))",
            ),
            ("10 comes before 20", "read(report, rows, fed).or(passes_limit(fed, transfers).then(Lines::new))"),
        ],
    },
    Site {
        place: "if lines.len() > report.len() / ROW {",
        right: "lines.len() > report.len() / ROW",
        wrong: &[
            ("10 comes before 9", "lines.len() > report.len() / ROW && !passes_limit(fed, transfers)"),
            ("a report that becomes full is refused", "lines.len() > rows && lines.len() >= report.len() / ROW"),
            ("room is asked for three lines a transfer", "lines.len() > rows && rows + 3 * count(transfers) > report.len() / ROW"),
        ],
    },
    Site {
        place: "fed as usize + count(transfers) > u32::MAX as usize\n",
        right: "fed as usize + count(transfers) > u32::MAX as usize",
        wrong: &[
            ("the limit is one transfer later", "fed as usize + count(transfers) > u32::MAX as usize + 1"),
            ("the limit is one transfer sooner", "!transfers.is_empty() && fed as usize + count(transfers) >= u32::MAX as usize"),
            ("the limit refuses an empty table", "fed as usize + count(transfers) > u32::MAX as usize || fed == u32::MAX"),
        ],
    },
    // The answer.
    Site {
        place: "Err(number) => Answer { number, place: 0, rows: rows as u64, fed }",
        right: "Answer { number, place: 0, rows: rows as u64, fed }",
        wrong: &[
            ("a refusal answers no rows", "Answer { number, place: 0, rows: 0, fed }"),
            ("a refusal answers rows cut to 32 bits", "Answer { number, place: 0, rows: u64::from(rows as u32), fed }"),
            ("a refusal answers nothing fed", "Answer { number, place: 0, rows: rows as u64, fed: 0 }"),
            ("a refusal clears the report", "{ report.fill(0); Answer { number, place: 0, rows: rows as u64, fed } }"),
            ("a refusal clears the tail", "{ let used = rows.min(report.len() / ROW) * ROW; report[used..].fill(0); Answer { number, place: 0, rows: rows as u64, fed } }"),
            (
                "9 comes after some lines are written",
                "{ if number == 9 { let mut lines = read(report, rows, fed).unwrap_or_default(); feed(&mut lines, transfers); write(&lines, report); } \
                 Answer { number, place: 0, rows: rows as u64, fed } }",
            ),
            ("a refusal names a place", "Answer { number, place: 1, rows: rows as u64, fed }"),
        ],
    },
    Site {
        place: "report[used..].fill(0);",
        right: "report[used..].fill(0)",
        wrong: &[
            ("the tail is left", "()"),
            ("the tail is left after an empty table", "if !transfers.is_empty() { report[used..].fill(0) }"),
            ("the tail's last part of a row is left", "{ let whole = report.len() / ROW * ROW; report[used..whole].fill(0) }"),
            ("one row of the tail is cleared", "{ let end = report.len().min(used + ROW); report[used..end].fill(0) }"),
        ],
    },
    Site {
        place: "let fed = fed as usize + count(transfers);",
        right: "count(transfers)",
        wrong: &[(
            "transfers counted apart are not fed",
            "transfers.chunks_exact(TRANSFER).map(Transfer::of).filter(|one| one.fee.is_some_and(|fee| fee <= one.amount)).count()",
        )],
    },
    Site {
        place: "rows: lines.len() as u64",
        right: "lines.len() as u64",
        wrong: &[("rows are answered as they went in", "rows as u64")],
    },
    // The lines of a transfer.
    Site {
        place: "fee.filter(|fee| *fee <= amount)",
        right: "fee.filter(|fee| *fee <= amount)",
        wrong: &[
            ("a fee equal to the amount is counted apart", "fee.filter(|fee| *fee < amount)"),
            ("a fee above the amount is summed", "fee.map(|fee| fee.min(amount))"),
            ("an absent fee is 0", "fee.or(Some(0)).filter(|fee| *fee <= amount)"),
            ("an amount of 0 is counted apart", "fee.filter(|fee| *fee <= amount && amount > 0)"),
        ],
    },
    Site {
        place: "own.3 += 1;",
        right: "own.3 += 1",
        wrong: &[
            ("nothing is counted apart", "()"),
            ("the count is of 16 bits", "own.3 = u64::from((own.3 as u16).wrapping_add(1))"),
            ("transfers counted apart are summed", "{ own.3 += 1; own.0 = sum(own.0, amount) }"),
            ("transfers counted apart make account lines", "{ own.3 += 1; lines.entry(line(&mint, Some(&source))).or_default(); }"),
            ("transfers counted apart are counted on the source's line", "lines.entry(line(&mint, Some(&source))).or_default().3 += 1"),
        ],
    },
    Site {
        place: "own.0 = sum(own.0, amount);",
        right: "sum(own.0, amount)",
        wrong: &[("the mint's debits are net", "sum(own.0, rest)"), ("the mint has no debits", "own.0")],
    },
    Site {
        place: "own.1 = sum(own.1, rest);",
        right: "sum(own.1, rest)",
        wrong: &[("the mint's credits are gross", "sum(own.1, amount)")],
    },
    Site {
        place: "own.2 = sum(own.2, fee);",
        right: "sum(own.2, fee)",
        wrong: &[("the mint has no fees", "own.2")],
    },
    Site {
        place: "payer.0 = sum(payer.0, amount);",
        right: "sum(payer.0, amount)",
        wrong: &[
            ("the source pays the fee besides", "sum(sum(payer.0, amount), fee)"),
            ("the fee is on the source's line", "{ payer.2 = sum(payer.2, fee); sum(payer.0, amount) }"),
            ("the source's debits are net", "sum(payer.0, rest)"),
            ("a transfer to itself is no debit", "if source == destination { payer.0 } else { sum(payer.0, amount) }"),
        ],
    },
    Site {
        place: "taker.1 = sum(taker.1, rest);",
        right: "sum(taker.1, rest)",
        wrong: &[
            ("the destination's credits are gross", "sum(taker.1, amount)"),
            ("a transfer to itself is no credit", "if source == destination { taker.1 } else { sum(taker.1, rest) }"),
        ],
    },
    Site {
        place: "taker.2 = sum(taker.2, fee);",
        right: "sum(taker.2, fee)",
        wrong: &[("the destination has no fees", "taker.2")],
    },
    Site {
        place: "sum + u128::from(number)",
        right: "sum + u128::from(number)",
        wrong: &[
            ("the carry is dropped", "(sum >> 64 << 64) | u128::from((sum as u64).wrapping_add(number))"),
            ("a sum stops at 2 to the 96th", "(sum + u128::from(number)).min(SUM_LIMIT - 1)"),
            ("a sum is cut to 96 bits", "(sum + u128::from(number)) % SUM_LIMIT"),
            ("amounts are signed", "sum.wrapping_add_signed(i128::from(number as i64))"),
        ],
    },
    // The bytes of a transfer and of a row.
    Site {
        place: "if row[100] == 1 { part(row, 100) } else { [0; 33] }",
        right: "if row[100] == 1 { part(row, 100) } else { [0; 33] }",
        wrong: &[
            ("a mint behind a flag of 0 is read", "part(row, 100)"),
            ("a mint of zeros is none", "if row[101..133] != [0; 32] && row[100] == 1 { part(row, 100) } else { [0; 33] }"),
            ("the mint's flag is always 1", "{ let mut mint: [u8; 33] = if row[100] == 1 { part(row, 100) } else { [0; 33] }; mint[0] = 1; mint }"),
        ],
    },
    Site {
        place: "source: part(row, 36)",
        right: "part(row, 36)",
        wrong: &[("the program is the source", "part(row, 4)"), ("the destination is the source", "part(row, 68)")],
    },
    Site {
        place: "destination: part(row, 68)",
        right: "part(row, 68)",
        wrong: &[("the source is the destination", "part(row, 36)")],
    },
    Site {
        place: "(row[141] == 1).then",
        right: "(row[141] == 1)",
        wrong: &[("a fee behind a flag of 0 is read", "true")],
    },
    Site {
        place: "line[33] = 1;",
        right: "1",
        wrong: &[("the zero account has the mint's own line", "u8::from(*account != [0; 32])")],
    },
    Site {
        place: "&debits.to_le_bytes()",
        right: "debits.to_le_bytes()",
        wrong: &[("the high half comes first", "debits.rotate_left(64).to_le_bytes()")],
    },
    Site {
        place: "&credits.to_le_bytes()",
        right: "credits.to_le_bytes()",
        wrong: &[("credits and fees are exchanged", "fees.to_le_bytes()")],
    },
    Site {
        place: "row[..66].copy_from_slice(line)",
        right: "row[..66].copy_from_slice(line)",
        wrong: &[("what is behind a flag of 0 in a report is cleared", "{ row[..66].copy_from_slice(line); if line[33] == 0 { row[34..66].fill(0) } }")],
    },
];

pub const REASON: &[Site] = &[
    // 1: the program.
    Site {
        place: "keys.get(*program as usize).filter(|row| row.whole)",
        right: "keys.get(*program as usize).filter(|row| row.whole)",
        wrong: &[
            ("a key with flag 0 is a token program", "keys.get(*program as usize)"),
            ("the index of a token program is cut to a byte", "keys.get(*program as usize % 256).filter(|row| row.whole)"),
            ("the index of a token program is cut to 16 bits", "keys.get(*program as usize % 65_536).filter(|row| row.whole)"),
        ],
    },
    Site {
        place: "if resolved != Some(spl_token) && resolved != Some(token_2022) {",
        right: "resolved != Some(spl_token) && resolved != Some(token_2022)",
        wrong: &[
            ("SPL Token is not a token program", "resolved != Some(token_2022)"),
            ("Token-2022 is not a token program", "resolved != Some(spl_token)"),
        ],
    },
    Site {
        place: "return 1;",
        right: "1",
        wrong: &[
            ("an unresolved program is an unsupported tag", "if resolved.is_none() { 2 } else { 1 }"),
            ("another program is an unsupported tag", "if resolved.is_some() { 2 } else { 1 }"),
            ("empty data is looked at before the program", "if data.is_empty() { 2 } else { 1 }"),
        ],
    },
    // 2: the tag.
    Site {
        place: "=> (3, 9, &[0, 1])",
        right: "(3, 9, &[0, 1])",
        wrong: &[
            ("two accounts are enough for tag 3", "(2, 9, &[0, 1])"),
            ("tag 3 needs four accounts", "(4, 9, &[0, 1])"),
            ("eight bytes are enough for tag 3", "(3, 8, &[0, 1])"),
            ("tag 3 needs ten bytes", "(3, 10, &[0, 1])"),
            ("the source of tag 3 is not looked at", "(3, 9, &[1])"),
            ("the destination of tag 3 is not looked at", "(3, 9, &[0])"),
            ("the third account of tag 3 is looked at", "(3, 9, &[0, 1, 2])"),
        ],
    },
    Site {
        place: "=> (4, 10, &[0, 2, 1])",
        right: "(4, 10, &[0, 2, 1])",
        wrong: &[
            ("three accounts are enough for tag 12", "(3, 10, &[0, 2, 1])"),
            ("tag 12 needs five accounts", "(5, 10, &[0, 2, 1])"),
            ("nine bytes are enough for tag 12", "(4, 9, &[0, 2, 1])"),
            ("tag 12 needs eleven bytes", "(4, 11, &[0, 2, 1])"),
            ("the source of tag 12 is not looked at", "(4, 10, &[2, 1])"),
            ("the destination of tag 12 is not looked at", "(4, 10, &[0, 1])"),
            ("the mint of tag 12 is not looked at", "(4, 10, &[0, 2])"),
            ("the fourth account of tag 12 is looked at", "(4, 10, &[0, 2, 1, 3])"),
        ],
    },
    Site {
        place: "if resolved == Some(token_2022) &&",
        right: "resolved == Some(token_2022)",
        wrong: &[("tag 26 under SPL Token is one of Token-2022", "true")],
    },
    Site {
        place: "&& data.get(1) == Some(&1)",
        right: "data.get(1) == Some(&1)",
        wrong: &[
            ("the second byte of tag 26 is not looked at", "true"),
            ("a missing second byte of tag 26 passes", "data.get(1).map_or(true, |second| *second == 1)"),
            ("a second byte of 0 passes", "data.get(1).is_some_and(|second| *second < 2)"),
            ("a second byte of 2 passes", "matches!(data.get(1), Some(1 | 2))"),
        ],
    },
    Site {
        place: "=> (4, 19, &[0, 2, 1])",
        right: "(4, 19, &[0, 2, 1])",
        wrong: &[
            ("three accounts are enough for tag 26", "(3, 19, &[0, 2, 1])"),
            ("tag 26 needs five accounts", "(5, 19, &[0, 2, 1])"),
            ("eighteen bytes are enough for tag 26", "(4, 18, &[0, 2, 1])"),
            ("tag 26 needs twenty bytes", "(4, 20, &[0, 2, 1])"),
            ("the source of tag 26 is not looked at", "(4, 19, &[2, 1])"),
            ("the destination of tag 26 is not looked at", "(4, 19, &[0, 1])"),
            ("the mint of tag 26 is not looked at", "(4, 19, &[0, 2])"),
            ("the fourth account of tag 26 is looked at", "(4, 19, &[0, 2, 1, 3])"),
        ],
    },
    Site {
        place: "_ => return 2,",
        right: "2",
        wrong: &[
            ("an unsupported tag has no reason", "0"),
            ("an unsupported tag is not one of a token program", "1"),
            ("empty data is too short", "if data.is_empty() { 4 } else { 2 }"),
            ("tag 26 alone is too short", "if data[..] == [26] { 4 } else { 2 }"),
            (
                "tag 26 under SPL Token has too few accounts",
                "if data.first() == Some(&26) && resolved == Some(spl_token) { 3 } else { 2 }",
            ),
            (
                "another second byte of tag 26 is too short data",
                "if data.first() == Some(&26) && resolved == Some(token_2022) { 4 } else { 2 }",
            ),
            ("few accounts are told before the tag", "if accounts.len() < 3 { 3 } else { 2 }"),
        ],
    },
    // 3 to 5, and their order.
    Site {
        place: "if accounts.len() < least_accounts {",
        right: "accounts.len() < least_accounts",
        wrong: &[("accounts are tested after data", "accounts.len() < least_accounts && data.len() >= least_bytes")],
    },
    Site {
        place: "return 3;",
        right: "3",
        wrong: &[
            ("too few accounts are told as too short data", "4"),
            (
                "zero keys are told before too few accounts",
                "if accounts.iter().any(|at| keys.get(usize::from(*at)).map_or(true, |row| row.key == [0; 32])) { 5 } else { 3 }",
            ),
        ],
    },
    Site {
        place: "return 4;",
        right: "4",
        wrong: &[
            ("too short data is told as too few accounts", "3"),
            (
                "zero keys are told before too short data",
                "if accounts.iter().any(|at| keys.get(usize::from(*at)).map_or(true, |row| row.key == [0; 32])) { 5 } else { 4 }",
            ),
        ],
    },
    Site {
        place: "keys.get(usize::from(accounts[place]))",
        right: "keys.get(usize::from(accounts[place]))",
        wrong: &[
            ("a key with flag 0 is missing", "keys.get(usize::from(accounts[place])).filter(|row| row.whole)"),
        ],
    },
    Site {
        place: "unwrap_or([0; 32]) ==",
        right: "[0; 32]",
        wrong: &[("a missing key is not zero", "[1; 32]")],
    },
    Site {
        place: "|place| key(*place).unwrap_or",
        right: "key(*place)",
        wrong: &[
            ("a zero key is told only where it is missing", "if key(*place).is_none() { None } else { Some([1; 32]) }"),
            (
                "a zero key is told only where the checked mint is missing",
                "if *place == 1 && places.len() == 3 && key(*place).is_none() { None } else { Some([1; 32]) }",
            ),
        ],
    },
    Site {
        place: "return 5;",
        right: "5",
        wrong: &[
            ("a zero key has no reason", "0"),
            ("a missing key is told as too few accounts", "if places.iter().any(|place| key(*place).is_none()) { 3 } else { 5 }"),
        ],
    },
];
