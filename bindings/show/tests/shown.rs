//! What is printed of tables made by hand. The sample's text is checked in compare/, by the oracle.

use mbelaguy::pack::{Balance, Group, Inner, Instruction, KeyRow, Pack};
use mbelaguy::rows::{Invocation, Reason};
use mbelaguy::{base58, ids, Answer, Key, Refusal, Tables};
use show::{page, text, Keys, Report};

mod alone;

fn key_row(key: Key) -> KeyRow {
    KeyRow { whole: true, key }
}

/// One outer instruction and inner ones that each lie below the one before.
fn chain(depth: u32) -> Report {
    tree(&(0..=depth).collect::<Vec<_>>())
}

/// One outer instruction and inner ones with these parents, as rows have them: 0, or 1 plus a row. All
/// ends are 0: parents alone draw the tree.
fn tree(parents: &[u32]) -> Report {
    let all = parents.len() as u32;
    let inner = |height| Inner { height: Some(height), instruction: Instruction::default() };
    let pack = Pack {
        keys: vec![key_row([7; 32])],
        outer: vec![Instruction::default()],
        groups: vec![Group { outer: 0, instructions: (2..1 + all).map(inner).collect() }],
        ..Pack::default()
    };
    let mut rows = Vec::new();
    for (number, parent) in (0u32..).zip(parents) {
        rows.extend(0u32.to_le_bytes());
        rows.push(u8::from(number > 0));
        rows.extend(number.saturating_sub(1).to_le_bytes());
        rows.push(1);
        rows.extend((number + 1).to_le_bytes());
        rows.extend(0u32.to_le_bytes());
        rows.push(Invocation::RESOLVED);
        rows.extend(0u32.to_le_bytes());
        rows.extend(parent.to_le_bytes());
        rows.push(Reason::NotToken.number());
    }
    let answer = Answer { counts: [0, all, 0, 0, 0], ..Answer::default() };
    report(&pack, answer, [vec![], rows, vec![], vec![], vec![]])
}

/// Three accounts with a mint: a made-up one, the zero key, a program's. A fourth was seen with two.
fn marks() -> Report {
    let row = |account: Key, mint: Key, mark| [&account[..], &mint, &[mark]].concat();
    let rows =
        [row([0; 32], ids::WRAPPED_SOL, 0), row([1; 32], [2; 32], 1), row(ids::MEMO, [2; 32], 2)];
    let answer = Answer { counts: [3, 0, 0, 0, 0], passes: 1, ..Answer::default() };
    let pack = Pack {
        keys: [[1; 32], [2; 32], [3; 32]].map(key_row).to_vec(),
        balances: [[2; 32], [4; 32]].map(|mint| Balance { account: 2, mint }).to_vec(),
        ..Pack::default()
    };
    report(&pack, answer, [rows.concat(), vec![], vec![], vec![], vec![]])
}

fn report(pack: &Pack, answer: Answer, bytes: [Vec<u8>; 5]) -> Report {
    let pack = pack.write().unwrap();
    let tables = Tables::read(&answer, bytes, &pack).unwrap();
    Report::new(&pack, &answer, &tables).unwrap()
}

#[test]
fn marks_are_spelled_out() {
    let expected = "\
pack of 195 bytes: 3 keys, 2 balances, 0 outer instructions, 0 inner groups, 0 graduated pools
3 mints, 0 invocations, 0 transfers, 0 swap legs, 0 native actions, 1 pass, 0 tests

Mints
  none        wrapped SOL  recorded
  4vJ9..kLKi  8qbH..VfeR   filled in
  Memo        8qbH..VfeR   in doubt
  CktR..Ezy8  none         contradictory evidence
  in doubt: transfers lead here from accounts with different recorded mints; the same evidence in another order may show another of them

Invocations
  none
";
    assert_eq!(text(&marks(), Keys::Short), expected);
}

#[test]
fn doubt_is_explained_where_there_is_some() {
    let note = "<p class=\"note\">in doubt: ";
    assert!(page("marks", &Ok(marks()), Keys::Short).contains(note));
    assert!(!page("deeds", &Ok(deeds()), Keys::Short).contains(note));
    assert!(!text(&deeds(), Keys::Short).contains("in doubt"));
}

/// One outer instruction with a transfer, a leg and a native action: from account 1, whose mint is filled
/// in, to account 3, which was seen with two mints.
fn deeds() -> Report {
    let mint = |key: Key| [&[1][..], &key].concat();
    let (one, three) = ([1; 32], [3; 32]);
    let mints = [&one[..], &ids::WRAPPED_SOL, &[1]].concat();
    let invocation = [&[0; 9][..], &[1, 1, 0, 0, 0, 1, 0, 0, 0, 48, 1, 0, 0, 0], &[0; 5]].concat();
    let amount = [7, 0, 0, 0, 0, 0, 0, 0];
    let transfer =
        [&[0; 4][..], &ids::SPL_TOKEN, &three, &one, &[0; 33], &amount, &[0; 9]].concat();
    let accounts = [ids::PUMP_SWAP, [5; 32], [6; 32], one, three].concat();
    let mints_of_leg = [mint(ids::WRAPPED_SOL), mint([2; 32])].concat();
    let leg = [&[0; 4][..], &[1], &accounts, &mints_of_leg, &[1], &amount, &[0; 10]].concat();
    let native = [&[0; 4][..], &[2], &one, &[0; 72]].concat();
    let answer = Answer { counts: [1; 5], ..Answer::default() };
    let pack = Pack {
        keys: [one, [2; 32], three, [5; 32], [6; 32]].map(key_row).to_vec(),
        balances: [[2; 32], [4; 32]].map(|mint| Balance { account: 2, mint }).to_vec(),
        outer: vec![Instruction::default()],
        ..Pack::default()
    };
    report(&pack, answer, [mints, invocation, transfer, leg, native])
}

#[test]
fn a_mint_beside_an_amount_has_its_mark() {
    let expected = [
        "swap on PumpSwap pool LbUi..jfcY by QWmr..UzwF",
        "in exactly 0.000000007 SOL wrapped (filled in) from 4vJ9..kLKi",
        "out at least 0 of 8qbH..VfeR (named by the swap, contradictory evidence) to CktR..Ezy8",
        "transfer 7 of an unknown mint (contradictory evidence) from CktR..Ezy8 to 4vJ9..kLKi \
         (fee unknown)",
        "sync wrapped SOL account 4vJ9..kLKi (filled in)",
    ];
    let shown = text(&deeds(), Keys::Short);
    let lines: Vec<_> = shown.lines().map(str::trim_start).collect();
    assert!(lines.ends_with(&expected), "{shown}");
    let page = page("deeds", &Ok(deeds()), Keys::Short);
    let (tree, _) = page.split_once("</ol>").expect("a tree");
    for (class, mark, count) in [
        ("filled-in", "filled in", 2),
        ("contradictory", "named by the swap, contradictory evidence", 1),
        ("contradictory", "contradictory evidence", 1),
    ] {
        let shown = format!("<span class=\"mark {class}\">{mark}</span>");
        assert_eq!(tree.matches(&shown).count(), count, "{mark}");
    }
}

/// Two accounts whose texts begin and end alike, and a third that is no like them.
#[test]
fn two_keys_never_look_alike() {
    let [one, other] = [
        "So11111111111111111111111111111111111111113",
        "So11111111111111111111111111111111111121113",
    ]
    .map(|text| base58::decode(text).unwrap());
    let row = |account: Key| [&account[..], &[2; 32], &[0]].concat();
    let rows = [row([1; 32]), row(one), row(other)].concat();
    let pack =
        Pack { keys: [[1; 32], [2; 32], one, other].map(key_row).to_vec(), ..Pack::default() };
    let answer = Answer { counts: [3, 0, 0, 0, 0], ..Answer::default() };
    let report = report(&pack, answer, [rows, vec![], vec![], vec![], vec![]]);
    let shown = text(&report, Keys::Short);
    let page = page("alike", &Ok(report), Keys::Short);
    for form in ["4vJ9..kLKi", "So111..11113", "So111..21113"] {
        assert!(shown.contains(&format!("  {form} ")), "{form}: {shown}");
        assert_eq!(page.matches(&format!(">{form}<")).count(), 2, "in the table and in full");
    }
}

#[test]
fn keys_in_full() {
    let shown = text(&marks(), Keys::Full);
    assert!(shown.contains("4vJ9JU1bJJE96FWSJKvHsmmFADCg4gpZQff4P3bkLKi"));
    assert!(!shown.contains(".."));
}

#[test]
fn a_tree_is_drawn_to_some_depth() {
    let shown = text(&chain(1_023), Keys::Short);
    let lines: Vec<_> = shown.lines().skip_while(|line| *line != "Invocations").collect();
    assert_eq!(lines.len(), 1 + 1_024);
    let program = "US51..ELFx  [inner 0";
    assert_eq!(lines[3], format!("     2     └─ {program}.1, height 3]"));
    let indent = " ".repeat(12 * 3);
    assert_eq!(lines[21], format!("    20  {indent}└─ (depth 20) {program}.19, height 21]"));
    assert!(page("chain", &Ok(chain(20)), Keys::Short).contains("depth 20"));
}

/// The tree without what is told of each invocation, and the depths of the page.
fn drawn(parents: &[u32]) -> (String, Vec<usize>) {
    let shown = text(&tree(parents), Keys::Short);
    let lines = shown.lines().skip_while(|line| *line != "Invocations");
    let lines = lines.filter_map(|line| line.split("  [").next());
    let page = page("tree", &Ok(tree(parents)), Keys::Short);
    let depths = page.split("style=\"--depth:").skip(1);
    let depths = depths.map(|rest| rest.split('"').next().unwrap().parse().unwrap());
    (lines.map(|line| format!("{line}\n")).collect(), depths.collect())
}

#[test]
fn a_tree_is_drawn_by_parents() {
    let expected = "\
Invocations
  0  US51..ELFx
  1  ├─ US51..ELFx
  2  │  └─ US51..ELFx
  3  ├─ US51..ELFx
  4  │  ├─ US51..ELFx
  5  │  └─ US51..ELFx
  6  └─ US51..ELFx
";
    let (shown, depths) = drawn(&[0, 1, 2, 1, 4, 4, 1]);
    assert_eq!(shown, expected);
    assert_eq!(depths, [0, 1, 2, 1, 2, 2, 1]);
}

/// Itself, a later row, and one that there is not.
#[test]
fn a_parent_that_is_not_earlier_is_none() {
    let expected = "\
Invocations
  0  US51..ELFx
  1  US51..ELFx
  2  └─ US51..ELFx
  3  US51..ELFx
  4  └─ US51..ELFx
";
    let (shown, depths) = drawn(&[1, 3, 2, u32::MAX, 4]);
    assert_eq!(shown, expected);
    assert_eq!(depths, [0, 0, 1, 0, 1]);
}

/// Outer instructions with reasons 0 to 5: of a token program but for reason 1.
fn reasons() -> Report {
    let instruction = |program| Instruction { program, ..Instruction::default() };
    let pack = Pack {
        keys: [ids::SPL_TOKEN, ids::MEMO, ids::TOKEN_2022].map(key_row).to_vec(),
        outer: [0, 1, 0, 2, 0, 2].map(instruction).to_vec(),
        ..Pack::default()
    };
    let row = |reason: u8| {
        let transfer = if reason == 0 { Invocation::OWN_TRANSFER } else { 0 };
        let bits = Invocation::SKIPPED | Invocation::RESOLVED | transfer;
        [&[reason][..], &[0; 17], &[bits], &[0; 8], &[reason]].concat()
    };
    let answer = Answer { counts: [0, 6, 0, 0, 0], ..Answer::default() };
    let rows = [0, 1, 2, 3, 4, 5].map(row).concat();
    report(&pack, answer, [vec![], rows, vec![], vec![], vec![]])
}

#[test]
fn a_token_program_that_gave_no_transfer_has_its_reason() {
    let expected = "\
Invocations
  0  SPL Token  [outer 0, skipped for routes]
  1  Memo  [outer 1, skipped for routes]
  2  SPL Token  [outer 2, skipped for routes, no transfer: another kind of instruction]
  3  Token-2022  [outer 3, skipped for routes, no transfer: too few accounts for this kind of transfer]
  4  SPL Token  [outer 4, skipped for routes, no transfer: data too short for this kind of transfer]
  5  Token-2022  [outer 5, skipped for routes, no transfer: the key of source, destination or mint is missing or zero]
";
    let shown = text(&reasons(), Keys::Short);
    assert!(shown.ends_with(expected), "{shown}");
    // The page has the same after each program: where it stands, and the notes.
    let page = page("reasons", &Ok(reasons()), Keys::Short);
    let about = |item: &str| {
        let spans = item.split("<span class=\"").filter_map(|span| span.split_once("\">"));
        let spans = spans.filter(|(class, _)| ["position", "note"].contains(class));
        let words = spans.filter_map(|(_, words)| words.split("</span>").next());
        words.collect::<Vec<_>>().join(", ")
    };
    let items: Vec<_> = page.lines().filter(|line| line.starts_with("<li ")).map(about).collect();
    let lines = expected.lines().filter_map(|line| line.split(['[', ']']).nth(1));
    assert_eq!(items, lines.collect::<Vec<_>>());
}

#[test]
fn a_page_stands_alone() {
    for keys in [Keys::Short, Keys::Full] {
        alone::stands_alone(&page("a", &Ok(marks()), keys), keys);
    }
}

#[test]
fn a_refusal_is_told() {
    let keys = "refusal 5, place 0: there are more than 256 keys";
    let balances = "refusal 11, place 1 (section of balances): \
                    a row's account index is not below the number of keys";
    for (refusal, words) in [(Refusal::Keys, keys), (Refusal::Balances, balances)] {
        let page = page("<\"a\" & b>", &Err(refusal), Keys::Short);
        assert!(page.contains("<h1>&lt;&quot;a&quot; &amp; b&gt;</h1>"));
        assert!(page.contains(&format!("<p class=\"refusal\">{words}</p>")), "{page}");
        let answer = Answer::refused(refusal);
        let tables = Tables::with_room([0; 5]);
        assert_eq!(Report::new(&[], &answer, &tables).err(), Some(refusal));
    }
}
