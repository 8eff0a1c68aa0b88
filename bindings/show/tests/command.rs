//! The command: what it prints, where, and its exit status.

use mbelaguy::pack::{self, Instruction, Pack, KEY_ROW, MAX_BYTES};
use show::month::{csv, page, text, Count, Ledger, LeftOut};
use show::Keys;
use std::fs;
use std::io::Write;
use std::path::Path;
use std::process::{Child, Command, Output, Stdio};
use std::thread;
use std::time::Duration;

const SAMPLE: &str = concat!(env!("CARGO_MANIFEST_DIR"), "/../../examples/aggregator_swap");

/// The exit status, and what is written to standard output and standard error.
fn show(words: &[&str], input: &[u8]) -> (Option<i32>, String, String) {
    finish(start(words), input)
}

fn start(words: &[&str]) -> Child {
    let mut command = Command::new(env!("CARGO_BIN_EXE_show"));
    let piped = command.args(words).stdin(Stdio::piped()).stdout(Stdio::piped());
    piped.stderr(Stdio::piped()).spawn().unwrap()
}

fn finish(mut child: Child, input: &[u8]) -> (Option<i32>, String, String) {
    // A command that is wrongly called reads nothing, and may be gone.
    let _ = child.stdin.take().unwrap().write_all(input);
    let Output { status, stdout, stderr } = child.wait_with_output().unwrap();
    let text = |bytes| String::from_utf8(bytes).unwrap();
    (status.code(), text(stdout), text(stderr))
}

fn sample(ending: &str) -> Vec<u8> {
    fs::read(format!("{SAMPLE}.{ending}")).unwrap()
}

/// The sample, but for its first balance row, which names the key behind the last.
fn stray() -> Vec<u8> {
    let mut input = sample("bin");
    let keys = pack::read(&input[88..]).unwrap().keys.len();
    let at = 88 + keys * KEY_ROW;
    input[at..at + 4].copy_from_slice(&(keys as u32).to_le_bytes());
    input
}

/// What is told of it.
const STRAY: &str = "refusal 11, place 1 (section of balances): \
                     a row's account index is not below the number of keys";

#[test]
fn the_sample_is_shown() {
    let text = String::from_utf8(sample("txt")).unwrap();
    let file = format!("{SAMPLE}.bin");
    assert_eq!(show(&[&file], &[]), (Some(0), text.clone(), String::new()));
    assert_eq!(show(&["-"], &sample("bin")), (Some(0), text, String::new()));
}

#[test]
fn the_samples_page_is_written() {
    let page = Path::new(env!("CARGO_TARGET_TMPDIR")).join("page.html");
    let words = ["--html", page.to_str().unwrap(), &format!("{SAMPLE}.bin")];
    assert_eq!(show(&words, &[]), (Some(0), String::new(), String::new()));
    assert_eq!(fs::read(page).unwrap(), sample("html"));
}

#[test]
fn help_is_no_error() {
    let usage = include_str!("../src/usage.txt");
    for words in [&["--help"][..], &["--full", "-h", "-"], &["month", "--help"]] {
        assert_eq!(show(words, &[]), (Some(0), usage.to_string(), String::new()));
    }
    let wrong: [&[&str]; 9] = [
        &[],
        &["--fast", "-"],
        &["-", "-"],
        &["--html"],
        &["--csv", "a", "-"],
        &["month"],
        &["month", "--fast", "-"],
        &["month", "--html"],
        &["month", "--csv"],
    ];
    for words in wrong {
        assert_eq!(show(words, &[]), (Some(2), String::new(), usage.to_string()));
    }
}

#[test]
fn what_cannot_be_read_is_told() {
    let (status, printed, told) = show(&[env!("CARGO_TARGET_TMPDIR")], &[]);
    assert_eq!((status, &printed[..]), (Some(2), ""));
    assert!(told.starts_with("show: ") && told.contains("irectory"), "{told}");
    let told = "show: - is empty: it has to hold 88 bytes of names, then a pack\n";
    assert_eq!(show(&["-"], &[]), (Some(2), String::new(), told.to_string()));
}

#[test]
fn a_refusal_has_number_place_and_words() {
    let told = |words: &str| {
        let next = "docs/FORMAT.md tells byte by byte what names and packs are";
        (Some(1), String::new(), format!("show: -: {words}\nshow: {next}\n"))
    };
    let names = "refusal 1, place 0: the names are not 88 bytes";
    assert_eq!(show(&["-"], &[0; 87]), told(names));
    let mut input = sample("bin");
    input[88] = 2;
    let flag = "it ends inside a row, or a flag is neither 0 nor 1";
    let words = format!("refusal 4, place 0 (section of keys): {flag}");
    assert_eq!(show(&["-"], &input), told(&words));
    assert_eq!(show(&["-"], &stray()), told(STRAY));
    let page = Path::new(env!("CARGO_TARGET_TMPDIR")).join("refused.html");
    let asked = ["--html", page.to_str().unwrap(), "-"];
    for (input, words) in [(input, &words[..]), (stray(), STRAY)] {
        assert_eq!(show(&asked, &input), told(words));
        assert!(fs::read_to_string(&page).unwrap().contains(words));
    }
}

#[test]
fn a_pack_without_names_is_told() {
    for pack in [sample("bin").split_off(88), Pack::default().write().unwrap()] {
        let (status, printed, told) = show(&["-"], &pack);
        assert_eq!((status, &printed[..]), (Some(1), ""));
        let mut lines = told.lines();
        assert!(lines.next().is_some_and(|line| line.starts_with("show: -: refusal ")), "{told}");
        assert!(
            lines.next().is_some_and(|line| line.contains("is a pack without names")),
            "{told}"
        );
    }
}

#[test]
fn a_closed_pipe_is_no_error() {
    let mut child = start(&["-"]);
    drop(child.stdout.take());
    assert_eq!(finish(child, &sample("bin")), (Some(0), String::new(), String::new()));
}

/// A new folder with these files, and its name.
fn folder(name: &str, files: &[(&str, &[u8])]) -> String {
    let folder = Path::new(env!("CARGO_TARGET_TMPDIR")).join(name);
    let _ = fs::remove_dir_all(&folder);
    fs::create_dir_all(&folder).unwrap();
    for (file, bytes) in files {
        fs::write(folder.join(file), bytes).unwrap();
    }
    folder.to_str().unwrap().to_string()
}

/// A month with the sample so many times.
fn samples(packs: usize, left_out: &[(&str, &str)]) -> Ledger {
    let mut count = Count::default();
    let input = sample("bin");
    let (names, pack) = input.split_at(88);
    for _ in 0..packs {
        count.add(names, pack).unwrap();
    }
    let left =
        |(file, why): &(&str, &str)| LeftOut { file: file.to_string(), why: why.to_string() };
    count.close(left_out.iter().map(left).collect()).unwrap()
}

#[test]
fn the_month_of_the_sample() {
    let expected = "\
month of 1 pack: 6 transfers, 3 mints, 6 accounts
Amounts are in each mint's smallest unit. \
A transfer whose fee is unknown or above its amount is counted apart, and is in no sum.

Mints
  mint                debits        credits  fees  transfers  counted apart  marks
  wrapped SOL  2,857,581,789  2,857,581,789     0          3              0  3 recorded
  2ud8..DFZ9               0              0     0          2              2  2 recorded
  DekE..o2tW     900,000,000    900,000,000     0          1              0  1 recorded
  all mints    3,757,581,789  3,757,581,789     0          6              2  6 recorded

Accounts
  mint         account            debits        credits  fees
  wrapped SOL  2duM..VVLH  1,203,456,789              0     0
  wrapped SOL  7uy3..bTqE              0      4,125,000     0
  wrapped SOL  DCPA..mdSq              0  1,650,000,000     0
  wrapped SOL  J3z6..xxN6  1,654,125,000  1,203,456,789     0
  DekE..o2tW   6Nj8..GxU3    900,000,000              0     0
  DekE..o2tW   D5yx..SSF4              0    900,000,000     0
";
    let file = format!("{SAMPLE}.bin");
    assert_eq!(show(&["month", &file], &[]), (Some(0), expected.to_string(), String::new()));
    let full = text(&samples(1, &[]), Keys::Full);
    assert_eq!(show(&["month", &file, "--full"], &[]), (Some(0), full, String::new()));
}

#[test]
fn a_month_is_written() {
    let input = sample("bin");
    let packs = folder("written", &[("1", &input), ("2", &input)]);
    let made = folder("made", &[]);
    let (values, written) = (format!("{made}/totals.csv"), format!("{made}/may.html"));
    let silent = (Some(0), String::new(), String::new());
    assert_eq!(show(&["month", "--csv", &values, "--html", &written, &packs], &[]), silent);
    assert_eq!(fs::read_to_string(&values).unwrap(), csv(&samples(2, &[])));
    let expected = page("may", &samples(2, &[]), Keys::Short);
    assert_eq!(fs::read_to_string(&written).unwrap(), expected);
    assert_eq!(show(&["month", "--full", "--html", &written, &packs], &[]), silent);
    let expected = page("may", &samples(2, &[]), Keys::Full);
    assert_eq!(fs::read_to_string(&written).unwrap(), expected);
    let nowhere = format!("{made}/nothing/totals.csv");
    let (status, printed, told) = show(&["month", "--csv", &nowhere, &packs], &[]);
    assert_eq!((status, &printed[..]), (Some(2), ""));
    assert!(told.starts_with(&format!("show: {nowhere}: ")), "{told}");
}

#[test]
fn a_folder_and_a_list_stand_for_files() {
    let input = sample("bin");
    let packs = folder("packs", &[("1", &input), ("2", &input), (".hidden", b"no pack")]);
    let expected = |packs| (Some(0), text(&samples(packs, &[]), Keys::Short), String::new());
    assert_eq!(show(&["month", &packs], &[]), expected(2));
    let list = format!("{packs}/2\n{SAMPLE}.bin\r\n{packs}/1\n");
    assert_eq!(show(&["month", "-"], list.as_bytes()), expected(3));
    let list = format!("{packs}\n");
    assert_eq!(show(&["month", &format!("{SAMPLE}.bin"), "-"], list.as_bytes()), expected(3));
    let (status, printed, told) = show(&["month", &packs, &format!("{packs}/1")], &[]);
    assert_eq!((status, printed), (Some(0), expected(2).1));
    assert_eq!(told, format!("show: {packs}/1 is named more than once, and counted once\n"));
}

#[test]
fn files_that_are_not_there_are_told() {
    let empty = folder("empty", &[]);
    let nothing = format!("{empty}/nothing");
    let cases: [(&[&str], &str, &str); 4] = [
        (&["month", &format!("{SAMPLE}.bin"), &nothing], "", &nothing),
        (&["month", "-"], &nothing, &nothing),
        (&["month", "-"], "", "the list on standard input is empty"),
        (&["month", &empty], "", "is a folder without files"),
    ];
    for (words, list, expected) in cases {
        let (status, printed, told) = show(words, list.as_bytes());
        assert_eq!((status, &printed[..]), (Some(2), ""), "{words:?}");
        assert!(told.starts_with("show: ") && told.contains(expected), "{told}");
    }
}

#[test]
fn refused_packs_are_named_and_not_counted() {
    let input = sample("bin");
    let mut spoiled = input.clone();
    spoiled[88] = 2;
    let long = [&input[..], &[0; 70_000]].concat();
    let files: [(&str, &[u8]); 7] = [
        ("1", &input),
        ("2", &spoiled),
        ("3", &[]),
        ("4", &input[88..]),
        ("5", &input),
        ("6", &long),
        ("8", &stray()),
    ];
    let packs = folder("spoiled", &files);
    fs::create_dir(format!("{packs}/7")).unwrap();
    let size = "the pack is shorter than 24 or longer than 61,440 bytes, or does not end in RTP1";
    let flag = "it ends inside a row, or a flag is neither 0 nor 1";
    let expected = [
        ("2", format!("refusal 4, place 0 (section of keys): {flag}")),
        ("3", "refusal 1, place 0: the names are not 88 bytes".to_string()),
        ("4", "refusal 3, place 0: ".to_string()),
        ("6", format!("refusal 2, place 0: {size}")),
        ("7", "Is a directory".to_string()),
        ("8", STRAY.to_string()),
    ];
    let (status, printed, told) = show(&["month", &packs], &[]);
    assert_eq!(status, Some(1));
    assert_eq!(told.lines().count(), expected.len(), "{told}");
    let mut left_out = Vec::new();
    for (line, (file, why)) in told.lines().zip(expected) {
        let start = format!("show: {packs}/{file}: {why}");
        assert!(line.starts_with(&start), "{line}");
        left_out.push(line.trim_start_matches("show: ").split_once(": ").unwrap());
    }
    assert!(told
        .lines()
        .nth(2)
        .unwrap()
        .ends_with("; it is a pack without names, which have to stand before it"));
    let ledger = samples(2, &left_out);
    assert_eq!(printed, text(&ledger, Keys::Short));
    assert_eq!(printed.lines().nth(1), Some("6 of 8 files are not counted"));
    let made = folder("made of spoiled", &[]);
    let (values, written) = (format!("{made}/totals.csv"), format!("{made}/may.html"));
    let words = ["month", "--csv", &values, "--html", &written, &packs];
    assert_eq!(show(&words, &[]), (Some(1), String::new(), told));
    assert_eq!(fs::read_to_string(values).unwrap(), csv(&ledger));
    assert_eq!(fs::read_to_string(written).unwrap(), page("may", &ledger, Keys::Short));
}

/// No more is read of a file than tells whether it is too long.
#[test]
fn the_longest_pack_is_counted_and_none_longer() {
    let long = Instruction { data: vec![0; MAX_BYTES - 32], ..Instruction::default() };
    let pack = Pack { outer: vec![long], ..Pack::default() }.write().unwrap();
    assert_eq!(pack.len(), MAX_BYTES);
    let longest = [&sample("bin")[..88], &pack].concat();
    let longer = [&longest[..], &[0]].concat();
    let packs = folder("long", &[("1", &longest), ("2", &longer)]);
    let (status, printed, told) = show(&["month", &packs], &[]);
    assert_eq!(status, Some(1));
    assert!(printed.starts_with("month of 1 pack: 0 transfers, "), "{printed}");
    assert!(told.starts_with(&format!("show: {packs}/2: refusal 2, place 0: ")), "{told}");
}

/// Where the name to write is left out, the first pack stands in its place.
#[test]
fn no_pack_is_written_over() {
    let input = sample("bin");
    let packs = folder("kept", &[("1", &input), ("2", &input)]);
    let [one, two] = ["1", "2"].map(|file| format!("{packs}/{file}"));
    for words in [
        &["month", "--csv", &one, &two][..],
        &["month", "--html", &one, &two],
        &["--html", &one, &two],
    ] {
        let told = format!("show: {one} is a pack, and is not written over\n");
        assert_eq!(show(words, &[]), (Some(2), String::new(), told));
        assert_eq!(fs::read(&one).unwrap(), input);
    }
}

/// The first pack comes late, through a pipe. Of months that are not slow the other tests know that
/// nothing is said.
#[test]
fn a_slow_month_says_how_far_it_is() {
    let slow = folder("slow", &[("1", &sample("bin")), ("2", &sample("bin"))]);
    let pipe = format!("{slow}/0");
    assert!(Command::new("mkfifo").arg(&pipe).status().unwrap().success());
    let child = start(&["month", &slow]);
    // Opens when the command reads it.
    let mut late = fs::OpenOptions::new().write(true).open(&pipe).unwrap();
    thread::sleep(Duration::from_secs(1));
    late.write_all(&sample("bin")).unwrap();
    drop(late);
    let (status, printed, told) = finish(child, &[]);
    assert_eq!((status, printed), (Some(0), text(&samples(3, &[]), Keys::Short)));
    assert!(told.starts_with("show: 1 of 3 packs done\n"), "{told}");
}
