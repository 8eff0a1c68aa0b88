//! `./show` and `./routes`: what is wrong with the arguments is told before anything is made, and a
//! first call says where it is.

use std::fs;
use std::path::{Path, PathBuf};
use std::process::{Command, Stdio};

const ROOT: &str = concat!(env!("CARGO_MANIFEST_DIR"), "/../..");

/// A script's exit status and what it writes, where `cargo` and `rt` only leave word that they were
/// called. Nobody calls them.
fn told(script: &str, words: &[&str]) -> (Option<i32>, String, String) {
    let called = folder().join("called");
    fs::create_dir_all(folder()).unwrap();
    let word = format!("touch '{}'; exit 1", called.display());
    let told = run(script, words, &[("cargo", &word), ("rt", &word)]);
    assert!(!called.exists(), "{script} {words:?} called cargo or rt");
    told
}

/// A script's exit status and what it writes, where some commands are these lines: functions that bash
/// takes over from its caller.
fn run(script: &str, words: &[&str], commands: &[(&str, &str)]) -> (Option<i32>, String, String) {
    let functions = commands
        .iter()
        .map(|(name, lines)| (format!("BASH_FUNC_{name}%%"), format!("() {{ {lines}\n}}")));
    let mut command = Command::new(format!("{ROOT}/{script}"));
    command.args(words).current_dir(ROOT).envs(functions).stdin(Stdio::null());
    let output = command.output().unwrap();
    let text = |bytes| String::from_utf8(bytes).unwrap();
    (output.status.code(), text(output.stdout), text(output.stderr))
}

fn folder() -> PathBuf {
    Path::new(env!("CARGO_TARGET_TMPDIR")).join("scripts")
}

#[test]
fn a_first_call_says_where_it_is() {
    let begun = "echo 'rt: chose --jobs 2 for wire'; echo 'library wire: modules'; \
                 echo 'rt: chose --jobs 1 for ids'; echo 'rt: chose --jobs 4 for pack'";
    let rt = [("rt", begun)];
    let (status, printed, said) = run(".ci/prove", &["pack"], &rt);
    assert_eq!((status, &printed[..]), (Some(0), ""));
    let expected = [
        "prove: pack rests on 2 crates",
        "prove: crate 1 of 3: wire (",
        "prove: crate 2 of 3: ids (",
        "prove: crate 3 of 3: pack (",
    ];
    assert_eq!(said.lines().count(), expected.len(), "{said}");
    for (line, expected) in said.lines().zip(expected) {
        assert!(line.starts_with(expected) && line.contains(" s elsewhere"), "{line}");
    }
    let rt = [("rt", &format!("{begun}; echo 'fn pack::judge: not proved'; exit 1")[..])];
    let (status, _, said) = run(".ci/prove", &["pack"], &rt);
    assert_eq!(status, Some(1));
    let told = "\nfn pack::judge: not proved\nprove: `rt check` in crates/pack failed with status 1;";
    assert!(said.contains(told), "{said}");
}

#[test]
fn help_is_answered() {
    let usage = include_str!("../src/usage.txt").to_string();
    assert_eq!(told("show", &["--help"]), (Some(0), usage.clone(), String::new()));
    assert_eq!(told("show", &["month", "--help"]), (Some(0), usage, String::new()));
    let (status, printed, wrong) = told("routes", &["--help"]);
    assert_eq!((status, &wrong[..]), (Some(0), ""));
    assert!(printed.starts_with("usage: routes [FILE]\n"));
}

#[test]
fn wrong_arguments_are_told_at_once() {
    fs::create_dir_all(folder()).unwrap();
    let empty = folder().join("empty");
    fs::write(&empty, "").unwrap();
    let empty = empty.to_str().unwrap();
    let cases: [(&str, &[&str], &str); 18] = [
        ("show", &[], "needs a file with names and a pack"),
        ("show", &["--fast", "examples/aggregator_swap.bin"], "no option --fast"),
        ("show", &["one", "two"], "shows one file"),
        ("show", &["--html"], "--html needs the name of a page"),
        ("show", &["nothing"], "there is no file nothing"),
        ("show", &["examples"], "examples is a folder"),
        ("show", &[empty], "is empty"),
        ("show", &["--csv", "totals.csv", "one"], "--csv writes the totals of many packs"),
        ("show", &["month"], "needs a file with names and a pack, as ./show month "),
        ("show", &["month", "--full"], "needs a file with names and a pack"),
        ("show", &["month", "--fast", "examples"], "no option --fast"),
        ("show", &["month", "--csv"], "--csv needs the name of a file"),
        ("show", &["month", "--csv", "examples", "examples"], "--csv needs the name of a file"),
        ("show", &["month", "--html", "examples", "examples"], "--html needs the name of a page"),
        ("show", &["month", "examples", "nothing"], "there is no file nothing"),
        ("routes", &["nothing"], "there is no file nothing"),
        ("routes", &["examples"], "examples is a folder"),
        ("routes", &["one", "two"], "lists one file"),
    ];
    for (script, words, expected) in cases {
        let (status, printed, wrong) = told(script, words);
        assert_eq!((status, &printed[..]), (Some(2), ""), "{script} {words:?}");
        assert!(wrong.starts_with(&format!("{script}: ")) && wrong.contains(expected), "{wrong}");
    }
}

/// Where the program was made; else there is nothing to try.
#[test]
fn a_refusal_is_listed_with_status_1() {
    let found = Command::new("rt").arg("version").output().is_ok();
    if !found || !Path::new(ROOT).join("crates/routes/out/routes").exists() {
        println!("routes is not built here: its listing was not tried");
        return;
    }
    let routes = |input: &str| {
        let input = fs::File::open(input).unwrap();
        let output = Command::new(format!("{ROOT}/routes")).stdin(input).output().unwrap();
        (output.status.code(), String::from_utf8(output.stdout).unwrap())
    };
    assert_eq!(routes("/dev/null"), (Some(1), "refused 1 0\n".to_string()));
    let sample = format!("{ROOT}/examples/aggregator_swap");
    let listing = fs::read_to_string(format!("{sample}.listing")).unwrap();
    assert_eq!(routes(&format!("{sample}.bin")), (Some(0), listing));
}
