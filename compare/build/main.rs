//! Makes the broken copies of the month totals and of the reasons: the text of a file with its breaks of
//! `breaks.rs`, each behind a switch.

mod breaks;

use breaks::{Site, MONTH, REASON};
use std::path::PathBuf;
use std::{env, fs};

fn main() {
    println!("cargo:rerun-if-changed=build");
    write_broken("src/month/plain.rs", MONTH, "broken_month.rs");
    write_broken("src/oracle/reason.rs", REASON, "broken_reason.rs");
}

/// Writes the broken copy of a file.
fn write_broken(path: &str, sites: &[Site], copy: &str) {
    println!("cargo:rerun-if-changed={path}");
    let plain = fs::read_to_string(path).expect("the file stands in src");
    // A module's own comment cannot stand in a file that is included.
    let plain = plain.replace("//!", "//");
    let mut names = Vec::new();
    let mut switched: Vec<_> = sites.iter().map(|site| switch(&plain, site, &mut names)).collect();
    // From the last on, so that the others stay where they were found.
    switched.sort_by_key(|(at, ..)| std::cmp::Reverse(*at));
    let mut text = plain.clone();
    for (at, length, choice) in switched {
        text.replace_range(at..at + length, &choice);
    }
    text += &format!("pub const BREAKS: [&str; {}] = {names:?};\n", names.len());
    let out = PathBuf::from(env::var_os("OUT_DIR").expect("cargo sets OUT_DIR"));
    fs::write(out.join(copy), text).expect("OUT_DIR can be written");
}

/// Where a site's right expression stands, how long it is, and the choice between it and the breaks.
fn switch(plain: &str, site: &Site, names: &mut Vec<&'static str>) -> (usize, usize, String) {
    let at = only_once(plain, site.place) + only_once(site.place, site.right);
    let mut choice = "(".to_string();
    for (name, wrong) in site.wrong {
        let on = format!("original::switch::broken({})", names.len());
        choice += &format!("if {on} {{ {wrong} }} else ");
        names.push(name);
    }
    choice += &format!("{{ {} }})", site.right);
    (at, site.right.len(), choice)
}

/// Where the text holds the words. Stops the build unless it does so exactly once.
fn only_once(text: &str, words: &str) -> usize {
    let count = text.matches(words).count();
    assert!(count == 1, "`{words}` stands {count} times");
    text.find(words).expect("found once")
}
