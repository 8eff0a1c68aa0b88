//! The header compiles by itself as C and as C++, and what it says of a refusal or a reason is what the
//! crate says. Where there is no compiler, nothing is compared.

use mbelaguy::rows::Reason;
use mbelaguy::Refusal;
use std::io::ErrorKind;
use std::path::Path;
use std::process::Command;
use std::{fs, str};

const PROGRAM: &str = r#"
#include "mbelaguy.h"
#include <stdio.h>

int main(void)
{
    for (uint32_t number = 0; number < 30; number++)
        for (uint32_t place = 0; place < 7; place++)
            printf("%u %u %s\n", (unsigned)number, (unsigned)place, mbelaguy_refusal(number, place));
    for (unsigned reason = 0; reason < 256; reason++)
        printf("%u %s\n", reason, mbelaguy_reason((uint8_t)reason));
    return 0;
}
"#;

#[test]
fn words_in_c_are_those_of_the_crate() {
    compare("cc", &["-std=c99", "-x", "c"]);
}

#[test]
fn words_in_cpp_are_those_of_the_crate() {
    compare("c++", &["-std=c++11", "-x", "c++"]);
}

fn compare(compiler: &str, language: &[&str]) {
    let folder = Path::new(env!("CARGO_TARGET_TMPDIR"));
    let [source, program] =
        ["source", "program"].map(|name| folder.join(format!("{compiler}_{name}")));
    fs::write(&source, PROGRAM).unwrap();
    let mut compile = Command::new(compiler);
    compile.args(["-Wall", "-Wextra", "-Werror", "-pedantic", "-I"]);
    compile.arg(concat!(env!("CARGO_MANIFEST_DIR"), "/../c")).arg("-o").arg(&program);
    match compile.args(language).arg(&source).output() {
        Err(error) if error.kind() == ErrorKind::NotFound => {
            println!("no {compiler} here: the header's words were not tried");
            return;
        }
        output => {
            let output = output.unwrap();
            assert!(output.status.success(), "{}", String::from_utf8_lossy(&output.stderr));
        }
    }
    let printed = Command::new(program).output().unwrap().stdout;
    let mut lines = str::from_utf8(&printed).unwrap().lines();
    for number in 0..30 {
        for place in 0..7 {
            let words = match Refusal::of(number, place) {
                _ if number == 0 => "nothing is refused",
                // Most refusals have one place, and their words do without it.
                Refusal::Unknown { number: 1..=3 | 5..=7 | 9..=10 | 19..=20, .. } => {
                    Refusal::of(number, 0).words()
                }
                Refusal::Unknown { number: 11, .. } => Refusal::Balances.words(),
                refusal => refusal.words(),
            };
            assert_eq!(lines.next(), Some(&format!("{number} {place} {words}")[..]));
        }
    }
    for number in 0..=u8::MAX {
        let words = match Reason::of(number) {
            _ if number == 0 => "it gave a transfer".to_string(),
            Some(reason) => reason.to_string(),
            None => "not known here; the library is of another release".to_string(),
        };
        assert_eq!(lines.next(), Some(&format!("{number} {words}")[..]));
    }
}
