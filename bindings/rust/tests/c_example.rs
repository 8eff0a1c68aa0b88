//! The C example compiles without a warning and prints what the Rust example prints. Where there is no
//! C compiler, nothing is compared.

use std::env;
use std::io::ErrorKind;
use std::path::{Path, PathBuf};
use std::process::{Command, Output};

const C: &str = concat!(env!("CARGO_MANIFEST_DIR"), "/../c");

#[test]
fn prints_the_same() {
    let Some(program) = compile() else {
        println!("no C compiler here: the C example was not tried");
        return;
    };
    let c = text(Command::new(program).output().unwrap());
    let mut rust = Command::new(env!("CARGO"));
    rust.args(["run", "--quiet", "--offline", "--example", "route"]);
    let rust = text(rust.current_dir(env!("CARGO_MANIFEST_DIR")).output().unwrap());
    assert!(c.starts_with("pack: 592 bytes\n"));
    assert_eq!(c, rust);
}

/// The compiled example, or none where `cc` is not installed.
fn compile() -> Option<PathBuf> {
    let library = env::var_os("MBELAGUY_LIB_DIR").map_or_else(
        || {
            let made = Path::new(env!("CARGO_MANIFEST_DIR")).join("../../target/library");
            made.join(format!("{}-{}", env::consts::ARCH, env::consts::OS))
        },
        PathBuf::from,
    );
    let program = Path::new(env!("CARGO_TARGET_TMPDIR")).join("example");
    let mut cc = Command::new("cc");
    cc.args(["-Wall", "-Wextra", "-Werror", "-pedantic", "-std=c99", "-I", C, "-o"]);
    cc.arg(&program).arg(format!("{C}/example.c")).arg(library.join("libmbelaguy.a"));
    match cc.output() {
        Err(error) if error.kind() == ErrorKind::NotFound => None,
        output => {
            text(output.unwrap());
            Some(program)
        }
    }
}

/// What a command printed, if it succeeded.
fn text(output: Output) -> String {
    assert!(output.status.success(), "{}", String::from_utf8_lossy(&output.stderr));
    String::from_utf8(output.stdout).unwrap()
}
