//! Links libmbelaguy.a, which `./library TARGET` makes in the repository's target/library/TARGET.
//! MBELAGUY_LIB_DIR names another folder.

use std::path::{Path, PathBuf};
use std::{env, fs, process};

const MAKE: &str = "make it with `./library` in the repository's root (`./library --list` prints its \
                    targets), or name its folder in MBELAGUY_LIB_DIR; without the feature `link` the \
                    crate needs no library";

fn main() {
    println!("cargo:rerun-if-env-changed=MBELAGUY_LIB_DIR");
    println!("cargo:rerun-if-changed=build.rs");
    if env::var_os("CARGO_FEATURE_LINK").is_none() {
        return;
    }
    let folder = folder();
    let library = folder.join("libmbelaguy.a");
    println!("cargo:rerun-if-changed={}", library.display());
    let bytes = fs::read(&library)
        .unwrap_or_else(|error| fail(&format!("{}: {error}; {MAKE}", library.display())));
    check_machine(&library, &bytes);
    println!("cargo:rustc-link-search=native={}", folder.display());
    println!("cargo:rustc-link-lib=static=mbelaguy");
}

fn folder() -> PathBuf {
    match env::var_os("MBELAGUY_LIB_DIR") {
        Some(folder) => PathBuf::from(folder),
        None => {
            let root = Path::new(env!("CARGO_MANIFEST_DIR")).ancestors().nth(2);
            root.unwrap_or(Path::new("/")).join("target/library").join(target())
        }
    }
}

/// What `./library` calls the target that cargo builds for.
fn target() -> String {
    let of = |name: &str| env::var(format!("CARGO_CFG_TARGET_{name}")).unwrap_or_default();
    match (of("ARCH").as_str(), of("OS").as_str(), of("ABI").as_str()) {
        ("wasm32", _, _) => "wasm32".into(),
        ("aarch64", "ios", "sim") => "arm64-ios-simulator".into(),
        ("aarch64", "ios", _) => "arm64-ios".into(),
        (machine, system, _) => format!("{machine}-{system}"),
    }
}

/// The library holds code for one kind of machine. Where the build is for another one, say so here:
/// the linker's own words would not help.
fn check_machine(library: &Path, bytes: &[u8]) {
    let target = env::var("CARGO_CFG_TARGET_ARCH").unwrap_or_default();
    match machine(bytes) {
        Some(machine) if machine != target => fail(&format!(
            "{} is for {machine}, and this build is for {target}: build for {machine} with cargo's \
             --target",
            library.display()
        )),
        _ => {}
    }
}

/// Which machine the first object file of an archive is for, if it is one of the two known here.
fn machine(archive: &[u8]) -> Option<&'static str> {
    let object = archive.windows(20).find(|window| window.starts_with(b"\x7fELF"))?;
    match u16::from_le_bytes([object[18], object[19]]) {
        62 => Some("x86_64"),
        183 => Some("aarch64"),
        _ => None,
    }
}

fn fail(message: &str) -> ! {
    eprintln!("mbelaguy: {message}");
    process::exit(1)
}
