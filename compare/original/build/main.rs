//! Assembles the original out of its source folder: transaction_route.rs as it stands, followed by
//! the harness, and beside it the few items that it uses of other files. A second, mutated copy
//! carries the deliberate breaks of `mutants.rs`, each behind a switch.

mod mutants;
mod text;

use mutants::{Mutant, MUTANTS};
use std::path::{Path, PathBuf};
use std::{env, fs};
use text::{constant, item, only_once};

/// Constants whose values are lent: file and constant.
const LENT: [(&str, &str); 3] = [
    ("instr/raydium_cpmm.rs", "SWAP_BASE_IN"),
    ("instr/raydium_cpmm.rs", "SWAP_BASE_OUT"),
    ("instr/pump_amm.rs", "BUY"),
];

/// Lent platform configs of core/events/types.rs.
const CONFIGS: [&str; 2] = ["STONKFUN_STANDARD_PLATFORM_CONFIG", "STONKFUN_REWARD_PLATFORM_CONFIG"];

fn main() {
    let source = Source::find();
    let out = PathBuf::from(env::var_os("OUT_DIR").expect("cargo sets OUT_DIR"));
    let harness = fs::read_to_string("harness.rs").expect("harness.rs stands beside build/");
    println!("cargo:rerun-if-changed=harness.rs");
    println!("cargo:rerun-if-changed=build");

    let route = source.read("transaction_route.rs");
    let others = source.others();
    let assembled = out.join("transaction_route.rs");
    write(&assembled, &format!("{route}\n{harness}"));

    let mut pieces = [in_mutated(&route), in_mutated(&others)];
    for (number, mutant) in MUTANTS.iter().enumerate() {
        switch(&mut pieces, number, mutant);
    }
    let [mutated_route, mutated_others] = pieces;
    let mutated = out.join("mutated_route.rs");
    write(&mutated, &format!("{mutated_route}\n{harness}"));

    let names: Vec<_> = MUTANTS.iter().map(|mutant| mutant.name).collect();
    let root = format!(
        "{others}\n{}\n{}\n#[allow(warnings)]\npub mod mutated {{\n{mutated_others}\n{}\n}}\n\
         /// The source folder that this was assembled from.\npub const SOURCE: &str = {:?};\n\
         /// The deliberate breaks, by name.\npub const MUTANTS: [&str; {}] = {names:?};\n",
        source.real_names(),
        module(&assembled),
        module(&mutated),
        source.0,
        names.len()
    );
    write(&out.join("assembled.rs"), &root);
}

fn write(path: &Path, text: &str) {
    fs::write(path, text).unwrap_or_else(|error| panic!("{}: {error}", path.display()));
}

/// The module made of an assembled file. The original is read as it is: no lint speaks about it.
fn module(path: &Path) -> String {
    format!("#[allow(warnings)]\n#[path = {path:?}]\npub mod transaction_route;")
}

/// The same text, with the paths of the mutated copy.
fn in_mutated(text: &str) -> String {
    text.replace("crate::instr", "crate::mutated::instr")
        .replace("crate::core", "crate::mutated::core")
}

/// Puts one break into the mutated copy, behind its switch.
fn switch(pieces: &mut [String], number: usize, mutant: &Mutant) {
    only_once(mutant.place, mutant.right);
    let found: Vec<_> = (0..pieces.len()).filter(|&k| pieces[k].contains(mutant.place)).collect();
    let &[piece] = &found[..] else {
        panic!("{}: {} pieces hold its place", mutant.name, found.len());
    };
    only_once(&pieces[piece], mutant.place);
    let choice = format!(
        "(if crate::switch::broken({number}) {{ {} }} else {{ {} }})",
        mutant.wrong, mutant.right
    );
    let broken = mutant.place.replace(mutant.right, &choice);
    pieces[piece] = pieces[piece].replace(mutant.place, &broken);
}

/// The source folder of the original.
struct Source(PathBuf);

impl Source {
    fn find() -> Self {
        println!("cargo:rerun-if-env-changed=MBELAGUY_RUST_SRC");
        let folder = env::var_os("MBELAGUY_RUST_SRC")
            .map(PathBuf::from)
            .unwrap_or_else(|| PathBuf::from("../../../shared/docs/src"));
        match folder.canonicalize() {
            Ok(folder) => Source(folder),
            Err(error) => panic!(
                "no source of the original at {}: {error}; name its folder in MBELAGUY_RUST_SRC",
                folder.display()
            ),
        }
    }

    fn read(&self, file: &str) -> String {
        let path = self.0.join(file);
        println!("cargo:rerun-if-changed={}", path.display());
        fs::read_to_string(&path).unwrap_or_else(|error| panic!("{}: {error}", path.display()))
    }

    /// What transaction_route.rs uses of the other files: program ids, discriminators, readers, modes.
    fn others(&self) -> String {
        let utils = self.read("instr/utils.rs");
        let dlmm = self.read("instr/meteora_dlmm.rs");
        self.read("instr/program_ids.rs");
        format!(
            "pub mod instr {{\n\
             #[path = {:?}]\npub mod program_ids;\n\
             pub use utils::read_pubkey_fast;\n\
             pub mod utils {{\nuse solana_sdk::pubkey::Pubkey;\n{}\n{}\n}}\n\
             pub mod meteora_dlmm {{\n{}\n{}\n}}\n\
             pub mod pump {{\n{}\n}}\n\
             pub mod raydium_launchlab {{\n{}\n}}\n\
             pub mod raydium_cpmm {{\n{}\n}}\n\
             pub mod pump_amm {{\n{}\n}}\n\
             }}\n\
             pub mod core {{\npub mod events {{\nuse solana_sdk::pubkey::Pubkey;\n{}\n}}\n}}\n",
            self.0.join("instr/program_ids.rs"),
            item(&utils, "pub fn read_option_bool_idl("),
            item(&utils, "pub fn read_pubkey_fast("),
            item(&dlmm, "pub mod discriminators "),
            item(&dlmm, "pub(crate) fn validate_swap_layout("),
            self.discriminators("instr/pump.rs"),
            self.discriminators("instr/raydium_launchlab.rs"),
            self.discriminators("instr/raydium_cpmm.rs"),
            self.discriminators("instr/pump_amm.rs"),
            self.modes(),
        )
    }

    /// A file's discriminators, the lent ones pointing at the names lent for the run.
    fn discriminators(&self, file: &str) -> String {
        let mut found = item(&self.read(file), "pub mod discriminators ");
        for (_, name) in LENT.iter().filter(|lent| lent.0 == file) {
            let lent = format!("pub const {name}: crate::names::Name = crate::names::{name};");
            found = found.replace(&constant(&found, name), &lent);
        }
        found
    }

    /// The mode of a platform config: the source's match, its two patterns made guards, as a pattern
    /// cannot look at a lent value.
    fn modes(&self) -> String {
        let types = self.read("core/events/types.rs");
        let mut function = item(&types, "pub fn stonkfun_mode_from_platform_config(");
        for name in CONFIGS {
            only_once(&function, name);
            let guard = format!("config if config.0 == crate::names::{name}[..]");
            function = function.replace(name, &guard);
        }
        format!(
            "#[derive(Debug, Clone, Copy, PartialEq, Eq)]\n{}\n{function}",
            item(&types, "pub enum StonkFunMode ")
        )
    }

    /// The values that the source itself gives to the lent constants.
    fn real_names(&self) -> String {
        let mut text = String::from(
            "pub mod real {\nuse solana_sdk::pubkey;\nuse solana_sdk::pubkey::Pubkey;\n",
        );
        for (file, name) in LENT {
            let discriminators = item(&self.read(file), "pub mod discriminators ");
            text += &constant(&discriminators, name);
            text += "\n";
        }
        let types = self.read("core/events/types.rs");
        for name in CONFIGS {
            text += &constant(&types, name);
            text += "\n";
        }
        text + "}\n"
    }
}
