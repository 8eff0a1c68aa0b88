//! The deliberate breaks, each of which the comparison has to notice: those of the original, and those
//! of the reasons, in a copy that stands here.

use mbelaguy::pack::{Instruction, KeyRow};
use original::switch::choose;

/// A deliberate break, by its number among those of the same thing.
#[derive(Clone, Copy, Debug)]
pub enum Break {
    Original(usize),
    Reason(usize),
}

#[allow(warnings)]
mod copy {
    include!(concat!(env!("OUT_DIR"), "/broken_reason.rs"));
}

/// All of them, with their names.
pub fn breaks() -> impl Iterator<Item = (&'static str, Break)> {
    let of_original = original::MUTANTS.into_iter().zip((0..).map(Break::Original));
    let of_reason = copy::BREAKS.into_iter().zip((0..).map(Break::Reason));
    of_original.chain(of_reason)
}

/// The reason of an instruction with one of the breaks, or with none.
pub fn reason(broken: Option<usize>, keys: &[KeyRow], instruction: &Instruction) -> u8 {
    choose(broken);
    copy::reason(keys, instruction)
}
