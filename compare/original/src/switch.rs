//! Which deliberate break is on, on this thread: of the copy that is called next, as each call chooses
//! anew.

use std::cell::Cell;

thread_local! {
    static CHOSEN: Cell<Option<usize>> = const { Cell::new(None) };
}

pub fn choose(mutant: Option<usize>) {
    CHOSEN.set(mutant);
}

pub fn broken(mutant: usize) -> bool {
    CHOSEN.get() == Some(mutant)
}
