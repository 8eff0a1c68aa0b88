//! Prints the fourteen ids as hex digits, decoded by the constants of the original; `ids.py` does the
//! same without it.

fn main() {
    print!("{}", compare::checks::ids::lines());
}
