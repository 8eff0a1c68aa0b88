//! Table lengths around the rows that are needed.

use super::rng::Rng;
use crate::listing::ROOM;
use mbelaguy::WIDTHS;

#[derive(Clone, Copy, Debug)]
pub enum Room {
    /// As many rows as needed, and so many bytes more in each table.
    More([usize; 5]),
    /// One table, of those that need a row, lacks so many bytes; the others fit exactly.
    Less { table: usize, bytes: usize },
    /// What the program `routes` lends.
    Routes,
    /// Lengths that have nothing to do with the pack.
    Fixed([usize; 5]),
}

impl Room {
    pub fn any(rng: &mut Rng) -> Self {
        match rng.below(20) {
            0..=4 => Room::More([0; 5]),
            5..=13 => Room::More(std::array::from_fn(|_| rng.below(700))),
            14..=16 => Room::Less { table: rng.below(5), bytes: 1 + rng.below(300) },
            17 => Room::Routes,
            18 => Room::Fixed([0; 5]),
            _ => Room::Fixed(std::array::from_fn(|_| rng.below(3_000))),
        }
    }

    pub fn lengths(self, needs: &[usize; 5]) -> [usize; 5] {
        let exact: [usize; 5] = std::array::from_fn(|t| needs[t] * WIDTHS[t]);
        match self {
            Room::More(more) => std::array::from_fn(|t| exact[t] + more[t]),
            Room::Less { table, bytes } => {
                let needing: Vec<_> = (0..5).filter(|&t| needs[t] > 0).collect();
                let mut lengths = exact;
                if !needing.is_empty() {
                    let short = needing[table % needing.len()];
                    lengths[short] = exact[short].saturating_sub(bytes);
                }
                lengths
            }
            Room::Routes => std::array::from_fn(|t| ROOM[t] * WIDTHS[t]),
            Room::Fixed(lengths) => lengths,
        }
    }
}
