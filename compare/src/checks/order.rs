//! What the order of evidence may change in table 0, and what not.

use super::{hold, invariants, same, Outcome};
use crate::oracle::Examined;
use mbelaguy::{Refusal, WIDTHS};

/// A pack that is not refused, and one with the same evidence in another order.
pub fn same_evidence(one: &Examined, other: &Result<Examined, Refusal>) -> Outcome {
    let other = other.as_ref().map_err(|refusal| format!("in another order: {refusal}"))?;
    invariants::examined(other)?;
    same("room in table 0", other.needs[0], one.needs[0])?;
    hold("the same is recorded", one.mints.recorded == other.mints.recorded)?;
    let accounts = |examined| rows(examined).map(|row| row[..32].to_vec()).collect::<Vec<_>>();
    hold("the same accounts have a mint", accounts(one) == accounts(other))?;
    let marks = |examined| rows(examined).map(|row| row[64]).collect::<Vec<_>>();
    hold("they have the same marks", marks(one) == marks(other))?;
    let kept = rows(one).zip(rows(other)).all(|(row, other)| row[64] == 2 || row == other);
    hold("only a mint in doubt is another one", kept)?;
    let certain = !marks(one).contains(&2);
    hold("without doubt table 0 is the same", !certain || one.rows[0] == other.rows[0])
}

fn rows(examined: &Examined) -> impl Iterator<Item = &[u8]> {
    examined.rows[0].chunks_exact(WIDTHS[0])
}
