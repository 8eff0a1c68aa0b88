//! Generated packs: the oracle answers each of them, and every answer keeps to its invariants.

use super::{invariants, rows, same, Outcome};
use crate::generate::case;
use crate::oracle::{examine_broken, fit};
use crate::stored;
use mbelaguy::{pack, Refusal};
use std::ops::Range;

/// All invariants over the packs of some seeds.
pub fn hold(seeds: Range<u64>) -> Outcome {
    for seed in seeds {
        one(seed).map_err(|wrong| format!("seed {seed}: {wrong}"))?;
    }
    Ok(())
}

fn one(seed: u64) -> Outcome {
    let (case, examined) = case(seed);
    let reply = fit(&examined, &case.lengths);
    if let Ok(examined) = &examined {
        same("written again", examined.pack.write(), Ok(case.pack.clone()))?;
        invariants::examined(examined)?;
        invariants::reasons(examined)?;
        if reply.answer.number == 0 {
            rows::agree(examined, &reply, &case.pack)?;
        }
    }
    if let Err(Refusal::Balances) = examined {
        let written = pack::read(&case.pack).map(|pack| pack.write().is_ok());
        same("written with rows that name no key", written, Ok(false))?;
    }
    invariants::reply(&case, &examined, &reply)?;
    let unbroken = examine_broken(None, &case.names, &case.pack);
    same("copies, nothing switched on", fit(&unbroken, &case.lengths), reply.clone())?;
    let stored = stored::write(&case, &reply);
    same("stored and read", stored::read(&stored), Some((case, reply, &[][..])))
}
