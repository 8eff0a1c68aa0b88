//! Table 1: the invocations in execution order.

use super::{Reason, Row};
use crate::bytes::Reader;
use crate::{Table, Tables};

/// A row of table 1.
#[derive(Clone, Copy, Debug, PartialEq, Eq)]
pub struct Invocation {
    /// Index of the outer instruction.
    pub outer: u32,
    /// Index in its group; none for an outer instruction.
    pub inner: Option<u32>,
    /// Stack height, where the pack tells it.
    pub height: Option<u32>,
    /// The first later invocation that is not below this one, or the number of all.
    pub end: u32,
    /// Token transfers lie below it.
    pub transfers_inside: bool,
    /// Swap legs lie below it.
    pub swaps_inside: bool,
    /// A program that routes pass over: Token, System, Compute Budget, Associated Token, Memo.
    pub skipped: bool,
    /// Its program is a key of 32 bytes.
    pub resolved: bool,
    /// It is a token transfer.
    pub own_transfer: bool,
    /// Its row among the legs.
    pub leg: Option<u32>,
    /// Its parent: the row of the nearest earlier invocation that it lies below.
    pub parent: Option<u32>,
    /// Why it is no token transfer; none where it is one.
    pub reason: Option<Reason>,
}

impl Invocation {
    /// The bit of [`Self::transfers_inside`].
    pub const TRANSFERS_INSIDE: u8 = 1;
    /// The bit of [`Self::swaps_inside`].
    pub const SWAPS_INSIDE: u8 = 2;
    /// The bit of [`Self::skipped`].
    pub const SKIPPED: u8 = 4;
    /// The bit of [`Self::resolved`].
    pub const RESOLVED: u8 = 8;
    /// The bit that says that there is a [`Self::leg`].
    pub const OWN_LEG: u8 = 16;
    /// The bit of [`Self::own_transfer`].
    pub const OWN_TRANSFER: u8 = 32;

    /// The bits as the row has them.
    pub fn bits(&self) -> u8 {
        [
            (self.transfers_inside, Self::TRANSFERS_INSIDE),
            (self.swaps_inside, Self::SWAPS_INSIDE),
            (self.skipped, Self::SKIPPED),
            (self.resolved, Self::RESOLVED),
            (self.leg.is_some(), Self::OWN_LEG),
            (self.own_transfer, Self::OWN_TRANSFER),
        ]
        .into_iter()
        .map(|(is, bit)| u8::from(is) * bit)
        .sum()
    }

    /// The parent as an index into the rows. Of rows that a call left it is always an earlier one, so
    /// that one walk over them draws the tree.
    pub fn parent(&self) -> Option<usize> {
        self.parent.map(|parent| parent as usize)
    }
}

impl Row for Invocation {
    const TABLE: Table = Table::Invocations;

    fn read_fields(reader: &mut Reader<'_>, _: &Tables) -> Option<Self> {
        let outer = reader.u32()?;
        let inner = reader.optional()?.map(u32::from_le_bytes);
        let height = reader.optional()?.map(u32::from_le_bytes);
        let end = reader.u32()?;
        let bits = reader.byte()?;
        let leg = reader.u32()?.checked_sub(1);
        let parent = reader.u32()?.checked_sub(1);
        let reason = match reader.byte()? {
            0 => None,
            number => Some(Reason::of(number)?),
        };
        let invocation = Invocation {
            outer,
            inner,
            height,
            end,
            transfers_inside: bits & Self::TRANSFERS_INSIDE != 0,
            swaps_inside: bits & Self::SWAPS_INSIDE != 0,
            skipped: bits & Self::SKIPPED != 0,
            resolved: bits & Self::RESOLVED != 0,
            own_transfer: bits & Self::OWN_TRANSFER != 0,
            leg,
            parent,
            reason,
        };
        // Also refuses unknown bits, and bits 'own leg' and 'own transfer' that do not go with the leg's
        // number and the reason.
        let sound = invocation.bits() == bits && invocation.own_transfer == reason.is_none();
        sound.then_some(invocation)
    }
}
