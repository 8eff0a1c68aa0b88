//! The five names: constants of the original that are lent with each call.

use crate::base58::literal;
use crate::Key;

/// The values of the five names.
///
/// ```
/// use mbelaguy::Names;
///
/// let names = Names { buy: *b"discrimi", ..Names::ORIGINAL };
/// assert_eq!(names.bytes()[Names::BUY..][..8], *b"discrimi");
/// ```
#[derive(Clone, Copy, Debug, PartialEq, Eq)]
pub struct Names {
    /// Discriminator of CPMM `swap_base_input`.
    pub swap_base_in: [u8; 8],
    /// Discriminator of CPMM `swap_base_output`.
    pub swap_base_out: [u8; 8],
    /// Discriminator of PumpSwap `buy`.
    pub buy: [u8; 8],
    /// StonkFun platform config, standard.
    pub standard: Key,
    /// StonkFun platform config, reward.
    pub reward: Key,
}

impl Names {
    /// Where [`Self::swap_base_in`] starts in the bytes.
    pub const SWAP_BASE_IN: usize = 0;
    /// Where [`Self::swap_base_out`] starts.
    pub const SWAP_BASE_OUT: usize = 8;
    /// Where [`Self::buy`] starts.
    pub const BUY: usize = 16;
    /// Where [`Self::standard`] starts.
    pub const STANDARD: usize = 24;
    /// Where [`Self::reward`] starts.
    pub const REWARD: usize = 56;
    /// How many bytes there are.
    pub const BYTES: usize = 88;

    /// The values that the original has.
    pub const ORIGINAL: Names = Names {
        swap_base_in: 0x8fbe_5ada_c41e_33deu64.to_be_bytes(),
        swap_base_out: 0x37d9_6256_a34a_b4adu64.to_be_bytes(),
        buy: 0x6606_3d12_01da_ebeau64.to_be_bytes(),
        standard: literal("4E876qZTE9FJMrBzgVtBrSrzz2TLivB5Y5QXPjB4gZL7"),
        reward: literal("6BwHHDg3u1854jC8PDLXvR4spTcLNaoBxLJNGC4nTESt"),
    };

    /// The 88 bytes that a call takes.
    pub fn bytes(&self) -> [u8; Names::BYTES] {
        let mut bytes = [0; Names::BYTES];
        for (start, name) in [
            (Self::SWAP_BASE_IN, &self.swap_base_in[..]),
            (Self::SWAP_BASE_OUT, &self.swap_base_out),
            (Self::BUY, &self.buy),
            (Self::STANDARD, &self.standard),
            (Self::REWARD, &self.reward),
        ] {
            bytes[start..start + name.len()].copy_from_slice(name);
        }
        bytes
    }
}
