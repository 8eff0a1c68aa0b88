//! The version, of this crate and of the library.

/// The version of this crate, and of the library that it calls.
pub const VERSION: &str = env!("CARGO_PKG_VERSION");

#[cfg(feature = "link")]
extern "C" {
    fn mbelaguy_version() -> u32;
}

/// The version of the library that is linked, as [`VERSION`] has it.
#[cfg(feature = "link")]
pub fn version() -> String {
    // SAFETY: the function takes nothing and touches nothing.
    let number = unsafe { mbelaguy_version() };
    format!("{}.{}.{}", number >> 16, number >> 8 & 255, number & 255)
}
