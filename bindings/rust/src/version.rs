//! The version that crate, header and library share.

/// The version of this crate: major, minor and patch in a byte each.
pub const VERSION: u32 = 0x00_02_00;

/// The version of this crate as text.
pub const VERSION_TEXT: &str = "0.2.0";

/// The version of the library that is linked. It is [`VERSION`] where library and crate come from one commit.
pub fn version() -> u32 {
    call!(lavtoeu_version)
}
