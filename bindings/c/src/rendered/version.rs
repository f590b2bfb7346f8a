// Rendered from crates/byte_unit_c/src/version.rt by `tools/dev render rust`. Do not edit.

//! The version in the C API.

/// Returns the version of the library, 3.0.0, as the number 3,000,000.
#[unsafe(no_mangle)]
pub extern "C" fn byte_unit_version() -> u32 {
    3_000_000
}
