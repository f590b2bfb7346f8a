//! The C library from Rust: `libbyte_unit.a`, and the shared library with the same functions.
//!
//! `rendered` has the functions that `byte_unit.h` declares: the proved sources, rendered as Rust. By hand is what a
//! library without `std` needs beside them: slices of C, and what a panic does.
#![no_std]

#[allow(clippy::manual_range_contains, clippy::needless_lifetimes, clippy::type_complexity)]
mod rendered;
mod slices;

#[cfg(not(target_family = "wasm"))]
#[cfg_attr(unix, link(name = "c"))]
#[cfg_attr(windows, link(name = "msvcrt"))]
unsafe extern "C" {
    fn abort() -> !;
}

/// Ends the process, so that nothing unwinds into C, or the call by a trap in WebAssembly. That none of the functions
/// panics is proved of their sources; what could call this is a check that rustc adds to the rendered ones.
#[panic_handler]
fn panicked(_: &core::panic::PanicInfo<'_>) -> ! {
    #[cfg(target_family = "wasm")]
    core::arch::wasm32::unreachable();
    // SAFETY: it is the C library's, takes no argument, and may be called at any time.
    #[cfg(not(target_family = "wasm"))]
    unsafe {
        abort()
    }
}
