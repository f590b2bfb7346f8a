//! Gives the shared library its soname, where shared libraries have one.

use std::env;

fn main() {
    println!("cargo:rerun-if-changed=build.rs");
    let variable = |name| env::var(name).unwrap_or_default();
    let is_elf = variable("CARGO_CFG_TARGET_FAMILY") == "unix" && variable("CARGO_CFG_TARGET_VENDOR") != "apple";
    if is_elf {
        println!("cargo:rustc-cdylib-link-arg=-Wl,-soname,libbyte_unit.so.{}", variable("CARGO_PKG_VERSION_MAJOR"));
    }
}
