//! Links the static library, and the allocator's three functions of the toolchain that made it.

use std::env;

fn main() {
    for (name, library) in [("KILNTAUPE_LIB", "kilntaupe_c"), ("RATTLE_LIB", "libc_c")] {
        println!("cargo:rerun-if-env-changed={name}");
        let usual = if name == "KILNTAUPE_LIB" { "../../crates/kilntaupe_c/out" } else { "/opt/rattle/c" };
        let folder = env::var(name).unwrap_or_else(|_| usual.into());
        println!("cargo:rustc-link-search=native={folder}");
        println!("cargo:rustc-link-lib=static={library}");
    }
}
