//! Links the proved book where `tools/library` has made its library, and lets `bench` count copies.
//!
//! Without the library the package has the second book alone.

use std::path::Path;

fn main() {
    let folder = Path::new(env!("CARGO_MANIFEST_DIR")).join("../target/staticlib");
    let library = folder.join("libwall_book.a");
    println!("cargo:rustc-check-cfg=cfg(proved_book)");
    // The folder, since a library that is moved in may be older than the last build.
    println!("cargo:rerun-if-changed={}", folder.display());
    if library.exists() {
        println!("cargo:rustc-cfg=proved_book");
        println!("cargo:rustc-link-search=native={}", folder.display());
        println!("cargo:rustc-link-lib=static=wall_book");
    }
    // Calls of these go through src/bin/bench/copies.rs in that program alone, also those of the proved book.
    for function in ["memcpy", "memmove", "memset"] {
        println!("cargo:rustc-link-arg-bin=bench=-Wl,--wrap={function}");
    }
}
