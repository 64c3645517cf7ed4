//! Links the two static libraries that `make libraries` leaves in lib/ at the repository's root.
use std::path::PathBuf;

fn main() {
    let here = PathBuf::from(std::env::var("CARGO_MANIFEST_DIR").expect("cargo names the package's folder"));
    let libraries = here.join("../lib");
    for name in ["tdd_bench", "tdd_codes"] {
        let archive = libraries.join(format!("lib{name}.a"));
        assert!(
            archive.is_file(),
            "{} is not there: `make libraries` in the repository's root makes it",
            archive.display()
        );
        println!("cargo:rustc-link-lib=static={name}");
    }
    println!("cargo:rerun-if-changed={}", libraries.display());
    println!("cargo:rustc-link-search=native={}", libraries.display());
}
