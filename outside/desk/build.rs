//! Says where the archives of the ledger are. They are for x86-64: elsewhere the crate is only checked.
use std::path::Path;

fn main() {
    let archives = Path::new(env!("CARGO_MANIFEST_DIR")).join("../../target/staticlib");
    println!("cargo:rerun-if-changed={}", archives.display());
    println!("cargo:rustc-link-search=native={}", archives.display());
}
