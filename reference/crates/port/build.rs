//! Links the archive that `tools/staticlib.sh stages` writes; bindings/rust links that of `exports`.
fn main() {
    let dir = std::path::Path::new(env!("CARGO_MANIFEST_DIR")).join("../../../target/staticlib");
    let archive = dir.join("libstages.a");
    assert!(archive.exists(), "{} is missing: run reference/build.sh", archive.display());
    println!("cargo:rustc-link-search=native={}", dir.display());
    println!("cargo:rustc-link-lib=static=stages");
    println!("cargo:rerun-if-changed={}", archive.display());
}
