//! Links the archive that `tools/staticlib.sh exports` writes; BIVELONDRY_ARCHIVE names another folder that has it, by that name or as tools/install.sh
//! names it. Without the archive the crate is checked and documented all the same; a program or test is not linked.
use std::path::PathBuf;

fn main() {
    println!("cargo:rerun-if-env-changed=BIVELONDRY_ARCHIVE");
    let unsaid = || PathBuf::from(env!("CARGO_MANIFEST_DIR")).join("../../target/staticlib");
    let folder = std::env::var_os("BIVELONDRY_ARCHIVE").filter(|f| !f.is_empty()).map_or_else(unsaid, PathBuf::from);
    let file = |name: &str| folder.join(format!("lib{name}.a"));
    let found = ["exports", "bivelondry"].into_iter().find(|name| file(name).exists());
    println!("cargo:rerun-if-changed={}", file(found.unwrap_or("exports")).display());
    match found {
        Some(name) => {
            println!("cargo:rustc-link-search=native={}", folder.display());
            println!("cargo:rustc-link-lib=static={name}");
        }
        None => {
            println!("cargo:warning={} is missing: to link a program or a test, run `tools/staticlib.sh exports` in the repository, or set BIVELONDRY_ARCHIVE to the folder that has it", file("exports").display());
            // the linker prints the name that it does not find, with --quiet too
            println!("cargo:rustc-link-lib=dylib=exports-is-missing--run-tools-staticlib.sh-exports-or-set-BIVELONDRY_ARCHIVE");
        }
    }
}
