//! Links the archive of the proved library.

use std::path::Path;
use std::process::exit;

const MISSING: &str = "
The proved library's archive target/staticlib/libbindings.a is not there.
In the repository's root, `tools/rust archive` proves the library and writes it;
`tools/rust` does that and builds all of rust/.
Without it, `cargo build -p paper -p brute` builds what needs no archive.
";

fn main() {
    let root = Path::new(env!("CARGO_MANIFEST_DIR")).join("../..");
    let folder = root.join("target/staticlib");
    let archive = folder.join("libbindings.a");
    println!("cargo:rerun-if-changed={}", archive.display());
    if !archive.is_file() {
        eprintln!("{MISSING}");
        exit(1);
    }
    println!("cargo:rustc-link-search=native={}", folder.display());
    println!("cargo:rustc-link-lib=static=bindings");
}
