//! Links the archive that `tools/x86 archive` makes: from DANSEVIK_ARCHIVE, a folder, or from the repository's target/staticlib.

use std::env;
use std::path::PathBuf;

fn main() {
    println!("cargo:rerun-if-env-changed=DANSEVIK_ARCHIVE");
    let own = PathBuf::from(env::var("CARGO_MANIFEST_DIR").expect("cargo says where the package stands"));
    let folder = env::var("DANSEVIK_ARCHIVE").map_or_else(|_| own.join("../../target/staticlib"), PathBuf::from);
    let archive = folder.join("libhost.a");
    assert!(archive.is_file(), "no {}: `tools/x86 archive` makes it, or DANSEVIK_ARCHIVE names its folder", archive.display());
    println!("cargo:rerun-if-changed={}", archive.display());
    println!("cargo:rustc-link-search=native={}", folder.display());
    println!("cargo:rustc-link-lib=static=host");
}
