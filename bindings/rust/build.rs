//! Names the archive to the linker: in the folder `TRIMOLAVEG_LIB`, else where the tree or the dist file that this crate is part of has it.

use std::env;
use std::path::{Path, PathBuf};

fn main() {
    let processor = env::var("CARGO_CFG_TARGET_ARCH").expect("cargo names the processor");
    let root = Path::new(env!("CARGO_MANIFEST_DIR")).join("../..");
    let folders = [root.join("target/archive").join(&processor), root.join("lib").join(&processor)];
    let found = folders.into_iter().find(|folder| folder.join("libtrimolaveg.a").exists());
    let folder = env::var_os("TRIMOLAVEG_LIB").map(PathBuf::from).or(found);
    let folder = folder.expect("TRIMOLAVEG_LIB names the folder of libtrimolaveg.a; tools/archive makes one");
    println!("cargo:rerun-if-env-changed=TRIMOLAVEG_LIB");
    println!("cargo:rerun-if-changed={}", folder.join("libtrimolaveg.a").display());
    println!("cargo:rustc-link-search=native={}", folder.display());
    println!("cargo:rustc-link-lib=static=trimolaveg");
}
