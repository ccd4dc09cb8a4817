//! Links the proved library. `SUMOPINE_LIB` names the folder of libsumopine.a; without it, it is crates/sumopine/out of the repository.

use std::path::{Path, PathBuf};

fn main() {
    let folder = std::env::var_os("SUMOPINE_LIB").map_or_else(
        || Path::new(env!("CARGO_MANIFEST_DIR")).join("../../crates/sumopine/out"),
        PathBuf::from,
    );
    println!("cargo:rerun-if-env-changed=SUMOPINE_LIB");
    println!("cargo:rerun-if-changed={}", folder.join("libsumopine.a").display());
    println!("cargo:rustc-link-search=native={}", folder.display());
    println!("cargo:rustc-link-lib=static=sumopine");
}
