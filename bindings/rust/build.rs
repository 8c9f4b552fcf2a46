//! Links the static library of the folder that WORZSUNAB_LIB names, or of out/lib at the top of the repository.

use std::env;
use std::path::PathBuf;

fn main() {
    // Set by bindings/check.sh alone.
    println!("cargo:rustc-check-cfg=cfg(worzsunab_tsan)");
    println!("cargo:rerun-if-env-changed=WORZSUNAB_LIB");
    let folder = env::var_os("WORZSUNAB_LIB")
        .map_or_else(|| PathBuf::from(env::var_os("CARGO_MANIFEST_DIR").unwrap()).join("../../out/lib"), PathBuf::from);
    let library = folder.join("libworzsunab.a");
    println!("cargo:rerun-if-changed={}", library.display());
    if !library.exists() {
        println!(
            "cargo:warning={} isn't there: call `make -C bindings`, or name its folder in WORZSUNAB_LIB",
            library.display()
        );
    }
    println!("cargo:rustc-link-search=native={}", folder.display());
    println!("cargo:rustc-link-lib=static=worzsunab");
}
