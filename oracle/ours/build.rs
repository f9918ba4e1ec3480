//! Links the library's archive for the machine at hand, SILLFEATHER_ARCHIVE, else what `tools/archive sillfeather` writes; and beside it a grid's lookup and
//! step, which C does not have (`tools/archive grid_c`).
use std::{env, path::Path, path::PathBuf};

fn link(archive: &Path) {
    let archive = archive.canonicalize().unwrap_or_else(|e| panic!("{}: {e}", archive.display()));
    println!("cargo:rerun-if-changed={}", archive.display());
    println!("cargo:rustc-link-search=native={}", archive.parent().unwrap().display());
    println!("cargo:rustc-link-lib=static:+verbatim={}", archive.file_name().unwrap().to_str().unwrap());
}

fn main() {
    println!("cargo:rerun-if-env-changed=SILLFEATHER_ARCHIVE");
    let given = env::var("SILLFEATHER_ARCHIVE").map(PathBuf::from);
    let native = PathBuf::from(env::var("CARGO_MANIFEST_DIR").unwrap()).join("../../target/native");
    link(&given.unwrap_or_else(|_| native.join("libsillfeather.a")));
    link(&native.join("libgrid_c.a"));
}
