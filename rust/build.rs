//! Links the library's archive for the machine at hand: SILLFEATHER_ARCHIVE, else what `tools/archive sillfeather` writes in the repository.
use std::{env, path::PathBuf, process::exit};

fn main() {
    println!("cargo:rerun-if-env-changed=SILLFEATHER_ARCHIVE");
    let beside = PathBuf::from(env::var("CARGO_MANIFEST_DIR").unwrap()).join("../target/native/libsillfeather.a");
    let asked = env::var_os("SILLFEATHER_ARCHIVE").map_or(beside, PathBuf::from);
    println!("cargo:rerun-if-changed={}", asked.display());
    let Ok(archive) = asked.canonicalize() else {
        println!(
            "cargo::error=the library's archive is not at {}: run `tools/archive sillfeather` in the repository, or set SILLFEATHER_ARCHIVE to its path",
            asked.display()
        );
        exit(1);
    };
    println!("cargo:rustc-link-search=native={}", archive.parent().unwrap().display());
    println!("cargo:rustc-link-lib=static:+verbatim={}", archive.file_name().unwrap().to_str().unwrap());
}
