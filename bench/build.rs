//! Links another build of the library beside the present one where SILLFEATHER_BEFORE names its
//! archive: `cfg(before)`. Its functions are linked under names that begin with `before_`. And
//! whether PROJ can be linked: `cfg(proj)`.
use std::{env, fs, path::Path, path::PathBuf, process::Command};

fn main() {
    println!("cargo:rustc-check-cfg=cfg(before)");
    println!("cargo:rerun-if-env-changed=SILLFEATHER_BEFORE");
    if let Ok(archive) = env::var("SILLFEATHER_BEFORE") {
        println!("cargo:rerun-if-changed={archive}");
        println!("cargo:rustc-cfg=before");
        renamed(&archive, &PathBuf::from(env::var("OUT_DIR").unwrap()));
    }
    println!("cargo:rustc-check-cfg=cfg(proj)");
    if Command::new("pkg-config").args(["--exists", "proj"]).status().is_ok_and(|found| found.success()) {
        println!("cargo:rustc-cfg=proj");
        println!("cargo:rustc-link-lib=proj");
    }
}

/// A copy of the archive, each of its exported names with `before_` in front.
fn renamed(archive: &str, folder: &Path) {
    let told =
        Command::new("nm").args(["--defined-only", "--extern-only", "--format=just-symbols", archive]).output().expect("nm");
    let names = String::from_utf8(told.stdout).unwrap();
    let pairs: String =
        names.lines().filter(|name| name.starts_with("sillfeather_")).map(|name| format!("{name} before_{name}\n")).collect();
    assert!(!pairs.is_empty(), "{archive} exports no function of the library");
    fs::write(folder.join("names"), pairs).unwrap();
    let done = Command::new("objcopy")
        .arg(format!("--redefine-syms={}", folder.join("names").display()))
        .args([Path::new(archive), &folder.join("libbefore.a")])
        .status()
        .expect("objcopy");
    assert!(done.success());
    println!("cargo:rustc-link-search=native={}", folder.display());
    println!("cargo:rustc-link-lib=static=before");
}
