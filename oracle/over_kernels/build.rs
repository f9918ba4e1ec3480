//! Copies the six files of docs/src, each outside call renamed, and writes the module list that names the copies.
//! PUBLISHED_SOURCE names another folder to copy from: oracle/wrong tries edited files so.
use std::{env, fs, path::Path};

const FILES: [&str; 6] = [
    "ellipsoid/geocart",
    "inner_op/cart",
    "inner_op/permtide",
    "inner_op/molodensky",
    "inner_op/helmert",
    "inner_op/deformation",
];

/// Every method that is a kernel of ours, or the C library's, or a power.
const CALLS: [&str; 6] = ["sin_cos", "sin", "sqrt", "atan2", "hypot", "powi"];

/// How many calls the published files hold. A comment holds one of them.
const PLACES: usize = 29;

/// Methods that would reach the C library past `CALLS`.
const STRANGERS: [&str; 12] =
    ["cos", "tan", "asin", "acos", "atan", "exp", "ln", "powf", "cbrt", "sinh", "mul_add", "rem_euclid"];

fn main() {
    let out = env::var("OUT_DIR").unwrap();
    println!("cargo:rerun-if-env-changed=PUBLISHED_SOURCE");
    let source = env::var("PUBLISHED_SOURCE").unwrap_or("../../docs/src/src".to_string());
    let mut modules = String::new();
    let mut places = 0;
    for file in FILES {
        let path = Path::new(&source).join(format!("{file}.rs"));
        println!("cargo:rerun-if-changed={}", path.display());
        let mut text = fs::read_to_string(&path).unwrap();
        for call in CALLS {
            places += text.matches(&format!(".{call}(")).count();
            text = text.replace(&format!(".{call}("), &format!(".k_{call}("));
        }
        for stranger in STRANGERS {
            assert!(!text.contains(&format!(".{stranger}(")), "{file} calls {stranger}");
        }
        let name = file.rsplit('/').next().unwrap();
        let copy = Path::new(&out).join(format!("{name}.rs"));
        fs::write(&copy, text).unwrap();
        modules += &format!("#[path = {:?}]\nmod {name};\n", copy.display().to_string());
    }
    assert_eq!(places, PLACES, "calls renamed");
    fs::write(Path::new(&out).join("files.rs"), modules).unwrap();
}
