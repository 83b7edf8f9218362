//! With the feature `library`: links libfiervalun.a from the folder that FIERVALUN_LIB names, and says which of the seven
//! calls it has, so that the others are left out and nothing stays unresolved.
use std::path::Path;
use std::{env, fs};

const CALLS: [&str; 7] = [
    "plan", "validate", "add", "merge", "retain", "finish", "drain",
];

fn main() {
    println!("cargo::rerun-if-changed=build.rs");
    println!("cargo::rerun-if-env-changed=FIERVALUN_LIB");
    for call in CALLS {
        println!("cargo::rustc-check-cfg=cfg(has_{call})");
    }
    if env::var_os("CARGO_FEATURE_LIBRARY").is_none() {
        return;
    }
    let folder = env::var("FIERVALUN_LIB")
        .expect("FIERVALUN_LIB names the folder that holds libfiervalun.a");
    let archive = Path::new(&folder).join("libfiervalun.a");
    println!("cargo::rerun-if-changed={}", archive.display());
    let bytes = fs::read(&archive).expect("libfiervalun.a can be read");
    for call in CALLS {
        // a name in the archive's table of symbols ends with a zero byte
        let name = format!("fiervalun_{call}\0");
        if bytes.windows(name.len()).any(|w| w == name.as_bytes()) {
            println!("cargo::rustc-cfg=has_{call}");
        }
    }
    println!("cargo::rustc-link-search=native={folder}");
    println!("cargo::rustc-link-lib=static=fiervalun");
}
