//! Finds slatedb's two files and names them to the compiler where they lie. They are read there, unchanged, and never
//! copied. Without them the crate builds empty and says so.
use std::path::{Path, PathBuf};
use std::{env, fs};

const FILES: [&str; 2] = ["size_tiered_compaction", "compactor_state"];

fn main() {
    println!("cargo::rustc-check-cfg=cfg(source)");
    println!("cargo::rerun-if-env-changed=SLATEDB_SRC");
    println!("cargo::rerun-if-changed=build.rs");
    let folder = folder();
    let files = FILES.map(|name| folder.join(name).with_extension("rs"));
    for file in &files {
        println!("cargo::rerun-if-changed={}", file.display());
    }
    let mut modules = String::new();
    let mut found = String::new();
    for (name, file) in FILES.iter().zip(&files) {
        let Ok(text) = fs::read(file) else {
            println!(
                "cargo::warning={} is absent: built without slatedb's code",
                file.display()
            );
            write_out("");
            println!("cargo::rustc-env=SLATEDB_FOUND=");
            return;
        };
        modules += &format!(
            "#[path = {:?}]\n#[allow(dead_code, unused_imports, clippy::all)]\nmod {name};\n",
            file.display().to_string()
        );
        let lines = text.iter().filter(|&&byte| byte == b'\n').count();
        found += &format!("{name}.rs ({lines} lines, FNV-1a {:016x}) ", fnv1a(&text));
    }
    write_out(&modules);
    println!("cargo::rustc-env=SLATEDB_FOUND={}", found.trim_end());
    println!("cargo::rustc-cfg=source");
}

/// SLATEDB_SRC, or shared/docs/src/src beside the repository.
fn folder() -> PathBuf {
    if let Some(folder) = env::var_os("SLATEDB_SRC") {
        return PathBuf::from(folder);
    }
    let here = env::var("CARGO_MANIFEST_DIR").expect("cargo names the crate's folder");
    Path::new(&here).join("../../../shared/docs/src/src")
}

fn write_out(modules: &str) {
    let out = env::var("OUT_DIR").expect("cargo names a folder for what is made");
    fs::write(Path::new(&out).join("source.rs"), modules).expect("the folder can be written");
}

fn fnv1a(bytes: &[u8]) -> u64 {
    bytes.iter().fold(0xcbf2_9ce4_8422_2325, |hash, &byte| {
        (hash ^ u64::from(byte)).wrapping_mul(0x0100_0000_01b3)
    })
}
