//! Links `libkiwimound.a` and `librecords.a`: those of the folder KIWIMOUND_LIB_DIR, or else
//! those that `bindings/library` writes in this repository.

use std::path::PathBuf;
use std::{env, process};

fn main() {
    let here = PathBuf::from(env::var_os("CARGO_MANIFEST_DIR").expect("cargo sets this"));
    let folder = match env::var_os("KIWIMOUND_LIB_DIR") {
        Some(folder) => PathBuf::from(folder),
        None => here.join("../../target/staticlib"),
    };
    println!("cargo:rerun-if-env-changed=KIWIMOUND_LIB_DIR");
    println!("cargo:rustc-link-search=native={}", folder.display());
    for name in ["kiwimound", "records"] {
        let archive = folder.join(format!("lib{name}.a"));
        println!("cargo:rerun-if-changed={}", archive.display());
        if !archive.is_file() {
            eprintln!(
                "{} is not there: bindings/library {name}",
                archive.display()
            );
            process::exit(1);
        }
        println!("cargo:rustc-link-lib=static={name}");
    }
}
