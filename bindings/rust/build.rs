//! Links `target/staticlib/libkiwimound.a` of the repository, or that of the folder that `KIWIMOUND_LIB_DIR` names.
use std::path::PathBuf;
use std::{env, process};

fn main() {
    let root =
        PathBuf::from(env::var_os("CARGO_MANIFEST_DIR").expect("cargo sets this")).join("../..");
    let folder = match env::var_os("KIWIMOUND_LIB_DIR") {
        Some(folder) => PathBuf::from(folder),
        None => root.join("target/staticlib"),
    };
    let library = folder.join("libkiwimound.a");
    println!("cargo:rerun-if-env-changed=KIWIMOUND_LIB_DIR");
    println!("cargo:rerun-if-changed={}", library.display());
    if !library.is_file() {
        eprintln!("kiwimound: {} is not there.", library.display());
        eprintln!(
            "Build it with `bindings/library` at the top of the repository, or name its folder in KIWIMOUND_LIB_DIR."
        );
        process::exit(1);
    }
    println!("cargo:rustc-link-search=native={}", folder.display());
    println!("cargo:rustc-link-lib=static=kiwimound");
}
