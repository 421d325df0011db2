//! Finds the static library that this crate calls. If it is missing, says what to run.
use std::env;
use std::path::PathBuf;

fn main() {
    println!("cargo:rerun-if-env-changed=SLATMONIEF_LIB_DIR");
    let here =
        PathBuf::from(env::var("CARGO_MANIFEST_DIR").expect("cargo sets CARGO_MANIFEST_DIR"));
    let folder = match env::var("SLATMONIEF_LIB_DIR") {
        Ok(folder) => PathBuf::from(folder),
        Err(_) if !is_the_librarys_machine() => {
            eprintln!("slatmonief: the library is for x86-64 Linux, and this is another machine.");
            eprintln!("Run bin/build at the top of the repository once to build it. Then, on Arm");
            eprintln!("Linux, a script makes a bridge to it and prints the bridge's folder:");
            let script = here.join("../../tests/library");
            eprintln!("    export SLATMONIEF_LIB_DIR=$({})", script.display());
            eprintln!("and cargo can be run again.");
            std::process::exit(1);
        }
        Err(_) => here.join("../../target/staticlib"),
    };
    let library = folder.join("libslatmonief.a");
    println!("cargo:rerun-if-changed={}", library.display());
    if !library.is_file() {
        eprintln!("slatmonief: there is no file {}.", library.display());
        eprintln!("Run bin/build at the top of the repository once to build it, or set the");
        eprintln!("variable SLATMONIEF_LIB_DIR to the folder that has libslatmonief.a.");
        std::process::exit(1);
    }
    println!("cargo:rustc-link-search=native={}", folder.display());
    println!("cargo:rustc-link-lib=static=slatmonief");
}

/// Whether the library can be linked for the machine that cargo builds for.
fn is_the_librarys_machine() -> bool {
    let target = |variable| env::var(variable).unwrap_or_default();
    target("CARGO_CFG_TARGET_ARCH") == "x86_64" && target("CARGO_CFG_TARGET_OS") == "linux"
}
