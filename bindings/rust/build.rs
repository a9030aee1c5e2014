//! Links the proved library, which `rt lib` writes in crates/masuvelior.
use std::env;
use std::path::PathBuf;
use std::process::exit;

const LIBRARY: &str = "libmasuvelior.a";

fn main() {
    println!("cargo:rerun-if-env-changed=MASUVELIOR_LIB_DIR");
    let folder = folder();
    let file = folder.join(LIBRARY);
    if !file.is_file() {
        eprintln!("{LIBRARY} is not in {}.", folder.display());
        eprintln!(
            "Run `rt lib` in the repository's crates/masuvelior, or set MASUVELIOR_LIB_DIR to the folder that has it."
        );
        exit(1);
    }
    println!("cargo:rerun-if-changed={}", file.display());
    println!("cargo:rustc-link-search=native={}", folder.display());
    println!("cargo:rustc-link-lib=static=masuvelior");
}

/// Where the library is: MASUVELIOR_LIB_DIR, or the repository's crates/masuvelior/out.
fn folder() -> PathBuf {
    match env::var_os("MASUVELIOR_LIB_DIR") {
        Some(folder) => PathBuf::from(folder),
        None => PathBuf::from(env::var_os("CARGO_MANIFEST_DIR").expect("cargo sets CARGO_MANIFEST_DIR"))
            .join("../../crates/masuvelior/out"),
    }
}
