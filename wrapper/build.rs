//! Finds the static library: the file or folder that CEREALBANK_LIB names, as seen from this folder, else target/staticlib of the
//! repository, where `tools/build library` writes it.

use std::env;
use std::path::PathBuf;

fn main() {
    println!("cargo:rerun-if-changed=build.rs");
    println!("cargo:rerun-if-env-changed=CEREALBANK_LIB");
    println!("cargo:rustc-check-cfg=cfg(library_missing)");
    let here = PathBuf::from(env::var_os("CARGO_MANIFEST_DIR").expect("cargo sets it"));
    let named = here.join(env::var_os("CEREALBANK_LIB").unwrap_or_else(|| "../target/staticlib".into()));
    let file = if named.extension().is_some_and(|end| end == "a") { named } else { named.join("libcerealbank.a") };
    println!("cargo:rerun-if-changed={}", file.display());
    // The tests link it into the C example too.
    println!("cargo:rustc-env=CEREALBANK_FILE={}", file.display());
    let name = file.file_stem().and_then(|stem| stem.to_str()).and_then(|stem| stem.strip_prefix("lib"));
    match (name, file.parent()) {
        (Some(name), Some(folder)) if file.is_file() => {
            println!("cargo:rustc-link-search=native={}", folder.display());
            println!("cargo:rustc-link-lib=static={name}");
        }
        _ => {
            println!("cargo:warning=no library at {}: run `tools/build library`, or set CEREALBANK_LIB", file.display());
            println!("cargo:rustc-cfg=library_missing");
        }
    }
}
