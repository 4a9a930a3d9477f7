//! Finds the library: in the folder that `VERIFIED_ART_DIR` names, else in this package, else where a clone of the
//! sources has it.
use std::env;
use std::path::{Path, PathBuf};

/// The folders in which the library may lie, the first one first.
fn folders() -> Vec<PathBuf> {
    if let Some(folder) = env::var_os("VERIFIED_ART_DIR") {
        return vec![PathBuf::from(folder)];
    }
    let here = Path::new(env!("CARGO_MANIFEST_DIR"));
    let target = env::var("TARGET").expect("cargo names the target");
    let prebuilt = if target == "x86_64-unknown-linux-gnu" { "x86_64-linux" } else { &target };
    vec![here.join("native").join(&target), here.join("../out"), here.join("../prebuilt").join(prebuilt)]
}

fn main() {
    println!("cargo:rerun-if-env-changed=VERIFIED_ART_DIR");
    let folders = folders();
    let Some(folder) = folders.iter().find(|it| it.join("libart.a").is_file()) else {
        panic!("no libart.a in {folders:?}: there is one for x86-64 Linux alone, and bindings/build of the sources makes it");
    };
    println!("cargo:rerun-if-changed={}", folder.join("libart.a").display());
    println!("cargo:rustc-link-search=native={}", folder.display());
    println!("cargo:rustc-link-lib=static=art");
}
