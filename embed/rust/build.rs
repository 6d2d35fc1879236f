//! Finds the static library. It is in the folder that `REVROUTE_LIB_DIR` names. Otherwise it is in the folder `lib` of
//! this crate, where `./install` and `./dist` put it, or where `embed/build` made it.

use std::env;
use std::path::PathBuf;

const ARCHIVE: &str = "librevroute.a";

/// The folders in which the library may be, the first one first.
fn folders() -> Vec<PathBuf> {
    if let Some(folder) = env::var_os("REVROUTE_LIB_DIR") {
        return vec![folder.into()];
    }
    let here = PathBuf::from(env::var_os("CARGO_MANIFEST_DIR").unwrap_or_default());
    vec![here.join("lib"), here.join("../out")]
}

fn main() {
    println!("cargo::rerun-if-env-changed=REVROUTE_LIB_DIR");
    let folders = folders();
    for it in &folders {
        println!("cargo::rerun-if-changed={}", it.join(ARCHIVE).display());
    }
    let Some(folder) = folders.iter().find(|it| it.join(ARCHIVE).is_file()) else {
        println!(
            "cargo::error={ARCHIVE} is not in {}. The crate of an archive made by ./dist has it. In a clone of the repository, \
             embed/build makes it. REVROUTE_LIB_DIR can name another folder that has it.",
            folders[0].display()
        );
        return;
    };
    println!("cargo::rustc-link-search=native={}", folder.display());
    println!("cargo::rustc-link-lib=static=revroute");
}
