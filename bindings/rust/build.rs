//! Links libelsa_c.a, which `tools/bindings DIR` makes. It is in the folder `lib` of this crate; else pkg-config knows
//! where; else the variable ELSA_LIB has its folder.

use std::path::{Path, PathBuf};
use std::process::Command;

const ARCHIVE: &str = "libelsa_c.a";

fn has_it(folder: &Path) -> bool {
    folder.join(ARCHIVE).is_file()
}

/// The folder that pkg-config has for `elsa`.
fn of_pkg_config() -> Option<PathBuf> {
    let done = Command::new("pkg-config").args(["--variable=libdir", "elsa"]).output().ok()?;
    let printed = String::from_utf8(done.stdout).ok()?;
    Some(PathBuf::from(printed.trim())).filter(|it| done.status.success() && has_it(it))
}

fn main() {
    for it in ["ELSA_LIB", "PKG_CONFIG_PATH"] {
        println!("cargo:rerun-if-env-changed={it}");
    }
    let own = Path::new(&std::env::var_os("CARGO_MANIFEST_DIR").expect("cargo sets CARGO_MANIFEST_DIR")).join("lib");
    println!("cargo:rerun-if-changed={}", own.display());
    let folder = Some(own)
        .filter(|it| has_it(it))
        .or_else(of_pkg_config)
        .or_else(|| std::env::var_os("ELSA_LIB").map(PathBuf::from).filter(|it| has_it(it)))
        .unwrap_or_else(|| {
            panic!("{ARCHIVE} is not in this crate's folder lib, pkg-config has no elsa, and ELSA_LIB has no folder with it")
        });
    println!("cargo:rerun-if-changed={}", folder.join(ARCHIVE).display());
    println!("cargo:rustc-link-search=native={}", folder.display());
    println!("cargo:rustc-link-lib=static=elsa_c");
}
