//! Links `libtermimad.a` of the folder that TERMIMAD_LIBRARIES names. Without it that of pkg-config is taken, then `lib` of the package that this
//! crate came in, then what a build in its repository left.

use std::env;
use std::path::{Path, PathBuf};
use std::process::Command;

const ARCHIVE: &str = "libtermimad.a";

fn main() {
    println!("cargo:rerun-if-env-changed=TERMIMAD_LIBRARIES");
    let folder = found();
    println!("cargo:rerun-if-changed={}", folder.join(ARCHIVE).display());
    println!("cargo:rustc-link-search=native={}", folder.display());
    println!("cargo:rustc-link-lib=static=termimad");
}

// The folder of the library.
fn found() -> PathBuf {
    if let Some(named) = env::var_os("TERMIMAD_LIBRARIES") {
        let folder = PathBuf::from(named);
        assert!(
            has_archive(&folder),
            "TERMIMAD_LIBRARIES is {}, which has no {ARCHIVE}",
            folder.display()
        );
        return folder;
    }
    let here =
        PathBuf::from(env::var_os("CARGO_MANIFEST_DIR").expect("cargo names the crate's folder"));
    let beside = ["../../../lib", "../../crates/termimad_c/out"].map(|it| here.join(it));
    let mut folders = told_by_pkg_config().into_iter().chain(beside);
    folders.find(|it| has_archive(it)).unwrap_or_else(|| {
        panic!("no {ARCHIVE} found: set TERMIMAD_LIBRARIES to the folder that has it, such as lib of an unpacked release")
    })
}

fn has_archive(folder: &Path) -> bool {
    folder.join(ARCHIVE).is_file()
}

// The folder that pkg-config tells, where it knows the library.
fn told_by_pkg_config() -> Option<PathBuf> {
    let words = ["--variable=libdir", "termimad"];
    let told = Command::new("pkg-config").args(words).output().ok()?;
    let folder = String::from_utf8(told.stdout).ok()?.trim().to_owned();
    (told.status.success() && !folder.is_empty()).then(|| folder.into())
}
