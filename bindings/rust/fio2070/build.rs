//! Links libfio2070.a: of the folder that FIO2070_LIB_DIR names, else of the top of the repository, else of `lib` of the
//! archive that this package came in; if none is there, it compiles fio2070.c, of `dist` of the repository or of the folder `c`
//! of this package, by the commands that CC and AR name. `packaging/crate` packs this folder with `c`.

use std::env;
use std::ffi::OsString;
use std::path::{Path, PathBuf};
use std::process::{exit, Command};

const ARCHIVE: &str = "libfio2070.a";

fn main() {
    for name in ["FIO2070_LIB_DIR", "CC", "AR"] {
        println!("cargo:rerun-if-env-changed={name}");
    }
    let here = Path::new(env!("CARGO_MANIFEST_DIR"));
    let folder = match env::var_os("FIO2070_LIB_DIR") {
        Some(named) => named_folder(named.into()),
        None => ["../../..", "../../../../lib"]
            .iter()
            .map(|place| here.join(place))
            .find(|folder| folder.join(ARCHIVE).exists())
            .unwrap_or_else(|| compiled(&sources(here))),
    };
    println!("cargo:rerun-if-changed={}", folder.join(ARCHIVE).display());
    println!("cargo:rustc-link-search=native={}", folder.display());
    println!("cargo:rustc-link-lib=static=fio2070");
}

fn fail(why: &str) -> ! {
    eprintln!("{why}: set FIO2070_LIB_DIR to the folder that has it");
    exit(1)
}

fn named_folder(folder: PathBuf) -> PathBuf {
    if !folder.join(ARCHIVE).exists() {
        fail(&format!("there is no {ARCHIVE} in {folder:?}"));
    }
    folder
}

/// Returns the folder of fio2070.c and fio2070.h.
fn sources(here: &Path) -> PathBuf {
    let dist = here.join("../../../dist");
    if dist.join("fio2070.c").exists() {
        dist
    } else {
        here.join("c")
    }
}

/// Compiles the two files of this folder, and returns the folder that has the archive.
fn compiled(sources: &Path) -> PathBuf {
    let out = PathBuf::from(env::var_os("OUT_DIR").unwrap_or_default());
    let object = out.join("fio2070.o");
    let source = sources.join("fio2070.c");
    println!("cargo:rerun-if-changed={}", source.display());
    let words = [
        "-O2",
        "-fPIC",
        "-ffunction-sections",
        "-fdata-sections",
        "-c",
    ]
    .map(OsString::from);
    run(
        "CC",
        "cc",
        words
            .into_iter()
            .chain([source.into(), "-o".into(), object.clone().into()]),
    );
    run(
        "AR",
        "ar",
        ["rcs".into(), out.join(ARCHIVE).into(), object.into()],
    );
    out
}

/// Runs the command that a variable names, or the usual one.
fn run(variable: &str, usual: &str, words: impl IntoIterator<Item = OsString>) {
    let named = env::var(variable).unwrap_or_else(|_| usual.to_owned());
    let mut parts = named.split_whitespace();
    let command = parts.next().unwrap_or(usual);
    match Command::new(command).args(parts).args(words).status() {
        Ok(status) if status.success() => {}
        found => fail(&format!(
            "{ARCHIVE} could not be compiled by {named} ({found:?})"
        )),
    }
}
