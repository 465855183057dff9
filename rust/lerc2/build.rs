//! Finds the archive of the proved reader, which must be made from the sources
//! as they are. `LERC2_LIBDIR` names the folder of another one, which is taken
//! as it is.

use std::env;
use std::path::{Path, PathBuf};
use std::process::{exit, Command};

const ARCHIVE: &str = "liblerc_c.a";

fn main() {
    println!("cargo:rerun-if-env-changed=LERC2_LIBDIR");
    let folder = match env::var_os("LERC2_LIBDIR") {
        Some(folder) => taken(PathBuf::from(folder)),
        None => own(),
    };
    println!("cargo:rustc-link-search=native={}", folder.display());
    println!("cargo:rustc-link-lib=static=lerc_c");
}

/// A folder that the caller names: nothing says what its archive is made from.
fn taken(folder: PathBuf) -> PathBuf {
    let archive = folder.join(ARCHIVE);
    println!("cargo:rerun-if-changed={}", archive.display());
    if !archive.is_file() {
        refuse(&format!(
            "{} is not there; LERC2_LIBDIR names its folder",
            archive.display()
        ));
    }
    println!("cargo:warning=the archive of LERC2_LIBDIR is linked as it is, and not compared with the sources");
    folder
}

/// The folder where the repository's commands leave the archive for the machine
/// that is built for.
fn own() -> PathBuf {
    let here = PathBuf::from(env::var_os("CARGO_MANIFEST_DIR").unwrap());
    let root = here.join("../..").canonicalize().unwrap();
    let (folder, command) = match env::var("CARGO_CFG_TARGET_ARCH").unwrap().as_str() {
        // Made from what is proved, by the kit's compiler for another machine.
        "aarch64" => (root.join("target/native"), "bench/native.sh lerc_c"),
        _ => (root.join("target/staticlib"), "tools/archive.sh"),
    };
    let archive = folder.join(ARCHIVE);
    for part in ["crates", "crates.txt", "tools"] {
        println!("cargo:rerun-if-changed={}", root.join(part).display());
    }
    println!("cargo:rerun-if-changed={}", archive.display());
    println!("cargo:rerun-if-changed={}.of", archive.display());
    if let Err(said) = compared(&root, &archive) {
        refuse(&format!(
            "{said}\nRun `{command}` at the root of the repository, which proves and makes it, \
             or name the folder of another {ARCHIVE} in LERC2_LIBDIR."
        ));
    }
    folder
}

/// Whether the archive is made from the sources as they are, and what was said
/// if not.
fn compared(root: &Path, archive: &Path) -> Result<(), String> {
    let script = root.join("tools/archive.sh");
    let output = Command::new("sh")
        .arg(&script)
        .arg("--check")
        .arg(archive)
        .output()
        .map_err(|error| format!("sh: {error}"))?;
    if output.status.success() {
        return Ok(());
    }
    Err(String::from_utf8_lossy(&output.stderr).trim_end().into())
}

fn refuse(said: &str) -> ! {
    eprintln!("lerc2: {said}");
    exit(1);
}
