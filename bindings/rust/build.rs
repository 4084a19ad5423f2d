//! Links the proved library, libexports.a: from the folder RASPTEAL_LIB, or from target/staticlib of the repository,
//! where bindings/library builds it.
use std::env;
use std::path::{Path, PathBuf};
use std::process::Command;

/// The archive of the repository, built if it is not there or older than the crates.
fn built(repository: &Path) -> Result<PathBuf, String> {
    let folder = repository.join("target/staticlib");
    let script = repository.join("bindings/library");
    let ran = Command::new(&script).output().map_err(|e| format!("{} does not run: {e}", script.display()))?;
    if ran.status.success() {
        return Ok(folder);
    }
    let why = String::from_utf8_lossy(&ran.stdout).trim().to_string();
    if folder.join("libexports.a").is_file() && why.starts_with("rt, ") {
        println!("cargo:warning={}: taken as it is, since {why}", folder.join("libexports.a").display());
        return Ok(folder);
    }
    Err(format!("the library could not be built: {why}"))
}

fn folder() -> Result<PathBuf, String> {
    if env::var("CARGO_CFG_TARGET_ARCH").as_deref() != Ok("x86_64")
        || env::var("CARGO_CFG_TARGET_OS").as_deref() != Ok("linux")
    {
        return Err("the library is for x86-64 Linux".into());
    }
    if let Some(folder) = env::var_os("RASPTEAL_LIB").map(PathBuf::from) {
        let archive = folder.join("libexports.a");
        return if archive.is_file() {
            Ok(folder)
        } else {
            Err(format!("RASPTEAL_LIB: there is no {}", archive.display()))
        };
    }
    built(&Path::new(env!("CARGO_MANIFEST_DIR")).join("../.."))
}

fn main() {
    println!("cargo:rerun-if-env-changed=RASPTEAL_LIB");
    let folder = match folder() {
        Ok(folder) => folder,
        Err(missing) => {
            eprintln!("raspteal: {missing}");
            eprintln!("raspteal: build libexports.a with `bindings/library` (it needs the Rattle toolchain),");
            eprintln!("raspteal: or set RASPTEAL_LIB to the folder that has it");
            std::process::exit(1);
        }
    };
    println!("cargo:rerun-if-changed={}", folder.join("libexports.a").display());
    println!("cargo:rustc-link-search=native={}", folder.display());
    println!("cargo:rustc-link-lib=static=exports");
}
