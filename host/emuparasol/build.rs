//! Links the archive of the processor compiled for, which `tools/archive` makes:
//! target/archive/TARGET/libemuparasol.a at the repository's top, or in the folder
//! that EMUPARASOL_ARCHIVE names.
use std::env;
use std::path::{Path, PathBuf};
use std::process::exit;

/// The name in tools/targets.txt of a processor as Rust names it; for 32-bit Arm the
/// first word of the triple tells its kinds apart, `armv7` from `thumbv7em`.
fn target<'a>(arch: &'a str, triple: &'a str) -> &'a str {
    match arch {
        "arm" => triple.split('-').next().unwrap_or(arch),
        other => other,
    }
}

fn main() {
    println!("cargo:rerun-if-changed=build.rs");
    println!("cargo:rerun-if-env-changed=EMUPARASOL_ARCHIVE");
    let arch = env::var("CARGO_CFG_TARGET_ARCH").expect("cargo says the processor");
    let triple = env::var("TARGET").expect("cargo says the triple");
    let here = env::var("CARGO_MANIFEST_DIR").expect("cargo says where the crate is");
    let target = target(&arch, &triple);
    let folder = match env::var_os("EMUPARASOL_ARCHIVE") {
        Some(folder) => PathBuf::from(folder),
        None => Path::new(&here).join("../../target/archive").join(target),
    };
    let archive = folder.join("libemuparasol.a");
    println!("cargo:rerun-if-changed={}", archive.display());
    if !archive.exists() {
        eprintln!(
            "there is no {}: 'tools/archive {target}' at the repository's top makes it, \
             or EMUPARASOL_ARCHIVE names the folder that has it",
            archive.display()
        );
        exit(1);
    }
    println!("cargo:rustc-link-search=native={}", folder.display());
    println!("cargo:rustc-link-lib=static=emuparasol");
}
