//! Links the archive: from the folder that TALEMIKU_LIB names, else, also where it is empty, from ../crates/talemiku/out.
use std::env;
use std::path::PathBuf;
use std::process::exit;

fn fail(message: &str) -> ! {
    eprintln!("talemiku: {message}");
    exit(1)
}

fn main() {
    let variable = |name: &str| env::var(name).unwrap_or_default();
    if variable("CARGO_CFG_TARGET_ARCH") != "x86_64" || variable("CARGO_CFG_TARGET_OS") != "linux" {
        fail("the archive is for x86-64 Linux; host/test builds for it on Arm too");
    }
    let folder = match env::var_os("TALEMIKU_LIB") {
        Some(folder) if !folder.is_empty() => PathBuf::from(folder),
        _ => PathBuf::from(variable("CARGO_MANIFEST_DIR")).join("../crates/talemiku/out"),
    };
    let archive = folder.join("libtalemiku.a");
    if !archive.exists() {
        fail(&format!("there is no {}: `rt lib` in crates/talemiku makes it, or TALEMIKU_LIB names its folder", archive.display()));
    }
    let name = folder.to_str().unwrap_or_else(|| fail(&format!("cargo takes no folder whose name isn't UTF-8: {}", folder.display())));
    println!("cargo:rerun-if-env-changed=TALEMIKU_LIB");
    println!("cargo:rerun-if-changed={}", archive.display());
    println!("cargo:rustc-link-search=native={name}");
    println!("cargo:rustc-link-lib=static=talemiku");
}
