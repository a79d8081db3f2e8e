//! Finds the library: where PHOTOFLEET_LIBRARY says (a file, or the folder that it is in), else by pkg-config, else in
//! out/c of the repository that this crate lies in, where tools/build/build-c puts it.
use std::path::{Path, PathBuf};
use std::process::Command;

fn main() {
    println!("cargo::rerun-if-env-changed=PHOTOFLEET_LIBRARY");
    println!("cargo::rerun-if-env-changed=PKG_CONFIG_PATH");
    if let Some(given) = std::env::var_os("PHOTOFLEET_LIBRARY") {
        let path = PathBuf::from(given);
        if !link_file(&path) && !link_folder(&path) {
            panic!("PHOTOFLEET_LIBRARY: there is no libphotofleet.a or libphotofleet.so at {}", path.display());
        }
        return;
    }
    if link_by_pkg_config() {
        return;
    }
    let built = Path::new(env!("CARGO_MANIFEST_DIR")).join("../../out/c");
    if !link_folder(&built) {
        panic!("there is no libphotofleet: tools/build/build-c makes it, and PHOTOFLEET_LIBRARY tells where it is");
    }
}

/// Links a file of either kind, if it is there.
fn link_file(file: &Path) -> bool {
    let kind = match file.extension().and_then(|it| it.to_str()) {
        Some("a") => "static",
        Some("so") => "dylib",
        _ => return false,
    };
    let Some(folder) = file.parent().filter(|_| file.is_file()) else { return false };
    let Ok(folder) = folder.canonicalize() else { return false };
    println!("cargo::rerun-if-changed={}", file.display());
    println!("cargo::rustc-link-search=native={}", folder.display());
    println!("cargo::rustc-link-lib={kind}=photofleet");
    if kind == "dylib" {
        println!("cargo::rustc-link-arg=-Wl,-rpath,{}", folder.display());
    }
    true
}

/// Links the static library of a folder, or else the shared one.
fn link_folder(folder: &Path) -> bool {
    link_file(&folder.join("libphotofleet.a")) || link_file(&folder.join("libphotofleet.so"))
}

/// Links what the system's pkg-config tells of it.
fn link_by_pkg_config() -> bool {
    let Ok(said) = Command::new("pkg-config").args(["--libs", "photofleet"]).output() else { return false };
    if !said.status.success() {
        return false;
    }
    for word in String::from_utf8_lossy(&said.stdout).split_whitespace() {
        if let Some(folder) = word.strip_prefix("-L") {
            println!("cargo::rustc-link-search=native={folder}");
            println!("cargo::rustc-link-arg=-Wl,-rpath,{folder}");
        } else if let Some(name) = word.strip_prefix("-l") {
            println!("cargo::rustc-link-lib={name}");
        }
    }
    true
}
