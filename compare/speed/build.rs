//! Names the proved archive to the program, where there is one, and links it in
//! where the program is for x86-64; `cfg(archive)` says so. `HINGEDRIFT_LIB`
//! names its folder; where it is not set, it is the repository's target/lib or
//! crates/hingedrift/out.

use std::path::{Path, PathBuf};
use std::process::Command;

const NAME: &str = "libhingedrift.a";
const FOLDERS: [&str; 2] = ["../../target/lib", "../../crates/hingedrift/out"];

fn main() {
    println!("cargo::rerun-if-changed=build.rs");
    println!("cargo::rerun-if-env-changed=HINGEDRIFT_LIB");
    println!("cargo::rustc-check-cfg=cfg(archive)");
    println!("cargo::rustc-env=COMPILED_BY={}", compiler());

    let fits = variable("CARGO_CFG_TARGET_ARCH").as_deref() == Some("x86_64");
    if let Some(archive) = archive() {
        println!("cargo::rustc-env=ARCHIVE={}", archive.display());
        if fits {
            println!("cargo::rustc-cfg=archive");
            println!("cargo::rustc-link-arg-bins={}", archive.display());
        }
    }
}

/// The first that is there. One that is missing is looked for at every build.
fn archive() -> Option<PathBuf> {
    let here = variable("CARGO_MANIFEST_DIR").expect("cargo sets it");
    let folders = match variable("HINGEDRIFT_LIB") {
        Some(folder) => vec![folder],
        None => FOLDERS.map(str::to_owned).to_vec(),
    };
    folders.iter().find_map(|folder| {
        let path = Path::new(&here).join(folder).join(NAME);
        println!("cargo::rerun-if-changed={}", path.display());
        path.canonicalize().ok()
    })
}

/// As the compiler names itself.
fn compiler() -> String {
    let asked = Command::new(variable("RUSTC").expect("cargo sets it"))
        .arg("--version")
        .output();
    let said = asked.map(|said| String::from_utf8_lossy(&said.stdout).trim().to_owned());
    said.unwrap_or("a compiler that does not name itself".to_owned())
}

fn variable(name: &str) -> Option<String> {
    std::env::var(name).ok().filter(|value| !value.is_empty())
}
