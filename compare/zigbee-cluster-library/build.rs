//! Copies the held Rust next to the build's other products, unchanged, and
//! writes the module list that src/lib.rs takes in.
//!
//! `ZIGBEE_RS` names a checkout of zigbee-rs, or a folder with its files below
//! `zigbee-cluster-library/src`. Where it is not set, the folder
//! `shared/docs/src` beside this repository is taken.

use std::fs;
use std::path::{Path, PathBuf};
use std::process::exit;

const BESIDE: &str = "../../../shared/docs/src";

/// `frame` finds its own modules in its folder.
const FRAME: [&str; 6] = [
    "frame/mod.rs",
    "frame/payload.rs",
    "frame/header/mod.rs",
    "frame/header/command_identifier.rs",
    "frame/header/frame_control.rs",
    "frame/header/manufacturer_code.rs",
];

const TYPES: [&str; 5] = ["codec", "data_types", "descriptors", "ids", "nullable"];

fn main() {
    println!("cargo::rerun-if-changed=build.rs");
    println!("cargo::rerun-if-env-changed=ZIGBEE_RS");
    println!("cargo::rustc-check-cfg=cfg(feature, values(\"defmt\"))");

    let source = source();
    let target = PathBuf::from(std::env::var_os("OUT_DIR").expect("cargo sets OUT_DIR"));

    for file in FRAME {
        copy(&source, &target, file);
    }
    let mut list = module(&target, "frame", "frame/mod.rs");
    for name in ["reporting", "server"] {
        list += &module(
            &target,
            name,
            &copy(&source, &target, &format!("{name}.rs")),
        );
    }
    list += "pub mod types {\n";
    for name in TYPES {
        let file = copy(&source, &target, &format!("types/{name}.rs"));
        list += &module(&target, name, &file);
    }
    list += "}\n";
    fs::write(target.join("modules.rs"), list).expect("the module list can be written");
}

/// The crate's `src`. A relative `ZIGBEE_RS` is seen from this file's folder.
fn source() -> PathBuf {
    let given = std::env::var_os("ZIGBEE_RS").filter(|given| !given.is_empty());
    let root = given.map_or_else(|| PathBuf::from(BESIDE), PathBuf::from);
    root.join("zigbee-cluster-library/src")
}

/// Copies one file and gives its name back.
fn copy(source: &Path, target: &Path, file: &str) -> String {
    let from = source.join(file);
    let text = fs::read(&from).unwrap_or_else(|trouble| {
        let missing = from.display();
        println!("cargo::error=the Rust to compare with is missing: {missing} ({trouble})");
        println!("cargo::error=set ZIGBEE_RS to a checkout of zigbee-rs at d89880a89e, or to a folder with its files below zigbee-cluster-library/src");
        exit(1)
    });
    println!("cargo::rerun-if-changed={}", from.display());

    let to = target.join(file);
    fs::create_dir_all(to.parent().expect("a file has a folder")).expect("folders can be made");
    fs::write(to, text).expect("the copy can be written");
    file.to_owned()
}

fn module(target: &Path, name: &str, file: &str) -> String {
    format!("#[path = {:?}]\npub mod {name};\n", target.join(file))
}
