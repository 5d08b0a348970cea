//! Puts three modules into OUT_DIR: 000 untouched, and 000 changed by the two tables in `replacements.rs`, with
//! 01's limits and in parts. 000 is read from the absolute path in DISCJUMAR_ORIGINAL, or from the
//! papers that stand beside the repository; its text is never copied into the repository.

use std::path::{Path, PathBuf};
use std::{env, fs};

mod replacements;

/// Where 000 stands, seen from this crate, if DISCJUMAR_ORIGINAL does not say otherwise.
const BESIDE_THE_REPOSITORY: &str = "../../../../shared/docs/src/core/src/record/mmt.rs";

fn main() {
    if let Err(message) = build() {
        println!("cargo::error={message}");
    }
}

fn build() -> Result<(), String> {
    let here = PathBuf::from(variable("CARGO_MANIFEST_DIR")?);
    let out = PathBuf::from(variable("OUT_DIR")?);
    let untouched = original(&here)?;
    // As a child of the changed module a file has 000's private names in reach: none is made visible.
    let patched = replacements::apply(&untouched, replacements::REPLACEMENTS)?
        + &module("inside", &here.join("src/inside.rs"));
    let parted = replacements::apply(&untouched, replacements::PARTS)?
        + &module("parts", &here.join("src/parts.rs"))
        + "pub use parts::{Learned, Parts};\n";
    let modules = module("untouched", &out.join("untouched.rs"))
        + &module("patched", &out.join("patched.rs"))
        // Not all of 000 is of use there.
        + "#[allow(dead_code)]\n"
        + &module("parted", &out.join("parted.rs"));
    write(&out.join("untouched.rs"), &untouched)?;
    write(&out.join("patched.rs"), &patched)?;
    write(&out.join("parted.rs"), &parted)?;
    write(&out.join("modules.rs"), &modules)
}

/// 000's text.
fn original(here: &Path) -> Result<String, String> {
    println!("cargo::rerun-if-env-changed=DISCJUMAR_ORIGINAL");
    let path = env::var_os("DISCJUMAR_ORIGINAL")
        .map_or_else(|| here.join(BESIDE_THE_REPOSITORY), PathBuf::from);
    println!("cargo::rerun-if-changed={}", path.display());
    fs::read_to_string(&path).map_err(|error| {
        format!(
            "000 can't be read at {}: {error}; set DISCJUMAR_ORIGINAL to the path of its mmt.rs",
            path.display()
        )
    })
}

/// The line that makes a file a module. To `include!` the text itself would not do: 000 opens with an inner
/// comment.
fn module(name: &str, path: &Path) -> String {
    format!("#[path = {path:?}]\nmod {name};\n")
}

fn variable(name: &str) -> Result<String, String> {
    env::var(name).map_err(|error| format!("{name}: {error}"))
}

fn write(path: &Path, text: &str) -> Result<(), String> {
    fs::write(path, text).map_err(|error| format!("{}: {error}", path.display()))
}
