//! Finds `interface.rs`, checks its SHA-256, and writes two module files:
//! its unchanged text, and the copy that records list lengths and takes the
//! allowance of `expire`. To each the declaration of one child module,
//! `access`, is appended, because a child may read and fill the private
//! lists. Nothing else is added.

mod observe;
mod sha256;

use std::path::{Path, PathBuf};
use std::{env, fs, process};

const EXPECTED: &str = "500c6d38e0f2f5a819d313e2129289c97122825c2667e3bc2dbf1a8e294d787d";
/// Where the shared documents keep it, from the repository's root.
const DEFAULT: &str = "../shared/docs/src/crates/paludarium-kernel/src/interface.rs";

fn main() {
    println!("cargo::rerun-if-env-changed=INTERFACE_RS");
    println!("cargo::rerun-if-changed=build");
    if let Err(message) = build() {
        println!("cargo::error={message}");
        eprintln!("{message}");
        process::exit(1);
    }
}

fn build() -> Result<(), String> {
    let here = PathBuf::from(variable("CARGO_MANIFEST_DIR")?);
    let out = PathBuf::from(variable("OUT_DIR")?);
    let (source, named) = match env::var_os("INTERFACE_RS") {
        Some(path) => (PathBuf::from(path), "INTERFACE_RS names"),
        None => (
            here.join("../..").join(DEFAULT),
            "INTERFACE_RS is not set; the default is",
        ),
    };
    println!("cargo::rerun-if-changed={}", source.display());
    let text = fs::read_to_string(&source).map_err(|e| {
        format!(
            "interface.rs cannot be read ({named} {}): {e}. Set INTERFACE_RS to the file",
            source.display()
        )
    })?;
    let digest = sha256::hex(text.as_bytes());
    if digest != EXPECTED {
        return Err(format!(
            "interface.rs is not the one of commit 519e54feff ({named} {}): its sha256 is \
             {digest}, not {EXPECTED}. Set INTERFACE_RS to the unchanged file",
            source.display()
        ));
    }
    println!("cargo::rustc-env=INTERFACE_SHA256={digest}");
    let observed =
        observe::observed(&text).map_err(|e| format!("interface.rs (INTERFACE_RS): {e}"))?;
    let child = format!(
        "#[path = {:?}]\npub(crate) mod access;\n",
        here.join("src/access.rs")
    );
    write(&out.join("interface.rs"), &format!("{text}{child}"))?;
    write(&out.join("observed.rs"), &format!("{observed}{child}"))?;
    // module files, since the text begins with inner doc comments, which
    // `include!` doesn't take
    let modules: String = ["interface", "observed"]
        .map(|name| {
            format!(
                "#[allow(dead_code, clippy::all)]\n#[path = {:?}]\nmod {name};\n",
                out.join(format!("{name}.rs"))
            )
        })
        .concat();
    write(&out.join("modules.rs"), &modules)
}

fn variable(name: &str) -> Result<String, String> {
    env::var(name).map_err(|e| format!("{name}: {e}"))
}

fn write(path: &Path, text: &str) -> Result<(), String> {
    fs::write(path, text).map_err(|e| format!("{}: {e}", path.display()))
}
