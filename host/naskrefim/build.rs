//! Finds the port's static library, sees that it exports every function,
//! and has it linked. NASKREFIM_LIB names the file; without it, it is looked
//! for where `rt lib` in crates/interface4 writes it. A target for which
//! there is no library stops the build.

use std::path::{Path, PathBuf};
use std::{env, fs, process};

/// From the repository's root.
const DEFAULT: &str = "crates/interface4/out/libinterface4.a";
/// What it exports, behind each prefix: on bytes and on words.
const PREFIXES: [&str; 2] = ["interface4_", "interface4w_"];
const CALLS: &str = "up down add_v4 del_v4 expire add_route4 del_route4 dump4 lookup4 \
                     lookup4_flow local4 source4 source select4 left check read add_v4_mask \
                     del_v4_mask write dump4_begin dump4_next rebuild same lookup4_many";
/// What it exports once.
const ONCE: &str = "interface4_sizes interface4_prefix";
/// What the library is compiled for: cargo's name of each, and its value.
const TARGET: [(&str, &str); 4] = [
    ("ARCH", "x86_64"),
    ("OS", "linux"),
    ("POINTER_WIDTH", "64"),
    ("ENDIAN", "little"),
];

fn main() {
    println!("cargo::rerun-if-changed=build.rs");
    println!("cargo::rerun-if-env-changed=NASKREFIM_LIB");
    if let Err(message) = build() {
        println!("cargo::error={message}");
        process::exit(1);
    }
}

fn build() -> Result<(), String> {
    for (name, only) in TARGET {
        let of = env::var(format!("CARGO_CFG_TARGET_{name}")).unwrap_or_default();
        if of != only {
            return Err(format!(
                "the port's library is for 64-bit x86 Linux, words little-endian; this build is for \
                 another target ({}: {of} in place of {only})",
                env::var("TARGET").unwrap_or_default()
            ));
        }
    }
    let here = env::var_os("CARGO_MANIFEST_DIR").ok_or("CARGO_MANIFEST_DIR is not set")?;
    let (library, named) = match env::var_os("NASKREFIM_LIB") {
        Some(path) => (PathBuf::from(path), "NASKREFIM_LIB names"),
        None => (
            Path::new(&here).join("../..").join(DEFAULT),
            "NASKREFIM_LIB is not set; the default is",
        ),
    };
    println!("cargo::rerun-if-changed={}", library.display());
    let library = library.canonicalize().map_err(|e| {
        format!(
            "the port's library cannot be found ({named} {}): {e}. `rt lib` in crates/interface4 writes it; \
             set NASKREFIM_LIB to the file, as a whole path",
            library.display()
        )
    })?;
    let archive = fs::read(&library).map_err(|e| format!("{}: {e}", library.display()))?;
    let exported = symbols(&archive)
        .ok_or_else(|| format!("{named} {}: no archive with an index", library.display()))?;
    let mut missing = wanted();
    missing.retain(|name| !exported.contains(name));
    if !missing.is_empty() {
        return Err(format!(
            "{named} {}, which lacks {}",
            library.display(),
            missing.join(", ")
        ));
    }
    let (Some(folder), Some(file)) = (library.parent(), library.file_name()) else {
        return Err(format!("{} is no file", library.display()));
    };
    println!("cargo::rustc-env=NASKREFIM_LINKED={}", library.display());
    println!("cargo::rustc-link-search=native={}", folder.display());
    println!(
        "cargo::rustc-link-lib=static:+verbatim={}",
        file.to_string_lossy()
    );
    Ok(())
}

fn wanted() -> Vec<String> {
    let named = |prefix| CALLS.split(' ').map(move |call| format!("{prefix}{call}"));
    let once = ONCE.split(' ').map(String::from);
    PREFIXES.into_iter().flat_map(named).chain(once).collect()
}

/// The names in an archive's index: its first member, `/`, with a number,
/// as many offsets (all big-endian), and the names, each ended by a 0.
fn symbols(archive: &[u8]) -> Option<Vec<String>> {
    let member = archive.strip_prefix(b"!<arch>\n")?;
    let (header, rest) = member.split_at_checked(60)?;
    if !header.starts_with(b"/ ") {
        return None;
    }
    let size = std::str::from_utf8(&header[48..58]).ok()?.trim().parse();
    let index = rest.get(..size.ok()?)?;
    let (count, rest) = index.split_first_chunk()?;
    let offsets = u32::from_be_bytes(*count) as usize;
    let names = rest.get(offsets.checked_mul(4)?..)?;
    let names = names.split(|&b| b == 0).filter(|name| !name.is_empty());
    Some(
        names
            .map(|n| String::from_utf8_lossy(n).into_owned())
            .collect(),
    )
}
