//! Compiles the library's C files for the target, by its C compiler, and has them linked.
//!
//! They are those of the repository, `c/kelifandro.c`, `c/kelifandro_queue.c` and both of `c/made`, or those of the folder that
//! KELIFANDRO_C names.

#[path = "build/cc.rs"]
mod cc;

use std::env;
use std::fs;
use std::path::{Path, PathBuf};

/// The folder of the C files: what KELIFANDRO_C names, or the repository's.
fn folder() -> PathBuf {
    println!("cargo:rerun-if-env-changed=KELIFANDRO_C");
    match env::var_os("KELIFANDRO_C").filter(|folder| !folder.is_empty()) {
        Some(folder) => PathBuf::from(folder),
        None => Path::new(env!("CARGO_MANIFEST_DIR")).join("../c"),
    }
}

/// A file of the library, in the folder itself, or where the repository or the distribution has it; last comes what `c/build` has made.
fn find(folder: &Path, name: &str) -> Result<PathBuf, cc::Fault> {
    ["made", "", "src", "include", "out/core"]
        .iter()
        .map(|place| folder.join(place).join(name))
        .find(|path| path.is_file())
        .ok_or_else(|| {
            format!(
                "there is no {name} in {}: KELIFANDRO_C names a folder that has kelifandro.c, kelifandro_queue.c, \
                 kelifandro_core.c, kelifandro_queue_core.c and their headers, as the repository's c/ and the distribution do",
                folder.display()
            )
        })
}

/// The structs of src/sys.rs are those of a header of this version.
fn same_version(header: &Path) -> Result<(), cc::Fault> {
    let own = env!("CARGO_PKG_VERSION");
    let text =
        fs::read_to_string(header).map_err(|fault| format!("{}: {fault}", header.display()))?;
    if text.contains(&format!("#define KELIFANDRO_VERSION \"{own}\"")) {
        return Ok(());
    }
    Err(format!(
        "{} isn't the header of version {own}, which this crate is for",
        header.display()
    ))
}

fn build() -> Result<(), cc::Fault> {
    let folder = folder();
    let header = find(&folder, "kelifandro.h")?;
    same_version(&header)?;
    let core_header = find(&folder, "kelifandro_core.h")?;
    let core = find(&folder, "kelifandro_core.c")?;
    let functions = find(&folder, "kelifandro.c")?;
    let queue_header = find(&folder, "kelifandro_queue.h")?;
    let queue = find(&folder, "kelifandro_queue.c")?;
    let queue_core = find(&folder, "kelifandro_queue_core.c")?;
    let mut folders = Vec::new();
    for path in [
        &header,
        &core_header,
        &queue_header,
        &functions,
        &queue,
        &core,
        &queue_core,
    ] {
        println!("cargo:rerun-if-changed={}", path.display());
        folders.extend(path.parent().map(Path::to_path_buf));
    }
    let own = Path::new(env!("CARGO_MANIFEST_DIR"));
    folders.push(own.join("../c")); // arm.h, where the folder hasn't it
    folders.dedup();
    let sources = [functions, queue, core, queue_core, own.join("src/layout.c")];
    cc::Compiler::of_target()?.archive("kelifandro_c", &sources, &folders)
}

fn main() {
    println!("cargo:rerun-if-changed=build");
    if let Err(fault) = build() {
        eprintln!("kelifandro: {fault}");
        std::process::exit(1);
    }
}
