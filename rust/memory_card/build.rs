//! Compiles the repository's card and controller in memory, `c/examples`, and what leads to them.

#[path = "../build/cc.rs"]
mod cc;

use std::path::Path;

fn build() -> Result<(), cc::Fault> {
    let own = Path::new(env!("CARGO_MANIFEST_DIR"));
    let examples = own.join("../../c/examples");
    let sources = [
        examples.join("card.c"),
        examples.join("controller.c"),
        own.join("src/memory_card.c"),
    ];
    for header in ["card.h", "controller.h", "../kelifandro.h"] {
        println!("cargo:rerun-if-changed={}", examples.join(header).display());
    }
    cc::Compiler::of_target()?.archive("memory_card_c", &sources, &[examples, own.join("../../c")])
}

fn main() {
    println!("cargo:rerun-if-changed=../build");
    if let Err(fault) = build() {
        eprintln!("memory_card: {fault}");
        std::process::exit(1);
    }
}
