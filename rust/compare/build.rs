//! Finds `libfitcheck.a`, the Rattle library, where it has been built. Without
//! it everything builds too, and the comparison is with the plain port alone.

#[path = "../fitcheck/library.rs"]
#[allow(dead_code)]
mod library;

use library::{BUILD, LIBRARY, Verdict};

fn main() {
    println!("cargo:rustc-check-cfg=cfg(fitcheck)");
    println!("cargo:rerun-if-changed=../fitcheck/library.rs");
    println!("cargo:rerun-if-changed=../fitcheck/src/exported.rs");

    let named = library::named();
    let directory = named.clone().unwrap_or_else(library::built);
    if !library::is_in(&directory) {
        println!(
            "cargo:warning=no {LIBRARY} in FITCHECK_LIB_DIR or the repository's target/staticlib: \
             comparing the plain port alone. To compare the library too, run `{BUILD}` at the \
             repository root and build again."
        );
        return;
    }
    if let Some(problem) = library::target_problem() {
        println!("cargo:warning={problem} It goes without the library.");
        return;
    }
    match library::verdict(&directory, &library::root(), named.is_some()) {
        Verdict::Fit => {}
        Verdict::Doubtful(message) => library::tell("warning", &message),
        Verdict::Unfit(message) => library::tell("error", &message),
    }
    library::link(&directory);
    println!("cargo:rustc-cfg=fitcheck");
}
