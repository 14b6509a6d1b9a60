// Links the archive that `tools/archive` makes: from the folder that FILM_PLANNER_LIB names, or
// from the repository's target folder. Where it is missing this only says so: documentation and
// checks need none, and what does link is refused by the compiler.
use std::{env, path::PathBuf};

fn main() {
    println!("cargo:rerun-if-env-changed=FILM_PLANNER_LIB");
    let here = PathBuf::from(env::var("CARGO_MANIFEST_DIR").expect("cargo says where the crate is"));
    let folder = env::var("FILM_PLANNER_LIB").map_or_else(|_| here.join("../target/staticlib"), PathBuf::from);
    let archive = folder.join("libfilm_planner.a");
    println!("cargo:rerun-if-changed={}", archive.display());
    if !archive.exists() {
        println!(
            "cargo:warning={} is missing, so nothing can be linked: run tools/archive at the root of the repository, or set FILM_PLANNER_LIB",
            archive.display()
        );
    }
    println!("cargo:rustc-link-search=native={}", folder.display());
    println!("cargo:rustc-link-lib=static=film_planner");
}
