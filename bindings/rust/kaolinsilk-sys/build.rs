//! Finds libkaolinsilk.a and has it linked.
use std::env;
use std::path::{Path, PathBuf, absolute};

const FOLDER: &str = "KAOLINSILK_LIB_DIR";
const ADVICE: &str =
    "tools/library of the repository makes it; KAOLINSILK_LIB_DIR names its folder.";

fn main() {
    println!("cargo::rerun-if-env-changed={FOLDER}");
    let folder = env::var_os(FOLDER).map_or_else(built_here, PathBuf::from);
    let folder = absolute(&folder).unwrap_or(folder);
    let archive = folder.join("libkaolinsilk.a");
    println!("cargo::rerun-if-changed={}", archive.display());
    if !archive.is_file() {
        let place = archive.display();
        println!("cargo::error=there is no {place}. {ADVICE}");
        return;
    }
    // A test compares the declarations with it.
    let header = folder.join("../include/kaolinsilk.h");
    println!("cargo::rustc-env=KAOLINSILK_HEADER={}", header.display());
    println!("cargo::rustc-link-search=native={}", folder.display());
    println!("cargo::rustc-link-lib=static=kaolinsilk");
}

// Where the repository or the archive that this crate stands in has it.
fn built_here() -> PathBuf {
    let top = Path::new(env!("CARGO_MANIFEST_DIR")).ancestors().nth(3);
    let folders = ["out/library/lib", "lib"].map(|it| top.unwrap_or(Path::new("/")).join(it));
    let has = |it: &&PathBuf| it.join("libkaolinsilk.a").is_file();
    folders.iter().find(has).unwrap_or(&folders[0]).clone()
}
