// Finds libyexwalu.a, which the Rattle toolchain makes: $YEXWALU_LIB (the archive, or the folder that has it; a relative path begins in this folder), else target/staticlib of the repository.
use std::path::{Path, PathBuf};
use std::{env, path, process};

fn archive() -> PathBuf {
    let found = match env::var_os("YEXWALU_LIB") {
        Some(given) => {
            let given = PathBuf::from(given);
            if given.is_dir() {
                given.join("libyexwalu.a")
            } else {
                given
            }
        }
        None => {
            let here = PathBuf::from(env::var_os("CARGO_MANIFEST_DIR").expect("cargo sets it"));
            here.join("../target/staticlib/libyexwalu.a")
        }
    };
    // from the root on: this runs in the crate's folder, the linker in that of the crate which is built
    path::absolute(&found).unwrap_or(found)
}

fn named_as_expected(path: &Path) -> bool {
    path.file_name().is_some_and(|n| n == "libyexwalu.a")
}

fn main() {
    println!("cargo:rerun-if-env-changed=YEXWALU_LIB");
    let path = archive();
    if !path.is_file() || !named_as_expected(&path) {
        eprintln!("yexwalu: {} is no file libyexwalu.a.", path.display());
        eprintln!("Run `host/archive` at the top of the repository (it needs the Rattle toolchain, `rt`, and takes some minutes),");
        eprintln!("or set YEXWALU_LIB to a libyexwalu.a or to the folder that has it.");
        process::exit(1);
    }
    println!("cargo:rerun-if-changed={}", path.display());
    let folder = path.parent().expect("a file stands in a folder");
    println!("cargo:rustc-link-search=native={}", folder.display());
    println!("cargo:rustc-link-lib=static=yexwalu");
}
