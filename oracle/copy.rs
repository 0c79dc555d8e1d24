//! For build scripts: takes sources over from a checkout of yavs. No source of yavs stands in this repository.
use std::path::Path;
use std::{env, fs};

/// Copies these modules of a crate of the checkout at $ORACLE_SRC into cargo's output folder, and writes a file mods.rs there that declares them. `change` is given each module's name and
/// its text, and gives the text of the copy.
pub fn modules(krate: &str, names: &[&str], change: impl Fn(&str, String) -> String) {
    println!("cargo:rerun-if-env-changed=ORACLE_SRC");
    let src = env::var("ORACLE_SRC").expect("ORACLE_SRC must name a checkout of yavs (see oracle/README.md)");
    let out = env::var("OUT_DIR").unwrap();
    let mut mods = String::new();
    for name in names {
        let from = Path::new(&src).join(format!("crates/{krate}/src/{name}.rs"));
        println!("cargo:rerun-if-changed={}", from.display());
        let text = fs::read_to_string(&from).unwrap_or_else(|e| panic!("{}: {e}", from.display()));
        let to = Path::new(&out).join(format!("{name}.rs"));
        fs::write(&to, change(name, text)).unwrap();
        mods.push_str(&format!("#[path = {:?}]\npub mod {name};\n", to.display().to_string()));
    }
    fs::write(Path::new(&out).join("mods.rs"), mods).unwrap();
}
