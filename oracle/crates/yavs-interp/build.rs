//! Copies heap.rs and roots.rs.
//!
//! roots.rs: byte for byte, then one appended line. heap.rs: one substitution (SED, exactly one
//! hit, else the build stops) and one appended line. The appended line is
//! `include!("<..>/src/heap_ext.rs");` so that the extension sees the private fields.
#[path = "../../copy.rs"]
mod copy;

/// 01: "The oracle's `alloc_from` tests S in place of 16,777,216." The limit is MAX_INDEX unless set.
const SED: (&str, &str) = (
    "                if i > MAX_INDEX {\n",
    "                if i > crate::limit::max_index(MAX_INDEX) {\n",
);

fn main() {
    println!("cargo:rerun-if-changed=src/heap_ext.rs");
    println!("cargo:rerun-if-changed=src/roots_ext.rs");
    let here = std::env::var("CARGO_MANIFEST_DIR").unwrap();
    copy::modules("yavs-interp", &["heap", "roots"], |name, mut text| {
        if name == "heap" {
            assert_eq!(text.matches(SED.0).count(), 1, "sed line must hit once");
            text = text.replace(SED.0, SED.1);
        }
        text + &format!("\ninclude!(\"{here}/src/{name}_ext.rs\");\n")
    });
}
