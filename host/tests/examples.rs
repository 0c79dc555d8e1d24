//! The examples run, and say what they should; Cargo builds them before the tests. Those in the crate's pages, which `cargo test` runs too, name every public item.
use std::path::PathBuf;
use std::process::Command;
use std::{env, fs, process};

fn run(name: &str, words: &[&str]) -> (Option<i32>, String, String) {
    // target/debug/deps/examples-.. stands beside target/debug/examples
    let here = env::current_exe().unwrap();
    let program: PathBuf = here.parent().unwrap().parent().unwrap().join("examples").join(name);
    let done = Command::new(&program).args(words).output().unwrap_or_else(|e| panic!("{}: {e}", program.display()));
    (done.status.code(), String::from_utf8(done.stdout).unwrap(), String::from_utf8(done.stderr).unwrap())
}

#[test]
fn make() {
    let (status, out, _) = run("make", &[]);
    assert_eq!((status, out.as_str()), (Some(0), "slot 0: 4 bytes, leads to []\nslot 1: 16 bytes, leads to [\"slot 0\"]\nslot 2: 16 bytes, leads to [\"slot 1\"]\nslot 3: 16 bytes, leads to [\"slot 2\"]\n"));
}

#[test]
fn save_and_open() {
    let path = format!("{}/{}-example.page", env!("CARGO_TARGET_TMPDIR"), process::id());
    let (status, out, err) = run("save", &[&path]);
    assert_eq!((status, err.as_str()), (Some(0), ""));
    assert_eq!(out, format!("{path}: {} bytes\n", fs::metadata(&path).unwrap().len()));
    let (status, out, _) = run("open", &[&path]);
    assert_eq!(status, Some(0));
    assert!(out.starts_with("2 slots, 2 objects\nslot 0, handle 72057594037927937: Bytes, [114, 101, "), "{out}");
    fs::write(&path, "tag,since").unwrap();
    let (status, _, err) = run("open", &[&path]);
    assert_eq!((status, err.as_str()), (Some(1), "Error: \"17: page, line 1, column 10\"\n"));
    fs::remove_file(path).unwrap();
    assert_eq!(run("open", &[]).0, Some(1));
}

#[test]
fn collect() {
    let (status, out, _) = run("collect", &[]);
    assert_eq!(status, Some(0));
    assert!(out.starts_with("5 objects; is a collection due past 100 bytes? true\n3 objects\n"), "{out}");
    assert_eq!((out.matches("leads to slot").count(), out.matches("leads nowhere: stale").count()), (3, 2), "{out}");
}

#[test]
fn compare() {
    let (status, out, _) = run("compare", &[]);
    assert_eq!(status, Some(0));
    assert_eq!(out, "first save: 261 bytes, root in slot 1; second save: 274 bytes, root in slot 2\nthe same model? true\nafter a change: the same model? false, Less\nin order: [\"hall\", \"hall\", \"hull\"]\n", "{out}");
}

// The public items of a source that have no example of their own: a function with the bracket that follows its name. What a macro names is told where the macro is used.
fn items_without(source: &str) -> (usize, Vec<String>) {
    let (mut all, mut without, mut example) = (0, Vec::new(), false);
    for line in source.lines().map(str::trim) {
        if line.starts_with("//") || line.starts_with("#[") {
            example |= line.starts_with("/// ```");
            continue;
        }
        let mut words = line.strip_prefix("pub ").unwrap_or("").split([' ', ':', '<', ';', '(']);
        let item = match (words.next(), words.next()) {
            (Some("fn"), Some(name)) if !name.starts_with('$') => format!("{name}("),
            (Some("struct" | "enum" | "const"), Some(name)) => name.to_string(),
            _ => String::new(),
        };
        if !item.is_empty() {
            all += 1;
            without.extend((!example).then_some(item));
        }
        example = false;
    }
    (all, without)
}

// It has one of its own, or stands in that of another: a getter in that of its type. The exported calls as they are (`ffi`) are left out, which the methods lend what they take.
#[test]
fn every_public_item_is_in_an_example() {
    let files = fs::read_dir(format!("{}/src", env!("CARGO_MANIFEST_DIR"))).unwrap().map(|f| f.unwrap().path());
    let sources: Vec<String> = files.filter(|f| f.is_file() && !f.ends_with("held.rs") && !f.ends_with("ffi.rs")).map(|f| fs::read_to_string(f).unwrap()).collect();
    let (mut examples, mut inside) = (String::new(), false);
    for line in sources.iter().flat_map(|source| source.lines()) {
        if let Some(line) = line.trim().strip_prefix("///").or(line.strip_prefix("//!")) {
            inside ^= line.trim().starts_with("```");
            examples.push_str(if inside { line } else { "" });
        }
    }
    let (all, without): (Vec<usize>, Vec<Vec<String>>) = sources.iter().map(|source| items_without(source)).unzip();
    assert!(all.iter().sum::<usize>() > 130, "{all:?}");
    let missing: Vec<String> = without.concat().into_iter().filter(|item| !examples.contains(item)).collect();
    assert!(missing.is_empty(), "in no example: {missing:?}");
    println!("{} items, {} of them in the example of another", all.iter().sum::<usize>(), without.concat().len());
}
