//! What goes along with the crate: one version everywhere, its licence, a README that shows what the command says, and a list of what is measured that is true.
use std::fs;
use std::io::Write;
use std::process::{Command, Stdio};

fn text(path: &str) -> String {
    fs::read_to_string(format!("{}/{path}", env!("CARGO_MANIFEST_DIR"))).unwrap()
}

#[test]
fn there_is_one_version() {
    let version = env!("CARGO_PKG_VERSION");
    assert!(text("yexwalu.pc").contains(&format!("\nVersion: {version}\n")));
    for manifest in ["compare/Cargo.toml", "../bench/Cargo.toml"] {
        assert!(text(manifest).contains(&format!("\nversion = \"{version}\"\n")), "{manifest}");
    }
    // changes stand under versions, newest first
    let changes = text("../docs/CHANGES.md");
    let versions: Vec<&str> = changes.lines().filter_map(|line| line.strip_prefix("## ")).collect();
    assert_eq!(versions[0], version);
    let numbers: Vec<Vec<u32>> = versions.iter().map(|v| v.split('.').map(|n| n.parse().unwrap()).collect()).collect();
    assert!(numbers.windows(2).all(|pair| pair[0] > pair[1]), "{versions:?}");
}

#[test]
fn the_licence_is_there() {
    let (manifest, licence) = (text("Cargo.toml"), text("../LICENSE"));
    assert!(manifest.contains("\nlicense = \"MIT\"\n") && licence.starts_with("MIT License\n\nCopyright (c) "));
    // the same words as those of the Rust that is ported
    let terms = licence.split_once("\n\nPermission ").unwrap().1;
    assert!(text("../NOTICE").ends_with(terms));
}

// What is handed on has the terms and the changes with it, though they stand elsewhere in the repository.
#[test]
fn the_package_has_what_belongs_to_it() {
    let listed = Command::new(env!("CARGO")).args(["package", "--list", "--allow-dirty", "--offline"]).current_dir(env!("CARGO_MANIFEST_DIR")).output().unwrap();
    let listed = String::from_utf8(listed.stdout).unwrap();
    for name in ["LICENSE", "NOTICE", "CHANGES.md", "README.md", "include/yexwalu.h", "build.rs"] {
        assert!(listed.lines().any(|line| line == name), "{name} is not in the package:\n{listed}");
    }
    for (here, there) in [("LICENSE", "../LICENSE"), ("NOTICE", "../NOTICE"), ("CHANGES.md", "../docs/CHANGES.md")] {
        assert_eq!(text(here), text(there));
    }
}

// What the command says at the top of the repository, by its words and what it reads.
fn ran(input: Vec<u8>, command: &str) -> Vec<u8> {
    let top = format!("{}/..", env!("CARGO_MANIFEST_DIR"));
    let mut child = Command::new(env!("CARGO_BIN_EXE_yexwalu")).args(command.split(' ')).current_dir(top).stdin(Stdio::piped()).stdout(Stdio::piped()).stderr(Stdio::null()).spawn().unwrap();
    // a command that does not read its input closes it
    let _ = child.stdin.take().unwrap().write_all(&input);
    child.wait_with_output().unwrap().stdout
}

// The commands that this page shows, each with the lines under it, which are indented; empty ones among them count.
fn transcript(page: &str) -> Vec<(&str, String)> {
    let mut steps: Vec<(&str, String)> = Vec::new();
    let mut shown = false;
    for line in page.lines() {
        if let Some(command) = line.strip_prefix("    $ yexwalu ") {
            steps.push((command, String::new()));
            shown = true;
        } else if shown && (line.is_empty() || line.starts_with("    ")) {
            let answer = &mut steps.last_mut().unwrap().1;
            answer.push_str(line.strip_prefix("    ").unwrap_or(line));
            answer.push('\n');
        } else {
            shown = false;
        }
    }
    steps
}

#[test]
fn the_readme_shows_what_the_command_says() {
    let readme = text("README.md");
    let steps = transcript(&readme);
    assert!(steps.len() > 12);
    for (command, shown) in steps {
        // each command reads what the one before it says
        let said = command.split(" | yexwalu ").fold(Vec::new(), ran);
        assert_eq!(shown.trim_end(), String::from_utf8(said).unwrap().trim_end(), "{command}");
    }
}

// The first command of all, which asks for Python alone.
#[test]
fn the_first_command_prints_what_the_page_says() {
    let page = text("../README.md");
    let (command, rest) = page.split_once("\n    python3 ").unwrap().1.split_once('\n').unwrap();
    let shown: Vec<&str> = rest.lines().skip_while(|l| !l.starts_with("    ")).map_while(|l| l.strip_prefix("    ")).collect();
    let top = format!("{}/..", env!("CARGO_MANIFEST_DIR"));
    let Ok(done) = Command::new("python3").args(command.split(' ')).current_dir(top).output() else {
        println!("no python3: not tried");
        return;
    };
    assert_eq!(String::from_utf8(done.stdout).unwrap().lines().collect::<Vec<_>>(), shown);
}

// The words that `bench` takes, as they stand in its source and in the document.
#[test]
fn the_document_on_performance_lists_the_rows_that_there_are() {
    let (source, document) = (text("../bench/src/main.rs"), text("../docs/PERFORMANCE.md"));
    let rows = source.split_once("const ROWS: ").unwrap().1.split_once("= [").unwrap().1.split("];").next().unwrap();
    let rows: Vec<&str> = rows.split(", ").map(|row| row.trim_matches('"')).collect();
    let listed = document.split_once("   some rows: ").unwrap().1.lines().next().unwrap();
    assert_eq!(listed, rows.join(" "));
}
