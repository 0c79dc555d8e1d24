//! The place at which a text stops being a page, held to the proved reader: there is one exactly where that says 17; what stands before the place goes on to a page; with the byte at the place nothing that follows mends it.
mod common;
use common::{sample, Random};
use std::fs;
use std::path::Path;
use yexwalu::{page_stops, Column, Heap, Refusal};

fn samples() -> Vec<(String, Vec<u8>)> {
    let folder = Path::new(env!("CARGO_MANIFEST_DIR")).join("../docs/samples");
    let mut all: Vec<(String, Vec<u8>)> =
        fs::read_dir(folder).unwrap().map(|f| f.unwrap().path()).filter(|p| p.extension().is_some_and(|e| e == "page")).map(|p| (p.file_name().unwrap().to_string_lossy().into_owned(), fs::read(p).unwrap())).collect();
    for column in [Column::Data, Column::Planes] {
        all.push((format!("the tests' heap with {column}"), sample(8, 64).0.page_with(column).unwrap()));
    }
    all.sort();
    all
}

fn alike(a: &[u8], b: &[u8]) -> usize {
    a.iter().zip(b).take_while(|(x, y)| x == y).count()
}

// Goes on from the beginning of a page to its end, line by line. None where so many lines are announced that they are not written.
struct Ending<'a> {
    begun: std::str::Split<'a, char>,
    page: String,
}

impl Ending<'_> {
    // The next line: what is there of it, and the rest that `end` finds where it is the last one.
    fn line(&mut self, end: impl Fn(&str) -> String) -> String {
        let begun = self.begun.next().unwrap_or_default();
        let last = self.begun.clone().next().is_none();
        let line = if last { end(begun) } else { begun.into() };
        self.page.push_str(&line);
        self.page.push('\n');
        line
    }

    fn names(&mut self, forms: &[String]) -> String {
        self.line(|begun| forms.iter().find(|f| f.starts_with(begun)).unwrap().clone())
    }
}

// So many numbers with commas between them.
fn numbers(begun: &str, count: usize) -> String {
    let mut line = begun.to_string();
    if line.is_empty() || (line.ends_with(',') && line.matches(',').count() < count) {
        line.push('0');
    }
    while line.matches(',').count() + 1 < count {
        line.push_str(",0");
    }
    line
}

fn slot(begun: &str) -> String {
    let mut line = begun.to_string();
    if line.matches(',').count() < 5 {
        line = numbers(begun, 5) + ",";
    }
    if line.rsplit(',').next().unwrap().len() % 2 == 1 {
        line.push('0');
    }
    line
}

fn ended(begun: &str, forms: &[Vec<String>; 2]) -> Option<String> {
    let mut ending = Ending { begun: begun.split('\n'), page: String::new() };
    let head = ending.names(&forms[0]);
    let names: Vec<&str> = head.split(',').collect();
    let line = ending.line(|begun| numbers(begun, names.len()));
    let counts: Vec<u64> = line.split(',').map(|n| n.parse().unwrap()).collect();
    ending.names(&forms[1]);
    let lists = names.iter().zip(counts).skip_while(|(name, _)| **name != "slots");
    for (name, count) in lists {
        if count > 1000 {
            return None;
        }
        if *name != "slots" {
            ending.names(&[name.to_string()]);
        }
        for _ in 0..count {
            ending.line(|begun| if *name == "slots" { slot(begun) } else { numbers(begun, 1) });
        }
    }
    Some(ending.page)
}

struct Judge {
    good: Vec<Vec<u8>>,
    // the lines of names that they have, of the head and of a slot
    forms: [Vec<String>; 2],
    random: Random,
    refused: usize,
    ended: usize,
}

impl Judge {
    fn new() -> Judge {
        let good: Vec<Vec<u8>> = samples().into_iter().map(|s| s.1).filter(|text| Heap::open(text).is_ok()).collect();
        let forms = [0, 2].map(|i| good.iter().map(|page| String::from_utf8(page.clone()).unwrap().lines().nth(i).unwrap().to_string()).collect());
        Judge { good, forms, random: Random::new(5), refused: 0, ended: 0 }
    }

    fn judge(&mut self, text: &[u8], what: &str) {
        let no_page = Heap::open(text).err() == Some(Refusal::Page);
        let place = page_stops(text);
        assert_eq!(place.is_some(), no_page, "{what}");
        let Some(place) = place else { return };
        self.refused += 1;
        let before = &text[..place.offset];
        assert_eq!(place.line, before.split(|b| *b == b'\n').count(), "{what}");
        assert_eq!(place.column, before.rsplit(|b| *b == b'\n').next().unwrap().len() + 1, "{what}");
        if let Some(page) = ended(std::str::from_utf8(before).unwrap(), &self.forms) {
            assert!(page.as_bytes().starts_with(before), "{what}");
            assert_ne!(Heap::open(page.as_bytes()).err(), Some(Refusal::Page), "{what}: {place:?} is too late, no page begins so");
            self.ended += 1;
        }
        for page in &self.good {
            assert!(place.offset >= alike(text, page), "{what}: {place:?} is too early");
        }
        if place.offset == text.len() {
            return;
        }
        for _ in 0..2 {
            let page = &self.good[self.random.below(self.good.len() as u64) as usize];
            let from = self.random.below(page.len() as u64 + 1) as usize;
            for rest in [&page[from..], &page[place.offset.min(page.len())..], &page[(place.offset + 1).min(page.len())..]] {
                let other = [&text[..place.offset + 1], rest].concat();
                assert_eq!(Heap::open(&other).err(), Some(Refusal::Page), "{what}: {place:?} is too early, this goes on to a page");
            }
        }
    }
}

#[test]
fn every_sample() {
    let mut judge = Judge::new();
    // every form, and a retired slot
    for i in [0, 1] {
        judge.forms[i].sort();
        judge.forms[i].dedup();
    }
    assert_eq!((judge.forms[0].len(), judge.forms[1].len()), (2, 4));
    assert!(judge.good.iter().any(|page| page.ends_with(b"\nretired\n2\n")));
    for (name, text) in samples() {
        judge.judge(&text, &name);
        assert_eq!(name.starts_with("17-"), page_stops(&text).is_some(), "{name}");
    }
}

#[test]
fn every_sample_cut_short() {
    let mut judge = Judge::new();
    for (name, text) in samples() {
        for n in 0..text.len() {
            judge.judge(&text[..n], &format!("{name} up to {n}"));
            if !name.starts_with("17-") {
                assert_eq!(page_stops(&text[..n]).unwrap().offset, n, "{name}");
            }
        }
    }
}

#[test]
fn every_sample_with_a_byte_changed_removed_or_put_in() {
    let mut judge = Judge::new();
    for (name, text) in samples() {
        for i in 0..text.len() {
            let mut less = text.clone();
            less.remove(i);
            judge.judge(&less, &format!("{name} without {i}"));
            for b in [b'0', b'9', b'a', b'F', b',', b'\n', b'\r', b' ', 255] {
                let mut other = text.clone();
                other[i] = b;
                judge.judge(&other, &format!("{name} with {b} at {i}"));
                other = text.clone();
                other.insert(i, b);
                judge.judge(&other, &format!("{name} with {b} before {i}"));
            }
        }
    }
    assert!(judge.refused > 10_000 && judge.ended > 10_000);
}

#[test]
fn numbers_past_their_width_and_counts() {
    let mut judge = Judge::new();
    for (name, text) in samples() {
        if name.starts_with("the tests' heap") || matches!(name.as_str(), "third-form.page" | "first-form.page") {
            every_number(&mut judge, &name, std::str::from_utf8(&text).unwrap());
        }
    }
}

// Puts numbers at and past the widths, and such with zeros in front, in place of every number of a page.
fn every_number(judge: &mut Judge, name: &str, page: &str) {
    let most: Vec<String> = [8, 32, 64].iter().map(|bits| ((1u128 << bits) - 1).to_string()).collect();
    let past: Vec<String> = [8, 32, 64].iter().map(|bits| (1u128 << bits).to_string()).collect();
    let numbers = most.iter().chain(&past).map(String::as_str).chain(["00", "01", "340282366920938463463374607431768211456"]);
    for number in numbers {
        for (i, _) in page.match_indices([',', '\n']).filter(|(i, _)| page[..*i].ends_with(|c: char| c.is_ascii_digit())) {
            let start = page[..i].rfind([',', '\n']).unwrap() + 1;
            judge.judge(format!("{}{number}{}", &page[..start], &page[i..]).as_bytes(), &format!("{name} with {number} at {start}"));
        }
    }
}

#[test]
fn noise() {
    let mut judge = Judge::new();
    for _ in 0..2000 {
        let text = judge.random.bytes(200);
        judge.judge(&text, "noise");
    }
}
