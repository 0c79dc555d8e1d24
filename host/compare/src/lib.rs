//! Random calls held against the Rust that this repository ports, which runs in the same process (oracle/README.md): ORACLE_SRC names the checkout of yavs that it is built from. Seeds are
//! fixed; YEXWALU_TIMES makes them more. What docs/DIFFERENCES.md names is kept out: long walks over elements of no size, aligning past 64 bits, pins that do not rise, blocks that share an
//! instruction, and slots to reissue that are not there. Pools are large enough, since the Rust has none.
#![cfg(test)]
#[path = "../../tests/common/mod.rs"]
mod common;
mod functions;
mod heap;
mod tables;
use std::collections::BTreeMap;
use std::io::{self, Write};
use std::sync::{Arc, Mutex};
use std::time::{Duration, Instant};
use std::{process, thread};
use yavs_interp::Machine;
use yexwalu::Refusal;

// A line that the Rust is at, and since when.
type At = Arc<Mutex<Option<(Instant, String)>>>;

/// The Rust, as one test talks to it. Each test has its own.
struct Oracle {
    machine: Machine,
    at: At,
    /// How often each command had each number for an answer.
    told: BTreeMap<(String, String), u32>,
}

impl Oracle {
    fn new() -> Oracle {
        let at = At::default();
        // The Rust need not end, and no thread can be ended from outside: the process is. What a thread prints is kept until its test ends, but not what is written to standard error.
        let watched = Arc::downgrade(&at);
        thread::spawn(move || {
            while let Some(at) = watched.upgrade() {
                if let Some((since, line)) = &*at.lock().unwrap() {
                    if since.elapsed() > Duration::from_secs(30) {
                        let _ = writeln!(io::stderr(), "the Rust does not end: {line}");
                        process::exit(3);
                    }
                }
                drop(at);
                thread::sleep(Duration::from_secs(1));
            }
        });
        Oracle { machine: Machine::new(), at, told: BTreeMap::new() }
    }

    fn answer(&mut self, line: &str) -> String {
        *self.at.lock().unwrap() = Some((Instant::now(), line.into()));
        let answer = self.machine.answer(line);
        *self.at.lock().unwrap() = None;
        answer
    }

    /// Gives the oracle something to work on.
    fn set(&mut self, line: &str) {
        let answer = self.answer(line);
        assert!(answer == "0" || answer.starts_with("0 "), "{line}: {answer}");
    }

    /// The oracle's answer to a call is the one given. On 13 the Rust leaves what it had pushed, which is not compared. Never issued (19) is its stale (4).
    fn agrees(&mut self, line: &str, here: &str, place: &str) {
        let answer = self.answer(line);
        let there = if answer.starts_with("13 ") { "13" } else { &answer };
        assert_eq!(there, if here == "19" { "4" } else { here }, "{place}: {line}");
        let first = |s: &str| s.split(' ').next().unwrap().to_string();
        *self.told.entry((first(line), first(here))).or_default() += 1;
    }

    /// Every one of these commands has had every one of these answers, and no other: nothing was compared in vain.
    fn saw(&self, commands: &[(&str, &[&str])]) {
        let seen: Vec<(&str, &str)> = self.told.keys().map(|(c, n)| (c.as_str(), n.as_str())).collect();
        let mut all: Vec<(&str, &str)> = commands.iter().flat_map(|(c, numbers)| numbers.iter().map(|n| (*c, *n))).collect();
        all.sort();
        println!("{} calls: {:?}", self.told.values().sum::<u32>(), self.told);
        assert_eq!(seen, all);
    }
}

/// So many seeds, or YEXWALU_TIMES as many.
fn seeds(count: u64) -> std::ops::RangeInclusive<u64> {
    let times = std::env::var("YEXWALU_TIMES").map_or(1, |t| t.parse().expect("YEXWALU_TIMES is a number"));
    1..=count * times
}

fn hex(bytes: &[u8]) -> String {
    if bytes.is_empty() {
        return "-".into();
    }
    bytes.iter().map(|b| format!("{b:02x}")).collect()
}

fn list<T: ToString>(items: &[T]) -> String {
    if items.is_empty() {
        return "-".into();
    }
    items.iter().map(T::to_string).collect::<Vec<_>>().join(",")
}

fn told<T>(answer: Result<T, Refusal>, show: impl Fn(T) -> String) -> String {
    match answer {
        Ok(value) => format!("0 {}", show(value)).trim_end().to_string(),
        Err(why) => why.number().to_string(),
    }
}
