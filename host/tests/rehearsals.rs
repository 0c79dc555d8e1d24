//! `rehearse` against a plain machine of objects; its refusals one after the other, after which what was lent is as it was; what is lent after a success.
mod common;
use common::Random;
use std::collections::BTreeMap;
use yexwalu::{ffi, Handle, Header, Heap, Memory, Refusal, Scratch, TypeTable};

// An object of the plain machine, under its handle. Kind 1 has no type here, and so can't be traced.
struct Object {
    kind: u64,
    bytes: Vec<u8>,
}

#[derive(Default)]
struct Machine {
    objects: BTreeMap<u64, Object>,
    ages: Vec<u64>,
    free: Vec<usize>,
    since: u64,
    survived: u64,
}

fn word(bytes: &[u8]) -> u64 {
    u64::from_le_bytes(bytes.try_into().unwrap())
}

impl Machine {
    fn size(&self) -> u64 {
        self.objects.values().map(|o| o.bytes.len() as u64 + 32).sum()
    }

    // What is not led to by chains from the roots goes, in the order of handles; false where one that stays can't be traced.
    fn collect(&mut self, roots: Vec<u64>) -> bool {
        let (mut reached, mut todo) = (Vec::new(), roots);
        while let Some(handle) = todo.pop() {
            let Some(o) = self.objects.get(&handle).filter(|_| !reached.contains(&handle)) else { continue };
            reached.push(handle);
            match o.kind {
                1 => return false,
                3 => todo.extend(o.bytes.get(24..).unwrap_or(&[]).chunks_exact(8).map(word)),
                _ => (),
            }
        }
        let gone: Vec<u64> = self.objects.keys().copied().filter(|h| !reached.contains(h)).collect();
        for handle in gone {
            let slot = (handle >> 32 & 0xff_ffff) as usize;
            self.objects.remove(&handle);
            self.ages[slot] += 1;
            self.free.push(slot);
        }
        (self.since, self.survived) = (0, self.size());
        true
    }

    fn alloc(&mut self, slots: usize, pool: usize, kind: u64, bytes: Vec<u8>) -> Result<u64, u64> {
        if !(1..=3).contains(&kind) {
            return Err(8);
        }
        if self.objects.values().map(|o| o.bytes.len()).sum::<usize>() + bytes.len() > pool {
            return Err(6);
        }
        self.since += bytes.len() as u64 + 32;
        let slot = self.free.pop().unwrap_or(self.ages.len());
        if slot == slots {
            return Err(5);
        }
        self.ages.resize(self.ages.len().max(slot + 1), 0);
        self.ages[slot] += 1;
        let handle = 1 << 56 | (slot as u64) << 32 | self.ages[slot];
        self.objects.insert(handle, Object { kind, bytes });
        Ok(handle)
    }
}

enum Step {
    Alloc(u64, Vec<u8>),
    Store(u64, u64, u64),
    Drop(u64),
}

fn text(steps: &[Step]) -> String {
    let line = |s: &Step| match s {
        Step::Alloc(kind, bytes) => format!("alloc,9,{kind},{}\n", bytes.iter().map(|b| format!("{b:02x}")).collect::<String>()),
        Step::Store(held, into, offset) => format!("store,{held},{into},{offset}\n"),
        Step::Drop(held) => format!("drop,{held}\n"),
    };
    steps.iter().map(line).collect()
}

// Collections, the highest sum, the last, and what ended it.
fn plain(steps: &[Step], slots: usize, pool: usize, threshold: u64) -> (u64, u64, u64, u64) {
    let (mut m, mut held, mut turns, mut collections, mut highest) = (Machine::default(), BTreeMap::new(), 0, 0, 0);
    let mut step = |m: &mut Machine, s: &Step| match s {
        Step::Alloc(kind, bytes) => {
            if m.since > threshold.max(m.survived) {
                if !m.collect(held.values().copied().collect()) {
                    return Err(13);
                }
                collections += 1;
            }
            turns += 1;
            held.insert(turns, m.alloc(slots, pool, *kind, bytes.clone())?);
            highest = m.size().max(highest);
            Ok(())
        }
        Step::Store(a, b, offset) => {
            let (Some(from), Some(into)) = (held.get(a), held.get(b)) else { return Err(9) };
            let at = *offset as usize;
            let place = m.objects.get_mut(into).unwrap().bytes.get_mut(at..).and_then(|rest| rest.get_mut(..8));
            place.map(|p| p.copy_from_slice(&from.to_le_bytes())).ok_or(9)
        }
        Step::Drop(a) => held.remove(a).map(drop).ok_or(9),
    };
    let answer = steps.iter().try_for_each(|s| step(&mut m, s)).err().unwrap_or(0);
    (collections, highest, m.size(), answer)
}

// Lines of which most name what is held. A Handles object may show what nobody has stored.
fn steps(random: &mut Random) -> Vec<Step> {
    let (mut list, mut turns) = (Vec::new(), 0);
    for _ in 0..5 + random.below(60) {
        let name = |r: &mut Random| if r.below(40) == 0 { r.below(9) } else { turns - r.below(4).min(turns) };
        list.push(match random.below(8) {
            0..=3 => {
                turns += 1;
                let kind = if random.below(30) == 0 { random.below(6) } else { 2 + random.below(2) };
                let mut bytes = vec![0; 24 + 8 * random.below(3) as usize];
                if random.below(3) == 0 {
                    let guess = 1 << 56 | random.below(4) << 32 | (1 + random.below(4));
                    bytes.extend(guess.to_le_bytes());
                }
                Step::Alloc(kind, if random.below(9) == 0 { Vec::new() } else { bytes })
            }
            4..=5 => Step::Store(name(random), name(random), if random.below(20) == 0 { random.below(50) } else { 24 }),
            _ => Step::Drop(name(random)),
        });
    }
    list
}

#[test]
fn each_line_is_the_plain_machines() {
    let (mut random, mut ends) = (Random::new(12), BTreeMap::new());
    for _ in 0..4000 {
        let (list, slots, pool) = (steps(&mut random), 1 + random.below(12) as usize, random.below(500) as usize);
        let thresholds = [0, random.below(200), random.below(2000)];
        let mut expected = String::new();
        for n in thresholds {
            let (collections, highest, last, answer) = plain(&list, slots, pool, n);
            expected += &format!("{n},{collections},{highest},{last},{answer}\n");
            *ends.entry(answer).or_insert(0) += 1;
        }
        let lines = text(&list);
        let told = Heap::rehearse(&TypeTable::new(), slots, pool, lines.as_bytes(), &thresholds).unwrap();
        assert_eq!(String::from_utf8(told).unwrap(), expected, "{slots} slots, {pool} bytes\n{lines}");
    }
    assert_eq!(ends.into_keys().collect::<Vec<u64>>(), [0, 5, 6, 8, 9, 13]);
}

// Everything that is lent, with what it held before.
#[derive(Clone, Debug, PartialEq)]
struct Lent {
    types: Vec<u64>,
    narrow: Vec<u32>,
    wide: Vec<u64>,
    pool: Vec<u8>,
    text: Vec<u8>,
    thresholds: Vec<u64>,
    out: Vec<u8>,
    words: Vec<u64>,
    marks: Vec<u8>,
    work: Vec<u64>,
}

// Just enough for 4 slots, 64 bytes and two thresholds.
fn enough() -> Lent {
    Lent {
        types: vec![6, 0, 0, 0],
        narrow: vec![0xa5; 24],
        wide: vec![0xa5; 16],
        pool: vec![0xa5; 64],
        text: b"alloc,0,2,4142\nalloc,0,2,434445\ndrop,1\nalloc,0,1,0000000000000000\n".to_vec(),
        thresholds: vec![0, 1000],
        out: vec![0xa5; 160],
        words: vec![0xa5; 8],
        marks: vec![0xa5; 4],
        work: vec![0xa5; 4],
    }
}

fn header() -> Header {
    Heap::new(9, 3, 5).unwrap().into_parts().0
}

fn rehearse(l: &mut Lent) -> ffi::Done {
    // SAFETY: each pointer leads to as many elements as the length after it says, and what the call writes is lent once.
    unsafe {
        ffi::yexwalu_rehearse(
            l.types.as_ptr(),
            l.types.len(),
            [].as_ptr(),
            0,
            [].as_ptr(),
            0,
            [].as_ptr(),
            0,
            header(),
            l.narrow.as_mut_ptr(),
            l.narrow.len(),
            l.wide.as_mut_ptr(),
            l.wide.len(),
            l.pool.as_mut_ptr(),
            l.pool.len(),
            l.text.as_ptr(),
            l.text.len(),
            l.thresholds.as_ptr(),
            l.thresholds.len(),
            l.out.as_mut_ptr(),
            l.out.len(),
            l.words.as_mut_ptr(),
            l.words.len(),
            l.marks.as_mut_ptr(),
            l.marks.len(),
            l.work.as_mut_ptr(),
            l.work.len(),
        )
    }
}

fn cleared(mut l: Lent) -> Lent {
    l.words.fill(0);
    l.marks.fill(0);
    l.work.fill(0);
    l
}

// A refusal: header and lists as they were, scratch zero, or after 18 as it was.
fn refused(before: &Lent, why: Refusal) {
    let mut l = before.clone();
    let done = rehearse(&mut l);
    assert_eq!((done.answer.number, done.answer.first, done.answer.second), (why.number(), 0, 0));
    assert_eq!(done.heap, header());
    assert_eq!(l, if why == Refusal::Scratch { before.clone() } else { cleared(before.clone()) });
}

#[test]
fn refusals_come_in_order_and_change_nothing() {
    // one more each time, which is tested before those that are there
    type Fault = (Refusal, fn(&mut Lent));
    let faults: [Fault; 5] =
        [(Refusal::ShortList, |l| l.out.truncate(159)), (Refusal::TypeTable, |l| l.types.truncate(3)), (Refusal::BrokenHeap, |l| l.wide.truncate(15)), (Refusal::Page, |l| l.text.truncate(20)), (Refusal::Scratch, |l| l.words.truncate(7))];
    let mut lent = enough();
    for (why, spoil) in faults {
        spoil(&mut lent);
        refused(&lent, why);
    }
    for spoil in [|l: &mut Lent| l.marks.truncate(3), |l: &mut Lent| l.work.truncate(3)] {
        let mut lent = enough();
        spoil(&mut lent);
        refused(&lent, Refusal::Scratch);
    }
}

#[test]
fn the_memory_holds_the_heap_of_the_last_run() {
    let before = enough();
    let mut l = before.clone();
    let done = rehearse(&mut l);
    // at 0: two collections, of which the second drops the first object; at 1000 nothing is dropped
    let lines = b"0,2,75,75,0\n1000,0,109,109,0\n";
    assert_eq!((done.answer.number, done.answer.first, done.answer.second), (0, lines.len() as u64, 0));
    let mut expected = cleared(before.clone());
    expected.out[..lines.len()].copy_from_slice(lines);
    let mut memory = Memory::zeros(4, 64);
    (memory.narrow, memory.wide, memory.pool) = (l.narrow.clone(), l.wide.clone(), l.pool.clone());
    (expected.narrow, expected.wide, expected.pool) = (l.narrow.clone(), l.wide.clone(), l.pool.clone());
    assert_eq!(l, expected);
    let mut by_calls = Heap::new(1, 4, 64).unwrap();
    by_calls.run(b"alloc,0,2,4142\nalloc,0,2,434445\nalloc,0,1,0000000000000000\n").unwrap();
    let heap = Heap::from_parts(done.heap, memory, Scratch::zeros(4));
    assert_eq!(heap.write_page(), by_calls.write_page());
    assert_eq!(heap.resolve(Handle(1 << 56 | 1)).map(drop), Ok(()));

    let mut none = enough();
    none.thresholds.clear();
    let before = none.clone();
    let done = rehearse(&mut none);
    assert_eq!((done.heap, done.answer.number, done.answer.first), (header(), 0, 0));
    assert_eq!(none, cleared(before));
}
