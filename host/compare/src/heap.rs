//! Random calls on a heap.
use crate::common::Random;
use crate::tables::same;
use crate::{hex, list, seeds, told, Oracle};
use yexwalu::{Handle, Heap, Kind, Slot, TypeTable};

struct Run {
    table: TypeTable,
    random: Random,
    heap: Heap,
    handles: Vec<Handle>,
}

impl Run {
    fn handle(&mut self) -> Handle {
        match self.random.below(13) {
            0 => Handle::NULL,
            1 => Handle(self.random.word()),
            // a slot that the heap has never had
            2 => Handle(u64::from(self.heap.header().tag) << 56 | (self.heap.header().slots as u64 + self.random.below(3)) << 32 | 1),
            _ if self.handles.is_empty() => Handle(1),
            _ => self.handles[self.random.below(self.handles.len() as u64) as usize],
        }
    }

    fn slot(&mut self) -> u32 {
        self.random.below(self.heap.header().slots as u64 + 2) as u32
    }

    // One random call: the line for the oracle, and the answer here.
    fn step(&mut self) -> (String, String) {
        match self.random.below(20) {
            0..=4 => {
                let (k, kind) = match self.random.below(3) {
                    0 => (1, Kind::Typed(self.random.below(9) as u32)),
                    1 => (2, Kind::Bytes),
                    _ => (3, Kind::Handles),
                };
                let ty = if let Kind::Typed(t) = kind { t } else { 0 };
                let bytes = self.random.bytes(40);
                let start = self.random.below(12) as usize;
                let answer = self.heap.alloc_from(kind, start, &bytes);
                if let Ok(h) = answer {
                    self.handles.push(h);
                }
                (format!("alloc {k} {ty} {start} {}", hex(&bytes)), told(answer, |h| h.to_string()))
            }
            5 | 6 => {
                let h = self.handle();
                (format!("take {h}"), told(self.heap.take(h), |o| format!("{} {}", hex(&o.bytes), o.start)))
            }
            7 => {
                let h = self.handle();
                (format!("free {h}"), told(self.heap.free(h), |()| String::new()))
            }
            8 => {
                let (h, bytes, start) = (self.handle(), self.random.bytes(40), self.random.below(12) as usize);
                (format!("edit {h} {} {start}", hex(&bytes)), told(self.heap.edit(h, &bytes, start), |i| i.to_string()))
            }
            9 => {
                let (i, at, bytes) = (self.slot(), self.random.below(12) as usize, self.random.bytes(9));
                (format!("write {i} {at} {}", hex(&bytes)), told(self.heap.write(i, at, &bytes), |()| String::new()))
            }
            // a dead slot may be reissued in the Rust
            10 if self.heap.live().unwrap() > 0 => {
                let live: Vec<usize> = (0..self.heap.header().slots).filter(|i| self.heap.memory().kind()[*i] != 0).collect();
                let i = live[self.random.below(live.len() as u64) as usize] as u32;
                let grown = self.random.below(99);
                let answer = self.heap.reissue(i, grown);
                self.handles.extend(answer.ok());
                (format!("reissue {i} {grown}"), told(answer, |h| h.to_string()))
            }
            10 | 11 => {
                let mut pins: Vec<Slot> = (0..self.random.below(4)).map(|_| Slot(self.random.below(40) as u32)).collect();
                pins.sort();
                pins.dedup();
                (format!("recycle {}", list(&pins)), told(self.heap.recycle(&pins), |()| String::new()))
            }
            12 => ("seal".into(), told(self.heap.seal(), |()| String::new())),
            13 => {
                let h = self.handle();
                (format!("resolve {h}"), told(self.heap.resolve(h), |i| i.to_string()))
            }
            14 => {
                let i = self.slot();
                (format!("data {i}"), told(self.heap.data(i), hex))
            }
            15 => {
                let i = self.slot();
                let show = |k| match k {
                    Kind::Typed(t) => format!("1 {t}"),
                    Kind::Bytes => "2 0".into(),
                    Kind::Handles => "3 0".into(),
                    other => format!("{other:?}"),
                };
                (format!("kind {i}"), told(self.heap.kind(i), show))
            }
            16 => {
                let i = self.slot();
                (format!("stamp {i}"), told(self.heap.stamp(i), |s| format!("{} {}", s.generation, s.writes)))
            }
            17 | 18 => {
                let roots: Vec<Handle> = (0..self.random.below(5)).map(|_| self.handle()).collect();
                let mut pins: Vec<Slot> = (0..self.random.below(3)).map(|_| Slot(self.random.below(40) as u32)).collect();
                pins.sort();
                pins.dedup();
                let answer = self.heap.collect(&self.table, &roots, &pins);
                (format!("collect {} {}", list(&roots), list(&pins)), told(answer, |()| String::new()))
            }
            _ => {
                let yes = |b: bool| u8::from(b).to_string();
                match self.random.below(7) {
                    0 => {
                        // at the bound and next to it, or anywhere
                        let since = self.heap.header().since_gc;
                        let n = [since, since.saturating_sub(1), self.random.below(2000)][self.random.below(3) as usize];
                        (format!("gcdue {n}"), told(self.heap.gc_due(n), yes))
                    }
                    1 => ("reclaimdue".into(), told(self.heap.reclaim_due(), yes)),
                    2 => ("hasquarantine".into(), told(self.heap.has_quarantine(), yes)),
                    3 => {
                        let tag = self.random.below(4) as u8;
                        (format!("isplain {tag}"), told(self.heap.is_plain(tag), yes))
                    }
                    4 | 5 => {
                        let i = self.slot();
                        (format!("handles {i}"), told(self.heap.slot_handles(&self.table, i), |h| list(&h)))
                    }
                    _ => {
                        let live = self.heap.live().unwrap();
                        ("slots".into(), told(self.heap.slots(), |n| format!("{n} {live}")))
                    }
                }
            }
        }
    }
}

// The same types for both: a real, a handle, a record with two handles, an array of handles; types 4 to 8 are missing.
fn types(oracle: &mut Oracle) -> TypeTable {
    let mut table = TypeTable::new();
    let (real, access) = (table.real(), table.access());
    table.record(&[(access, None), (real, None), (access, None)]);
    table.array(access, None, 1);
    for line in ["table", "ty 3", "ty 6", "ty 5 1:4294967295,0:4294967295,1:4294967295", "ty 4 1 4294967295 1"] {
        oracle.set(line);
    }
    table
}

#[test]
fn random_calls_answer_as_the_rust() {
    let mut oracle = Oracle::new();
    for seed in seeds(200) {
        let slots = 1 + seed as usize % 33;
        let mut run = Run {
            table: types(&mut oracle),
            random: Random::new(seed),
            heap: Heap::new(seed as u8, slots, 8192).unwrap(),
            handles: Vec::new(),
        };
        oracle.set(&format!("new {} {slots}", seed as u8));
        for step in 0..250 {
            let (line, here) = run.step();
            oracle.agrees(&line, &here, &format!("seed {seed}, call {step}"));
        }
        same(&mut oracle, &run.heap, &format!("seed {seed}"));
    }
    let found = &["0", "19", "2", "3", "4"];
    oracle.saw(&[
        ("alloc", &["0", "5"]),
        ("take", found),
        ("free", found),
        ("edit", found),
        ("write", &["0", "9"]),
        ("reissue", &["0"]),
        ("recycle", &["0"]),
        ("seal", &["0"]),
        ("resolve", found),
        ("data", &["0", "9"]),
        ("kind", &["0", "9"]),
        ("stamp", &["0", "9"]),
        ("handles", &["0", "13", "9"]),
        ("collect", &["0", "13"]),
        ("gcdue", &["0"]),
        ("reclaimdue", &["0"]),
        ("hasquarantine", &["0"]),
        ("isplain", &["0"]),
        ("slots", &["0"]),
        ("page", &["0"]),
        ("epoch", &["0"]),
    ]);
}

// The handles of all live slots.
fn live(heap: &Heap) -> Vec<Handle> {
    let (header, memory) = (heap.header(), heap.memory());
    let handle = |i: usize| Handle(u64::from(header.tag) << 56 | (i as u64) << 32 | u64::from(memory.generation()[i]));
    (0..header.slots).filter(|i| memory.kind()[*i] != 0).map(handle).collect()
}

// Places so many objects and releases the first so many live ones, here by scripts: each single call would check the whole heap. Then both say whether to recycle.
fn reclaim(oracle: &mut Oracle, heap: &mut Heap, placed: usize, released: usize) -> bool {
    let place = format!("{placed} placed, {released} released");
    heap.run("alloc,0,2,\n".repeat(placed).as_bytes()).unwrap();
    oracle.set(&format!("fill {placed}"));
    let handles = &live(heap)[..released];
    let script: String = handles.iter().map(|h| format!("take,{h},0,\n")).collect();
    heap.run(script.as_bytes()).unwrap();
    handles.iter().for_each(|h| oracle.set(&format!("free {h}")));
    let due = heap.reclaim_due().unwrap();
    oracle.agrees("reclaimdue", &format!("0 {}", u8::from(due)), &place);
    same(oracle, heap, &place);
    due
}

// As many slots in quarantine as make `reclaim_due` say yes, and as many pinned as move its bound. Random heaps are too small for either.
#[test]
fn a_large_quarantine_answers_as_the_rust() {
    let mut oracle = Oracle::new();
    let mut heap = Heap::new(9, 4301, 0).unwrap();
    oracle.set("new 9 4301");
    assert!(!reclaim(&mut oracle, &mut heap, 4300, 4095));
    assert!(reclaim(&mut oracle, &mut heap, 1, 1));
    let pins: Vec<Slot> = (0..2100).map(Slot).collect();
    oracle.agrees(&format!("recycle {}", list(&pins)), &told(heap.recycle(&pins), |()| String::new()), "2100 pinned");
    // twice what was kept
    assert!(!reclaim(&mut oracle, &mut heap, 1995, 2099));
    assert!(reclaim(&mut oracle, &mut heap, 1, 1));
    oracle.saw(&[("reclaimdue", &["0"]), ("recycle", &["0"]), ("page", &["0"]), ("epoch", &["0"])]);
}
