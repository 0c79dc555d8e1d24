//! A rehearsal of thresholds, and the same steps on the Rust heap.
use super::{Program, heap};
use std::collections::BTreeMap;

/// A line of a rehearsal.
pub enum Step {
    Alloc(Vec<u8>),
    Store(u64, u64, usize),
    Drop(u64),
}

/// So many lines: objects of 32 bytes, each stored into the one before it, of which at most `held` are held.
pub fn steps(lines: usize, held: u64) -> Vec<Step> {
    let mut list = Vec::new();
    let mut turn = 0;
    while list.len() < lines {
        turn += 1;
        list.push(Step::Alloc(vec![0; 32]));
        if turn > 1 {
            list.push(Step::Store(turn, turn - 1, 24));
        }
        if turn > held {
            list.push(Step::Drop(turn - held));
        }
    }
    list.truncate(lines);
    list
}

/// The lines as text.
pub fn text(steps: &[Step]) -> String {
    let mut out = String::new();
    for step in steps {
        match step {
            Step::Alloc(bytes) => {
                out.push_str("alloc,0,3,");
                super::page::hex(bytes, &mut out);
                out.push('\n');
            }
            Step::Store(held, into, offset) => out.push_str(&format!("store,{held},{into},{offset}\n")),
            Step::Drop(held) => out.push_str(&format!("drop,{held}\n")),
        }
    }
    out
}

fn live_size(heap: &heap::Heap) -> u64 {
    (0..heap.slots() as u32).filter_map(|i| heap.data(i)).map(|d| d.len() as u64 + 32).sum()
}

/// The steps on a new Rust heap, and the line of figures.
pub fn run(steps: &[Step], threshold: u64) -> String {
    let prog = Program::default();
    let mut heap = heap::Heap::new(1);
    let mut names = BTreeMap::new();
    let (mut turns, mut collections, mut size, mut highest) = (0, 0, 0, 0);
    for step in steps {
        match step {
            Step::Alloc(bytes) => {
                if heap.gc_due(threshold) {
                    let roots: Vec<u64> = names.values().copied().collect();
                    assert!(heap.collect(&prog, &roots, &[]));
                    collections += 1;
                    size = live_size(&heap);
                }
                let handle = heap.alloc(heap::Obj::Handles, bytes.clone()).unwrap();
                turns += 1;
                names.insert(turns, handle);
                size += bytes.len() as u64 + 32;
                highest = size.max(highest);
            }
            Step::Store(held, into, offset) => {
                let value: u64 = names[held];
                let slot = heap.resolve(names[into]).unwrap();
                heap.data_mut(slot).unwrap()[*offset..offset + 8].copy_from_slice(&value.to_le_bytes());
            }
            Step::Drop(held) => {
                names.remove(held).unwrap();
            }
        }
    }
    format!("{threshold},{collections},{highest},{size},0\n")
}
