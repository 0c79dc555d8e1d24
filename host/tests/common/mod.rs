//! What several tests need.
#![allow(dead_code)]
use yexwalu::{Handle, Heap, Kind, Scratch};

/// Numbers that look random, the same in every run.
pub struct Random(u64);

impl Random {
    pub fn new(seed: u64) -> Random {
        Random(seed.wrapping_mul(0x9e37_79b9_7f4a_7c15) | 1)
    }

    pub fn word(&mut self) -> u64 {
        self.0 ^= self.0 << 13;
        self.0 ^= self.0 >> 7;
        self.0 ^= self.0 << 17;
        self.0
    }

    pub fn below(&mut self, n: u64) -> u64 {
        self.word() % n
    }

    pub fn bytes(&mut self, most: u64) -> Vec<u8> {
        let n = self.below(most + 1);
        (0..n).map(|_| self.word() as u8).collect()
    }
}

/// Scratch of these lists.
pub fn scratch(marks: Vec<u8>, work: Vec<u64>) -> Scratch {
    let mut scratch = Scratch::zeros(0);
    (scratch.marks, scratch.work) = (marks, work);
    scratch
}

/// A heap with live, free and quarantined slots and seals.
pub fn sample(slots: usize, pool: usize) -> (Heap, Vec<Handle>) {
    let mut heap = Heap::new(7, slots, pool).unwrap();
    let mut all = vec![
        heap.alloc(Kind::Bytes, b"first").unwrap(),
        heap.alloc(Kind::Handles, &[0; 40]).unwrap(),
        heap.alloc_from(Kind::Typed(3), 2, b"third").unwrap(),
        heap.alloc_from(Kind::Bytes, 9, b"hidden").unwrap(),
        heap.alloc(Kind::Bytes, b"").unwrap(),
    ];
    heap.free(all.remove(0)).unwrap();
    heap.recycle(&[]).unwrap();
    heap.seal().unwrap();
    heap.free(all.remove(0)).unwrap();
    heap.write(2, 0, b"T").unwrap();
    (heap, all)
}

/// A page under the name that the first programs had for write counts, of 32 bits.
pub fn narrow(page: &str) -> String {
    assert_eq!(page.matches(",writes64,").count(), 1);
    page.replace(",writes64,", ",writes,")
}

/// A page without the retired list, which is empty, as the first programs wrote it.
pub fn without_retired(page: &str) -> String {
    let lines: Vec<&str> = page.lines().collect();
    let (names, counts) = (lines[0].strip_suffix(",retired").unwrap(), lines[1].strip_suffix(",0").unwrap());
    let rest = lines[2..].strip_suffix(&["retired"]).unwrap();
    [&[names, counts][..], rest].concat().join("\n") + "\n"
}
