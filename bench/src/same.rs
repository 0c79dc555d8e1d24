//! Two heaps of the Rust beside each other, as one would write it: both are gone through from their roots in one step, object by object, with the turn at which each slot was first met. Objects have kind Handles or Bytes.
use super::heap::{Heap, Obj};

struct Side<'a> {
    heap: &'a Heap,
    // by slot
    turn: Vec<u32>,
    // by turn
    met: Vec<u32>,
}

impl Side<'_> {
    fn new(heap: &Heap) -> Side<'_> {
        Side { heap, turn: vec![u32::MAX; heap.slots()], met: Vec::new() }
    }

    // The turn at which what a handle leads to was first met.
    fn place(&mut self, handle: u64) -> Option<u32> {
        let slot = self.heap.resolve(handle).ok()?;
        let turn = &mut self.turn[slot as usize];
        if *turn == u32::MAX {
            *turn = self.met.len() as u32;
            self.met.push(slot);
        }
        Some(*turn)
    }
}

fn agree(a: &mut Side, b: &mut Side, v: u64, w: u64) -> bool {
    match (a.place(v), b.place(w)) {
        (Some(x), Some(y)) => x == y,
        (None, None) => v == w,
        _ => false,
    }
}

fn word(bytes: &[u8]) -> u64 {
    u64::from_le_bytes(bytes.try_into().unwrap())
}

/// Do the two hold the same model?
pub fn same(a: &Heap, roots: &[u64], b: &Heap, other_roots: &[u64]) -> bool {
    let (mut a, mut b) = (Side::new(a), Side::new(b));
    if roots.len() != other_roots.len() || !roots.iter().zip(other_roots).all(|(v, w)| agree(&mut a, &mut b, *v, *w)) {
        return false;
    }
    let mut turn = 0;
    while turn < a.met.len() {
        let (i, j) = (a.met[turn], b.met[turn]);
        turn += 1;
        let (x, y) = (a.heap.data(i).unwrap(), b.heap.data(j).unwrap());
        if a.heap.kind(i) != b.heap.kind(j) || x.len() != y.len() {
            return false;
        }
        let from = if a.heap.kind(i) == Some(Obj::Handles) { x.len().min(24) } else { x.len() };
        let (v, w) = (x[from..].chunks_exact(8), y[from..].chunks_exact(8));
        if x[..from] != y[..from] || v.remainder() != w.remainder() || !v.zip(w).all(|(v, w)| agree(&mut a, &mut b, word(v), word(w))) {
            return false;
        }
    }
    true
}
