//! Makes a heap with a few objects that lead to each other, and prints what it holds.
//!
//!     cargo run --example make
use yexwalu::{Heap, Kind, Refusal, TypeTable};

fn main() -> Result<(), Refusal> {
    // what objects are made of: a node is a handle and a number
    let mut types = TypeTable::new();
    let link = types.access();
    let level = types.integer(0, 100);
    let node = types.record(&[(link, None), (level, None)]);

    let mut heap = Heap::new(1, 64, 4096)?;
    let text = heap.alloc(Kind::Bytes, b"hall")?;
    let mut first = text;
    for level in [10i64, 20, 30] {
        let value = [first.0.to_le_bytes(), level.to_le_bytes()].concat();
        first = heap.alloc(Kind::Typed(node), &value)?;
    }

    // one check of the heap and one of the table, then all objects
    let (view, types) = (heap.view()?, types.checked()?);
    for object in view {
        let leads: Vec<String> = object.handles(&types)?.iter().map(|h| view.resolve(*h).map_or_else(|why| why.to_string(), |o| format!("slot {}", o.slot()))).collect();
        println!("slot {}: {} bytes, leads to {leads:?}", object.slot(), object.bytes().len());
    }
    Ok(())
}
