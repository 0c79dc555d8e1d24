//! Drops what nothing leads to: a ring that is lost goes, a ring that a root leads to stays, and an object that is pinned stays as well.
//!
//!     cargo run --example collect
use yexwalu::{Handle, Heap, Kind, Refusal, TypeTable};

// Two objects that lead to each other.
fn ring(heap: &mut Heap) -> Result<[Handle; 2], Refusal> {
    let first = heap.alloc(Kind::Handles, &[0; 32])?;
    let leads = |to: Handle| [&[0; 24][..], &to.0.to_le_bytes()].concat();
    let second = heap.alloc(Kind::Handles, &leads(first))?;
    heap.edit(first, &leads(second), 0)?;
    Ok([first, second])
}

fn main() -> Result<(), Refusal> {
    let mut heap = Heap::new(1, 64, 4096)?;
    let (kept, lost) = (ring(&mut heap)?, ring(&mut heap)?);
    let pinned = heap.alloc(Kind::Bytes, b"an address leads here")?;
    let pin = heap.resolve(pinned)?;
    println!("{} objects; is a collection due past 100 bytes? {}", heap.live()?, heap.gc_due(100)?);

    heap.collect(&TypeTable::new(), &[kept[0]], &[pin])?;
    println!("{} objects", heap.live()?);
    for handle in kept.into_iter().chain(lost).chain([pinned]) {
        match heap.resolve(handle) {
            Ok(slot) => println!("{handle} leads to slot {slot}"),
            Err(why) => println!("{handle} leads nowhere: {}", why.word()),
        }
    }
    Ok(())
}
