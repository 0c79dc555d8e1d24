//! Compares two saves of one model that have other slot numbers, then one that was changed, and sorts the three.
//!
//!     cargo run --example compare
use std::cmp::Ordering;
use yexwalu::{Handle, Heap, Kind, Refusal, TypeTable};

// A save, as the run made it: a line and a list of handles that leads to it. The objects of `before` are gone when it is saved.
fn saved(before: usize, line: &[u8]) -> Result<(Vec<u8>, Handle), Refusal> {
    let mut heap = Heap::new(1, 64, 4096)?;
    let gone = (0..before).map(|_| heap.alloc(Kind::Bytes, b"gone")).collect::<Result<Vec<_>, _>>()?;
    let line = heap.alloc(Kind::Bytes, line)?;
    let list = heap.alloc(Kind::Handles, &[&[0; 24][..], &line.0.to_le_bytes()].concat())?;
    gone.into_iter().try_for_each(|handle| heap.free(handle))?;
    Ok((heap.write_page()?, list))
}

fn main() -> Result<(), Refusal> {
    let types = TypeTable::new();
    let (first, second, changed) = (saved(0, b"hall")?, saved(1, b"hall")?, saved(0, b"hull")?);
    println!("first save: {} bytes, root in slot {}; second save: {} bytes, root in slot {}", first.0.len(), first.1.index(), second.0.len(), second.1.index());

    let (a, b, c) = (Heap::open(&first.0)?, Heap::open(&second.0)?, Heap::open(&changed.0)?);
    println!("the same model? {}", a.same(&types, &[first.1], &b, &[second.1])?);
    let (same, order) = (a.same(&types, &[first.1], &c, &[changed.1])?, a.order(&types, &[first.1], &c, &[changed.1])?);
    println!("after a change: the same model? {same}, {order:?}");

    // heaps have an order, so a shelf can be sorted: saves of one model stand together
    let mut shelf = [(c, changed.1), (b, second.1), (a, first.1)];
    shelf.sort_by(|(x, r), (y, s)| x.order(&types, &[*r], y, &[*s]).unwrap_or(Ordering::Equal));
    let lines = shelf.iter().map(|(heap, root)| {
        let view = heap.view()?;
        let list = view.resolve(*root)?;
        let line = view.resolve(list.handles(&types)?[0])?;
        Ok(String::from_utf8_lossy(line.data().unwrap_or_default()).into_owned())
    });
    println!("in order: {:?}", lines.collect::<Result<Vec<_>, Refusal>>()?);
    Ok(())
}
