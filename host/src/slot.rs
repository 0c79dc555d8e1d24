use crate::lists::lists;
use std::fmt;

/// The index of a slot in its heap. A heap has its slots from 0 on; an index may be of no slot, and a call says so (9).
///
/// ```
/// use yexwalu::{Heap, Kind, Refusal, Slot};
/// let mut heap = Heap::new(1, 64, 4096)?;
/// let hall = heap.alloc(Kind::Bytes, b"AB")?;
/// assert_eq!(heap.resolve(hall)?, Slot(0));
/// assert_eq!(heap.data(Slot(0))?, heap.data(0)?);
/// assert_eq!(heap.data(1), Err(Refusal::NothingThere));
/// // a list of indices is one of slots, and the other way
/// heap.recycle(Slot::list(&[0, 3]))?;
/// assert_eq!(Slot::numbers(&[Slot(0), Slot(3)]), [0, 3]);
/// # Ok::<(), Refusal>(())
/// ```
#[derive(Clone, Copy, Debug, Default, PartialEq, Eq, PartialOrd, Ord, Hash)]
#[repr(transparent)]
pub struct Slot(pub u32);

impl Slot {
    // Sizes have 64 bits, so nothing is cut.
    pub(crate) fn at(self) -> usize {
        self.0 as usize
    }
}

lists!(Slot, u32, "slots");

impl From<u32> for Slot {
    fn from(index: u32) -> Slot {
        Slot(index)
    }
}

impl From<Slot> for u32 {
    fn from(slot: Slot) -> u32 {
        slot.0
    }
}

impl From<Slot> for u64 {
    fn from(slot: Slot) -> u64 {
        slot.0.into()
    }
}

impl fmt::Display for Slot {
    fn fmt(&self, f: &mut fmt::Formatter<'_>) -> fmt::Result {
        self.0.fmt(f)
    }
}
