//! What a heap is asked so that it can be shown: calls on the heap, proved where it is known to be well formed, as one that was just read is. What no call tells, handles, starts and whole lengths of objects and the
//! heap's lists, is read by a view.
use crate::types::Types;
use yexwalu::{Figures, Handle, Heap, Kind, ObjectRef, Refusal, Slot, Stamp, View};

/// A heap, and the types by which it is shown.
pub struct Seen<'a> {
    heap: &'a Heap,
    types: &'a Types,
    /// Objects and bytes of data.
    pub figures: Figures,
    /// The header's numbers and the lists.
    pub view: View<'a>,
}

/// A live slot.
pub struct Object<'a> {
    pub slot: Slot,
    pub kind: Kind,
    pub stamp: Stamp,
    /// What is visible, if anything is.
    pub data: Option<&'a [u8]>,
    /// Its handle, its start and all its bytes.
    pub whole: ObjectRef<'a>,
}

impl<'a> Seen<'a> {
    /// Refused where it is no heap.
    pub fn of(heap: &'a Heap, types: &'a Types) -> Result<Seen<'a>, Refusal> {
        Ok(Seen { heap, types, figures: heap.figures()?, view: heap.view()? })
    }

    /// The objects, by slot. A dead slot has none: what it is asked is refused (9).
    pub fn objects(&self) -> impl Iterator<Item = Object<'a>> + '_ {
        let slots = self.heap.slots().map_or(0, |n| n as u32);
        (0..slots).map(Slot).filter_map(|slot| Some(Object { slot, kind: self.heap.kind(slot).ok()?, stamp: self.heap.stamp(slot).ok()?, data: self.heap.data(slot).ok(), whole: self.view.object(slot)? }))
    }

    /// The handles that an object shows.
    pub fn handles(&self, object: &Object) -> Result<Vec<Handle>, Refusal> {
        self.types.handles(self.heap, object)
    }

    /// The slot to which a handle leads.
    pub fn resolve(&self, handle: Handle) -> Result<Slot, Refusal> {
        self.heap.resolve(handle)
    }

    /// The name of a type, if it has one. It may have its literals after a colon, which are left out.
    pub fn name(&self, kind: Kind) -> &'a str {
        match kind {
            Kind::Typed(ty) => self.types.name(ty).split(':').next().unwrap_or_default(),
            _ => "",
        }
    }
}
