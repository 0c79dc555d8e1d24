use crate::{AnyTable, Handle, Header, Heap, Kind, Refusal, Slot, Stamp};
use std::iter::FusedIterator;
use std::slice::ChunksExact;
use std::vec::IntoIter;

/// A heap that was checked once, for reading many of its objects. One call checks it, where it is not known ([`Heap::view`]), and as long as the view is there the heap
/// can't be changed. So all objects of a large heap are read in one pass.
///
/// What a view says is read off the memory as [`Memory`](crate::Memory) describes it, by code that is not proved. Tests hold it to the calls: for every slot and handle it says what `Heap::kind`, `stamp`, `data`,
/// `resolve` and `slot_handles` do.
///
/// ```
/// use yexwalu::{Heap, Kind, Refusal};
/// let mut heap = Heap::new(1, 64, 4096)?;
/// let first = heap.alloc(Kind::Bytes, b"first")?;
/// heap.alloc(Kind::Bytes, b"second")?;
/// heap.free(first)?;
/// for object in heap.view()? {
///     assert_eq!((object.slot().0, object.data()), (1, Some(&b"second"[..])));
/// }
/// # Ok::<(), Refusal>(())
/// ```
///
/// It has the heap's lists too:
///
/// ```
/// use yexwalu::{Heap, Kind, Refusal, Slot};
/// let mut heap = Heap::new(1, 64, 4096)?;
/// let (first, second) = (heap.alloc(Kind::Bytes, b"first")?, heap.alloc(Kind::Bytes, b"second")?);
/// heap.free(first)?;
/// heap.recycle(&[])?;
/// heap.seal()?;
/// heap.free(second)?;
/// let view = heap.view()?;
/// assert_eq!((view.free(), view.quarantine(), view.retired()), (&[Slot(0)][..], &[Slot(1)][..], &[][..]));
/// assert_eq!((view.sealed(), view.header().slots), (&[second][..], 2));
/// # Ok::<(), Refusal>(())
/// ```
///
/// As long as a view is used, no call changes the heap:
///
/// ```compile_fail,E0502
/// # use yexwalu::{Heap, Kind};
/// let mut heap = Heap::new(1, 64, 4096).unwrap();
/// let view = heap.view().unwrap();
/// heap.seal().unwrap();
/// assert_eq!(view.objects().count(), 0);
/// ```
#[derive(Clone, Copy, Debug)]
pub struct View<'a> {
    header: &'a Header,
    // of each slot
    generation: &'a [u32],
    kind: &'a [u32],
    ty: &'a [u32],
    start: &'a [u64],
    end: &'a [u64],
    writes: &'a [u64],
    pool: &'a [u8],
    // what is in use of each list
    free: &'a [Slot],
    quarantine: &'a [Slot],
    retired: &'a [Slot],
    sealed: &'a [Handle],
}

impl Heap {
    /// Checks the heap, and lets all of it be read. Refused as every call is, by 18 and 1.
    ///
    /// ```
    /// use yexwalu::{Heap, Kind, Refusal};
    /// let mut heap = Heap::new(1, 64, 4096)?;
    /// heap.alloc(Kind::Bytes, b"hall")?;
    /// let bytes: usize = heap.view()?.objects().map(|object| object.bytes().len()).sum();
    /// assert_eq!(bytes, 4);
    /// # Ok::<(), Refusal>(())
    /// ```
    pub fn view(&self) -> Result<View<'_>, Refusal> {
        // the cheapest question: what is wanted is that it is answered
        self.slots()?;
        let (h, m) = (self.header(), self.memory());
        Ok(View {
            header: h,
            generation: &m.generation()[..h.slots],
            kind: &m.kind()[..h.slots],
            ty: &m.ty()[..h.slots],
            start: &m.start()[..h.slots],
            end: &m.end()[..h.slots],
            writes: &m.writes()[..h.slots],
            pool: &m.pool,
            free: &m.free()[..h.free],
            quarantine: &m.quarantine()[..h.quarantine],
            retired: &m.retired()[..h.retired],
            sealed: &m.sealed()[..h.sealed],
        })
    }
}

impl<'a> View<'a> {
    /// The heap's numbers.
    #[must_use]
    pub fn header(&self) -> &'a Header {
        self.header
    }

    /// The objects, by slot.
    ///
    /// ```
    /// use yexwalu::{Heap, Kind, Refusal};
    /// let mut heap = Heap::new(1, 64, 4096)?;
    /// heap.alloc(Kind::Bytes, b"hall")?;
    /// heap.alloc(Kind::Bytes, b"organ")?;
    /// let longest = heap.view()?.objects().max_by_key(|object| object.bytes().len());
    /// assert_eq!(longest.unwrap().bytes(), b"organ");
    /// # Ok::<(), Refusal>(())
    /// ```
    #[must_use]
    pub fn objects(&self) -> Objects<'a> {
        Objects { view: *self, next: 0 }
    }

    /// The object of a slot; none where the slot is not there or dead.
    ///
    /// ```
    /// use yexwalu::{Heap, Kind, Refusal};
    /// let mut heap = Heap::new(1, 64, 4096)?;
    /// heap.alloc(Kind::Bytes, b"hall")?;
    /// let view = heap.view()?;
    /// assert_eq!(view.object(0).unwrap().bytes(), b"hall");
    /// assert_eq!(view.object(1), None);
    /// # Ok::<(), Refusal>(())
    /// ```
    pub fn object(&self, slot: impl Into<Slot>) -> Option<ObjectRef<'a>> {
        let slot = slot.into();
        let i = slot.at();
        let kind = *self.kind.get(i)?;
        if kind == 0 {
            return None;
        }
        let from = if i == 0 { 0 } else { self.end[i - 1] };
        Some(ObjectRef {
            tag: self.header.tag,
            slot,
            kind: Kind::of(kind.into(), self.ty[i].into()),
            stamp: Stamp { generation: self.generation[i], writes: self.writes[i] },
            start: self.start[i],
            bytes: &self.pool[from as usize..self.end[i] as usize],
        })
    }

    /// The object that a handle leads to. It is refused as by [`Heap::resolve`]: null (2), wrong heap (3), never issued (19), stale (4).
    ///
    /// ```
    /// use yexwalu::{Handle, Heap, Kind, Refusal};
    /// let mut heap = Heap::new(1, 64, 4096)?;
    /// let hall = heap.alloc(Kind::Bytes, b"hall")?;
    /// let view = heap.view()?;
    /// assert_eq!(view.resolve(hall)?.data(), Some(&b"hall"[..]));
    /// assert_eq!(view.resolve(Handle::NULL), Err(Refusal::Null));
    /// # Ok::<(), Refusal>(())
    /// ```
    pub fn resolve(&self, handle: Handle) -> Result<ObjectRef<'a>, Refusal> {
        if handle.is_null() {
            return Err(Refusal::Null);
        }
        if handle.tag() != self.header.tag {
            return Err(Refusal::WrongHeap);
        }
        if handle.index() as usize >= self.header.slots {
            return Err(Refusal::NeverIssued);
        }
        let found = self.object(handle.index()).filter(|o| o.handle() == handle);
        found.ok_or(Refusal::Stale)
    }

    /// The dead slots that may be given out; the last one is next.
    #[must_use]
    pub fn free(&self) -> &'a [Slot] {
        self.free
    }

    /// The dead slots that wait for `Heap::recycle`.
    #[must_use]
    pub fn quarantine(&self) -> &'a [Slot] {
        self.quarantine
    }

    /// The dead slots that are given out no more.
    #[must_use]
    pub fn retired(&self) -> &'a [Slot] {
        self.retired
    }

    /// The handles that were sealed, in slot order.
    #[must_use]
    pub fn sealed(&self) -> &'a [Handle] {
        self.sealed
    }
}

impl<'a> IntoIterator for View<'a> {
    type Item = ObjectRef<'a>;
    type IntoIter = Objects<'a>;

    fn into_iter(self) -> Objects<'a> {
        self.objects()
    }
}

/// The objects of a heap, by slot.
///
/// ```
/// use yexwalu::{Heap, Kind, Refusal};
/// let mut heap = Heap::new(1, 64, 4096)?;
/// heap.alloc(Kind::Bytes, b"hall")?;
/// let mut objects = heap.view()?.objects();
/// assert_eq!(objects.next().unwrap().bytes(), b"hall");
/// assert!(objects.next().is_none());
/// # Ok::<(), Refusal>(())
/// ```
#[derive(Clone, Debug)]
pub struct Objects<'a> {
    view: View<'a>,
    next: u32,
}

impl<'a> Iterator for Objects<'a> {
    type Item = ObjectRef<'a>;

    fn next(&mut self) -> Option<ObjectRef<'a>> {
        while (self.next as usize) < self.view.header.slots {
            let slot = self.next;
            self.next += 1;
            if let Some(object) = self.view.object(slot) {
                return Some(object);
            }
        }
        None
    }

    fn size_hint(&self) -> (usize, Option<usize>) {
        (0, Some(self.view.header.slots - self.next as usize))
    }
}

impl FusedIterator for Objects<'_> {}

/// A live object of a heap that is read.
///
/// ```
/// use yexwalu::{Heap, Kind, Refusal, Slot};
/// let mut heap = Heap::new(1, 64, 4096)?;
/// let line = heap.alloc_from(Kind::Bytes, 2, b"..hall")?;
/// let object = heap.view()?.resolve(line)?;
/// assert_eq!((object.slot(), object.handle(), object.kind()), (Slot(0), line, Kind::Bytes));
/// assert_eq!((object.bytes(), object.start(), object.data()), (&b"..hall"[..], 2, Some(&b"hall"[..])));
/// assert_eq!(object.stamp(), heap.stamp(0)?);
/// # Ok::<(), Refusal>(())
/// ```
#[derive(Clone, Copy, Debug, PartialEq, Eq)]
pub struct ObjectRef<'a> {
    tag: u8,
    slot: Slot,
    kind: Kind,
    stamp: Stamp,
    start: u64,
    bytes: &'a [u8],
}

impl<'a> ObjectRef<'a> {
    /// Its slot.
    #[must_use]
    pub fn slot(&self) -> Slot {
        self.slot
    }

    /// The handle that leads to it.
    #[must_use]
    pub fn handle(&self) -> Handle {
        Handle(u64::from(self.tag) << 56 | u64::from(self.slot) << 32 | u64::from(self.stamp.generation))
    }

    /// Its kind.
    #[must_use]
    pub fn kind(&self) -> Kind {
        self.kind
    }

    /// Its slot's generation and its write count.
    #[must_use]
    pub fn stamp(&self) -> Stamp {
        self.stamp
    }

    /// All its bytes, those before the start too.
    #[must_use]
    pub fn bytes(&self) -> &'a [u8] {
        self.bytes
    }

    /// From which of its bytes on it is visible. Any number: beyond the bytes nothing is.
    #[must_use]
    pub fn start(&self) -> u64 {
        self.start
    }

    /// What is visible of it; none where the start lies beyond its bytes.
    #[must_use]
    pub fn data(&self) -> Option<&'a [u8]> {
        self.bytes.get(usize::try_from(self.start).ok()?..)
    }

    /// The handles that it shows, in the order in which they are traced, as by [`Heap::slot_handles`]: an object of a type by that type, one of handles by offset, one of bytes none. The table is
    /// looked at for an object of a type alone: where it is not in order (10), or the object can't be traced by it (13), the answer is a refusal. For many objects take a
    /// [`CheckedTable`](crate::CheckedTable): a [`TypeTable`](crate::TypeTable) is checked as a whole for each object of a type.
    ///
    /// ```
    /// use yexwalu::{Heap, Kind, Refusal, TypeTable};
    /// let mut table = TypeTable::new();
    /// let access = table.access();
    /// let mut heap = Heap::new(1, 64, 4096)?;
    /// let kept = heap.alloc(Kind::Bytes, b"kept")?;
    /// let root = heap.alloc(Kind::Typed(access), &kept.0.to_le_bytes())?;
    /// let (view, table) = (heap.view()?, table.checked()?);
    /// let shown = view.resolve(root)?.handles(&table)?;
    /// assert_eq!(view.resolve(shown[0])?.data(), Some(&b"kept"[..]));
    /// # Ok::<(), Refusal>(())
    /// ```
    pub fn handles(&self, types: &(impl AnyTable + ?Sized)) -> Result<Vec<Handle>, Refusal> {
        self.iter_handles(types).map(Iterator::collect)
    }

    /// The same handles one after another. Those of an object of handles are read where they lie, with no list of them made.
    ///
    /// ```
    /// use yexwalu::{Handle, Heap, Kind, Refusal, TypeTable};
    /// let mut heap = Heap::new(1, 64, 4096)?;
    /// let list = [0, 0, 0, 7, 8u64].map(u64::to_le_bytes).concat();
    /// heap.alloc(Kind::Handles, &list)?;
    /// let types = TypeTable::new();
    /// for object in heap.view()? {
    ///     assert!(object.iter_handles(&types)?.eq([Handle(7), Handle(8)]));
    /// }
    /// # Ok::<(), Refusal>(())
    /// ```
    pub fn iter_handles(&self, types: &(impl AnyTable + ?Sized)) -> Result<Handles<'a>, Refusal> {
        Ok(Handles(match (self.kind(), self.data()) {
            (Kind::Typed(ty), Some(data)) => Shown::Listed(types.trace(ty, data)?.into_iter()),
            (Kind::Handles, Some(data)) => Shown::Lying(data.get(24..).unwrap_or(&[]).chunks_exact(8)),
            _ => Shown::Lying([].chunks_exact(8)),
        }))
    }
}

/// The handles that an object shows, in the order in which they are traced: [`ObjectRef::iter_handles`] has them.
///
/// ```
/// use yexwalu::{Handle, Heap, Kind, Refusal, TypeTable};
/// let mut heap = Heap::new(1, 64, 4096)?;
/// let list = heap.alloc(Kind::Handles, &[0, 0, 0, 7, 8u64].map(u64::to_le_bytes).concat())?;
/// let mut handles = heap.view()?.resolve(list)?.iter_handles(&TypeTable::new())?;
/// assert_eq!((handles.len(), handles.next()), (2, Some(Handle(7))));
/// # Ok::<(), Refusal>(())
/// ```
#[derive(Clone, Debug)]
pub struct Handles<'a>(Shown<'a>);

#[derive(Clone, Debug)]
enum Shown<'a> {
    // eight bytes each, in the object
    Lying(ChunksExact<'a, u8>),
    // as a trace has listed them
    Listed(IntoIter<Handle>),
}

impl Iterator for Handles<'_> {
    type Item = Handle;

    fn next(&mut self) -> Option<Handle> {
        match &mut self.0 {
            Shown::Lying(words) => words.next().map(word),
            Shown::Listed(list) => list.next(),
        }
    }

    fn size_hint(&self) -> (usize, Option<usize>) {
        match &self.0 {
            Shown::Lying(words) => words.size_hint(),
            Shown::Listed(list) => list.size_hint(),
        }
    }
}

impl ExactSizeIterator for Handles<'_> {}

impl FusedIterator for Handles<'_> {}

// The handle in eight bytes, lowest first.
fn word(bytes: &[u8]) -> Handle {
    Handle(bytes.iter().rev().fold(0, |high, b| high << 8 | u64::from(*b)))
}
