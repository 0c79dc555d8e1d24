use crate::ffi;
use crate::{number, Handle, Refusal};

/// A type's number in its table.
pub type TypeId = u32;

/// A constant's number in its table.
pub type ConstId = u32;

/// No constant: the value brings its own descriptor.
///
/// ```
/// use yexwalu::{TypeTable, NO_CONSTANT};
/// let mut table = TypeTable::new();
/// let real = table.real();
/// table.array(real, None, 1);
/// assert_eq!(table.types[4..], [4, real.into(), NO_CONSTANT.into(), 1]);
/// ```
pub const NO_CONSTANT: ConstId = u32::MAX;

/// The types of a saved run, and the constants that describe fields and elements. A type may name one that comes later; where it names one that is not there, its layout is malformed (11) and
/// its values can't be traced (13). At most 4,096 types, 16,384 fields and 4,096 constants; a type may not unfold into more than 65,536 parts. What is not so is refused (10) when the table is used,
/// not before; [`TypeTable::checked`] checks it once for many layouts and traces.
///
/// ```
/// use yexwalu::{TypeTable, Refusal, descriptor, Direction};
/// let mut table = TypeTable::new();
/// let byte = table.enumeration(4, 0);
/// let access = table.access();
/// let record = table.record(&[(byte, None), (access, None), (byte, None)]);
/// let layout = table.layout(record, &[])?;
/// assert_eq!((layout.size, layout.offsets), (24, vec![0, 8, 16]));
/// let int = table.integer(0, 100);
/// let array = table.array(int, None, 1);
/// let five = descriptor(&[(1, 5, Direction::To)]);
/// assert_eq!(table.layout(array, &five)?.size, 20);
/// # Ok::<(), Refusal>(())
/// ```
#[derive(Clone, Debug, Default, PartialEq, Eq)]
#[non_exhaustive]
pub struct TypeTable {
    /// Four words a type: its class, then what the class has. 0 Int: lo, hi; 1 Physical; 2 Enum: literals, logic; 3 Real; 4 Array: element's type, its constant or `NO_CONSTANT`, dimensions; 5 Record:
    /// first field, number of fields; 6 Access; 7 File; 8 Protected. Words that are left over are not looked at.
    pub types: Vec<u64>,
    /// Two words a field of a record: its type, and the constant that describes it or `NO_CONSTANT`.
    pub fields: Vec<u32>,
    /// Three words a constant: 1 if it is plain bytes, else 0; from where on in `bytes`; how many.
    pub consts: Vec<u64>,
    /// The bytes of the constants.
    pub bytes: Vec<u8>,
}

/// Which way an array's index goes. VHDL has these two, so a host may match on both.
///
/// ```
/// use yexwalu::{descriptor, Direction, Refusal, TypeTable};
/// let mut table = TypeTable::new();
/// let real = table.real();
/// let list = table.array(real, None, 1);
/// // 1 to 3 has three elements, 1 downto 3 none
/// assert_eq!(table.layout(list, &descriptor(&[(1, 3, Direction::To)]))?.count, 3);
/// assert_eq!(table.layout(list, &descriptor(&[(1, 3, Direction::Downto)]))?.count, 0);
/// # Ok::<(), Refusal>(())
/// ```
#[derive(Clone, Copy, Debug, PartialEq, Eq, Hash)]
pub enum Direction {
    /// Rising.
    To,
    /// Falling.
    Downto,
}

/// The descriptor bytes of dimensions: left, right and direction of each, three signed little-endian words.
///
/// ```
/// use yexwalu::{descriptor, Direction};
/// let bytes = descriptor(&[(7, 0, Direction::Downto)]);
/// assert_eq!((bytes.len(), bytes[0], bytes[16]), (24, 7, 1));
/// ```
#[must_use]
pub fn descriptor(dimensions: &[(i64, i64, Direction)]) -> Vec<u8> {
    let mut bytes = Vec::new();
    for (left, right, direction) in dimensions {
        bytes.extend_from_slice(&left.to_le_bytes());
        bytes.extend_from_slice(&right.to_le_bytes());
        bytes.extend_from_slice(&i64::from(*direction == Direction::Downto).to_le_bytes());
    }
    bytes
}

/// Where the parts of a value lie.
///
/// ```
/// use yexwalu::{descriptor, Direction, Refusal, TypeTable};
/// let mut table = TypeTable::new();
/// let real = table.real();
/// let list = table.array(real, None, 1);
/// let layout = table.layout(list, &descriptor(&[(1, 3, Direction::To)]))?;
/// assert_eq!((layout.size, layout.align, layout.stride, layout.count, layout.used), (24, 8, 8, 3, 24));
/// let record = table.record(&[(real, None), (real, None)]);
/// assert_eq!(table.layout(record, &[])?.offsets, [0, 8]);
/// # Ok::<(), Refusal>(())
/// ```
#[derive(Clone, Debug, PartialEq, Eq)]
#[non_exhaustive]
pub struct Layout {
    /// Bytes of a value.
    pub size: u64,
    /// Alignment of a value.
    pub align: u64,
    /// Bytes from one element of an array to the next; 0 for other types and packed logic.
    pub stride: u64,
    /// Elements of an array in all its dimensions, of packed logic the positions; 1 for other types.
    pub count: u64,
    /// Bytes of the descriptor that were used.
    pub used: usize,
    /// Where each field of a record lies.
    pub offsets: Vec<u64>,
}

impl ffi::RawLayout {
    // The layout of these numbers and offsets.
    pub(crate) fn with(self, offsets: Vec<u64>) -> Layout {
        Layout { size: self.size, align: self.align, stride: self.stride, count: self.count, used: self.used as usize, offsets }
    }
}

/// One entry of a frame map.
///
/// ```
/// use yexwalu::FrameSlot;
/// assert_eq!(FrameSlot::new(0, 0, 0), FrameSlot::handle(0));
/// assert_eq!(FrameSlot::new(8, 1, 0), FrameSlot::address(8));
/// assert_eq!(FrameSlot::new(16, 2, 3), FrameSlot::composite(16, 3));
/// ```
#[derive(Clone, Copy, Debug, PartialEq, Eq, Hash)]
#[non_exhaustive]
pub struct FrameSlot {
    /// Where it lies in the frame's memory.
    pub offset: u32,
    /// What it holds: 0 a handle, 1 an address, 2 a composite; others are refused (13).
    pub kind: u32,
    /// The type of a composite; not looked at for others.
    pub ty: TypeId,
}

impl FrameSlot {
    /// An entry by its numbers, as a run has them.
    #[must_use]
    pub fn new(offset: u32, kind: u32, ty: TypeId) -> FrameSlot {
        FrameSlot { offset, kind, ty }
    }

    /// A handle at this offset.
    #[must_use]
    pub fn handle(offset: u32) -> FrameSlot {
        FrameSlot { offset, kind: 0, ty: 0 }
    }

    /// An address at this offset.
    #[must_use]
    pub fn address(offset: u32) -> FrameSlot {
        FrameSlot { offset, kind: 1, ty: 0 }
    }

    /// A value of this type at this offset.
    #[must_use]
    pub fn composite(offset: u32, ty: TypeId) -> FrameSlot {
        FrameSlot { offset, kind: 2, ty }
    }

    // A map as the calls take it: offset, kind and type of each entry.
    pub(crate) fn words(map: &[FrameSlot]) -> Vec<u32> {
        map.iter().flat_map(|s| [s.offset, s.kind, s.ty]).collect()
    }
}

macro_rules! on_table {
    ($table:ident, $call:ident ($($after:expr),*)) => {
        // SAFETY: each pointer leads to as many elements as the length after it says. What the call writes, the outputs given, is borrowed mutably.
        unsafe {
            ffi::$call(
                $table.types.as_ptr(), $table.types.len(),
                $table.fields.as_ptr(), $table.fields.len(),
                $table.consts.as_ptr(), $table.consts.len(),
                $table.bytes.as_ptr(), $table.bytes.len(),
                $($after),*
            )
        }
    };
}

impl TypeTable {
    /// A table without types.
    ///
    /// ```
    /// use yexwalu::{Refusal, TypeTable};
    /// let table = TypeTable::new();
    /// assert_eq!(table.layout(0, &[]), Err(Refusal::Malformed));
    /// ```
    #[must_use]
    pub fn new() -> TypeTable {
        TypeTable::default()
    }

    fn add(&mut self, row: [u64; 4]) -> TypeId {
        let ty = number(self.types.len() / 4);
        self.types.extend_from_slice(&row);
        ty
    }

    /// Whole numbers from `lo` to `hi`.
    ///
    /// ```
    /// use yexwalu::{descriptor, Direction, Refusal, TypeTable};
    /// let mut table = TypeTable::new();
    /// let percent = table.integer(0, 100);
    /// assert_eq!(table.layout(percent, &[])?.size, 8);
    /// // as an element it takes four bytes where 32 bits are enough
    /// let list = table.array(percent, None, 1);
    /// assert_eq!(table.layout(list, &descriptor(&[(1, 5, Direction::To)]))?.size, 20);
    /// # Ok::<(), Refusal>(())
    /// ```
    pub fn integer(&mut self, lo: i64, hi: i64) -> TypeId {
        // words of the table have 64 bits; a class says which are signed
        self.add([0, lo as u64, hi as u64, 0])
    }

    /// A physical type.
    ///
    /// ```
    /// use yexwalu::{Refusal, TypeTable};
    /// let mut table = TypeTable::new();
    /// let time = table.physical();
    /// assert_eq!(table.layout(time, &[])?.size, 8);
    /// # Ok::<(), Refusal>(())
    /// ```
    pub fn physical(&mut self) -> TypeId {
        self.add([1, 0, 0, 0])
    }

    /// An enumeration of so many literals; `logic` is 1 for std_ulogic, 2 for bit, 3 for boolean, and 0 for others. Arrays of logic are packed.
    ///
    /// ```
    /// use yexwalu::{descriptor, Direction, Refusal, TypeTable};
    /// let mut table = TypeTable::new();
    /// let (colour, unit, bit) = (table.enumeration(256, 0), table.enumeration(257, 0), table.enumeration(2, 2));
    /// assert_eq!((table.layout(colour, &[])?.size, table.layout(unit, &[])?.size), (1, 4));
    /// // 64 positions in 32 bytes
    /// let bits = table.array(bit, None, 1);
    /// assert_eq!(table.layout(bits, &descriptor(&[(63, 0, Direction::Downto)]))?.size, 32);
    /// # Ok::<(), Refusal>(())
    /// ```
    pub fn enumeration(&mut self, literals: u64, logic: u64) -> TypeId {
        self.add([2, literals, logic, 0])
    }

    /// Floating point numbers.
    ///
    /// ```
    /// use yexwalu::{Refusal, TypeTable};
    /// let mut table = TypeTable::new();
    /// let gain = table.real();
    /// assert_eq!((table.layout(gain, &[])?.size, table.has_handles(gain)?), (8, false));
    /// # Ok::<(), Refusal>(())
    /// ```
    pub fn real(&mut self) -> TypeId {
        self.add([3, 0, 0, 0])
    }

    /// An array of so many dimensions. An element that needs a descriptor has that of the constant; without one it is described after the dimensions.
    ///
    /// ```
    /// use yexwalu::{descriptor, Direction, Refusal, TypeTable};
    /// let mut table = TypeTable::new();
    /// let real = table.real();
    /// let pair = table.constant(&descriptor(&[(1, 2, Direction::To)]));
    /// let points = table.array(real, None, 1);
    /// // so many pairs as the descriptor says, the pairs described by the constant
    /// let pairs = table.array(points, Some(pair), 1);
    /// assert_eq!(table.layout(pairs, &descriptor(&[(1, 5, Direction::To)]))?.size, 80);
    /// # Ok::<(), Refusal>(())
    /// ```
    pub fn array(&mut self, elem: TypeId, elem_desc: Option<ConstId>, dims: u8) -> TypeId {
        self.add([4, elem.into(), elem_desc.unwrap_or(NO_CONSTANT).into(), dims.into()])
    }

    /// A record of these fields. A field that needs a descriptor has that of the constant; without one it is described in the record's descriptor, in the order of fields.
    ///
    /// ```
    /// use yexwalu::{descriptor, Direction, Refusal, TypeTable};
    /// let mut table = TypeTable::new();
    /// let (real, access) = (table.real(), table.access());
    /// let (list, three) = (table.array(real, None, 1), table.constant(&descriptor(&[(0, 2, Direction::To)])));
    /// let node = table.record(&[(list, Some(three)), (access, None)]);
    /// assert_eq!(table.layout(node, &[])?.offsets, [0, 24]);
    /// # Ok::<(), Refusal>(())
    /// ```
    pub fn record(&mut self, fields: &[(TypeId, Option<ConstId>)]) -> TypeId {
        let first = self.fields.len() / 2;
        for (ty, desc) in fields {
            self.fields.extend_from_slice(&[*ty, desc.unwrap_or(NO_CONSTANT)]);
        }
        self.add([5, first as u64, fields.len() as u64, 0])
    }

    /// Handles.
    ///
    /// ```
    /// use yexwalu::{Handle, Refusal, TypeTable};
    /// let mut table = TypeTable::new();
    /// let access = table.access();
    /// assert_eq!(table.value_handles(access, &7u64.to_le_bytes())?, [Handle(7)]);
    /// # Ok::<(), Refusal>(())
    /// ```
    pub fn access(&mut self) -> TypeId {
        self.add([6, 0, 0, 0])
    }

    /// A file type.
    ///
    /// ```
    /// use yexwalu::{Refusal, TypeTable};
    /// let mut table = TypeTable::new();
    /// let file = table.file();
    /// assert_eq!((table.layout(file, &[])?.size, table.has_handles(file)?), (4, false));
    /// # Ok::<(), Refusal>(())
    /// ```
    pub fn file(&mut self) -> TypeId {
        self.add([7, 0, 0, 0])
    }

    /// A protected type: a handle.
    ///
    /// ```
    /// use yexwalu::{Refusal, TypeTable};
    /// let mut table = TypeTable::new();
    /// let counter = table.protected();
    /// assert_eq!((table.layout(counter, &[])?.size, table.has_handles(counter)?), (8, true));
    /// # Ok::<(), Refusal>(())
    /// ```
    pub fn protected(&mut self) -> TypeId {
        self.add([8, 0, 0, 0])
    }

    fn add_constant(&mut self, row: [u64; 3]) -> ConstId {
        let constant = number(self.consts.len() / 3);
        self.consts.extend_from_slice(&row);
        constant
    }

    /// A constant of plain bytes, such as `descriptor` gives them.
    ///
    /// ```
    /// use yexwalu::{descriptor, Direction, TypeTable};
    /// let mut table = TypeTable::new();
    /// let five = descriptor(&[(1, 5, Direction::To)]);
    /// assert_eq!((table.constant(&five), table.constant(&five)), (0, 1));
    /// assert_eq!(table.bytes.len(), 48);
    /// ```
    pub fn constant(&mut self, bytes: &[u8]) -> ConstId {
        let constant = self.add_constant([1, self.bytes.len() as u64, bytes.len() as u64]);
        self.bytes.extend_from_slice(bytes);
        constant
    }

    /// A constant that is not plain bytes: in a layout it is malformed.
    ///
    /// ```
    /// use yexwalu::{Refusal, TypeTable};
    /// let mut table = TypeTable::new();
    /// let (real, other) = (table.real(), table.other_constant());
    /// let list = table.array(real, None, 1);
    /// let record = table.record(&[(list, Some(other))]);
    /// assert_eq!(table.layout(record, &[]), Err(Refusal::Malformed));
    /// ```
    pub fn other_constant(&mut self) -> ConstId {
        self.add_constant([0, 0, 0])
    }

    /// The layout of a type under a descriptor, of which the front is used. It is refused where the table is not in order (10), and where type or descriptor are malformed (11) or the size is past 64
    /// bits (12).
    ///
    /// ```
    /// use yexwalu::{descriptor, Direction, Refusal, TypeTable};
    /// let mut table = TypeTable::new();
    /// let real = table.real();
    /// let list = table.array(real, None, 1);
    /// assert_eq!(table.layout(list, &descriptor(&[(1, 3, Direction::To)]))?.size, 24);
    /// assert_eq!(table.layout(list, &[]), Err(Refusal::Malformed));
    /// assert_eq!(table.layout(list, &descriptor(&[(i64::MIN, i64::MAX, Direction::To)])), Err(Refusal::TooLarge));
    /// # Ok::<(), Refusal>(())
    /// ```
    pub fn layout(&self, ty: TypeId, desc: &[u8]) -> Result<Layout, Refusal> {
        // no record has more fields than the table
        let mut offsets = vec![0; self.fields.len() / 2];
        let layout = self.layout_into(ty, desc, &mut offsets)?;
        offsets.truncate(layout.offsets as usize);
        Ok(layout.with(offsets))
    }

    /// As `layout`, with the offsets written to the front of a lent list; `offsets` of the answer is how many. Too short a list is refused (7).
    ///
    /// ```
    /// use yexwalu::{Refusal, TypeTable};
    /// let mut table = TypeTable::new();
    /// let (byte, access) = (table.enumeration(4, 0), table.access());
    /// let record = table.record(&[(byte, None), (access, None)]);
    /// let mut offsets = [0; 4];
    /// let layout = table.layout_into(record, &[], &mut offsets)?;
    /// assert_eq!((layout.size, &offsets[..layout.offsets as usize]), (16, &[0, 8][..]));
    /// assert_eq!(table.layout_into(record, &[], &mut offsets[..1]), Err(Refusal::ShortList));
    /// # Ok::<(), Refusal>(())
    /// ```
    pub fn layout_into(&self, ty: TypeId, desc: &[u8], offsets: &mut [u64]) -> Result<ffi::RawLayout, Refusal> {
        let layout = on_table!(self, yexwalu_layout(ty.into(), desc.as_ptr(), desc.len(), offsets.as_mut_ptr(), offsets.len()));
        Refusal::check(layout.number)?;
        Ok(layout)
    }

    /// The bytes of a descriptor of a type; a type that has none of a fixed size is refused (11).
    ///
    /// ```
    /// use yexwalu::{Refusal, TypeTable};
    /// let mut table = TypeTable::new();
    /// let real = table.real();
    /// let matrix = table.array(real, None, 2);
    /// assert_eq!(table.desc_size(matrix)?, 48);
    /// assert_eq!(table.desc_size(9), Err(Refusal::Malformed));
    /// # Ok::<(), Refusal>(())
    /// ```
    pub fn desc_size(&self, ty: TypeId) -> Result<u64, Refusal> {
        let answer = on_table!(self, yexwalu_desc_size(ty.into()));
        Refusal::check(answer.number)?;
        Ok(answer.first)
    }

    /// Can values of the type hold handles? A type that is missing, or deeper than 64 levels, counts as one that can.
    ///
    /// ```
    /// use yexwalu::{Refusal, TypeTable};
    /// let mut table = TypeTable::new();
    /// let (real, access) = (table.real(), table.access());
    /// let pair = table.record(&[(real, None), (access, None)]);
    /// assert_eq!((table.has_handles(real)?, table.has_handles(pair)?, table.has_handles(9)?), (false, true, true));
    /// # Ok::<(), Refusal>(())
    /// ```
    pub fn has_handles(&self, ty: TypeId) -> Result<bool, Refusal> {
        let answer = on_table!(self, yexwalu_has_handles(ty.into()));
        Refusal::check(answer.number)?;
        Ok(answer.first == 1)
    }

    // A handle takes eight bytes, but composites of a frame may overlap: where the first try is too short, the room is doubled.
    pub(crate) fn listed(mut room: usize, mut call: impl FnMut(&mut [Handle]) -> Result<usize, Refusal>) -> Result<Vec<Handle>, Refusal> {
        loop {
            let mut out = vec![0; room];
            match call(Handle::list_mut(&mut out)) {
                Err(Refusal::ShortList) => room = 2 * room + 1,
                Err(why) => return Err(why),
                Ok(n) => {
                    out.truncate(n);
                    return Ok(out.into_iter().map(Handle).collect());
                }
            }
        }
    }

    // The handles and the addresses of a frame of so many entries and bytes.
    pub(crate) fn both_listed(entries: usize, bytes: usize, mut call: impl FnMut(&mut [Handle], &mut [u64]) -> Result<(usize, usize), Refusal>) -> Result<(Vec<Handle>, Vec<u64>), Refusal> {
        let mut addresses = vec![0; entries];
        let mut found = 0;
        let handles = TypeTable::listed(entries + bytes / 8, |out| {
            let (handles, rest) = call(out, &mut addresses)?;
            found = rest;
            Ok(handles)
        })?;
        addresses.truncate(found);
        Ok((handles, addresses))
    }

    /// The handles of an object's visible data: its descriptor, then its value. It is refused where the table is not in order (10) or the data can't be traced (13). Data beyond the value is not looked at.
    ///
    /// ```
    /// use yexwalu::{descriptor, Direction, Handle, Refusal, TypeTable};
    /// let mut table = TypeTable::new();
    /// let access = table.access();
    /// let list = table.array(access, None, 1);
    /// let mut data = descriptor(&[(1, 2, Direction::To)]);
    /// data.extend([7u64, 8].iter().flat_map(|x| x.to_le_bytes()));
    /// assert_eq!(table.object_handles(list, &data)?, [Handle(7), Handle(8)]);
    /// assert_eq!(table.object_handles(list, &data[..39]), Err(Refusal::Untraceable));
    /// # Ok::<(), Refusal>(())
    /// ```
    pub fn object_handles(&self, ty: TypeId, data: &[u8]) -> Result<Vec<Handle>, Refusal> {
        TypeTable::listed(data.len() / 8, |out| self.object_handles_into(ty, data, out))
    }

    /// As `object_handles`, with the handles written to the front of a lent list (7). The answer is how many.
    ///
    /// ```
    /// use yexwalu::{Handle, Refusal, TypeTable};
    /// let mut table = TypeTable::new();
    /// let access = table.access();
    /// let mut out = [Handle::NULL; 4];
    /// let n = table.object_handles_into(access, &7u64.to_le_bytes(), &mut out)?;
    /// assert_eq!(out[..n], [Handle(7)]);
    /// # Ok::<(), Refusal>(())
    /// ```
    pub fn object_handles_into(&self, ty: TypeId, data: &[u8], out: &mut [Handle]) -> Result<usize, Refusal> {
        let answer = on_table!(self, yexwalu_object_handles(ty.into(), data.as_ptr(), data.len(), out.as_mut_ptr().cast(), out.len()));
        Refusal::check(answer.number)?;
        Ok(answer.first as usize)
    }

    /// The handles of a value of a type that needs no descriptor, refused as by `object_handles`.
    ///
    /// ```
    /// use yexwalu::{Handle, Refusal, TypeTable};
    /// let mut table = TypeTable::new();
    /// let access = table.access();
    /// assert_eq!(table.value_handles(access, &7u64.to_le_bytes())?, [Handle(7)]);
    /// assert_eq!(table.value_handles(access, &[0; 7]), Err(Refusal::Untraceable));
    /// # Ok::<(), Refusal>(())
    /// ```
    pub fn value_handles(&self, ty: TypeId, data: &[u8]) -> Result<Vec<Handle>, Refusal> {
        TypeTable::listed(data.len() / 8, |out| self.value_handles_into(ty, data, out))
    }

    /// As `value_handles`, with the handles written to the front of a lent list (7). The answer is how many.
    ///
    /// ```
    /// use yexwalu::{Handle, Refusal, TypeTable};
    /// let mut table = TypeTable::new();
    /// let access = table.access();
    /// let mut out = [Handle::NULL; 4];
    /// let n = table.value_handles_into(access, &7u64.to_le_bytes(), &mut out)?;
    /// assert_eq!(out[..n], [Handle(7)]);
    /// # Ok::<(), Refusal>(())
    /// ```
    pub fn value_handles_into(&self, ty: TypeId, data: &[u8], out: &mut [Handle]) -> Result<usize, Refusal> {
        let answer = on_table!(self, yexwalu_value_handles(ty.into(), data.as_ptr(), data.len(), out.as_mut_ptr().cast(), out.len()));
        Refusal::check(answer.number)?;
        Ok(answer.first as usize)
    }

    /// The handles and the addresses of a frame's memory by its map. It is refused where the table is not in order (10), or an entry lies beyond the memory or can't be traced (13).
    ///
    /// ```
    /// use yexwalu::{FrameSlot, Handle, Refusal, TypeTable};
    /// let mut table = TypeTable::new();
    /// let access = table.access();
    /// let pair = table.record(&[(access, None), (access, None)]);
    /// let memory: Vec<u8> = [10u64, 11, 12].iter().flat_map(|x| x.to_le_bytes()).collect();
    /// let map = [FrameSlot::address(0), FrameSlot::composite(8, pair)];
    /// assert_eq!(table.slot_roots(&map, &memory)?, (vec![Handle(11), Handle(12)], vec![10]));
    /// assert_eq!(table.slot_roots(&map, &memory[..23]), Err(Refusal::Untraceable));
    /// # Ok::<(), Refusal>(())
    /// ```
    pub fn slot_roots(&self, map: &[FrameSlot], memory: &[u8]) -> Result<(Vec<Handle>, Vec<u64>), Refusal> {
        TypeTable::both_listed(map.len(), memory.len(), |handles, addresses| self.slot_roots_into(map, memory, handles, addresses))
    }

    /// As `slot_roots`, with the handles and the addresses written to the front of lent lists (7). The answer is how many of each.
    ///
    /// ```
    /// use yexwalu::{FrameSlot, Handle, Refusal, TypeTable};
    /// let memory = [7u64, 0x7f40].map(u64::to_le_bytes).concat();
    /// let map = [FrameSlot::handle(0), FrameSlot::address(8)];
    /// let (mut handles, mut addresses) = ([Handle::NULL; 4], [0; 4]);
    /// let (n, m) = TypeTable::new().slot_roots_into(&map, &memory, &mut handles, &mut addresses)?;
    /// assert_eq!((&handles[..n], &addresses[..m]), (&[Handle(7)][..], &[0x7f40][..]));
    /// # Ok::<(), Refusal>(())
    /// ```
    pub fn slot_roots_into(&self, map: &[FrameSlot], memory: &[u8], handles: &mut [Handle], addresses: &mut [u64]) -> Result<(usize, usize), Refusal> {
        let map = FrameSlot::words(map);
        let answer = on_table!(self, yexwalu_slot_roots(map.as_ptr(), map.len(), memory.as_ptr(), memory.len(), handles.as_mut_ptr().cast(), handles.len(), addresses.as_mut_ptr(), addresses.len()));
        Refusal::check(answer.number)?;
        Ok((answer.first as usize, answer.second as usize))
    }

    /// No names: an empty line for each type, field and constant, as `write_text` takes them.
    ///
    /// ```
    /// use yexwalu::{Refusal, TypeTable};
    /// let mut table = TypeTable::new();
    /// let real = table.real();
    /// table.record(&[(real, None)]);
    /// assert_eq!(table.no_names(), b"\n\n\n");
    /// let text = table.write_text(&table.no_names())?;
    /// assert_eq!(TypeTable::read_text(&text)?.0, table);
    /// # Ok::<(), Refusal>(())
    /// ```
    #[must_use]
    pub fn no_names(&self) -> Vec<u8> {
        vec![b'\n'; self.types.len() / 4 + self.fields.len() / 2 + self.consts.len() / 3]
    }

    /// The table as text (docs/FORMAT.md). `names` has a line of plain text for each type, then for each field, then for each constant: bytes from 32 on but the comma, then byte 10; other names are
    /// refused (17), and so is a table that is not in order (10).
    ///
    /// ```
    /// use yexwalu::{Refusal, TypeTable};
    /// let mut table = TypeTable::new();
    /// let int = table.integer(0, 100);
    /// table.record(&[(int, None)]);
    /// let text = table.write_text(b"percent\npoint\nx\n")?;
    /// assert_eq!(text, b"types,fields,constants\n2,1,0\nclass,a,b,c,name\n0,0,100,0,percent\n5,0,1,0,point\ntype,constant,name\n0,4294967295,x\nplain,start,length,name\nbytes\n\n");
    /// assert_eq!(TypeTable::read_text(&text)?, (table, b"percent\npoint\nx\n".to_vec()));
    /// assert_eq!(TypeTable::read_text(&text[1..]), Err(Refusal::Page));
    /// # Ok::<(), Refusal>(())
    /// ```
    pub fn write_text(&self, names: &[u8]) -> Result<Vec<u8>, Refusal> {
        // names lines and counts take 90 and 63 bytes at most, a number 20 and the comma after it
        let numbers = self.types.len() + self.fields.len() + self.consts.len();
        let mut out = vec![0; 153 + 21 * numbers + names.len() + 2 * self.bytes.len()];
        let n = self.write_text_into(names, &mut out)?;
        out.truncate(n);
        Ok(out)
    }

    /// As `write_text`, to the front of a lent output (7). The answer is how many bytes.
    ///
    /// ```
    /// use yexwalu::{Refusal, TypeTable};
    /// let mut table = TypeTable::new();
    /// table.real();
    /// let mut out = [0; 256];
    /// let n = table.write_text_into(b"gain\n", &mut out)?;
    /// assert_eq!(out[..n], table.write_text(b"gain\n")?);
    /// # Ok::<(), Refusal>(())
    /// ```
    pub fn write_text_into(&self, names: &[u8], out: &mut [u8]) -> Result<usize, Refusal> {
        let answer = on_table!(self, yexwalu_write_table(names.as_ptr(), names.len(), out.as_mut_ptr(), out.len()));
        Refusal::check(answer.number)?;
        Ok(answer.first as usize)
    }

    /// The table whose text this is, and its names. It is refused where it is no such text (17), or the table is not in order (10).
    ///
    /// ```
    /// use yexwalu::{Refusal, TypeTable};
    /// let text = b"types,fields,constants\n1,0,0\nclass,a,b,c,name\n3,0,0,0,gain\ntype,constant,name\nplain,start,length,name\nbytes\n\n";
    /// let (table, names) = TypeTable::read_text(text)?;
    /// assert_eq!((table.layout(0, &[])?.size, &names[..]), (8, &b"gain\n"[..]));
    /// assert_eq!(TypeTable::read_text(b"types"), Err(Refusal::Page));
    /// # Ok::<(), Refusal>(())
    /// ```
    pub fn read_text(text: &[u8]) -> Result<(TypeTable, Vec<u8>), Refusal> {
        // as much as a table takes at most; a byte of a constant takes two of the text
        let mut table = TypeTable { types: vec![0; 16384], fields: vec![0; 32768], consts: vec![0; 12288], bytes: vec![0; text.len() / 2] };
        let mut names = vec![0; text.len()];
        let (mut words, mut halves) = (vec![0u64; 28672], vec![0u32; 32768]);
        // SAFETY: each pointer leads to as many elements as the length after it says, and what the call writes is lent once.
        #[rustfmt::skip]
        let read = unsafe {
            ffi::yexwalu_read_table(
                table.types.as_mut_ptr(), table.types.len(),
                table.fields.as_mut_ptr(), table.fields.len(),
                table.consts.as_mut_ptr(), table.consts.len(),
                table.bytes.as_mut_ptr(), table.bytes.len(),
                names.as_mut_ptr(), names.len(),
                text.as_ptr(), text.len(),
                words.as_mut_ptr(), words.len(),
                halves.as_mut_ptr(), halves.len(),
            )
        };
        Refusal::check(read.answer.number)?;
        table.types.truncate(read.types);
        table.fields.truncate(read.fields);
        table.consts.truncate(read.consts);
        table.bytes.truncate(read.bytes);
        names.truncate(read.names);
        Ok((table, names))
    }
}
