//! Layouts and traced handles, by types that both sides have alike.
use super::{AS_FAST, NONE, Program, Table, Target, heap, time};
use std::hint::black_box;
use yavs_ir::{ConstData, ConstId, Field, Ty, TyId};
use yexwalu::{Direction, Handle, Heap, Kind, TypeTable, descriptor};

// One type table, as the port has it and as the Rust has it.
#[derive(Default)]
struct Types {
    table: TypeTable,
    prog: Program,
}

impl Types {
    fn put(&mut self, ty: u32, there: Ty) -> u32 {
        assert_eq!(self.prog.types.push(there), TyId(ty));
        ty
    }

    fn byte(&mut self) -> u32 {
        let ty = self.table.enumeration(4, 0);
        self.put(ty, Ty::Enum { lits: ["a", "b", "c", "d"].map(String::from).to_vec(), logic: None })
    }

    fn real(&mut self) -> u32 {
        let ty = self.table.real();
        self.put(ty, Ty::Real)
    }

    fn access(&mut self) -> u32 {
        let ty = self.table.access();
        self.put(ty, Ty::Access { target: TyId(0) })
    }

    fn array(&mut self, elem: u32) -> u32 {
        let ty = self.table.array(elem, None, 1);
        self.put(ty, Ty::Array { elem: TyId(elem), elem_desc: None, dims: 1 })
    }

    // Fields with the same constant, or none.
    fn record(&mut self, fields: &[u32], desc: Option<u32>) -> u32 {
        let ty = self.table.record(&fields.iter().map(|f| (*f, desc)).collect::<Vec<_>>());
        let field = |f: &u32| Field { name: String::new(), ty: TyId(*f), desc: desc.map(ConstId) };
        self.put(ty, Ty::Record { fields: fields.iter().map(field).collect() })
    }

    fn constant(&mut self, bytes: Vec<u8>) -> u32 {
        let constant = self.table.constant(&bytes);
        assert_eq!(self.prog.consts.push(ConstData::Bytes(bytes)), ConstId(constant));
        constant
    }

    // So many types more, to which nothing leads.
    fn others(&mut self, count: usize) {
        (0..count).for_each(|_| assert!(self.real() > 0));
    }
}

// How the table is lent: checked once, or each time.
fn how(once: bool) -> &'static str {
    if once { ", table checked once" } else { "" }
}

fn layout(rows: &mut Table, what: &str, size: usize, target: Target, types: Types, ty: u32, once: bool) {
    let Types { table, prog } = types;
    let (here, (there, _)) = (table.layout(ty, &[]).unwrap(), Ty::layout(&prog.types, &prog.consts, TyId(ty), &[]).unwrap());
    assert!(here.size == there.size && here.align == there.align && here.offsets[..] == there.offsets[..]);
    let b = time(|| {
        black_box(Ty::layout(&prog.types, &prog.consts, TyId(ty), &[]).unwrap());
    });
    let a = if once {
        let table = table.checked().unwrap();
        assert_eq!(table.layout(ty, &[]).unwrap(), here);
        time(|| {
            black_box(table.layout(ty, &[]).unwrap());
        })
    } else {
        time(|| {
            black_box(table.layout(ty, &[]).unwrap());
        })
    };
    rows.row(what, size, target, a, b);
}

// The handles of one object, of which there are so many.
fn handles(rows: &mut Table, what: &str, size: usize, target: Target, types: Types, (ty, data, count): (u32, &[u8], usize), once: bool) {
    let Types { table, prog } = types;
    let mut out = vec![Handle::NULL; count];
    let mut there = Vec::new();
    assert!(heap::object_handles(&prog, TyId(ty), data, &mut there));
    assert!(table.object_handles_into(ty, data, &mut out) == Ok(count) && Handle::numbers(&out) == there);
    let a = if once {
        let table = table.checked().unwrap();
        assert!(table.object_handles_into(ty, data, &mut out) == Ok(count) && Handle::numbers(&out) == there);
        time(|| {
            black_box(table.object_handles_into(ty, data, &mut out).unwrap());
        })
    } else {
        time(|| {
            black_box(table.object_handles_into(ty, data, &mut out).unwrap());
        })
    };
    let b = time(|| {
        let mut out = Vec::with_capacity(count);
        assert!(heap::object_handles(&prog, TyId(ty), data, &mut out));
        black_box(out);
    });
    rows.row(what, size, target, a, b);
}

// A checked table has the target, one that is checked each time stands beside it for scale.
fn target(once: bool) -> Target {
    if once { AS_FAST } else { NONE }
}

/// A record of so many fields, by turns a byte, a real and a handle, in a table with so many other types.
pub fn layouts(rows: &mut Table, what: &str, size: usize, fields: usize, more: usize, once: bool) {
    let mut types = Types::default();
    let of = [types.byte(), types.real(), types.access()];
    let record = types.record(&(0..fields).map(|i| of[i % 3]).collect::<Vec<_>>(), None);
    types.others(more);
    layout(rows, what, size, target(once), types, record, once);
}

/// An array of so many records of two handles and a real.
pub fn objects(rows: &mut Table, count: usize, once: bool) {
    let mut types = Types::default();
    let (access, real) = (types.access(), types.real());
    let record = types.record(&[access, access, real], None);
    let array = types.array(record);
    let mut data = descriptor(&[(1, count as i64, Direction::To)]);
    data.extend((0..3 * count as u64).flat_map(|x| (x + 1).to_le_bytes()));
    // a table of four types is checked in no time
    handles(rows, &format!("object_handles{} (ns), by elements", how(once)), count, AS_FAST, types, (array, &data, 2 * count), once);
}

/// A record of two handles and a real, in a table of so many types.
pub fn by_types(rows: &mut Table, count: usize, once: bool) {
    let mut types = Types::default();
    let (access, real) = (types.access(), types.real());
    let record = types.record(&[access, access, real], None);
    types.others(count - 3);
    let data: Vec<u8> = (1..4u64).flat_map(u64::to_le_bytes).collect();
    handles(rows, &format!("object_handles of three fields{} (ns), by types", how(once)), count, target(once), types, (record, &data, 2), once);
}

// Records in records, each of three fields: at the bottom a byte, a real and a handle. And a chain of records, each of a handle and the next record, with a real at its end. The type, and its bytes.
fn tree(types: &mut Types, levels: u32) -> (u32, Vec<u8>) {
    let of = [types.byte(), types.real(), types.access()];
    let mut record = types.record(&of, None);
    for _ in 1..levels {
        record = types.record(&[record; 3], None);
    }
    let leaf = [0, 0, 7].map(u64::to_le_bytes).concat();
    (record, leaf.repeat(3_usize.pow(levels - 1)))
}

fn chain(types: &mut Types, levels: u32) -> (u32, Vec<u8>) {
    let (access, mut record) = (types.access(), types.real());
    for _ in 0..levels {
        record = types.record(&[access, record], None);
    }
    (record, [vec![7u64; levels as usize], vec![0]].concat().into_iter().flat_map(u64::to_le_bytes).collect())
}

/// Layouts and handles of records in records, by a table that was checked once; the size is the number of scalars.
pub fn nested(rows: &mut Table) {
    type Shape = (&'static str, fn(&mut Types, u32) -> (u32, Vec<u8>), [u32; 3]);
    let shapes: [Shape; 2] = [("threefold records in records", tree, [2, 4, 6]), ("a chain of records", chain, [6, 20, 60])];
    for (shape, make, levels) in shapes {
        for n in levels {
            let mut types = Types::default();
            let (record, data) = make(&mut types, n);
            layout(rows, &format!("layout of {shape}, table checked once (ns), by scalars"), data.len() / 8, AS_FAST, types, record, true);
        }
        for n in levels {
            let mut types = Types::default();
            let (record, data) = make(&mut types, n);
            let count = data.chunks(8).filter(|word| word[0] == 7).count();
            handles(rows, &format!("object_handles of {shape}, table checked once (ns), by scalars"), data.len() / 8, AS_FAST, types, (record, &data, count), true);
        }
    }
}

// So many records of so many arrays of handles, each without an element: with the outermost 1 + records * (1 + 2 * arrays) parts, an array's element being one, of which a type has at most 65,536.
fn empty(records: usize, arrays: usize) -> (Types, u32, usize) {
    let mut types = Types::default();
    let access = types.access();
    let array = types.array(access);
    let none = types.constant(descriptor(&[(1, 0, Direction::To)]));
    let inner = types.record(&vec![array; arrays], Some(none));
    let outer = types.record(&vec![inner; records], None);
    (types, outer, 1 + records * (1 + 2 * arrays))
}

/// Many parts, all of them empty: the handles of such an object, of which there are none, and a collection of a heap with one.
pub fn empty_parts(rows: &mut Table) {
    const SHAPES: [(usize, usize); 3] = [(15, 8), (63, 32), (257, 127)];
    for (records, arrays) in SHAPES {
        let (types, ty, parts) = empty(records, arrays);
        handles(rows, "object_handles of empty parts, table checked once (ns), by parts", parts, AS_FAST, types, (ty, &[], 0), true);
    }
    for (records, arrays) in SHAPES {
        let (Types { table, prog }, ty, parts) = empty(records, arrays);
        let (mut port, mut rust) = (Heap::new(1, 1, 0).unwrap(), heap::Heap::new(1));
        let (first, there) = (port.alloc(Kind::Typed(ty), &[]).unwrap(), rust.alloc(heap::Obj::Typed(TyId(ty)), Vec::new()).unwrap());
        assert_eq!(first, Handle(there));
        let a = time(|| port.collect(&table, &[first], &[]).unwrap());
        let b = time(|| assert!(rust.collect(&prog, &[there], &[])));
        assert!(port.live().unwrap() == 1 && rust.live() == 1);
        rows.row("collect, an object of empty parts (ns), by parts", parts, AS_FAST, a, b);
    }
}

/// A collection of a ring of 16 records of two handles and a real, in a table of so many types: nothing goes.
pub fn collected(rows: &mut Table, count: usize, once: bool) {
    const OBJECTS: u32 = 16;
    let mut types = Types::default();
    let (access, real) = (types.access(), types.real());
    let record = types.record(&[access, access, real], None);
    types.others(count - 3);
    let Types { table, prog } = types;
    let (mut port, mut rust) = (Heap::new(1, OBJECTS as usize, 24 * OBJECTS as usize).unwrap(), heap::Heap::new(1));
    for i in 0..OBJECTS {
        let data = [heap::pack(1, (i + 1) % OBJECTS, 1), 0, 0].map(u64::to_le_bytes).concat();
        port.alloc(Kind::Typed(record), &data).unwrap();
        rust.alloc(heap::Obj::Typed(TyId(record)), data).unwrap();
    }
    let first = heap::pack(1, 0, 1);
    let a = if once {
        let table = table.checked().unwrap();
        time(|| port.collect(&table, &[Handle(first)], &[]).unwrap())
    } else {
        time(|| port.collect(&table, &[Handle(first)], &[]).unwrap())
    };
    let b = time(|| assert!(rust.collect(&prog, &[first], &[])));
    assert!(port.live().unwrap() == OBJECTS as usize && rust.live() == OBJECTS as usize);
    rows.row(&format!("collect, 16 records{} (ns), by types", how(once)), count, NONE, a, b);
}

/// The handles of so many objects of a record by a view, in a table of so many types that was checked once.
pub fn viewed(rows: &mut Table, objects: usize, count: usize) {
    let mut types = Types::default();
    let (access, real) = (types.access(), types.real());
    let record = types.record(&[access, access, real], None);
    types.others(count - 3);
    let Types { table, prog } = types;
    let table = table.checked().unwrap();
    let data: Vec<u8> = (1..4u64).flat_map(u64::to_le_bytes).collect();
    let (mut port, mut rust) = (Heap::new(1, objects, 24 * objects).unwrap(), heap::Heap::new(1));
    for _ in 0..objects {
        port.alloc(Kind::Typed(record), &data).unwrap();
        rust.alloc(heap::Obj::Typed(TyId(record)), data.clone()).unwrap();
    }
    let here = || port.view().unwrap().objects().map(|o| o.iter_handles(&table).unwrap().map(|h| h.0).sum::<u64>()).sum::<u64>();
    let there = || {
        let of = |i: u32| {
            let mut out = Vec::new();
            assert!(heap::object_handles(&prog, TyId(record), rust.data(i).unwrap(), &mut out));
            out.iter().sum::<u64>()
        };
        (0..objects as u32).map(of).sum::<u64>()
    };
    assert!(here() == there() && here() == 3 * objects as u64);
    let a = time(|| {
        black_box(here());
    });
    let b = time(|| {
        black_box(there());
    });
    rows.row(&format!("the handles of all objects by a view, {count} types (ns), by objects"), objects, NONE, a, b);
}
