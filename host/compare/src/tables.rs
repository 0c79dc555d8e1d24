//! Random type tables, descriptors and values.
use crate::common::{narrow, without_retired, Random};
use crate::{hex, list, seeds, told, Oracle};
use yexwalu::{descriptor, ConstId, Direction, FrameSlot, Handle, Heap, Kind, Refusal, Slot, TypeTable, NO_CONSTANT};

const NO: u64 = NO_CONSTANT as u64;
const ENDS: [i64; 8] = [0, 100, -(1 << 31), (1 << 31) - 1, -(1 << 31) - 1, 1 << 31, i64::MIN, i64::MAX];

fn constant(random: &mut Random, table: &mut TypeTable, oracle: &mut Oracle) {
    if random.below(5) == 0 {
        table.other_constant();
        return oracle.set("const other");
    }
    let dims = 1 + random.below(2);
    let mut bytes = dimensions(random, dims, 2);
    if random.below(5) == 0 {
        bytes.pop();
    }
    table.constant(&bytes);
    oracle.set(&format!("const {}", hex(&bytes)));
}

// A type that is mostly one of those before, rather a late one; at times a later or a missing one.
fn reference(random: &mut Random, before: u64) -> u64 {
    if before == 0 || random.below(20) == 0 {
        random.below(before + 4)
    } else {
        random.below(before).max(random.below(before))
    }
}

// Mostly no constant, at times a missing one.
fn described(random: &mut Random, table: &TypeTable) -> u64 {
    if random.below(4) > 0 {
        return NO;
    }
    random.below(table.consts.len() as u64 / 3 + 1)
}

fn some(constant: u64) -> Option<ConstId> {
    (constant != NO).then_some(constant as ConstId)
}

fn add(random: &mut Random, table: &mut TypeTable) -> String {
    let before = table.types.len() as u64 / 4;
    match random.below(16) {
        0 => {
            let (lo, hi) = (ENDS[random.below(8) as usize], ENDS[random.below(8) as usize]);
            table.integer(lo, hi);
            format!("ty 0 {lo} {hi}")
        }
        1 => {
            table.physical();
            "ty 1".into()
        }
        2 => {
            let (literals, logic) = ([1, 2, 256, 257][random.below(4) as usize], random.below(4));
            table.enumeration(literals, logic);
            format!("ty 2 {literals} {logic}")
        }
        3 => {
            table.real();
            "ty 3".into()
        }
        4..=7 => {
            let (elem, constant, dims) = (reference(random, before), described(random, table), random.below(3));
            table.array(elem as u32, some(constant), dims as u8);
            format!("ty 4 {elem} {constant} {dims}")
        }
        8..=10 => {
            let fields: Vec<(u64, u64)> = (0..random.below(5)).map(|_| (reference(random, before), described(random, table))).collect();
            table.record(&fields.iter().map(|(t, c)| (*t as u32, some(*c))).collect::<Vec<_>>());
            format!("ty 5 {}", list(&fields.iter().map(|(t, c)| format!("{t}:{c}")).collect::<Vec<_>>()))
        }
        11..=13 => {
            table.access();
            "ty 6".into()
        }
        14 => {
            table.file();
            "ty 7".into()
        }
        _ => {
            table.protected();
            "ty 8".into()
        }
    }
}

/// A table, here and in the oracle: of all sorts of types, or a leaf under as many arrays as are allowed, and some more.
pub fn table(random: &mut Random, oracle: &mut Oracle) -> TypeTable {
    loop {
        let mut table = TypeTable::new();
        oracle.set("table");
        for _ in 0..random.below(4) {
            constant(random, &mut table, oracle);
        }
        if random.below(6) == 0 {
            let line = add(random, &mut table);
            oracle.set(&line);
            for n in 0..66 {
                table.array(n, None, 0);
                oracle.set(&format!("ty 4 {n} {NO} 0"));
            }
        } else {
            for _ in 0..1 + random.below(16) {
                let line = add(random, &mut table);
                oracle.set(&line);
            }
        }
        // references that lead back may unfold without end: 10, which the Rust does not have
        if table.has_handles(0) != Err(Refusal::TypeTable) {
            return table;
        }
    }
}

/// A type of the table; of a deep one mostly one near the limit of 64 levels. At times one that is missing.
pub fn type_of(random: &mut Random, table: &TypeTable) -> u32 {
    let types = table.types.len() as u64 / 4;
    if types > 60 && random.below(3) > 0 {
        return (types - 1 - random.below(6)) as u32;
    }
    let missing = u64::from(random.below(20) == 0);
    random.below(types + missing) as u32
}

// So many dimensions, of at most so many positions each.
fn dimensions(random: &mut Random, dims: u64, most: u64) -> Vec<u8> {
    let all: Vec<(i64, i64, Direction)> = (0..dims)
        .map(|_| {
            let (left, length) = (random.below(9) as i64 - 4, random.below(most + 1) as i64);
            match random.below(3) {
                0 => (left, left - length + 1, Direction::Downto),
                _ => (left, left + length - 1, Direction::To),
            }
        })
        .collect();
    descriptor(&all)
}

// Dimensions of which some are far too long, have no direction, or go from end to end.
fn wild(random: &mut Random, dims: u64) -> Vec<u8> {
    let mut bytes = Vec::new();
    for _ in 0..dims {
        let (left, right, direction) = match random.below(9) {
            0 => (i64::MIN, i64::MAX, 0),
            1 => (i64::MIN + 1, i64::MAX, 0),
            2 => (i64::MAX, i64::MIN + random.below(3) as i64, 1),
            3 => (1, 1 << random.below(63), 0),
            4 => (0, i64::MAX - random.below(3) as i64, 0),
            5 => (1, 3, [2, -1, 256, i64::MIN][random.below(4) as usize]),
            _ => (1, random.below(70) as i64, 0),
        };
        for word in [left, right, direction] {
            bytes.extend_from_slice(&word.to_le_bytes());
        }
    }
    bytes
}

fn is_record(table: &TypeTable, t: u64) -> bool {
    table.types.get(4 * t as usize) == Some(&5)
}

/// A descriptor that is long enough for the type. `how` makes the dimensions of one array, given their number and how many arrays are around it.
fn describe(table: &TypeTable, t: u64, depth: u32, arrays: u32, how: &mut impl FnMut(u64, u32) -> Vec<u8>) -> Vec<u8> {
    let at = 4 * t as usize;
    if at >= table.types.len() || depth > 64 {
        return Vec::new();
    }
    let mut bytes = Vec::new();
    match table.types[at] {
        4 => {
            bytes = how(table.types[at + 3], arrays);
            if table.types[at + 2] == NO {
                bytes.extend(describe(table, table.types[at + 1], depth + 1, arrays + 1, how));
            }
        }
        5 => {
            let (first, count) = (table.types[at + 1] as usize, table.types[at + 2] as usize);
            for field in table.fields[2 * first..2 * (first + count)].chunks(2) {
                if field[1] == NO_CONSTANT && bytes.len() < 2048 {
                    bytes.extend(describe(table, field[0].into(), depth + 1, arrays, how));
                }
            }
        }
        _ => {}
    }
    bytes
}

/// A short descriptor: below three arrays each has at most one element, so that no walk is long.
fn short(random: &mut Random, table: &TypeTable, t: u32) -> Vec<u8> {
    describe(table, t.into(), 0, 0, &mut |dims, arrays| dimensions(random, dims, if arrays < 3 { 3 } else { 1 }))
}

fn cut(random: &mut Random, bytes: &mut Vec<u8>) {
    if random.below(4) == 0 {
        bytes.truncate(random.below(bytes.len() as u64 + 1) as usize);
    }
}

/// A value of a type under a descriptor, of words that `word` gives; at times it is cut short.
pub fn value(random: &mut Random, table: &TypeTable, t: u32, desc: &[u8], word: &mut impl FnMut(&mut Random) -> u64) -> Vec<u8> {
    let size = table.layout(t, desc).map_or(random.below(40), |l| l.size.min(600));
    let mut bytes: Vec<u8> = (0..size.div_ceil(8)).flat_map(|_| word(random).to_le_bytes()).collect();
    bytes.truncate(size as usize);
    cut(random, &mut bytes);
    bytes
}

/// The data of an object of a type.
pub fn object(random: &mut Random, table: &TypeTable, t: u32, word: &mut impl FnMut(&mut Random) -> u64) -> Vec<u8> {
    let mut data = short(random, table, t);
    let bytes = value(random, table, t, &data, word);
    data.extend(bytes);
    cut(random, &mut data);
    data
}

/// A frame's map and memory, of words that `word` gives.
pub fn frame(random: &mut Random, table: &TypeTable, word: &mut impl FnMut(&mut Random) -> u64) -> (Vec<FrameSlot>, Vec<u8>) {
    let mut memory: Vec<u8> = (0..random.below(12)).flat_map(|_| word(random).to_le_bytes()).collect();
    cut(random, &mut memory);
    let map = (0..random.below(5))
        .map(|_| {
            let offset = match random.below(8) {
                0 => random.below(memory.len() as u64 + 3) as u32,
                _ => 8 * random.below(memory.len() as u64 / 8 + 1) as u32,
            };
            FrameSlot::new(offset, random.below(3) as u32, type_of(random, table))
        })
        .collect();
    (map, memory)
}

/// A map as the oracle reads it.
pub fn entries(map: &[FrameSlot]) -> String {
    list(&map.iter().map(|s| if s.kind == 2 { format!("{}:2:{}", s.offset, s.ty) } else { format!("{}:{}", s.offset, s.kind) }).collect::<Vec<_>>())
}

fn layout(random: &mut Random, oracle: &mut Oracle, table: &TypeTable, place: &str) {
    let t = type_of(random, table);
    // aligning past 64 bits needs a record, and lengths near the end of the numbers
    let tame = (0..table.types.len() as u64 / 4).any(|t| is_record(table, t)) || random.below(3) == 0;
    let mut desc = match tame {
        true => describe(table, t.into(), 0, 0, &mut |dims, _| dimensions(random, dims, 70)),
        false => describe(table, t.into(), 0, 0, &mut |dims, _| wild(random, dims)),
    };
    cut(random, &mut desc);
    let here = told(table.layout(t, &desc), |l| format!("{} {} {} {} {} {}", l.size, l.align, l.stride, l.count, l.used, list(&l.offsets)));
    oracle.agrees(&format!("layout {t} {}", hex(&desc)), &here, place);
}

fn questions(random: &mut Random, oracle: &mut Oracle, table: &TypeTable, place: &str) {
    let t = type_of(random, table);
    // no size: told as 11 here, `None` in the Rust
    let size = told(table.desc_size(t), |n| n.to_string());
    oracle.agrees(&format!("descsize {t}"), if size == "11" { "none" } else { &size }, place);
    oracle.agrees(&format!("hashandles {t}"), &told(table.has_handles(t), |b| u8::from(b).to_string()), place);
}

fn traces(random: &mut Random, oracle: &mut Oracle, table: &TypeTable, place: &str) {
    let t = type_of(random, table);
    let data = object(random, table, t, &mut Random::word);
    oracle.agrees(&format!("objh {t} {}", hex(&data)), &told(table.object_handles(t, &data), |h| list(&h)), place);
    let t = type_of(random, table);
    let data = value(random, table, t, &[], &mut Random::word);
    oracle.agrees(&format!("valh {t} {}", hex(&data)), &told(table.value_handles(t, &data), |h| list(&h)), place);
    let (map, memory) = frame(random, table, &mut Random::word);
    let here = told(table.slot_roots(&map, &memory), |(h, a)| format!("{} {}", list(&h), list(&a)));
    oracle.agrees(&format!("slotroots {} {}", entries(&map), hex(&memory)), &here, place);
}

#[test]
fn random_types_answer_as_the_rust() {
    let mut oracle = Oracle::new();
    for seed in seeds(2000) {
        let mut random = Random::new(seed);
        let table = table(&mut random, &mut oracle);
        for step in 0..12 {
            let place = format!("seed {seed}, step {step}");
            layout(&mut random, &mut oracle, &table, &place);
            questions(&mut random, &mut oracle, &table, &place);
            traces(&mut random, &mut oracle, &table, &place);
        }
    }
    oracle.saw(&[
        ("layout", &["0", "11", "12"]),
        ("descsize", &["0", "none"]),
        ("hashandles", &["0"]),
        ("objh", &["0", "13"]),
        ("valh", &["0", "13"]),
        ("slotroots", &["0", "13"]),
    ]);
}

/// A heap of objects of these types whose words are mostly handles of it, here and in the oracle; and all handles that were given out.
pub fn filled(random: &mut Random, oracle: &mut Oracle, table: &TypeTable, place: &str) -> (Heap, Vec<Handle>) {
    let (tag, slots) = (random.below(256) as u8, 1 + random.below(40) as usize);
    let mut heap = Heap::new(tag, slots, 1 << 18).unwrap();
    oracle.set(&format!("new {tag} {slots}"));
    let mut handles = Vec::new();
    for _ in 0..random.below(slots as u64 + 4) {
        let (kind, number, t) = match random.below(5) {
            0 => (Kind::Bytes, 2, 0),
            1 | 2 => (Kind::Handles, 3, 0),
            _ => {
                let t = type_of(random, table);
                (Kind::Typed(t), 1, t)
            }
        };
        let mut word = |r: &mut Random| any(r, &handles, slots);
        let data = match kind {
            Kind::Typed(t) => object(random, table, t, &mut word),
            _ => (0..random.below(9)).flat_map(|_| word(random).to_le_bytes()).collect(),
        };
        let start = if random.below(6) == 0 { random.below(10) as usize } else { 0 };
        let answer = heap.alloc_from(kind, start, &data);
        oracle.agrees(&format!("alloc {number} {t} {start} {}", hex(&data)), &told(answer, |h| h.to_string()), place);
        handles.extend(answer);
        if random.below(9) == 0 {
            let h = Handle(any(random, &handles, slots));
            oracle.agrees(&format!("free {h}"), &told(heap.free(h), |()| String::new()), place);
        }
    }
    if random.below(5) == 0 {
        heap.seal().unwrap();
        oracle.set("seal");
    }
    (heap, handles)
}

/// Mostly a handle that was given out, or one that will be; at times any number.
pub fn any(random: &mut Random, handles: &[Handle], slots: usize) -> u64 {
    match random.below(10) {
        0 => 0,
        1 => random.word(),
        2 => handles.first().map_or(1, |h| u64::from(h.tag()) << 56) | random.below(slots as u64) << 32 | 1,
        _ if handles.is_empty() => 1,
        _ => handles[random.below(handles.len() as u64) as usize].0,
    }
}

/// Slot indices, strictly rising.
pub fn pins(random: &mut Random, slots: usize) -> Vec<Slot> {
    let mut pins: Vec<Slot> = (0..random.below(3)).map(|_| Slot(random.below(slots as u64 + 2) as u32)).collect();
    pins.sort();
    pins.dedup();
    pins
}

/// The two heaps are the same, as their pages, epochs and logs show them.
pub fn same(oracle: &mut Oracle, heap: &Heap, place: &str) {
    let page = String::from_utf8(heap.write_page().unwrap()).unwrap();
    // the Rust's write counts have 32 bits, and its pages no retired list; no count and no generation comes to its end here
    let page = without_retired(&narrow(&page));
    oracle.agrees("page", &format!("0 {}", page.replace('\n', ";")), place);
    let header = heap.header();
    oracle.agrees("epoch", &format!("0 {} {}", header.epoch, list(&header.log)), place);
}

#[test]
fn random_collections_answer_as_the_rust() {
    let mut oracle = Oracle::new();
    for seed in seeds(2000) {
        let mut random = Random::new(seed ^ 1 << 32);
        let table = table(&mut random, &mut oracle);
        let (mut heap, handles) = filled(&mut random, &mut oracle, &table, &format!("seed {seed}"));
        for step in 0..3 {
            let place = format!("seed {seed}, collection {step}");
            let slots = heap.memory().slots();
            let roots: Vec<Handle> = (0..random.below(4)).map(|_| Handle(any(&mut random, &handles, slots))).collect();
            let pins = pins(&mut random, slots);
            let here = told(heap.collect(&table, &roots, &pins), |()| String::new());
            oracle.agrees(&format!("collect {} {}", list(&roots), list(&pins)), &here, &place);
            same(&mut oracle, &heap, &place);
        }
    }
    oracle.saw(&[("alloc", &["0", "5"]), ("collect", &["0", "13"]), ("epoch", &["0"]), ("free", &["0", "19", "2", "3", "4"]), ("page", &["0"])]);
}
