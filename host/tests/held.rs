//! Calls on a heap that is known to be well formed against the checked ones, side by side: each random call is made on a heap that is known, and on the same one put together anew from its parts, which is checked. Answers,
//! headers and every byte are the same. So too for a table that was checked once.
mod common;
use common::{sample, scratch, Random};
use std::collections::BTreeSet;
use yexwalu::{descriptor, Class, Column, Direction, FrameSlot, Function, Handle, Heap, InstKind, Kind, Refusal, Scratch, Slot, TypeTable};

// The same heap, of which nothing is known; its scratch is dirty, so that a check is seen by its being clean.
fn unknown(heap: &Heap) -> Heap {
    let (header, memory, _) = heap.clone().into_parts();
    let slots = memory.slots();
    Heap::from_parts(header, memory, scratch(vec![3; slots], vec![5; slots]))
}

// One call, drawn by random numbers, on a heap; what it answers, as text, and the refusal.
#[derive(Clone, Debug)]
struct Call {
    what: u64,
    handle: Handle,
    slot: u32,
    number: u64,
    bytes: Vec<u8>,
    room: usize,
    pins: Vec<Slot>,
    wanted: Vec<Slot>,
}

fn told<T: std::fmt::Debug>(answer: Result<T, Refusal>) -> (String, u64) {
    (format!("{answer:?}"), answer.map_or_else(|why| why.number(), |_| 0))
}

fn make(heap: &mut Heap, c: &Call) -> (String, u64) {
    let kind = |n: u64| [Kind::Typed(7), Kind::Bytes, Kind::Handles][(n % 3) as usize];
    match c.what {
        0..=4 => told(heap.alloc(kind(c.number), &c.bytes)),
        5 => told(heap.alloc_from(kind(c.number), c.room, &c.bytes)),
        6 => told(heap.alloc_raw(c.number as u8 % 6, 9, c.room, &c.bytes)),
        7..=8 => told(heap.take(c.handle)),
        9 => {
            let mut out = vec![9; c.room];
            let (text, why) = told(heap.take_into(c.handle, &mut out));
            (format!("{text} {out:?}"), why)
        }
        10 => told(heap.free(c.handle)),
        11..=12 => told(heap.recycle(&c.pins)),
        13 => told(heap.edit(c.handle, &c.bytes, c.room)),
        14..=15 => told(heap.write(c.slot, c.room, &c.bytes)),
        16 => told(heap.reissue(c.slot, c.number)),
        17 => told(heap.seal()),
        18 => told(heap.resolve(c.handle)),
        19 => told(heap.place(c.slot)),
        20 => told(heap.kind(c.slot)),
        21 => told(heap.stamp(c.slot)),
        22 => told(heap.live()),
        23 => told(heap.slots()),
        24 => told(heap.gc_due(c.number)),
        25 => told(heap.reclaim_due()),
        26 => told(heap.has_quarantine()),
        27 => told(heap.is_plain(c.number as u8 % 3)),
        28 => told(heap.collect(&accesses(c.room), &[c.handle], &c.pins)),
        29 => joined(heap, c),
        30 => told(heap.slot_handles(&accesses(c.room), c.slot)),
        31 => {
            let mut out = vec![9; c.pins.len()];
            let (text, why) = told(heap.slot_handles_into(&accesses(c.room), c.slot, Handle::list_mut(&mut out)));
            (format!("{text} {out:?}"), why)
        }
        32 => told(heap.page_length_with(column(c))),
        33 => told(heap.page_with(column(c))),
        34 => told(heap.roots_for(&accesses(c.room), &c.pins, &c.wanted)),
        35 => {
            let mut out = vec![9; c.pins.len()];
            let (text, why) = told(heap.roots_for_into(&accesses(c.room), &c.pins, &c.wanted, Handle::list_mut(&mut out)));
            (format!("{text} {out:?}"), why)
        }
        36 => told(heap.misfit(&accesses(c.room))),
        37 => told(heap.run(&script(c))),
        38 => {
            // a byte less than the pool is too short
            let mut room = vec![9; (heap.memory().pool.len() + c.pins.len()).saturating_sub(1)];
            let (text, why) = told(heap.run_with(&script(c), &mut room));
            (format!("{text} {room:?}"), why)
        }
        _ => {
            let mut out = vec![9; 10 * c.bytes.len() * c.bytes.len()];
            let (text, why) = told(heap.write_page_with(column(c), &mut out));
            (format!("{text} {out:?}"), why)
        }
    }
}

fn column(c: &Call) -> Column {
    [Column::Data, Column::Planes][c.room % 2]
}

// Ten types that are a handle each; one in fourteen tables is not in order, since its last type is a record of two of itself.
fn accesses(room: usize) -> TypeTable {
    let mut table = TypeTable::new();
    for _ in 0..10 {
        table.access();
    }
    if room == 13 {
        table.record(&[(10, None), (10, None)]);
    }
    table
}

// A collection at a safepoint at which one register of class `Handle` and one of class `Ptr` are live; at times there is none, or too few values.
fn joined(heap: &mut Heap, c: &Call) -> (String, u64) {
    let mut f = Function::new();
    let (root, at) = (f.register(Class::Handle), f.register(Class::Ptr));
    let call = f.instruction(InstKind::Safepoint, &[], &[], &[]);
    f.instruction(InstKind::Return, &[], &[root, at], &[]);
    f.block(0, 2);
    let pc = if c.room == 5 { call + 1 } else { call };
    let values = [c.handle.0, 0x7f40];
    let values = if c.room == 7 { &values[..1] } else { &values[..] };
    let addresses = [(0x7f40, Slot(c.slot)), (0x7f48 - 16 * u64::from(c.room == 9), Slot(1))];
    let frame = [c.bytes.clone(), vec![0; 8]].concat();
    told(heap.collect_joined(&accesses(c.room), &f, pc, values, &[FrameSlot::address(0)], &frame, &c.pins, &addresses))
}

// Some lines of a script; data of which the pool has no room for, and at times what is no line, last or first.
fn script(c: &Call) -> Vec<u8> {
    let hex: String = c.bytes.iter().map(|b| format!("{b:02x}")).collect();
    let alloc = |n: usize| format!("alloc,7,{},{}\n", 1 + c.number % 3, hex.repeat(n));
    let lines = [alloc(1), format!("take,{},0,\n", c.handle.0), "seal,0,0,\n".into(), "recycle,0,0,\n".into(), alloc(2), "take,1,0,\n".into(), alloc(20), format!("alloc,7,{},\n", c.number % 5), "free,1\n".into()];
    (0..c.room % 6).map(|i| lines[(i * 5 + c.number as usize % 9) % 9].as_str()).collect::<String>().into_bytes()
}

fn draw(random: &mut Random, heap: &Heap, handles: &[Handle]) -> Call {
    let slots = heap.memory().slots() as u64;
    let handle = match random.below(10) {
        0 => Handle(0),
        1 => Handle(random.word()),
        2 => Handle((1 << 56) | random.below(slots + 2) << 32 | random.below(4)),
        _ if handles.is_empty() => Handle(1 << 56 | 1),
        _ => handles[random.below(handles.len() as u64) as usize],
    };
    let some = |n: u64, random: &mut Random| {
        let mut list: Vec<Slot> = (0..n).map(|_| Slot(random.below(slots + 3) as u32)).collect();
        if random.below(3) > 0 {
            list.sort_unstable();
            list.dedup();
        }
        list
    };
    let pins = some(random.below(4), random);
    // at times all that lives
    let live = (0..slots as u32).map(Slot).filter(|i| heap.kind(*i).is_ok()).collect();
    let wanted = if random.below(2) == 0 { live } else { some(random.below(4), random) };
    Call { what: random.below(40), handle, slot: random.below(slots + 2) as u32, number: if random.below(2) == 0 { random.below(300) } else { random.word() }, bytes: random.bytes(12), room: random.below(14) as usize, pins, wanted }
}

// The call on both; what it was refused with.
fn both(known: &mut Heap, call: &Call) -> (String, u64) {
    let mut checked = unknown(known);
    let (here, there) = (make(known, call), make(&mut checked, call));
    assert_eq!(here, there, "{call:?}");
    assert_eq!(known.header(), checked.header(), "{call:?}");
    assert_eq!(known.memory(), checked.memory(), "{call:?}");
    let slots = known.memory().slots();
    // too short a room is told before scratch is looked at
    assert!((here.1 == 18 || checked.scratch() == Scratch::zeros(slots)) && known.scratch() == Scratch::zeros(slots), "{call:?}");
    here
}

#[test]
fn a_known_heap_answers_and_changes_as_one_that_is_checked() {
    let mut refusals = BTreeSet::new();
    for seed in 0..60 {
        let mut random = Random::new(seed);
        let slots = 1 + random.below(12) as usize;
        let mut heap = Heap::new(1, slots, random.below(100) as usize).unwrap();
        let mut handles = Vec::new();
        for _ in 0..400 {
            let call = draw(&mut random, &heap, &handles);
            let (text, why) = both(&mut heap, &call);
            refusals.insert(why);
            if why == 0 && (call.what < 7 || call.what == 16) {
                let digits: String = text.chars().filter(char::is_ascii_digit).collect();
                handles.push(Handle(digits.parse().unwrap()));
            }
        }
    }
    assert_eq!(refusals.into_iter().collect::<Vec<_>>(), [0, 2, 3, 4, 5, 6, 7, 8, 9, 10, 13, 14, 15, 16, 17, 18, 19, 21]);
}

// Two heaps, of which each is known or not, and a table that was checked or not: all say the same, and leave scratch zero.
#[test]
fn two_known_heaps_are_compared_as_two_that_are_checked() {
    let mut answers = BTreeSet::new();
    for seed in 0..300 {
        let mut random = Random::new(7000 + seed);
        let mut heaps = Vec::new();
        let mut all = vec![Handle(0), Handle(1 << 56)];
        // the second is the first after some calls more, so that they are often the same
        let mut heap = Heap::new(1, 6, 200).unwrap();
        for turn in 0..2 {
            for _ in 0..random.below(if turn == 0 { 12 } else { 3 }) {
                let to = all[random.below(all.len() as u64) as usize];
                let bytes = [vec![0; random.below(2) as usize * 24], to.0.to_le_bytes().to_vec()].concat();
                all.extend(heap.alloc([Kind::Typed(1), Kind::Bytes, Kind::Handles][random.below(3) as usize], &bytes[..bytes.len() - usize::from(random.below(20) == 0)]));
            }
            heaps.push(heap.clone());
        }
        let mut table = TypeTable::new();
        table.real();
        table.access();
        if random.below(10) == 0 {
            table.types[4] = 9;
        }
        let mut roots = || (0..random.below(3)).map(|_| all[random.below(all.len() as u64) as usize]).collect::<Vec<_>>();
        let rs = roots();
        let ss = if rs.len() == 1 { rs.clone() } else { roots() };
        for (a, b) in [(0, 1), (1, 0), (0, 0)] {
            let (h, g) = (&heaps[a], &heaps[b]);
            let here = (told(h.same(&table, &rs, g, &ss)), told(h.order(&table, &rs, g, &ss)));
            for (x, y) in [(unknown(h), unknown(g)), (h.clone(), unknown(g)), (unknown(h), g.clone())] {
                assert_eq!((told(x.same(&table, &rs, &y, &ss)), told(x.order(&table, &rs, &y, &ss))), here);
            }
            if let Ok(checked) = table.clone().checked() {
                assert_eq!((told(h.same(&checked, &rs, g, &ss)), told(h.order(&checked, &rs, g, &ss))), here);
            }
            assert!(h.scratch() == Scratch::zeros(6) && g.scratch() == Scratch::zeros(6));
            answers.insert(here.1 .0);
        }
        assert_eq!(told(heaps[0].same(&table, &rs, &heaps[0], &ss)), told(unknown(&heaps[0]).same(&table, &rs, &unknown(&heaps[0]), &ss)));
    }
    assert_eq!(answers.into_iter().collect::<Vec<_>>(), ["Err(TypeTable)", "Err(Untraceable)", "Ok(Equal)", "Ok(Greater)", "Ok(Less)"]);
}

// On a known heap and with one that is not, a checked table does what the table does.
#[test]
fn calls_on_a_heap_take_a_checked_table_too() {
    for seed in 0..200 {
        let mut random = Random::new(9000 + seed);
        let mut heap = Heap::new(1, 8, 300).unwrap();
        let mut handles = Vec::new();
        for _ in 0..1 + random.below(8) {
            let to = handles.last().copied().unwrap_or(Handle::NULL);
            handles.push(heap.alloc(Kind::Typed(random.below(11) as u32), &[random.bytes(9), to.0.to_le_bytes().to_vec()].concat()).unwrap());
        }
        let (table, checked) = (accesses(0), accesses(0).checked().unwrap());
        let roots = [handles[random.below(handles.len() as u64) as usize]];
        let wanted: Vec<Slot> = (0..random.below(4) as u32).map(Slot).collect();
        for start in [heap.clone(), unknown(&heap)] {
            for i in 0..9 {
                assert_eq!(start.slot_handles(&checked, i), heap.slot_handles(&table, i));
            }
            assert_eq!(start.misfit(&checked), heap.misfit(&table));
            assert_eq!(start.roots_for(&checked, &[], &wanted), heap.roots_for(&table, &[], &wanted));
            let (mut here, mut there) = (start.clone(), heap.clone());
            assert_eq!(here.collect(&checked, &roots, &wanted), there.collect(&table, &roots, &wanted));
            assert!(here == there);
            let f = Function::new();
            assert_eq!(here.collect_joined(&checked, &f, 0, &[], &[], &[], &[], &[]), there.collect_joined(&table, &f, 0, &[], &[], &[], &[], &[]));
        }
    }
}

// Slots at their last generation, retired ones, large counts: parts that no run of calls comes to in a test. The first call on them is checked.
#[test]
fn worn_out_slots_too() {
    let mut refusals = BTreeSet::new();
    for seed in 0..40 {
        let mut random = Random::new(1000 + seed);
        let (heap, handles) = sample(8, 64);
        let (mut header, mut memory, scratch) = heap.into_parts();
        (header.since_gc, header.epoch) = (u64::MAX - random.below(200), u64::MAX - random.below(3));
        let slots = memory.slots();
        for i in 0..header.slots {
            if random.below(2) == 0 && memory.kind()[i] != 0 {
                memory.narrow[i] = u32::MAX - random.below(2) as u32;
                memory.wide[2 * slots + i] = u64::MAX - random.below(2);
            }
        }
        let mut heap = Heap::from_parts(header, memory, scratch);
        assert_eq!(heap.slots(), Ok(header.slots));
        let mut all: Vec<Handle> = handles;
        all.extend(heap.view().unwrap().objects().map(|o| o.handle()));
        for _ in 0..60 {
            let call = draw(&mut random, &heap, &all);
            refusals.insert(both(&mut heap, &call).1);
        }
    }
    assert!(refusals.contains(&0) && refusals.contains(&20));
}

// A heap that is refused stays unknown, and is checked until it is one.
#[test]
fn parts_that_are_no_heap_are_refused_each_time() {
    let (header, memory, scratch) = sample(8, 64).0.into_parts();
    let mut broken = memory.clone();
    broken.pool[63] = 1;
    let mut heap = Heap::from_parts(header, broken, scratch.clone());
    for _ in 0..3 {
        assert_eq!(heap.live(), Err(Refusal::BrokenHeap));
        assert_eq!(heap.alloc(Kind::Bytes, b"x"), Err(Refusal::BrokenHeap));
        assert_eq!(heap.read_page_over(b"no page").unwrap_err(), Refusal::Page);
    }
    let mut short = Heap::from_parts(header, memory, Scratch::zeros(7));
    assert_eq!(short.alloc(Kind::Bytes, b"x"), Err(Refusal::Scratch));
    assert_eq!(short.alloc(Kind::Bytes, b"x"), Err(Refusal::Scratch));
}

// Tables of records, arrays and scalars, also missing ones and constants that are not plain.
fn some_table(random: &mut Random) -> TypeTable {
    let mut table = TypeTable::new();
    let constant = table.constant(&descriptor(&[(1, 3, Direction::To)]));
    let other = table.other_constant();
    for _ in 0..1 + random.below(9) {
        let any = |random: &mut Random| random.below(11) as u32;
        let desc = |random: &mut Random| [None, None, Some(constant), Some(other), Some(9)][random.below(5) as usize];
        match random.below(9) {
            0 => table.integer(0, if random.below(2) == 0 { 100 } else { 1 << 40 }),
            1 => table.enumeration(random.below(300), random.below(4)),
            2 => table.real(),
            3 => table.file(),
            4 | 5 => {
                let fields: Vec<_> = (0..random.below(4)).map(|_| (any(random), desc(random))).collect();
                table.record(&fields)
            }
            6 => table.array(any(random), desc(random), random.below(3) as u8),
            _ => table.access(),
        };
    }
    table
}

#[test]
fn a_checked_table_answers_as_the_table() {
    let (mut done, mut refusals) = (0, BTreeSet::new());
    for seed in 0..4000 {
        let mut random = Random::new(seed);
        let table = some_table(&mut random);
        let Ok(checked) = table.clone().checked() else {
            assert_eq!(table.layout(0, &[]), Err(Refusal::TypeTable));
            continue;
        };
        let desc = descriptor(&[(1, random.below(4) as i64, Direction::To), (0, 1, Direction::To)]);
        let data = [&desc[..], &random.bytes(64)].concat();
        for ty in 0..11 {
            let (here, there) = (checked.layout(ty, &desc), table.layout(ty, &desc));
            assert_eq!(here, there);
            refusals.insert(here.map_or_else(|why| why.number(), |_| 0));
            assert_eq!(Ok(checked.has_handles(ty)), table.has_handles(ty));
            assert_eq!(checked.desc_size(ty), table.desc_size(ty));
            let map = [FrameSlot::new(8, random.below(4) as u32, ty), FrameSlot::composite(0, ty), FrameSlot::address(0)];
            assert_eq!(checked.slot_roots(&map, &data), table.slot_roots(&map, &data));
            assert_eq!(checked.object_handles(ty, &data), table.object_handles(ty, &data));
            assert_eq!(checked.value_handles(ty, &data), table.value_handles(ty, &data));
            let (mut a, mut b) = (vec![9; random.below(4) as usize], Vec::new());
            b.clone_from(&a);
            assert_eq!(checked.object_handles_into(ty, &data, Handle::list_mut(&mut a)), table.object_handles_into(ty, &data, Handle::list_mut(&mut b)));
            assert_eq!(a, b);
            assert_eq!(checked.layout_into(ty, &desc, &mut a), table.layout_into(ty, &desc, &mut b));
            assert_eq!(a, b);
        }
        done += 1;
    }
    assert!(done > 1000 && refusals.contains(&0) && refusals.contains(&11));
}
