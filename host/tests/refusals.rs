//! Lent lengths one short of each size, for every list, scratch and output of every call, and other refusals: 18, 1, 2, 3, 19, 4, 7, 8, 5, 6, 9, 20, 10, 13, 14, 15. After each, what was lent is as
//! it was.
mod common;
use common::{sample, scratch};
use yexwalu::{descriptor, ffi, Class, Column, Direction, FrameSlot, Function, Handle, Header, Heap, InstKind, Kind, Memory, Refusal, Scratch, Slot, TypeTable, Wanted};

type Call = (&'static str, fn(&mut Heap) -> Result<(), Refusal>);

// Every call on a heap, each one that succeeds on the sample.
const CALLS: [Call; 33] = [
    ("alloc", |h| h.alloc(Kind::Bytes, b"x").map(drop)),
    ("alloc_from", |h| h.alloc_from(Kind::Bytes, 0, b"x").map(drop)),
    ("take", |h| h.take_into(Handle(7 << 56 | 2 << 32 | 1), &mut [0; 64]).map(drop)),
    ("free", |h| h.free(Handle(7 << 56 | 2 << 32 | 1))),
    ("recycle", |h| h.recycle(&[Slot(1)])),
    ("edit", |h| h.edit(Handle(7 << 56 | 2 << 32 | 1), b"new", 1).map(drop)),
    ("write", |h| h.write(2, 0, b"w")),
    ("reissue", |h| h.reissue(2, 5).map(drop)),
    ("seal", |h| h.seal()),
    ("gc_due", |h| h.gc_due(0).map(drop)),
    ("reclaim_due", |h| h.reclaim_due().map(drop)),
    ("has_quarantine", |h| h.has_quarantine().map(drop)),
    ("is_plain", |h| h.is_plain(7).map(drop)),
    ("slots", |h| h.slots().map(drop)),
    ("live", |h| h.live().map(drop)),
    ("resolve", |h| h.resolve(Handle(7 << 56 | 2 << 32 | 1)).map(drop)),
    ("data", |h| h.place(2).map(drop)),
    ("kind", |h| h.kind(2).map(drop)),
    ("stamp", |h| h.stamp(2).map(drop)),
    ("slot_handles", |h| h.slot_handles(&plain(), 2).map(drop)),
    ("traceable", |h| h.misfit(&plain()).map(drop)),
    ("page_length", |h| h.page_length().map(drop)),
    ("page_length", |h| h.page_length_with(Column::Planes).map(drop)),
    ("write_page", |h| h.write_page_into(&mut [0; 4096]).map(drop)),
    ("write_page", |h| h.write_page_with(Column::Planes, &mut [0; 4096]).map(drop)),
    ("collect", |h| h.collect(&plain(), &[Handle(7 << 56 | 2 << 32 | 1)], &[Slot(1)])),
    ("collect_joined", |h| h.collect_joined(&plain(), &stopped(), 1, &[7 << 56 | 2 << 32 | 1, 0], &[], &[], &[Slot(1)], &[])),
    ("same", |h| h.same(&plain(), &[Handle(7 << 56 | 2 << 32 | 1)], &sample(8, 64).0, &[]).map(drop)),
    ("same", |h| sample(8, 64).0.same(&plain(), &[], h, &[Handle(7 << 56 | 2 << 32 | 1)]).map(drop)),
    ("order", |h| h.order(&plain(), &[Handle(7 << 56 | 2 << 32 | 1)], &sample(8, 64).0, &[]).map(drop)),
    ("order", |h| sample(8, 64).0.order(&plain(), &[], h, &[Handle(7 << 56 | 2 << 32 | 1)]).map(drop)),
    ("run", |h| h.run(b"alloc,0,2,41\nseal,0,0,\n")),
    ("read_page", |h| h.read_page_over(b"tag,since_gc,reclaim_at,live_bytes,slots,free,quarantine,sealed\n1,0,4096,0,0,0,0,0\ngeneration,kind,type,start,writes,data\nfree\nquarantine\nsealed\n").map(drop)),
];

// Types without handles, so that the sample can be traced.
fn plain() -> TypeTable {
    let mut table = TypeTable::new();
    for _ in 0..4 {
        table.real();
    }
    table
}

// A function of three instructions, the second a safepoint before which both registers are live.
fn stopped() -> Function {
    let mut f = Function::new();
    let (hall, address) = (f.register(Class::Handle), f.register(Class::Ptr));
    f.instruction(InstKind::Plain, &[hall, address], &[], &[]);
    f.instruction(InstKind::Safepoint, &[], &[], &[]);
    f.instruction(InstKind::Return, &[], &[hall, address], &[]);
    f.block(0, 3);
    f
}

fn refused(name: &str, call: fn(&mut Heap) -> Result<(), Refusal>, heap: &Heap, why: Refusal) {
    let before = heap.clone();
    let mut after = heap.clone();
    assert_eq!(call(&mut after), Err(why), "{name}");
    assert!(after == before, "{name} changed what was lent");
    if why == Refusal::Scratch {
        assert_eq!(after.scratch(), before.scratch(), "{name} wrote to scratch");
    } else {
        let s = after.scratch();
        assert!(s.marks.iter().all(|m| *m == 0) && s.work.iter().all(|w| *w == 0), "{name} left scratch");
    }
}

fn dirty(slots: usize) -> Scratch {
    scratch(vec![0xa5; slots], vec![0xa5a5; slots])
}

#[test]
fn every_call_succeeds_on_the_sample_and_clears_scratch() {
    for (name, call) in CALLS {
        let (header, memory, _) = sample(8, 64).0.into_parts();
        let mut heap = Heap::from_parts(header, memory, dirty(11));
        assert_eq!(call(&mut heap), Ok(()), "{name}");
        assert_eq!(heap.scratch(), Scratch::zeros(11), "{name}");
    }
}

#[test]
fn scratch_one_short_is_18() {
    let (header, memory, _) = sample(8, 64).0.into_parts();
    for (marks, work) in [(7, 8), (8, 7), (0, 8), (8, 0)] {
        let scratch = scratch(vec![1; marks], vec![2; work]);
        for (name, call) in CALLS {
            refused(name, call, &Heap::from_parts(header, memory.clone(), scratch.clone()), Refusal::Scratch);
        }
        assert!(matches!(Heap::new_in(1, memory.clone(), scratch.clone()), Err((Refusal::Scratch, m, s)) if m == memory && s == scratch));
    }
}

#[test]
fn the_other_scratch_one_short_is_18() {
    let (header, memory, _) = sample(8, 64).0.into_parts();
    let heap = Heap::from_parts(header, memory, dirty(9));
    let mut after = heap.clone();
    let mut room = [0xa5; 63];
    assert_eq!(after.run_with(b"seal,0,0,\n", &mut room), Err(Refusal::Scratch));
    assert!(after == heap && after.scratch() == dirty(9) && room == [0xa5; 63]);
    let mut room = [0xa5; 65];
    assert_eq!(after.run_with(b"alloc,0,2,4142\n", &mut room), Ok(()));
    assert_eq!(room, [0; 65]);

    let f = stopped();
    let words = f.scratch_words();
    let joined = |h: &mut Heap, rows: &mut [u64]| h.collect_joined_with(&plain(), &f, 1, &[0, 0], &[], &[], &[], &[], rows);
    let mut after = heap.clone();
    let mut rows = vec![3; words - 1];
    assert_eq!(joined(&mut after, &mut rows), Err(Refusal::Scratch));
    assert!(after == heap && after.scratch() == dirty(9) && rows == vec![3; words - 1]);
    let mut rows = vec![3; words + 1];
    assert_eq!(joined(&mut after, &mut rows), Ok(()));
    assert_eq!(rows, vec![0; words + 1]);
    assert_eq!(after.scratch(), Scratch::zeros(9));

    let (mut pcs, mut bounds, mut regs) = ([77; 1], [77; 1], [77; 2]);
    let mut rows = vec![1; words - 1];
    assert_eq!(f.live_at_into(1, Wanted::All, &mut regs, &mut rows), Err(Refusal::Scratch));
    assert_eq!(f.live_refs_into(Wanted::All, &mut pcs, &mut bounds, &mut regs, &mut rows), Err(Refusal::Scratch));
    assert!(rows == vec![1; words - 1] && pcs == [77] && bounds == [77] && regs == [77; 2]);
}

// Each list one short, and one long.
fn misfits(memory: &Memory) -> Vec<Memory> {
    let mut all = vec![memory.clone(); 4];
    all[0].narrow.pop();
    all[1].wide.pop();
    all[2].narrow.push(0);
    all[3].wide.push(0);
    all
}

#[test]
fn a_list_one_short_or_long_is_1() {
    let (header, memory, _) = sample(8, 64).0.into_parts();
    for memory in misfits(&memory) {
        for (name, call) in CALLS {
            refused(name, call, &Heap::from_parts(header, memory.clone(), dirty(8)), Refusal::BrokenHeap);
        }
        assert!(matches!(Heap::new_in(1, memory.clone(), dirty(8)), Err((Refusal::BrokenHeap, m, _)) if m == memory));
    }
}

// Kinds are 0 to 3, generations 1 or more; what is not in use is zero.
#[test]
fn a_number_out_of_its_range_is_1() {
    let (header, memory, _) = sample(8, 64).0.into_parts();
    let mut bad = Vec::new();
    for (place, number) in [(8, 4), (10, 258), (10, u32::MAX), (40, 1), (47, 1), (7, 1), (15, 2), (31, 1), (39, 1), (2, 0)] {
        bad.push(memory.clone());
        bad.last_mut().unwrap().narrow[place] = number;
    }
    for (place, number) in [(7, 1), (15, 11), (23, 1), (31, 1)] {
        bad.push(memory.clone());
        bad.last_mut().unwrap().wide[place] = number;
    }
    for memory in bad {
        for (name, call) in CALLS {
            // what is lent for a page is not looked at
            if name != "read_page" {
                refused(name, call, &Heap::from_parts(header, memory.clone(), dirty(8)), Refusal::BrokenHeap);
            }
        }
    }
}

#[test]
fn a_pool_one_short_of_the_data_is_1() {
    let (header, mut memory, _) = sample(8, 64).0.into_parts();
    memory.pool.truncate(11);
    assert_eq!(Heap::from_parts(header, memory.clone(), dirty(8)).live(), Ok(3));
    memory.pool.pop();
    for (name, call) in CALLS {
        // what is lent for a page is not looked at
        if name != "read_page" {
            refused(name, call, &Heap::from_parts(header, memory.clone(), dirty(8)), Refusal::BrokenHeap);
        }
    }
}

#[test]
fn a_header_out_of_its_range_is_1() {
    let (header, memory, _) = sample(8, 64).0.into_parts();
    let changes: [fn(&mut Header); 10] =
        [|h| h.slots = 9, |h| h.slots = usize::MAX, |h| h.free = 9, |h| h.quarantine = 0, |h| h.retired = 1, |h| h.sealed = usize::MAX, |h| h.reclaim_at = 4097, |h| h.reclaim_at = 4094, |h| h.reclaim_at = 33_554_434, |h| h.tag = 8];
    let bad = changes.map(|change| {
        let mut bad = header;
        change(&mut bad);
        bad
    });
    for header in bad {
        for (name, call) in CALLS {
            if name != "read_page" {
                refused(name, call, &Heap::from_parts(header, memory.clone(), dirty(8)), Refusal::BrokenHeap);
            }
        }
    }
}

#[test]
fn new_takes_1_to_16777216_slots() {
    assert_eq!(Heap::new(1, 0, 16).err(), Some(Refusal::BrokenHeap));
    assert!(Heap::new(1, 1, 0).is_ok());
    let mut m = Memory::zeros(1, 0);
    m.pool.push(9);
    let heap = Heap::new_in(255, m, dirty(1)).unwrap();
    assert_eq!(heap.memory().pool, [0]);
    assert_eq!((heap.header().tag, heap.header().reclaim_at), (255, 4096));
}

#[test]
fn sizes_that_no_heap_has_are_1() {
    let page = sample(8, 64).0.write_page().unwrap();
    for (slots, pool) in [(0, 64), (Heap::MAX_SLOTS + 1, 64), (usize::MAX, 64), (8, Heap::MAX_POOL + 1), (8, usize::MAX), (usize::MAX, usize::MAX)] {
        assert_eq!(Heap::new(1, slots, pool), Err(Refusal::BrokenHeap));
        assert_eq!(Heap::read_page(slots, pool, &page), Err(Refusal::BrokenHeap));
        assert_eq!(Heap::read_page(slots, pool, &page[1..]), Err(Refusal::Page));
    }
}

#[test]
fn an_object_beyond_all_memory_is_1() {
    let (header, memory, scratch) = sample(8, 64).0.into_parts();
    for i in 0..8 {
        for end in [65, 1 << 40, u64::MAX] {
            let mut bad = memory.clone();
            bad.wide[8 + i] = end;
            let mut heap = Heap::from_parts(header, bad, scratch.clone());
            for slot in 0..10 {
                assert_eq!(heap.take(Handle(7 << 56 | slot << 32 | 1)), Err(Refusal::BrokenHeap));
            }
            assert_eq!(heap.write_page(), Err(Refusal::BrokenHeap));
        }
    }
}

// The calls on a handle, each one with the output that it needs, and a slot's bytes that the pool has no room for.
#[allow(clippy::type_complexity)]
const ON_A_HANDLE: [(&str, fn(&mut Heap, Handle) -> Result<(), Refusal>); 4] =
    [("resolve", |h, x| h.resolve(x).map(drop)), ("edit", |h, x| h.edit(x, &[0; 999], 0).map(drop)), ("take", |h, x| h.take_into(x, &mut []).map(drop)), ("free", |h, x| h.free(x))];

#[test]
fn a_handle_that_leads_nowhere_is_2_3_19_or_4() {
    let (heap, _) = sample(8, 64);
    let slots = heap.slots().unwrap() as u64;
    assert_eq!(slots, 5);
    let handle = |tag: u64, index: u64, generation: u64| Handle(tag << 56 | index << 32 | generation);
    let mut why = vec![(Handle::NULL, Refusal::Null), (handle(0, 9, 1), Refusal::WrongHeap)];
    // another tag comes first, whatever the index
    why.extend([0, 4, 5, 0xff_ffff].map(|i| (handle(8, i, 1), Refusal::WrongHeap)));
    // from the slot count on, though there are S = 8 slots of memory; whatever the generation
    for index in [5, 6, 7, 8, 9, 0xff_ffff] {
        why.extend([0, 1, 2, 0xffff_ffff].map(|g| (handle(7, index, g), Refusal::NeverIssued)));
    }
    // below it: a free slot, a quarantined one, and other generations of live ones
    why.extend([(0, 1), (0, 2), (1, 1), (1, 2), (2, 0), (2, 2), (4, 2)].map(|(i, g)| (handle(7, i, g), Refusal::Stale)));
    for (handle, why) in why {
        for (name, call) in ON_A_HANDLE {
            let mut after = heap.clone();
            assert_eq!(call(&mut after, handle), Err(why), "{name} {handle}");
            assert!(after == heap && after.scratch() == Scratch::zeros(8), "{name} {handle}");
        }
    }
}

#[test]
fn a_slot_that_comes_to_be_is_stale_and_not_never_issued() {
    let mut heap = Heap::new(7, 2, 0).unwrap();
    let first = Handle(7 << 56 | 1);
    assert_eq!(heap.resolve(first), Err(Refusal::NeverIssued));
    assert_eq!(heap.alloc(Kind::Bytes, b""), Ok(first));
    heap.free(first).unwrap();
    assert_eq!(heap.resolve(first), Err(Refusal::Stale));
}

#[test]
fn roots_and_seals_that_lead_nowhere_are_skipped() {
    let (mut heap, all) = sample(8, 64);
    let roots = [Handle::NULL, Handle(8 << 56 | 2 << 32 | 1), Handle(7 << 56 | 7 << 32 | 1), Handle(7 << 56 | 1 << 32 | 1), all[0]];
    heap.collect(&plain(), &roots, &[]).unwrap();
    assert!(heap.resolve(all[0]).is_ok());
}

#[test]
fn the_handles_of_a_slot() {
    let (table, pair, list) = handles();
    let mut heap = Heap::new(7, 8, 1024).unwrap();
    let (two, three) = (words(3..5), [descriptor(&[(1, 3, Direction::To)]), words(6..12)].concat());
    let slots = [
        heap.alloc(Kind::Typed(pair), &two),
        heap.alloc(Kind::Typed(list), &three),
        heap.alloc(Kind::Handles, &[vec![0; 24], words(20..23), vec![9; 7]].concat()),
        heap.alloc(Kind::Bytes, &words(1..9)),
        // bytes before start are not traced, and nothing is visible beyond the length, whatever the type
        heap.alloc_from(Kind::Typed(pair), 8, &[words(1..2), two.clone()].concat()),
        heap.alloc_from(Kind::Typed(99), 17, &two),
        heap.alloc(Kind::Typed(pair), &two[..15]),
    ];
    let shown: [&[u64]; 6] = [&[3, 4], &[6, 7, 8, 9, 10, 11], &[20, 21, 22], &[], &[3, 4], &[]];
    let before = heap.clone();
    for (slot, wanted) in shown.iter().enumerate() {
        let told: Vec<u64> = heap.slot_handles(&table, slot as u32).unwrap().into_iter().map(|h| h.0).collect();
        assert_eq!(told, *wanted, "slot {slot}");
        let mut out = vec![77; wanted.len() + 2];
        assert_eq!(heap.slot_handles_into(&table, slot as u32, Handle::list_mut(&mut out)), Ok(wanted.len()));
        assert!(out[..wanted.len()] == **wanted && out[wanted.len()..] == [77; 2]);
        if !wanted.is_empty() {
            let mut out = vec![77; wanted.len() - 1];
            assert_eq!(heap.slot_handles_into(&table, slot as u32, Handle::list_mut(&mut out)), Err(Refusal::ShortList));
            assert!(out.iter().all(|x| *x == 77));
        }
    }
    // 9 before 13 before 7
    let mut out = [77; 1];
    for slot in [7, 8, 9, u32::MAX] {
        assert_eq!(heap.slot_handles_into(&table, slot, Handle::list_mut(&mut out)), Err(Refusal::NothingThere));
    }
    assert_eq!(heap.slot_handles_into(&table, 6, &mut []), Err(Refusal::Untraceable));
    assert!(heap == before && out == [77] && heap.scratch() == Scratch::zeros(8));
    heap.free(slots[3].unwrap()).unwrap();
    assert_eq!(heap.slot_handles(&table, 3), Err(Refusal::NothingThere));
}

#[test]
fn outputs_one_short_are_7() {
    let (mut heap, all) = sample(8, 64);
    let page = heap.write_page().unwrap();
    let mut out = vec![0xee; page.len() - 1];
    assert_eq!(heap.write_page_into(&mut out), Err(Refusal::ShortList));
    assert!(out.iter().all(|b| *b == 0xee));
    let mut out = vec![0xee; page.len() + 1];
    assert_eq!(heap.write_page_into(&mut out), Ok(page.len()));
    assert!(out[..page.len()] == page[..] && out[page.len()] == 0xee);

    let before = heap.clone();
    let mut out = [0xee; 4];
    assert_eq!(heap.take_into(all[0], &mut out), Err(Refusal::ShortList));
    assert!(heap == before && out == [0xee; 4]);
    let mut out = [0xee; 6];
    assert_eq!(heap.take_into(all[0], &mut out), Ok((5, 2)));
    assert_eq!(&out, b"thTrd\xee");
}

#[test]
fn alloc_refuses_kind_room_and_slots() {
    let mut heap = Heap::new(1, 2, 4).unwrap();
    for kind in [0, 4, 255] {
        let before = heap.clone();
        assert_eq!(heap.alloc_raw(kind, 0, 0, b"x"), Err(Refusal::Kind));
        assert!(heap == before);
    }
    heap.alloc(Kind::Bytes, b"abcd").unwrap();
    let before = heap.clone();
    assert_eq!(heap.alloc(Kind::Bytes, b"e"), Err(Refusal::NoRoom));
    assert!(heap == before);
    heap.alloc(Kind::Bytes, b"").unwrap();
    assert_eq!(heap.alloc(Kind::Bytes, b"e"), Err(Refusal::NoRoom));
    let since = heap.header().since_gc;
    assert_eq!(heap.alloc(Kind::Bytes, b""), Err(Refusal::Full));
    assert_eq!(heap.header().since_gc, since + 32);
}

#[test]
fn pins_rise_and_slots_are_there() {
    let (mut heap, _) = sample(8, 64);
    let before = heap.clone();
    assert_eq!(heap.recycle(&[Slot(1), Slot(1)]), Err(Refusal::Pins));
    assert_eq!(heap.recycle(&[Slot(2), Slot(1)]), Err(Refusal::Pins));
    assert_eq!(heap.reissue(5, 0), Err(Refusal::NothingThere));
    // no slot there; one that is free, one in quarantine
    assert_eq!(heap.reissue(0, 0), Err(Refusal::NothingThere));
    assert_eq!(heap.reissue(1, 0), Err(Refusal::NothingThere));
    assert_eq!(heap.kind(0), Err(Refusal::NothingThere));
    assert_eq!(heap.write(2, 4, b""), Err(Refusal::NothingThere));
    assert!(heap == before);
    // live, nothing visible: 9, and the write count rises
    assert_eq!(heap.write(3, 0, b""), Err(Refusal::NothingThere));
    assert_eq!(heap.stamp(3).unwrap().writes, 1);
    assert_eq!(heap.recycle(&[0, 1, 4_000_000_000].map(Slot)), Ok(()));
    assert_eq!(heap.header().quarantine, 1);
}

// Three objects, at the last generation, the one before it and 1.
fn old() -> (Heap, [Handle; 3]) {
    let mut heap = Heap::new(1, 4, 64).unwrap();
    for data in [b"a", b"b", b"c"] {
        heap.alloc(Kind::Bytes, data).unwrap();
    }
    let (header, mut memory, scratch) = heap.into_parts();
    memory.narrow[0] = u32::MAX;
    memory.narrow[1] = u32::MAX - 1;
    let handle = |i: u64| Handle(1 << 56 | i << 32 | u64::from(memory.narrow[i as usize]));
    let handles = [handle(0), handle(1), handle(2)];
    (Heap::from_parts(header, memory, scratch), handles)
}

#[test]
fn a_worn_out_slot_takes_no_handle() {
    let (mut heap, _) = old();
    let before = heap.clone();
    assert_eq!(heap.reissue(0, 7), Err(Refusal::WornOut));
    assert!(heap == before);
    // one more generation is left, and then none
    let last = heap.reissue(1, 0).unwrap();
    assert_eq!(last, Handle(1 << 56 | 1 << 32 | u64::from(u32::MAX)));
    assert_eq!(heap.reissue(1, 0), Err(Refusal::WornOut));
    assert_eq!(heap.resolve(last), Ok(yexwalu::Slot(1)));
    assert_eq!(Refusal::WornOut.to_string(), "20: worn out");
}

#[test]
fn worn_out_slots_retire() {
    let (mut heap, all) = old();
    for h in all {
        heap.free(h).unwrap();
    }
    assert_eq!(heap.memory().generation()[..3], [u32::MAX, u32::MAX, 2]);
    heap.recycle(&[Slot(1)]).unwrap();
    let counts = |h: &Heap| (h.header().free, h.header().quarantine, h.header().retired);
    assert_eq!(counts(&heap), (1, 1, 1));
    heap.recycle(&[]).unwrap();
    assert_eq!(counts(&heap), (1, 0, 2));
    assert_eq!((heap.memory().free()[..1].to_vec(), heap.memory().retired()[..2].to_vec()), ([2].map(Slot).to_vec(), [0, 1].map(Slot).to_vec()));
    // only the slot at 2 and the one that was never used are given out
    assert_eq!(heap.alloc(Kind::Bytes, b"d"), Ok(Handle(1 << 56 | 2 << 32 | 3)));
    assert_eq!(heap.alloc(Kind::Bytes, b"e"), Ok(Handle(1 << 56 | 3 << 32 | 1)));
    assert_eq!(heap.alloc(Kind::Bytes, b"f"), Err(Refusal::Full));
    for h in all {
        assert_eq!(heap.resolve(h), Err(Refusal::Stale));
    }
    assert_eq!(heap.reissue(0, 0), Err(Refusal::NothingThere));
    // in a collection dropped slots retire in slot order
    let (mut heap, _) = old();
    heap.collect(&plain(), &[], &[]).unwrap();
    assert_eq!(counts(&heap), (1, 0, 2));
    assert_eq!((heap.memory().free()[..1].to_vec(), heap.memory().retired()[..2].to_vec()), ([2].map(Slot).to_vec(), [0, 1].map(Slot).to_vec()));
    assert_eq!(heap.memory().generation()[..3], [u32::MAX, u32::MAX, 2]);
}

#[test]
fn a_slot_in_the_wrong_list_is_1() {
    let (mut heap, _) = old();
    heap.collect(&plain(), &[], &[]).unwrap();
    assert_eq!(heap.live(), Ok(0));
    // a free slot at the last generation, a retired one at another, one that is in both lists
    for (place, number) in [(2, u32::MAX), (0, 5), (1, u32::MAX - 1), (20, 2)] {
        let (header, mut memory, scratch) = heap.clone().into_parts();
        memory.narrow[place] = number;
        for (name, call) in CALLS {
            if name != "read_page" {
                refused(name, call, &Heap::from_parts(header, memory.clone(), scratch.clone()), Refusal::BrokenHeap);
            }
        }
    }
    // one that is in neither
    let (mut header, mut memory, scratch) = heap.into_parts();
    header.retired = 1;
    memory.narrow[21] = 0;
    assert_eq!(Heap::from_parts(header, memory, scratch).live(), Err(Refusal::BrokenHeap));
}

// Two handles in a record, an array of it, and a constant of one dimension for a field.
fn handles() -> (TypeTable, u32, u32) {
    let mut table = TypeTable::new();
    let access = table.access();
    let pair = table.record(&[(access, None), (access, None)]);
    let list = table.array(pair, None, 1);
    let two = table.constant(&descriptor(&[(1, 2, Direction::To)]));
    table.record(&[(list, Some(two))]);
    (table, pair, list)
}

fn words(numbers: std::ops::Range<u64>) -> Vec<u8> {
    numbers.flat_map(u64::to_le_bytes).collect()
}

#[test]
fn types_and_their_outputs() {
    let (mut table, pair, list) = handles();
    let mut offsets = [9; 1];
    assert_eq!(table.layout_into(pair, &[], &mut offsets), Err(Refusal::ShortList));
    assert_eq!(offsets, [9]);
    assert_eq!(table.layout(pair, &[]).unwrap().offsets, [0, 8]);
    let two = descriptor(&[(1, 2, Direction::To)]);
    let mut object = two.clone();
    object.extend(words(1..5));
    let mut out = [9; 5];
    assert_eq!(table.object_handles_into(list, &object, Handle::list_mut(&mut out[..3])), Err(Refusal::ShortList));
    assert_eq!(table.value_handles_into(pair, &object[24..], Handle::list_mut(&mut out[..1])), Err(Refusal::ShortList));
    assert_eq!(out, [9; 5]);
    assert_eq!(table.object_handles_into(list, &object, Handle::list_mut(&mut out)), Ok(4));
    assert_eq!(out, [1, 2, 3, 4, 9]);
    assert_eq!(table.object_handles(list, &object[..object.len() - 1]), Err(Refusal::Untraceable));
    assert_eq!(table.object_handles(list, &two[..23]), Err(Refusal::Untraceable));
    assert_eq!(table.value_handles(pair, &object[24..]).unwrap(), [Handle(1), Handle(2)]);
    assert_eq!(table.value_handles(pair, &object[24..39]), Err(Refusal::Untraceable));
    assert_eq!(table.desc_size(list), Ok(24));
    assert_eq!(table.has_handles(list), Ok(true));
    let missing = table.types.len() as u32 / 4;
    assert_eq!(table.desc_size(missing), Err(Refusal::Malformed));
    let whole = table.array(missing, None, 1);
    assert_eq!(table.layout(whole, &[]), Err(Refusal::Malformed));
    let int = table.integer(0, 1 << 40);
    let ints = table.array(int, None, 1);
    assert_eq!(table.layout(ints, &descriptor(&[(i64::MIN, i64::MAX, Direction::To)])), Err(Refusal::TooLarge));
}

#[test]
fn frames_and_their_outputs() {
    let (table, pair, _) = handles();
    let memory = words(1..6);
    let map = [FrameSlot::handle(0), FrameSlot::address(8), FrameSlot::composite(16, pair), FrameSlot::address(32)];
    let (mut found, mut addresses) = ([9; 4], [9; 3]);
    assert_eq!(table.slot_roots_into(&map, &memory, Handle::list_mut(&mut found[..2]), &mut addresses), Err(Refusal::ShortList));
    assert_eq!(table.slot_roots_into(&map, &memory, Handle::list_mut(&mut found), &mut addresses[..1]), Err(Refusal::ShortList));
    assert!(found == [9; 4] && addresses == [9; 3]);
    assert_eq!(table.slot_roots_into(&map, &memory, Handle::list_mut(&mut found), &mut addresses), Ok((3, 2)));
    assert!(found == [1, 3, 4, 9] && addresses == [2, 5, 9]);
    // seven bytes are no handle and no address, but the composite is cut short
    assert_eq!(table.slot_roots(&map, &memory[..39]).unwrap().1, [2]);
    assert_eq!(table.slot_roots(&map[..3], &memory[..31]), Err(Refusal::Untraceable));
    assert_eq!(table.slot_roots(&map, &memory[..31]), Err(Refusal::Untraceable));
    assert_eq!(table.slot_roots(&[FrameSlot::new(0, 3, 0)], &memory), Err(Refusal::Untraceable));

    // a map whose last entry is cut short
    let map = [0u32, 0, 0, 8, 1, 0];
    for n in 0..=6 {
        let answer = unsafe {
            ffi::yexwalu_slot_roots(
                table.types.as_ptr(),
                table.types.len(),
                table.fields.as_ptr(),
                table.fields.len(),
                table.consts.as_ptr(),
                table.consts.len(),
                table.bytes.as_ptr(),
                table.bytes.len(),
                map.as_ptr(),
                n,
                memory.as_ptr(),
                memory.len(),
                found.as_mut_ptr(),
                found.len(),
                addresses.as_mut_ptr(),
                addresses.len(),
            )
        };
        assert_eq!(answer.number, if n % 3 == 0 { 0 } else { 13 });
    }
}

// Each list of the table one short.
fn cut_tables() -> Vec<TypeTable> {
    let whole = handles().0;
    let mut all = Vec::new();
    macro_rules! cut {
        ($($list:ident),*) => { $({ let mut t = whole.clone(); t.$list.pop(); all.push(t); })* };
    }
    cut!(types, fields, consts, bytes);
    all
}

#[test]
fn a_table_one_short_is_10() {
    for table in cut_tables() {
        let mut out = [9; 4];
        assert_eq!(table.layout_into(0, &[], &mut out), Err(Refusal::TypeTable));
        assert_eq!(table.desc_size(0), Err(Refusal::TypeTable));
        assert_eq!(table.has_handles(0), Err(Refusal::TypeTable));
        assert_eq!(table.object_handles_into(0, &words(1..2), Handle::list_mut(&mut out)), Err(Refusal::TypeTable));
        assert_eq!(table.value_handles_into(0, &words(1..2), Handle::list_mut(&mut out)), Err(Refusal::TypeTable));
        assert_eq!(table.slot_roots_into(&[], &[], Handle::list_mut(&mut out), &mut [9; 2]), Err(Refusal::TypeTable));
        assert_eq!(out, [9; 4]);
        let (mut heap, _) = sample(8, 64);
        let before = heap.clone();
        assert_eq!(heap.slot_handles_into(&table, 99, Handle::list_mut(&mut out)), Err(Refusal::TypeTable));
        assert_eq!(heap.collect(&table, &[], &[]), Err(Refusal::TypeTable));
        assert_eq!(heap.same(&table, &[], &before, &[]), Err(Refusal::TypeTable));
        assert_eq!(heap.order(&table, &[], &before, &[]), Err(Refusal::TypeTable));
        assert_eq!(heap.collect_joined(&table, &stopped(), 1, &[0, 0], &[], &[], &[], &[]), Err(Refusal::TypeTable));
        assert!(heap == before && heap.scratch() == Scratch::zeros(8));
    }
}

// Each list of the function one short; without a register's class its values are one too many.
fn cut_functions() -> Vec<Function> {
    let whole = stopped();
    let mut all = Vec::new();
    macro_rules! cut {
        ($($list:ident),*) => { $({ let mut f = whole.clone(); f.$list.pop(); all.push(f); })* };
    }
    cut!(kinds, ends, refs, blocks);
    all
}

// A list of addresses out of order, or not in pairs, is 14, after 15 and before 16 and 13.
#[test]
fn addresses_out_of_order_or_not_in_pairs_are_14() {
    let (heap, _) = sample(8, 64);
    let f = stopped();
    let joined = |pc: u32, values: &[u64], map: &[FrameSlot], addresses: &[u64]| {
        let mut after = heap.clone();
        let answer = after.collect_joined_with(&plain(), &f, pc, values, map, &[], &[], addresses, &mut vec![0; f.scratch_words()]);
        assert!(answer.is_ok() || after == heap && after.scratch() == Scratch::zeros(8));
        answer
    };
    for bad in [&[5][..], &[5, 0, 5, 1], &[6, 0, 5, 1], &[5, 0, 6], &[5, 0, 6, 1, 6, 2], &[u64::MAX, 0, 0, 1]] {
        assert_eq!(joined(1, &[0, 0], &[], bad), Err(Refusal::Pins), "{bad:?}");
        assert_eq!(joined(0, &[0, 0], &[FrameSlot::address(1)], bad), Err(Refusal::Pins), "{bad:?}");
        assert_eq!(joined(1, &[0], &[], bad), Err(Refusal::Function), "{bad:?}");
    }
    assert_eq!(joined(1, &[0, 0], &[], &[0, 7, 1, 7, u64::MAX, u64::MAX]), Ok(()));
    assert_eq!(joined(0, &[0, 0], &[FrameSlot::address(1)], &[0, 7]), Err(Refusal::NoMap));
    assert_eq!(joined(1, &[0, 0], &[FrameSlot::address(1)], &[0, 7]), Err(Refusal::Untraceable));
}

// What an address does is what a pin on its slot does: objects live on, and quarantined slots stay, in order. Addresses that are not listed, and slots past 32 bits, do nothing.
#[test]
fn addresses_pin_as_pins_do() {
    let f = stopped();
    let (live, lost) = (0x7000, 0x8000);
    let made = || {
        let mut heap = Heap::new(1, 16, 256).unwrap();
        let handles: Vec<Handle> = (0..8).map(|i| heap.alloc(Kind::Bytes, &[i]).unwrap()).collect();
        for i in [6, 4, 2] {
            heap.free(handles[i]).unwrap();
        }
        heap
    };
    let frame: Vec<u8> = [1_u64, 3, 5, 9].iter().flat_map(|w| w.to_le_bytes()).collect();
    let map: Vec<FrameSlot> = (0..4).map(|i| FrameSlot::address(8 * i)).collect();
    // 1 lies in slot 1, 2 is in neither, 3 in the quarantined slot 2, 5 in slot 1 + 2^32, 6 in neither, live register's value in slot 6, an unlisted one
    let list = [[1, 1], [2, 3], [3, 2], [5, 1 << 32 | 3], [6, 4], [live, 6], [lost, 5]].concat();
    let mut by_address = made();
    by_address.collect_joined_with(&plain(), &f, 1, &[0, live], &map, &frame, &[Slot(7)], &list, &mut vec![0; f.scratch_words()]).unwrap();
    let mut by_pin = made();
    by_pin.collect_joined(&plain(), &f, 1, &[0, live], &map, &frame, &[1, 2, 6, 7].map(Slot), &[]).unwrap();
    assert!(by_address == by_pin);
    assert_eq!((by_pin.live().unwrap(), by_pin.has_quarantine().unwrap()), (2, true));
    let mut none = made();
    none.collect_joined(&plain(), &f, 1, &[0, live], &map, &frame, &[], &[]).unwrap();
    assert_eq!((none.live().unwrap(), none.has_quarantine().unwrap()), (0, false));
}

#[test]
fn a_function_one_short_is_15() {
    let (heap, _) = sample(8, 64);
    let joined = |f: &Function, values: &[u64]| {
        let mut after = heap.clone();
        let answer = after.collect_joined(&plain(), f, 1, values, &[], &[], &[], &[]);
        assert!(answer.is_ok() || after == heap && after.scratch() == Scratch::zeros(8));
        answer
    };
    for f in cut_functions() {
        assert_eq!(f.live_at(1, Wanted::All), Err(Refusal::Function));
        assert_eq!(f.live_refs(Wanted::All), Err(Refusal::Function));
        assert_eq!(joined(&f, &[0, 0]), Err(Refusal::Function));
    }
    let mut f = stopped();
    assert_eq!(joined(&f, &[0, 0]), Ok(()));
    assert_eq!(joined(&f, &[0]), Err(Refusal::Function));
    assert_eq!(joined(&f, &[0, 0, 0]), Err(Refusal::Function));
    f.classes.pop();
    assert_eq!(joined(&f, &[0, 0]), Err(Refusal::Function));
    assert_eq!(joined(&f, &[0]), Ok(()));
}

// Scratch for such a function would not fit into any memory: it is refused before it is asked for.
#[test]
fn a_function_past_the_counts_is_15() {
    let mut f = stopped();
    f.classes.resize(1 << 24, 0);
    f.blocks.resize(1 << 24, 0);
    assert_eq!(f.live_at(1, Wanted::All), Err(Refusal::Function));
    assert_eq!(f.live_refs(Wanted::All), Err(Refusal::Function));
    assert_eq!(f.live_at_into(1, Wanted::All, &mut [], &mut [0; 64]), Err(Refusal::Scratch));
    let (heap, _) = sample(8, 64);
    let joined = |heap: &Heap, table: &TypeTable| heap.clone().collect_joined(table, &f, 1, &[], &[], &[], &[Slot(2), Slot(1)], &[]);
    assert_eq!(joined(&heap, &plain()), Err(Refusal::Function));
    // what comes first is still told first
    assert_eq!(joined(&heap, &cut_tables()[0]), Err(Refusal::TypeTable));
    let (mut header, memory, scratch) = heap.into_parts();
    header.tag = 8;
    assert_eq!(joined(&Heap::from_parts(header, memory, scratch), &plain()), Err(Refusal::BrokenHeap));
    // the counts themselves are taken
    let mut f = stopped();
    f.classes.resize(16384, 0);
    f.blocks.resize(2 * 4096, 0);
    assert_eq!(f.live_at(1, Wanted::References), Ok(vec![0, 1]));
    f.classes.push(0);
    assert_eq!(f.live_at(1, Wanted::References), Err(Refusal::Function));
    f.classes.pop();
    f.blocks.extend([0, 0]);
    assert_eq!(f.live_refs(Wanted::References), Err(Refusal::Function));
}

#[test]
fn live_registers_and_their_outputs() {
    let mut f = stopped();
    let words = f.scratch_words();
    let mut regs = [77; 3];
    assert_eq!(f.live_at_into(1, Wanted::All, &mut regs[..1], &mut vec![1; words]), Err(Refusal::ShortList));
    assert_eq!(regs, [77; 3]);
    let mut rows = vec![1; words];
    assert_eq!(f.live_at_into(1, Wanted::References, &mut regs, &mut rows), Ok(2));
    assert_eq!((rows, regs), (vec![0; words], [0, 1, 77]));
    assert_eq!(f.live_at(0, Wanted::All), Err(Refusal::NoMap));
    assert_eq!(f.live_refs(Wanted::All).unwrap(), [(1, vec![0, 1])]);

    let (mut pcs, mut bounds, mut regs) = ([77; 2], [77; 2], [77; 3]);
    for (p, b, r) in [(0, 1, 2), (1, 0, 2), (1, 1, 1)] {
        let mut rows = vec![1; words];
        assert_eq!(f.live_refs_into(Wanted::All, &mut pcs[..p], &mut bounds[..b], &mut regs[..r], &mut rows), Err(Refusal::ShortList));
        assert_eq!((rows, pcs, bounds, regs), (vec![0; words], [77; 2], [77; 2], [77; 3]));
    }
    assert_eq!(f.live_refs_into(Wanted::All, &mut pcs, &mut bounds, &mut regs, &mut vec![1; words]), Ok((1, 2)));
    assert_eq!((pcs, bounds, regs), ([1, 77], [2, 77], [0, 1, 77]));
    f.block(0, 4);
    assert_eq!(f.live_refs(Wanted::All), Err(Refusal::Function));
}
