//! A view says of every slot, every handle and every list what the calls say, and all objects of a large heap are read with one check.
mod common;
use common::{sample, Random};
use yexwalu::{CheckedTable, Figures, Handle, Header, Heap, Kind, Memory, Refusal, Scratch, Slot, TypeTable};

// A table with handles in it, and objects that fit it or not.
fn table() -> TypeTable {
    let mut table = TypeTable::new();
    let access = table.access();
    let real = table.real();
    table.record(&[(access, None), (real, None), (access, None)]);
    table.array(access, None, 1);
    table
}

// Any bytes; now and then a handle that leads somewhere stands among them.
fn bytes(random: &mut Random, handles: &[Handle]) -> Vec<u8> {
    let mut bytes = random.bytes(60);
    for i in (24..bytes.len().saturating_sub(7)).step_by(8) {
        if random.below(2) == 0 && !handles.is_empty() {
            let handle = handles[random.below(handles.len() as u64) as usize];
            bytes[i..i + 8].copy_from_slice(&handle.0.to_le_bytes());
        }
    }
    bytes
}

fn any_heap(random: &mut Random) -> (Heap, Vec<Handle>) {
    let mut heap = Heap::new(random.below(256) as u8, 1 + random.below(24) as usize, random.below(1200) as usize).unwrap();
    let mut handles = vec![Handle::NULL];
    for _ in 0..random.below(60) {
        let at = handles[random.below(handles.len() as u64) as usize];
        match random.below(9) {
            0..=3 => {
                let data = bytes(random, &handles);
                handles.extend(heap.alloc_raw(1 + random.below(3) as u8, random.below(5) as u32, random.below(70) as usize, &data));
            }
            4 => drop(heap.free(at)),
            5 => drop(heap.recycle(&[])),
            6 => drop(heap.seal()),
            7 => handles.extend(heap.reissue(random.below(24) as u32, 3)),
            _ => drop(heap.write(random.below(24) as u32, 0, b"x")),
        }
    }
    (heap, handles)
}

// Every slot, one past them, and the last there can be.
fn compare(heap: &Heap, handles: &[Handle], table: &TypeTable, checked: &CheckedTable) -> usize {
    let view = heap.view().unwrap();
    let slots = heap.slots().unwrap() as u32;
    let mut live = 0;
    for slot in (0..=slots).chain([u32::MAX]) {
        let Some(object) = view.object(slot) else {
            assert_eq!(heap.kind(slot), Err(Refusal::NothingThere));
            continue;
        };
        live += 1;
        assert_eq!(object.slot(), Slot(slot));
        assert_eq!(Ok(object.kind()), heap.kind(slot));
        assert_eq!(Ok(object.stamp()), heap.stamp(slot));
        assert_eq!(object.data().ok_or(Refusal::NothingThere), heap.data(slot));
        assert_eq!(object.handles(table), heap.slot_handles(table, slot));
        assert_eq!(object.handles(checked), object.handles(table));
        assert_eq!(heap.resolve(object.handle()), Ok(Slot(slot)));
        let taken = heap.clone().take(object.handle()).unwrap();
        assert_eq!((object.bytes(), object.start()), (&taken.bytes[..], taken.start as u64));
    }
    assert_eq!(live, heap.live().unwrap());
    assert!(view.objects().map(|o| o.slot().0).eq((0..slots).filter(|i| heap.kind(*i).is_ok())));
    let (least, most) = view.objects().size_hint();
    assert!(least <= live && most.unwrap() >= live);
    let never = Handle(u64::from(heap.header().tag) << 56 | u64::from(slots) << 32 | 1);
    let other = Handle(handles.last().unwrap().0 ^ 1 << 56);
    for handle in handles.iter().copied().chain([never, other]) {
        assert_eq!(view.resolve(handle).map(|o| o.slot()), heap.resolve(handle), "{handle}");
    }
    let (lists, h) = ([view.free().len(), view.quarantine().len(), view.retired().len(), view.sealed().len()], heap.header());
    assert_eq!(lists, [h.free, h.quarantine, h.retired, h.sealed]);
    assert!([view.free(), view.quarantine(), view.retired()].concat().into_iter().all(|slot| view.object(slot).is_none()));
    assert_eq!(view.free().len() + view.quarantine().len() + view.retired().len() + live, slots as usize);
    // what stands in the lists, as the page has it
    let page = String::from_utf8(heap.write_page().unwrap()).unwrap();
    let listed = |name: &str| -> Vec<u64> {
        let rest = page.split_once(&format!("\n{name}\n")).unwrap().1;
        rest.lines().map_while(|line| line.parse().ok()).collect()
    };
    let slots_of = |list: &[Slot]| list.iter().map(|s| u64::from(*s)).collect::<Vec<_>>();
    assert_eq!([view.free(), view.quarantine(), view.retired()].map(slots_of), ["free", "quarantine", "retired"].map(listed));
    assert_eq!(Handle::numbers(view.sealed()), listed("sealed"));
    // the figures that are counted in the library
    let sizes: Vec<u64> = view.objects().map(|o| o.bytes().len() as u64).collect();
    let figures = heap.figures().unwrap();
    assert_eq!((figures.objects, figures.bytes, figures.largest), (live as u64, sizes.iter().sum(), sizes.iter().copied().max().unwrap_or(0)));
    live
}

#[test]
fn a_view_says_what_the_calls_say() {
    let (table, mut live) = (table(), 0);
    let checked = table.clone().checked().unwrap();
    let mut refusals = [0u32; 21];
    for seed in 1..=400 {
        let (heap, handles) = any_heap(&mut Random::new(seed));
        live += compare(&heap, &handles, &table, &checked);
        for handle in handles {
            refusals[heap.resolve(handle).map_or_else(|why| why.number() as usize, |_| 0)] += 1;
        }
    }
    let (heap, handles) = sample(8, 64);
    compare(&heap, &handles, &table, &checked);
    assert!(live > 1000 && [0, 2, 4].iter().all(|n| refusals[*n] > 100), "{live} {refusals:?}");
}

#[test]
fn an_object_is_traced_as_its_slot_is() {
    let table = table();
    let checked = table.clone().checked().unwrap();
    let mut bad = table.clone();
    bad.types[0] = 9;
    let mut heap = Heap::new(1, 8, 400).unwrap();
    for (kind, start, bytes) in [(Kind::Typed(2), 0, &[5; 24][..]), (Kind::Typed(2), 0, &[5; 23]), (Kind::Typed(9), 0, &[5; 24]), (Kind::Typed(2), 25, &[5; 24]), (Kind::Handles, 1, &[5; 41]), (Kind::Bytes, 0, &[5; 40])] {
        heap.alloc_from(kind, start, bytes).unwrap();
    }
    let view = heap.view().unwrap();
    let lists: Vec<Result<usize, Refusal>> = view.objects().map(|o| o.handles(&table).map(|l| l.len())).collect();
    assert_eq!(lists, [Ok(2), Err(Refusal::Untraceable), Err(Refusal::Untraceable), Ok(0), Ok(2), Ok(0)]);
    for object in view {
        assert_eq!(object.handles(&table), heap.slot_handles(&table, object.slot()));
        assert_eq!(object.handles(&checked), object.handles(&table));
        // a table that is not in order refuses the call on every slot; an object without a type, or with nothing visible, needs no table
        assert_eq!(heap.slot_handles(&bad, object.slot()), Err(Refusal::TypeTable));
        let asks = matches!(object.kind(), Kind::Typed(_)) && object.data().is_some();
        assert_eq!(object.handles(&bad).err(), asks.then_some(Refusal::TypeTable));
    }
}

#[test]
fn what_is_no_heap_has_no_view() {
    let (heap, _) = sample(8, 64);
    let (header, memory, scratch) = heap.into_parts();
    let mut broken = memory.clone();
    broken.narrow[8] = 4;
    let broken = Heap::from_parts(header, broken, scratch.clone());
    assert_eq!((broken.view().err(), broken.figures()), (Some(Refusal::BrokenHeap), Err(Refusal::BrokenHeap)));
    let short = Heap::from_parts(header, memory.clone(), Scratch::zeros(7));
    assert_eq!((short.view().err(), short.figures()), (Some(Refusal::Scratch), Err(Refusal::Scratch)));
    // parts of which nothing is known are checked first
    let heap = Heap::from_parts(header, memory, scratch.clone());
    assert_eq!(heap.figures().unwrap().objects as usize, heap.live().unwrap());
    assert_eq!(Heap::from_parts(Header::default(), Memory::zeros(0, 0), scratch).view().err(), Some(Refusal::BrokenHeap));
}

// One check for all: 64,000 calls, each with its own, take minutes in a build without optimisation.
#[test]
fn all_objects_of_a_large_heap() {
    let count = 64_000;
    let script = "alloc,0,2,4142\n".repeat(count);
    let mut heap = Heap::new(1, count, 2 * count).unwrap();
    heap.run(script.as_bytes()).unwrap();
    let begin = std::time::Instant::now();
    let view = heap.view().unwrap();
    let bytes: usize = view.objects().map(|o| o.data().unwrap().len() + o.handles(&TypeTable::new()).unwrap().len()).sum();
    let spent = begin.elapsed();
    assert_eq!((view.objects().count(), bytes), (count, 2 * count));
    println!("{count} objects in {spent:?}");
}

// One check of the table for all: 64,000 objects by a table of 4,003 types, where a check for each would look at 256 million rows.
#[test]
fn all_objects_of_a_type_by_a_large_table() {
    let mut table = TypeTable::new();
    for _ in 0..4002 {
        table.real();
    }
    let access = table.access();
    let checked = table.clone().checked().unwrap();
    let count = 64_000;
    let script = format!("alloc,{access},1,0700000000000000\n").repeat(count);
    let mut heap = Heap::new(1, count, 8 * count).unwrap();
    heap.run(script.as_bytes()).unwrap();
    let view = heap.view().unwrap();
    let begin = std::time::Instant::now();
    assert!(view.objects().all(|o| o.handles(&checked).unwrap() == [Handle(7)]));
    println!("{count} objects by {} types in {:?}", table.types.len() / 4, begin.elapsed());
    assert!(view.objects().step_by(1000).all(|o| o.handles(&table) == o.handles(&checked)));
}

// Totals are sums that stop at the last number of 64 bits, and the larger of the largest.
#[test]
fn figures_add_up() {
    let mut random = Random::new(14);
    let mut some = || {
        let mut figures = Figures::default();
        for number in [&mut figures.objects, &mut figures.bytes, &mut figures.largest] {
            // of several widths
            *number = random.word() >> (16 * random.below(4));
        }
        figures
    };
    let mut stopped = 0;
    for _ in 0..10_000 {
        let (a, b) = (some(), some());
        let both = a.and(b);
        assert_eq!((both.objects, both.bytes, both.largest), (a.objects.saturating_add(b.objects), a.bytes.saturating_add(b.bytes), a.largest.max(b.largest)));
        assert_eq!((both, a.and(Figures::default())), (b.and(a), a));
        stopped += u32::from(both.bytes == u64::MAX);
    }
    assert!(stopped > 100);
}
