//! Times the port and the Rust that it ports on the same inputs, after seeing that both answer the same, and prints a table. Each figure is processor time, the median of five rounds; a
//! round repeats the work for at least 20 ms. Words on the command line pick rows, as in `cargo run --release -- layout collect`. A row that has a target says `missed` where it misses it.
#![allow(dead_code)]

include!(concat!(env!("OUT_DIR"), "/mods.rs"));

#[path = "../../oracle/crates/yavs-interp/src/stand_ins.rs"]
mod stand_ins;
use stand_ins::{exec, reflect, state};

mod page;
mod rehearse;
mod same;
mod typed;
use std::hint::black_box;
use std::ops::Range;
use yavs_ir::{Block, BlockId, Func, Inst, Ops, Program, Reg, RegTy};
use yexwalu::{Class, Column, Function, Handle, Heap, InstKind, Kind, Memory, Refusal, Slot, TypeTable, Wanted};

const SIZES: [usize; 4] = [1_000, 10_000, 100_000, 1_000_000];
const OBJECTS: [usize; 3] = [16, 1024, 16384];
const TYPES: [usize; 4] = [3, 103, 1003, 4003];

#[repr(C)]
struct Timespec {
    seconds: i64,
    nanoseconds: i64,
}

unsafe extern "C" {
    // of the C library that std links
    fn clock_gettime(clock: i32, time: *mut Timespec) -> i32;
}

// The processor time of this thread in nanoseconds: other programs on the machine don't count.
fn now() -> f64 {
    const THREAD_CPU: i32 = 3;
    let mut t = Timespec { seconds: 0, nanoseconds: 0 };
    assert_eq!(unsafe { clock_gettime(THREAD_CPU, &mut t) }, 0);
    t.seconds as f64 * 1e9 + t.nanoseconds as f64
}

// Nanoseconds of one call.
fn time(mut work: impl FnMut()) -> f64 {
    let mut rounds: Vec<f64> = (0..5)
        .map(|_| {
            let begin = now();
            let (mut turns, mut batch) = (0u64, 1);
            while now() - begin < 2e7 {
                (0..batch).for_each(|_| work());
                turns += batch;
                batch *= 2;
            }
            (now() - begin) / turns as f64
        })
        .collect();
    rounds.sort_by(f64::total_cmp);
    rounds[2]
}

// Nanoseconds of work on what is made anew each time; the making is not counted.
fn time_on<T>(mut make: impl FnMut() -> T, mut work: impl FnMut(&mut T)) -> f64 {
    let mut rounds: Vec<f64> = (0..5)
        .map(|_| {
            let (mut spent, mut turns) = (0.0, 0);
            while spent < 2e7 {
                let mut on = make();
                let begin = now();
                work(&mut on);
                spent += now() - begin;
                turns += 1;
            }
            spent / f64::from(turns)
        })
        .collect();
    rounds.sort_by(f64::total_cmp);
    rounds[2]
}

// What a row's ratio may be at most. The targets are those that docs/PERFORMANCE.md lists; a row that has none stands there for scale.
type Target = Option<f64>;
const TURN: Target = Some(2.0);
const AS_FAST: Target = Some(1.0);
const WRITING: Target = Some(0.2);
const NONE: Target = None;

// Time that grows by so much more than the size, and than the Rust's time, is no longer taken for linear: what grows is the cache that is missed, up to there.
const LINEAR: f64 = 1.25;

// The rows of the table, and what was measured for the size before.
#[derive(Default)]
struct Table {
    last: Option<(String, [f64; 3])>,
    // with a target, and of these missed
    aimed: u32,
    missed: u32,
}

impl Table {
    fn row(&mut self, what: &str, size: usize, target: Target, port: f64, rust: f64) {
        let figures = [size as f64, port, rust];
        let mut missed = false;
        let (name, grown) = match &self.last {
            Some((same, before)) if same == what => {
                let [size, port, rust] = [0, 1, 2].map(|i| figures[i] / before[i]);
                let more = target.is_some() && port > LINEAR * size.max(rust);
                missed |= more;
                ("", format!("{size:.1} | {port:.1}{} | {rust:.1}", if more { " missed" } else { "" }))
            }
            _ => (what, " | | ".into()),
        };
        // as it is printed
        let ratio = (100.0 * port / rust).round() / 100.0;
        let over = target.is_some_and(|most| ratio > most);
        missed |= over;
        let aim = target.map(|most| format!("{most:.1}{}", if over { " missed" } else { "" })).unwrap_or_default();
        println!("| {name} | {} | {} | {} | {ratio:.2} | {aim} | {grown} |", grouped(size as f64), grouped(port), grouped(rust));
        self.aimed += u32::from(target.is_some());
        self.missed += u32::from(missed);
        self.last = Some((what.into(), figures));
    }
}

// A whole number with a comma after each third digit from the right.
fn grouped(figure: f64) -> String {
    let digits = format!("{figure:.0}");
    let mut groups: Vec<String> = digits.as_bytes().rchunks(3).map(|group| group.iter().copied().map(char::from).collect()).collect();
    groups.reverse();
    groups.join(",")
}

// A heap of so many slots whose first ones hold these bytes.
fn heap_with(slots: usize, objects: usize, bytes: &[u8]) -> Heap {
    let mut heap = Heap::new(1, slots, slots * bytes.len()).unwrap();
    for _ in 0..objects {
        heap.alloc(Kind::Bytes, bytes).unwrap();
    }
    heap
}

// The call on the heap put together anew from its parts, so that it is checked.
fn unknown<T>(heap: Heap, call: impl FnOnce(&mut Heap) -> T) -> (Heap, T) {
    let (header, memory, scratch) = heap.into_parts();
    let mut heap = Heap::from_parts(header, memory, scratch);
    let told = call(&mut heap);
    (heap, told)
}

// Half the slots hold objects of 32 bytes; each turn places one, takes it out again and recycles. By single calls, which don't check the heap that `Heap` made or do; or by a script of a thousand turns.
fn churn(table: &mut Table, slots: usize, how: &str) {
    let bytes = [7u8; 32];
    let mut port = heap_with(slots, slots / 2, &bytes);
    let mut rust = heap::Heap::new(1);
    for _ in 0..slots / 2 {
        rust.alloc(heap::Obj::Bytes, bytes.to_vec()).unwrap();
    }
    let b = time(|| {
        let h = rust.alloc(heap::Obj::Bytes, bytes.to_vec()).unwrap();
        black_box(rust.take(h).unwrap());
        rust.recycle(&[]);
    });
    if how == "churn" {
        let a = time(|| {
            let h = port.alloc(Kind::Bytes, &bytes).unwrap();
            black_box(port.take(h).unwrap());
            port.recycle(&[]).unwrap();
        });
        assert!(port.live().unwrap() == slots / 2 && rust.live() == slots / 2);
        return table.row("alloc, take, recycle (ns a turn), by slots", slots, TURN, a, b);
    }
    if how == "checked_churn" {
        let mut on = Some(port);
        let a = time(|| {
            let (heap, h) = unknown(on.take().unwrap(), |heap| heap.alloc(Kind::Bytes, &bytes).unwrap());
            let (heap, object) = unknown(heap, |heap| heap.take(h).unwrap());
            black_box(object);
            on = Some(unknown(heap, |heap| heap.recycle(&[]).unwrap()).0);
        });
        assert!(on.unwrap().live().unwrap() == slots / 2 && rust.live() == slots / 2);
        return table.row("alloc, take, recycle, checked each time (ns a turn), by slots", slots, NONE, a, b);
    }
    // placing and taking each step the slot's generation
    let turn = |i: u32| format!("alloc,0,2,{}\ntake,{},0,\nrecycle,0,0,\n", "07".repeat(32), heap::pack(1, slots as u32 / 2, 2 * i + 1));
    let text: String = (0..1000).map(turn).collect();
    let mut room = vec![0; port.memory().pool.len()];
    let copy = time(|| drop(black_box(port.clone())));
    let a = time(|| port.clone().run_with(text.as_bytes(), &mut room).unwrap());
    table.row("alloc, take, recycle in a script (ns a turn), by slots", slots, NONE, (a - copy) / 1000.0, b);
}

// A script of one line, on a heap that is known to be one, half of the slots holding 32 bytes; beside it the Rust's call.
fn script_line(table: &mut Table, slots: usize) {
    let bytes = [7u8; 32];
    let mut port = heap_with(slots, slots / 2, &bytes);
    let mut rust = heap::Heap::new(1);
    for _ in 0..slots / 2 {
        rust.alloc(heap::Obj::Bytes, bytes.to_vec()).unwrap();
    }
    let a = time(|| port.run(black_box(b"recycle,0,0,\n")).unwrap());
    let b = time(|| rust.recycle(black_box(&[])));
    table.row("a script of one line (ns), by slots", slots, NONE, a, b);
}

// The kind and the data of every object, half of the slots holding 32 bytes: one check and one pass.
fn reading(table: &mut Table, slots: usize) {
    let bytes = [7u8; 32];
    let port = heap_with(slots, slots / 2, &bytes);
    let mut rust = heap::Heap::new(1);
    for _ in 0..slots / 2 {
        rust.alloc(heap::Obj::Bytes, bytes.to_vec()).unwrap();
    }
    let here = || port.view().unwrap().objects().map(|o| (o.kind() == Kind::Bytes, o.data().unwrap())).fold(0, |n, (b, d)| n + usize::from(b) + usize::from(d[31]));
    let there = || (0..rust.slots() as u32).map(|i| (rust.kind(i) == Some(heap::Obj::Bytes), rust.data(i).unwrap())).fold(0, |n, (b, d)| n + usize::from(b) + usize::from(d[31]));
    assert!(here() == there() && here() == 4 * slots);
    let a = time(|| {
        black_box(here());
    });
    let b = time(|| {
        black_box(there());
    });
    table.row("all objects by a view (ns), by slots", slots, NONE, a, b);
}

// So many blocks in a row, each of a write, a safepoint, a read and a conditional branch back and on.
fn code(blocks: usize, registers: usize) -> (Function, Func) {
    let mut port = Function::new();
    let mut rust = Func::default();
    for _ in 0..registers {
        port.register(Class::Handle);
        rust.reg_ty.push(RegTy::Handle);
    }
    for i in 0..blocks {
        let start = port.position();
        let (w, r) = ((i * 7 % registers) as u32, (i * 5 % registers) as u32);
        let to = [i.saturating_sub(3) as u32, (i + 1).min(blocks - 1) as u32];
        port.instruction(InstKind::Plain, &[w], &[], &[]);
        port.instruction(InstKind::Safepoint, &[], &[], &[]);
        port.instruction(InstKind::Plain, &[], &[r], &[]);
        port.instruction(InstKind::Conditional, &[], &[r], &to);
        port.block(start, start + 4);
        rust.code.push(Inst::Plain { ops: Ops { defs: vec![Reg(w)], ..Ops::default() } });
        rust.code.push(Inst::Call { ops: Ops::default() });
        rust.code.push(Inst::Plain { ops: Ops { uses: vec![Reg(r)], ..Ops::default() } });
        rust.code.push(Inst::CondBr { ops: Ops { uses: vec![Reg(r)], ..Ops::default() }, to: to.iter().map(|t| BlockId(*t)).collect() });
        rust.blocks.push(Block { start, end: start + 4 });
    }
    (port, rust)
}

// Few registers are live at once: where there are many, the rows are nearly empty.
fn live(table: &mut Table, what: &str, size: usize, blocks: usize, registers: usize) {
    let (port, rust) = code(blocks, registers);
    let prog = Program::default();
    let map = port.live_refs(Wanted::References).unwrap();
    let there = roots::live_refs(&prog, &rust, false);
    assert!(map.len() == blocks && map.iter().all(|(pc, regs)| there.get(*pc).unwrap().iter().map(|r| r.0).eq(regs.iter().copied())));
    let total = map.iter().map(|m| m.1.len()).sum::<usize>();
    let (mut pcs, mut bounds, mut regs, mut rows) = (vec![0; map.len()], vec![0; map.len()], vec![0; total], vec![0; port.scratch_words()]);
    let a = time(|| {
        black_box(port.live_refs_into(Wanted::References, &mut pcs, &mut bounds, &mut regs, &mut rows).unwrap());
    });
    let b = time(|| {
        black_box(roots::live_refs(&prog, &rust, false));
    });
    table.row(what, size, AS_FAST, a, b);
}

// A page of so many objects of 64 bytes, written and read by the port and by plain Rust.
fn pages(table: &mut Table, objects: usize, read: bool, column: Column) {
    let (planar, name) = (column == Column::Planes, if column == Column::Planes { "planes" } else { "page" });
    let bytes: Vec<u8> = (0..64).map(|i| i * 37).collect();
    let mut heap = heap_with(objects, objects, &bytes);
    let text = heap.page_with(column).unwrap();
    let mut out = vec![0; text.len()];
    let mut plain = (String::new(), Memory::zeros(objects, heap.memory().pool.len()));
    page::write(&heap, planar, &mut plain.0);
    assert_eq!(plain.0.as_bytes(), text);
    assert!(page::read(&text, planar, &mut plain.1) == Some(*heap.header()) && plain.1 == *heap.memory());
    if read {
        let b = time(|| assert!(page::read(black_box(&text), planar, &mut plain.1).is_some()));
        let a = time(|| {
            heap.read_page_over(black_box(&text)).unwrap();
        });
        table.row(&format!("read_{name} (ns), by bytes"), text.len(), AS_FAST, a, b);
    } else {
        let b = time(|| page::write(black_box(&heap), planar, &mut plain.0));
        let a = time(|| assert!(black_box(&heap).write_page_with(column, &mut out).is_ok()));
        table.row(&format!("write_{name} (ns), by bytes"), text.len(), WRITING, a, b);
    }
}

// A page of a million dead slots, all of them free, into memory for `lent` slots: where they are too few that is full (5), which is told when each slot is seen to stand in the list once, by a bit a slot in so many words. The
// Rust reads the text into memory for all slots each time, and looks for nothing.
fn short(table: &mut Table, lent: usize) {
    let n = 1_000_000;
    let free: String = (0..n).map(|i| format!("{i}\n")).collect();
    let text = page::of(n, &"1,0,0,0,0,\n".repeat(n)).replacen(&format!(",{n},0,"), &format!(",{n},{n},"), 1).replacen("\nfree\n", &format!("\nfree\n{free}"), 1);
    let (mut heap, mut plain) = (Heap::new(1, lent, 0).unwrap(), Memory::zeros(n, 0));
    let why = (lent < n).then_some(Refusal::Full);
    let b = time(|| assert!(page::read(black_box(text.as_bytes()), false, &mut plain).is_some()));
    let a = time(|| assert_eq!(heap.read_page_over(black_box(text.as_bytes())).err(), why));
    table.row("read_page of 1,000,000 dead slots (ns), by slots lent", lent, NONE, a, b);
}

// A copy of the bytes of the same page, for scale.
fn copies(table: &mut Table, objects: usize) {
    let text = heap_with(objects, objects, &[7; 64]).write_page().unwrap();
    let mut out = vec![0; text.len()];
    let copy = time(|| black_box(&mut out).copy_from_slice(black_box(&text)));
    table.row("memcpy of a page (ns), by bytes", text.len(), NONE, copy, copy);
}

// Objects of handles, all reached from the first, so that each collection does the same work again: the two heaps, and the handle of the first.
fn graph(n: usize, edges: impl Fn(usize) -> Range<usize>) -> (Heap, heap::Heap, u64) {
    graph_in(n, |i| i, edges)
}

// The same with each object in a slot of its own choice.
fn graph_in(n: usize, slot: impl Fn(usize) -> usize, edges: impl Fn(usize) -> Range<usize>) -> (Heap, heap::Heap, u64) {
    let handle = |i: usize| heap::pack(1, slot(i % n) as u32, 1);
    let mut objects = vec![0; n];
    (0..n).for_each(|i| objects[slot(i)] = i);
    let mut rows = String::new();
    let mut rust = heap::Heap::new(1);
    let mut pool = 0;
    for i in objects {
        let mut data = vec![0; 24];
        data.extend(edges(i).flat_map(|j| handle(j).to_le_bytes()));
        pool += data.len();
        rows.push_str("1,3,0,0,0,");
        page::hex(&data, &mut rows);
        rows.push('\n');
        rust.alloc(heap::Obj::Handles, data).unwrap();
    }
    (Heap::read_page(n, pool, page::of(n, &rows).as_bytes()).unwrap(), rust, handle(0))
}

fn collections(table: &mut Table, shape: &str, n: usize, edges: impl Fn(usize) -> Range<usize>) {
    let (mut port, mut rust, first) = graph(n, edges);
    let (types, prog) = (TypeTable::new(), Program::default());
    let a = time(|| port.collect(&types, &[Handle(first)], &[]).unwrap());
    let b = time(|| assert!(rust.collect(&prog, &[first], &[])));
    assert!(port.live().unwrap() == n && rust.live() == n);
    table.row(&format!("collect, {shape} (ns), by slots"), n, AS_FAST, a, b);
}

// A chain over every second object: the others go, and the data of those that stay moves together. Each turn collects a fresh copy.
fn dropping(table: &mut Table, n: usize) {
    let (port, rust, first) = graph(n, |i| if i % 2 == 0 && i + 2 < n { i + 2..i + 3 } else { 0..0 });
    let (types, prog) = (TypeTable::new(), Program::default());
    let a = time_on(|| port.clone(), |h| h.collect(&types, &[Handle(first)], &[]).unwrap());
    let b = time_on(|| rust.clone(), |h| assert!(h.collect(&prog, &[first], &[])));
    let (mut here, mut there) = (port, rust);
    assert!(here.collect(&types, &[Handle(first)], &[]).is_ok() && there.collect(&prog, &[first], &[]));
    assert!(here.live().unwrap() == n.div_ceil(2) && there.live() == n.div_ceil(2));
    table.row("collect, half of a chain goes (ns), by slots", n, AS_FAST, a, b);
}

// A ring that a live register leads to, collected at a safepoint of a function of 64 blocks; the Rust's calls put together.
fn joined(table: &mut Table, n: usize) {
    let (mut port, mut rust, first) = graph(n, |i| i + 1..i + 2);
    let (function, func) = code(64, 64);
    let (types, prog) = (TypeTable::new(), Program::default());
    let (pc, _) = function.live_refs(Wanted::References).unwrap().into_iter().find(|m| !m.1.is_empty()).unwrap();
    let values = vec![first; 64];
    let a = time(|| port.collect_joined(&types, &function, pc, &values, &[], &[], &[], &[]).unwrap());
    let b = time(|| {
        let map = roots::live_refs(&prog, &func, false);
        let mut refs = heap::Refs::default();
        refs.handles.extend(map.get(pc).unwrap().iter().map(|r| values[r.0 as usize]));
        assert!(heap::slot_roots(&prog, &[], &[], &mut refs) && rust.collect(&prog, &refs.handles, &[]));
    });
    assert!(port.live().unwrap() == n && rust.live() == n);
    table.row("collect_joined, ring (ns), by slots", n, AS_FAST, a, b);
}

// All slots are wanted. The Rust has no such call: beside it stands the Rust's collection with the roots that were found, which marks the same objects once.
fn roots_found(table: &mut Table, shape: &str, n: usize, count: usize, edges: impl Fn(usize) -> Range<usize>) {
    let (port, mut rust, _) = graph(n, edges);
    let (types, prog) = (TypeTable::new(), Program::default());
    let wanted: Vec<Slot> = (0..n as u32).map(Slot).collect();
    let mut out = vec![Handle::NULL; n];
    let a = time(|| assert_eq!(port.roots_for_into(&types, &[], &wanted, &mut out), Ok(count)));
    let b = time(|| assert!(rust.collect(&prog, Handle::numbers(&out[..count]), &[])));
    assert!(rust.live() == n);
    table.row(&format!("roots_for, {shape} (ns), by slots"), n, NONE, a, b);
}

// Two saves of one model, the second with other slot numbers. The Rust has no such call: beside it stands `bench/src/same.rs` over the Rust's heaps.
fn saves(table: &mut Table, shape: &str, n: usize, slot: impl Fn(usize) -> usize, edges: impl Fn(usize) -> Range<usize> + Copy) {
    let (port, rust, first) = graph(n, edges);
    let (port_too, rust_too, second) = graph_in(n, slot, edges);
    let types = TypeTable::new();
    let a = time(|| assert_eq!(port.same(&types, &[Handle(first)], &port_too, &[Handle(second)]), Ok(true)));
    let b = time(|| assert!(same::same(&rust, &[first], &rust_too, &[second])));
    table.row(&format!("same, {shape} (ns), by slots"), n, NONE, a, b);
}

// Lines of a rehearsal, of which 1,000 objects are held, for four thresholds: the time of one line for one threshold.
fn rehearsals(table: &mut Table, lines: usize) {
    let thresholds = [10_000, 100_000, 1_000_000, 10_000_000];
    let steps = rehearse::steps(lines, 1000);
    let text = rehearse::text(&steps);
    let types = TypeTable::new();
    let here = || Heap::rehearse(&types, lines, 32 * lines, text.as_bytes(), &thresholds).unwrap();
    let there = || thresholds.iter().map(|t| rehearse::run(&steps, *t)).collect::<String>();
    assert_eq!(String::from_utf8(here()).unwrap(), there());
    let turns = (lines * thresholds.len()) as f64;
    table.row("rehearse, four thresholds (ns a line), by lines", lines, NONE, time(|| drop(black_box(here()))) / turns, time(|| drop(black_box(there()))) / turns);
}

const ROWS: [&str; 28] = ["churn", "checked_churn", "script", "script_line", "view", "view_handles", "layout", "checked_layout", "many_types", "nested", "object_handles", "checked_handles", "typed_handles", "empty_parts", "live_refs", "sparse_rows", "collect", "typed_collect", "joined", "roots_for", "same", "rehearse", "write_page", "read_page", "read_page_short", "write_planes", "read_planes", "memcpy"];

fn main() {
    let words: Vec<String> = std::env::args().skip(1).collect();
    if let Some(word) = words.iter().find(|w| !ROWS.contains(&w.as_str())) {
        eprintln!("no rows {word}; there are {}", ROWS.join(", "));
        std::process::exit(2);
    }
    let picked = |row: &str| words.is_empty() || words.iter().any(|w| w == row);
    let mut table = Table::default();
    println!("| Work | Size | Port (ns) | Rust (ns) | Port / Rust | Target | Size grows | Port grows | Rust grows |\n|---|---|---|---|---|---|---|---|---|");
    for row in ROWS.into_iter().filter(|r| picked(r)) {
        match row {
            "churn" | "checked_churn" | "script" => [16, 256, 4096, 65536].iter().for_each(|n| churn(&mut table, *n, row)),
            "script_line" => [16, 256, 4096, 65536].iter().for_each(|n| script_line(&mut table, *n)),
            "view" => [256, 4096, 65536].iter().for_each(|n| reading(&mut table, *n)),
            "view_handles" => [256, 4096, 65536].iter().for_each(|n| typed::viewed(&mut table, *n, 4003)),
            "layout" => [3, 30, 300].iter().for_each(|n| typed::layouts(&mut table, "layout of a record, table checked once (ns), by fields", *n, *n, 0, true)),
            "checked_layout" => [3, 30, 300].iter().for_each(|n| typed::layouts(&mut table, "layout of a record (ns), by fields", *n, *n, 0, false)),
            "many_types" => {
                TYPES.iter().for_each(|n| typed::layouts(&mut table, "layout of three fields, table checked once (ns), by other types", *n, 3, n - 3, true));
                TYPES.iter().for_each(|n| typed::layouts(&mut table, "layout of three fields (ns), by other types", *n, 3, n - 3, false));
            }
            "nested" => typed::nested(&mut table),
            "object_handles" => [10, 1000, 100_000].iter().for_each(|n| typed::objects(&mut table, *n, true)),
            "checked_handles" => [10, 1000, 100_000].iter().for_each(|n| typed::objects(&mut table, *n, false)),
            "typed_handles" => {
                TYPES.iter().for_each(|n| typed::by_types(&mut table, *n, true));
                TYPES.iter().for_each(|n| typed::by_types(&mut table, *n, false));
            }
            "empty_parts" => typed::empty_parts(&mut table),
            "live_refs" => [(4, 8), (64, 64), (1024, 256), (4096, 1024)].iter().for_each(|(b, r)| live(&mut table, "live_refs (ns), by blocks", *b, *b, *r)),
            "sparse_rows" => [64, 1024, 16384].iter().for_each(|r| live(&mut table, "live_refs of 64 blocks (ns), by registers", *r, 64, *r)),
            "collect" => {
                SIZES.iter().for_each(|n| collections(&mut table, "chain", *n, |i| if i + 1 < *n { i + 1..i + 2 } else { 0..0 }));
                SIZES.iter().for_each(|n| collections(&mut table, "ring", *n, |i| i + 1..i + 2));
                SIZES.iter().for_each(|n| collections(&mut table, "wide", *n, |i| if i == 0 { 1..*n } else { 0..0 }));
                SIZES.iter().for_each(|n| dropping(&mut table, *n));
                SIZES.iter().for_each(|n| collections(&mut table, "tree", *n, |i| (2 * i + 1).min(*n)..(2 * i + 3).min(*n)));
            }
            "typed_collect" => {
                TYPES.iter().for_each(|n| typed::collected(&mut table, *n, true));
                TYPES.iter().for_each(|n| typed::collected(&mut table, *n, false));
            }
            "joined" => SIZES.iter().for_each(|n| joined(&mut table, *n)),
            "roots_for" => {
                SIZES.iter().for_each(|n| roots_found(&mut table, "ring", *n, 1, |i| i + 1..i + 2));
                // from the last slot down: in the first going through each slot is a candidate
                SIZES.iter().for_each(|n| roots_found(&mut table, "chain", *n, 1, |i| if i > 0 { i - 1..i } else { 0..0 }));
                SIZES.iter().for_each(|n| roots_found(&mut table, "all apart", *n, *n, |_| 0..0));
            }
            "same" => {
                SIZES.iter().for_each(|n| saves(&mut table, "ring, slots the other way round", *n, |i| n - 1 - i, |i| i + 1..i + 2));
                // far apart: most steps leave what the processor has at hand
                SIZES.iter().for_each(|n| saves(&mut table, "tree, slots scattered", *n, |i| (i * 7919 + 13) % n, |i| (2 * i + 1).min(*n)..(2 * i + 3).min(*n)));
            }
            "rehearse" => [1_000, 10_000, 100_000].iter().for_each(|n| rehearsals(&mut table, *n)),
            "read_page_short" => [1_000_000, 16_384, 64].iter().for_each(|n| short(&mut table, *n)),
            "memcpy" => OBJECTS.iter().for_each(|n| copies(&mut table, *n)),
            "write_planes" | "read_planes" => OBJECTS.iter().for_each(|n| pages(&mut table, *n, row == "read_planes", Column::Planes)),
            _ => OBJECTS.iter().for_each(|n| pages(&mut table, *n, row == "read_page", Column::Data)),
        }
    }    eprintln!("{} of {} rows with a target miss it", table.missed, table.aimed);
}
