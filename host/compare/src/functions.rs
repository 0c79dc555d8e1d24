//! Random functions, and collections from a stopped one.
use crate::common::Random;
use crate::tables::{any, entries, filled, frame, pins, same, table};
use crate::{hex, list, seeds, told, Oracle};
use yexwalu::{Class, Function, InstKind, Wanted};

const KINDS: [InstKind; 7] =
    [InstKind::Plain, InstKind::Safepoint, InstKind::Branch, InstKind::Conditional, InstKind::Case, InstKind::Return, InstKind::Unreachable];
const CLASSES: [Class; 5] = [Class::I64, Class::F64, Class::Ptr, Class::Sig, Class::Handle];

// Blocks one after another, some empty and some apart; in any order. No two share an instruction.
fn blocks(random: &mut Random, f: &mut Function) -> u32 {
    let mut at = 0;
    let mut all = Vec::new();
    for _ in 0..1 + random.below(8) {
        let end = at + random.below(6) as u32;
        match random.below(8) {
            0 => all.push((end, at)),
            1 => all.push((at, at)),
            _ => all.push((at, end)),
        }
        at = end + u32::from(random.below(6) == 0);
    }
    while !all.is_empty() {
        let (start, end) = match random.below(4) {
            0 => all.swap_remove(random.below(all.len() as u64) as usize),
            _ => all.remove(0),
        };
        f.block(start, end);
    }
    at
}

// Registers and blocks, now and then one that is not there.
fn some(random: &mut Random, most: u64, there: usize) -> Vec<u32> {
    let beyond = u64::from(random.below(9) == 0);
    (0..random.below(most + 1)).map(|_| random.below(there as u64 + beyond) as u32).collect()
}

/// A function, here and in the oracle.
fn function(random: &mut Random, oracle: &mut Oracle) -> Function {
    let mut f = Function::new();
    let registers = match random.below(5) {
        0 => 60 + random.below(80),
        _ => 1 + random.below(8),
    };
    for _ in 0..registers {
        f.register(CLASSES[random.below(5) as usize]);
    }
    let code = blocks(random, &mut f);
    let pairs: Vec<String> = f.blocks.chunks(2).map(|b| format!("{}:{}", b[0], b[1])).collect();
    oracle.set(&format!("func {} {}", list(&f.classes), list(&pairs)));
    for _ in 0..code {
        let kind = KINDS[[0, 0, 1, 1, 1, 2, 3, 3, 4, 5, 6][random.below(11) as usize]];
        let (written, read) = (some(random, 2, registers as usize), some(random, 3, registers as usize));
        let targets = match kind {
            InstKind::Branch => some(random, 1, pairs.len().max(1)),
            InstKind::Conditional => some(random, 2, pairs.len().max(1)),
            InstKind::Case => some(random, 4, pairs.len().max(1)),
            _ => Vec::new(),
        };
        f.instruction(kind, &written, &read, &targets);
        oracle.set(&format!("inst {} {} {} {}", kind as u8, list(&written), list(&read), list(&targets)));
    }
    f
}

// A place in the code, mostly a safepoint of a block.
fn place_in(random: &mut Random, f: &Function) -> u32 {
    let inside = |pc: &u32| f.blocks.chunks(2).any(|b| b[0] <= *pc && *pc < b[1]);
    let points: Vec<u32> = (0..f.position()).filter(|pc| f.kinds[*pc as usize] == InstKind::Safepoint as u8).filter(inside).collect();
    if points.is_empty() || random.below(5) == 0 {
        return random.below(u64::from(f.position()) + 2) as u32;
    }
    points[random.below(points.len() as u64) as usize]
}

#[test]
fn random_functions_answer_as_the_rust() {
    let mut oracle = Oracle::new();
    for seed in seeds(2500) {
        let mut random = Random::new(seed ^ 2 << 32);
        let f = function(&mut random, &mut oracle);
        for (all, wanted) in [(0, Wanted::References), (1, Wanted::All)] {
            let place = format!("seed {seed}");
            let here = told(f.live_refs(wanted), |map| match map.is_empty() {
                true => "none".into(),
                false => map.iter().map(|(pc, regs)| format!("{pc}={}", list(regs))).collect::<Vec<_>>().join(";"),
            });
            oracle.agrees(&format!("live {all}"), &here, &place);
            for _ in 0..3 {
                let pc = place_in(&mut random, &f);
                oracle.agrees(&format!("liveat {all} {pc}"), &told(f.live_at(pc, wanted), |regs| list(&regs)), &place);
            }
        }
    }
    oracle.saw(&[("live", &["0"]), ("liveat", &["0", "16"])]);
}

// Addresses in order, some of which the registers or the frame hold, with any slots.
fn addresses(random: &mut Random, values: &[u64], memory: &[u8], slots: usize) -> Vec<(u64, u64)> {
    let words = memory.windows(8).map(|w| u64::from_le_bytes(w.try_into().unwrap()));
    let near: Vec<u64> = values.iter().copied().chain(words).flat_map(|a| [a, a.saturating_add(random.below(2))]).collect();
    let mut all: Vec<u64> = near.into_iter().filter(|_| random.below(3) == 0).collect();
    all.sort();
    all.dedup();
    all.into_iter()
        .map(|a| match random.below(9) {
            0 => (a, 1 << 32 | random.below(slots as u64)),
            _ => (a, random.below(slots as u64 + 2)),
        })
        .collect()
}

#[test]
fn random_joined_collections_answer_as_the_rust() {
    let mut oracle = Oracle::new();
    for seed in seeds(2000) {
        let mut random = Random::new(seed ^ 3 << 32);
        let table = table(&mut random, &mut oracle);
        let f = function(&mut random, &mut oracle);
        let (mut heap, handles) = filled(&mut random, &mut oracle, &table, &format!("seed {seed}"));
        for step in 0..3 {
            let place = format!("seed {seed}, collection {step}");
            let slots = heap.memory().slots();
            let values: Vec<u64> = f.classes.iter().map(|_| any(&mut random, &handles, slots)).collect();
            let (map, memory) = frame(&mut random, &table, &mut |r| any(r, &handles, slots));
            let (pc, pins) = (place_in(&mut random, &f), pins(&mut random, slots));
            let addresses = addresses(&mut random, &values, &memory, slots);
            let listed: Vec<u64> = addresses.iter().flat_map(|(a, i)| [*a, *i]).collect();
            let answer = heap.collect_joined_with(&table, &f, pc, &values, &map, &memory, &pins, &listed, &mut vec![0; f.scratch_words()]);
            let here = told(answer, |()| String::new());
            oracle.agrees(&format!("joined {pc} {} {} {} {} {}", list(&values), entries(&map), hex(&memory), list(&pins), list(&listed)), &here, &place);
            same(&mut oracle, &heap, &place);
        }
    }
    oracle.saw(&[("alloc", &["0", "5"]), ("epoch", &["0"]), ("free", &["0", "19", "2", "3", "4"]), ("joined", &["0", "13", "16"]), ("page", &["0"])]);
}
