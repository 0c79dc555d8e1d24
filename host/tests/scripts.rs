//! Scripts: a run of calls does what the calls do one by one, and stops at the first that is refused.
mod common;
use common::{sample, Random};
use yexwalu::{Handle, Heap, Refusal, Scratch};

// A random line, and the same call alone.
fn line(random: &mut Random, heap: &mut Heap, handles: &mut Vec<Handle>) -> (String, Result<(), Refusal>) {
    match random.below(12) {
        0..=5 => {
            let (ty, kind, bytes) = (random.below(5) as u32, 1 + random.below(3) as u8, random.bytes(40));
            let hex: String = bytes.iter().map(|b| format!("{b:02x}")).collect();
            let answer = heap.alloc_raw(kind, ty, 0, &bytes);
            handles.extend(answer);
            (format!("alloc,{ty},{kind},{hex}\n"), answer.map(drop))
        }
        6..=8 => {
            let handle = match random.below(40) {
                0 => Handle::NULL,
                1 => Handle(random.word()),
                _ if handles.is_empty() => return ("recycle,0,0,\n".into(), heap.recycle(&[])),
                _ => handles.swap_remove(random.below(handles.len() as u64) as usize),
            };
            (format!("take,{handle},0,\n"), heap.free(handle))
        }
        9 => ("seal,0,0,\n".into(), heap.seal()),
        _ => ("recycle,0,0,\n".into(), heap.recycle(&[])),
    }
}

#[test]
fn a_script_does_what_its_calls_do() {
    let mut ended = [0u32; 20];
    for seed in 1..=300 {
        let mut random = Random::new(seed);
        let (slots, pool) = (1 + random.below(40) as usize, random.below(900) as usize);
        let mut alone = Heap::new(seed as u8, slots, pool).unwrap();
        let mut whole = alone.clone();
        let (mut handles, mut script, mut answer) = (Vec::new(), String::new(), Ok(()));
        for _ in 0..random.below(80) {
            let (text, told) = line(&mut random, &mut alone, &mut handles);
            script.push_str(&text);
            answer = told;
            if answer.is_err() {
                // what stands behind it is not looked at
                script.push_str("seal,0,0,\nnothing\n");
                break;
            }
        }
        let mut room = vec![0xa5; pool + 1];
        assert_eq!(whole.run_with(script.as_bytes(), &mut room), answer, "seed {seed}");
        assert!(whole == alone, "seed {seed}");
        assert!(room.iter().all(|b| *b == 0) && whole.scratch() == Scratch::zeros(slots));
        ended[answer.map_or_else(|why| why.number() as usize, |()| 0)] += 1;
    }
    assert!([0, 2, 3, 5, 6].iter().all(|n| ended[*n] > 0), "{ended:?}");
}

#[test]
fn the_first_refusal_ends_a_script() {
    let gone = Handle(7 << 56 | 1 << 32 | 1);
    let never = Handle(7 << 56 | 5 << 32 | 1);
    let other = Handle(8 << 56 | 2 << 32 | 1);
    let mut most = String::from("alloc,0,2,");
    (0..65).for_each(|_| most.push_str("41"));
    let refusals = [
        (format!("take,{},0,\n", Handle::NULL), Refusal::Null),
        (format!("take,{other},0,\n"), Refusal::WrongHeap),
        (format!("take,{never},0,\n"), Refusal::NeverIssued),
        (format!("take,{gone},0,\n"), Refusal::Stale),
        ("alloc,0,0,\n".into(), Refusal::Kind),
        ("alloc,0,4,\n".into(), Refusal::Kind),
        (most + "\n", Refusal::NoRoom),
        ("alloc,0,2,\n".repeat(8), Refusal::Full),
    ];
    for (line, why) in refusals {
        let (mut heap, _) = sample(8, 64);
        assert_eq!(heap.run(format!("seal,0,0,\n{line}seal,0,0,\n").as_bytes()), Err(why), "{line}");
        assert_eq!(heap.header().sealed, 3, "{line}");
        assert_eq!(heap.scratch(), Scratch::zeros(8));
    }
}

#[test]
fn a_bad_line_is_17() {
    let bad = [
        "\n",
        "seal",
        "seal,0,0,",
        "seal,0,0,\r\n",
        "seal,0,0,0\n",
        "seal,1,0,\n",
        "seal,0,1,\n",
        "Seal,0,0,\n",
        " seal,0,0,\n",
        "seal,0,0,00\n",
        "recycle,0,0,1\n",
        "recycle,,,\n",
        "take,1,0\n",
        "take,01,0,\n",
        "take,18446744073709551616,0,\n",
        "take,1,1,\n",
        "take,-1,0,\n",
        "take,,0,\n",
        "alloc,0,2,4\n",
        "alloc,0,2,4A\n",
        "alloc,0,2,g0\n",
        "alloc,0,2\n",
        "alloc,4294967296,2,\n",
        "alloc,0,256,\n",
        "alloc,00,2,\n",
        "alloc,0,2,41",
        "free,0,0,\n",
        "call,number,kind,bytes\n",
        "\0",
    ];
    for line in bad {
        let (mut heap, _) = sample(8, 64);
        let mut before = heap.clone();
        before.run(b"alloc,0,2,41\n").unwrap();
        assert_eq!(heap.run(format!("alloc,0,2,41\n{line}").as_bytes()), Err(Refusal::Page), "{line:?}");
        assert!(heap == before, "{line:?}");
    }
    let (mut heap, _) = sample(8, 64);
    let before = heap.clone();
    assert_eq!(heap.run(b""), Ok(()));
    assert!(heap == before);
}

// A run is its lines one after the other, and the heap is checked once: a first line that is no call's comes before the heap, every other line after it.
#[test]
fn on_a_broken_heap_a_bad_first_line_is_17_and_all_else_1() {
    let (header, mut memory, _) = sample(8, 64).0.into_parts();
    memory.pool[63] = 1;
    let scripts: [(&[u8], Refusal); 8] = [
        (b"nothing\n", Refusal::Page),
        (b"seal,0,0,", Refusal::Page),
        (b"take,1,1,\nseal,0,0,\n", Refusal::Page),
        (b"seal,0,0,\n", Refusal::BrokenHeap),
        (b"seal,0,0,\nnothing\n", Refusal::BrokenHeap),
        (b"alloc,0,4,\n", Refusal::BrokenHeap),
        (b"take,0,0,\n", Refusal::BrokenHeap),
        (b"", Refusal::BrokenHeap),
    ];
    for (script, why) in scripts {
        let mut heap = Heap::from_parts(header, memory.clone(), Scratch::zeros(8));
        assert_eq!(heap.run(script), Err(why), "{}", String::from_utf8_lossy(script));
        let (after, left, scratch) = heap.into_parts();
        assert!(after == header && left == memory && scratch == Scratch::zeros(8), "{}", String::from_utf8_lossy(script));
    }
}
