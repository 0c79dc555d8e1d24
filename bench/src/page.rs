//! The page's text (docs/FORMAT.md) in plain Rust, over the memory that the port has: what the port's writer and reader are measured against. The reader takes a good page for granted
//! beyond what it must parse: it does not see whether the heap is well formed.
use std::fmt::Write;
use yexwalu::{Handle, Heap, Header, Memory, Slot};

const NAMES: &str = "tag,since_gc,reclaim_at,live_bytes,slots,free,quarantine,sealed,retired";
const COLUMNS: &str = "generation,kind,type,start,writes64,data";
const IN_PLANES: &str = "generation,kind,type,start,writes64,planes";

/// A page of a heap of tag 1 with these lines of slots, all live.
pub fn of(slots: usize, rows: &str) -> String {
    format!("{NAMES}\n1,0,4096,0,{slots},0,0,0,0\n{COLUMNS}\n{rows}free\nquarantine\nsealed\nretired\n")
}

pub fn hex(bytes: &[u8], out: &mut String) {
    for b in bytes {
        out.push(char::from(b"0123456789abcdef"[usize::from(b >> 4)]));
        out.push(char::from(b"0123456789abcdef"[usize::from(b & 15)]));
    }
}

fn lines<T: std::fmt::Display>(values: &[T], out: &mut String) {
    for v in values {
        let _ = writeln!(out, "{v}");
    }
}

fn word(bytes: &[u8], i: usize) -> u64 {
    u64::from_le_bytes(bytes[8 * i..8 * i + 8].try_into().unwrap())
}

// An object's byte planes, and the way back.
fn planes(bytes: &[u8]) -> Vec<u8> {
    let n = bytes.len() / 8;
    let less: Vec<u64> = (0..n).map(|i| word(bytes, i).wrapping_sub(if i == 0 { 0 } else { word(bytes, i - 1) })).collect();
    (0..8).flat_map(|j| less.iter().map(move |d| (d >> (8 * j)) as u8)).chain(bytes[8 * n..].iter().copied()).collect()
}

fn restore(bytes: &mut [u8]) {
    let (n, column, mut sum) = (bytes.len() / 8, bytes.to_vec(), 0u64);
    for i in 0..n {
        sum = (0..8).fold(sum, |s, j| s.wrapping_add(u64::from(column[j * n + i]) << (8 * j)));
        bytes[8 * i..8 * i + 8].copy_from_slice(&sum.to_le_bytes());
    }
}

pub fn write(heap: &Heap, planar: bool, out: &mut String) {
    let (h, m) = (heap.header(), heap.memory());
    let (generation, kind, ty, start, end, writes) = (m.generation(), m.kind(), m.ty(), m.start(), m.end(), m.writes());
    out.clear();
    out.push_str(NAMES);
    let _ = writeln!(out, "\n{},{},{},{},{},{},{},{},{}", h.tag, h.since_gc, h.reclaim_at, h.live_bytes, h.slots, h.free, h.quarantine, h.sealed, h.retired);
    out.push_str(if planar { IN_PLANES } else { COLUMNS });
    out.push('\n');
    let mut from = 0;
    for i in 0..h.slots {
        let _ = write!(out, "{},{},{},{},{},", generation[i], kind[i], ty[i], start[i], writes[i]);
        let object = &m.pool[from..end[i] as usize];
        if planar {
            hex(&planes(object), out);
        } else {
            hex(object, out);
        }
        out.push('\n');
        from = end[i] as usize;
    }
    out.push_str("free\n");
    lines(Slot::numbers(&m.free()[..h.free]), out);
    out.push_str("quarantine\n");
    lines(Slot::numbers(&m.quarantine()[..h.quarantine]), out);
    out.push_str("sealed\n");
    lines(Handle::numbers(&m.sealed()[..h.sealed]), out);
    out.push_str("retired\n");
    lines(Slot::numbers(&m.retired()[..h.retired]), out);
}

fn digit(b: u8) -> Option<u8> {
    match b {
        b'0'..=b'9' => Some(b - b'0'),
        b'a'..=b'f' => Some(b - b'a' + 10),
        _ => None,
    }
}

// The bytes of the digits, put into the pool from `at` on; where they end.
fn decode(digits: &str, pool: &mut [u8], mut at: usize) -> Option<usize> {
    if digits.len() % 2 != 0 {
        return None;
    }
    for pair in digits.as_bytes().chunks_exact(2) {
        *pool.get_mut(at)? = digit(pair[0])? << 4 | digit(pair[1])?;
        at += 1;
    }
    Some(at)
}

fn list<'a, T: std::str::FromStr>(lines: &mut impl Iterator<Item = &'a str>, name: &str, out: &mut [T]) -> Option<()> {
    if lines.next()? != name {
        return None;
    }
    for place in out {
        *place = lines.next()?.parse().ok()?;
    }
    Some(())
}

pub fn read(text: &[u8], planar: bool, m: &mut Memory) -> Option<Header> {
    let mut lines = std::str::from_utf8(text).ok()?.lines();
    if lines.next()? != NAMES {
        return None;
    }
    let mut numbers = lines.next()?.split(',').map(|n| n.parse::<u64>().ok());
    let mut number = || numbers.next()?;
    let mut h = Header::default();
    h.tag = number()? as u8;
    h.since_gc = number()?;
    h.reclaim_at = number()? as usize;
    h.live_bytes = number()?;
    h.slots = number()? as usize;
    h.free = number()? as usize;
    h.quarantine = number()? as usize;
    h.sealed = number()? as usize;
    h.retired = number()? as usize;
    if lines.next()? != (if planar { IN_PLANES } else { COLUMNS }) {
        return None;
    }
    let (mut at, slots) = (0, m.slots());
    let (start, rest) = m.wide.split_at_mut(slots);
    let (end, rest) = rest.split_at_mut(slots);
    let (writes, sealed) = rest.split_at_mut(slots);
    let (generation, rest) = m.narrow.split_at_mut(slots);
    let (kind, rest) = rest.split_at_mut(slots);
    let (ty, rest) = rest.split_at_mut(slots);
    let (free, rest) = rest.split_at_mut(slots);
    let (quarantine, retired) = rest.split_at_mut(slots);
    for i in 0..h.slots {
        let mut fields = lines.next()?.split(',');
        let mut number = || fields.next()?.parse::<u64>().ok();
        *generation.get_mut(i)? = number()? as u32;
        kind[i] = number()? as u32;
        ty[i] = number()? as u32;
        start[i] = number()?;
        writes[i] = number()?;
        let from = at;
        at = decode(fields.next()?, &mut m.pool, at)?;
        if planar {
            restore(&mut m.pool[from..at]);
        }
        end[i] = at as u64;
    }
    list(&mut lines, "free", free.get_mut(..h.free)?)?;
    list(&mut lines, "quarantine", quarantine.get_mut(..h.quarantine)?)?;
    list(&mut lines, "sealed", sealed.get_mut(..h.sealed)?)?;
    list(&mut lines, "retired", retired.get_mut(..h.retired)?)?;
    Some(h)
}
