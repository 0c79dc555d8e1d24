//! A heap as text for people.
use crate::seen::{Object, Seen};
use std::io::{self, Write};
use yexwalu::{Handle, Kind, Refusal, Slot};

// So many bytes of an object are shown.
const BYTES: usize = 32;

pub fn kind(kind: Kind) -> String {
    match kind {
        Kind::Typed(ty) => format!("type {ty}"),
        Kind::Bytes => "bytes".into(),
        Kind::Handles => "handles".into(),
        _ => "another kind".into(),
    }
}

// Where a handle leads.
fn leads(seen: &Seen, handle: Handle) -> String {
    match seen.resolve(handle) {
        Ok(slot) => format!("slot {slot}"),
        Err(Refusal::WrongHeap) => format!("nowhere here: the heap of tag {}", handle.tag()),
        Err(why) => format!("nowhere: {}", why.word()),
    }
}

fn list(slots: &[Slot]) -> String {
    let words: Vec<String> = slots.iter().map(Slot::to_string).collect();
    if words.is_empty() {
        return "none".into();
    }
    words.join(" ")
}

fn data(data: Option<&[u8]>) -> String {
    let Some(data) = data else {
        return "nothing visible".into();
    };
    let front = &data[..data.len().min(BYTES)];
    let hex: Vec<String> = front.iter().map(|b| format!("{b:02x}")).collect();
    let text: String = front.iter().map(|b| if (b' '..=b'~').contains(b) { char::from(*b) } else { '.' }).collect();
    let more = if data.len() > BYTES { format!(" and {} more", data.len() - BYTES) } else { String::new() };
    format!("{}  |{text}|{more}", hex.join(" "))
}

fn object(seen: &Seen, o: &Object, out: &mut impl Write) -> io::Result<()> {
    let name = seen.name(o.kind);
    write!(out, "slot {}, handle {}: {}", o.slot, o.whole.handle(), kind(o.kind))?;
    write!(out, "{}{name}", if name.is_empty() { "" } else { " " })?;
    write!(out, ", generation {}, {} writes, {} bytes", o.stamp.generation, o.stamp.writes, o.whole.bytes().len())?;
    if o.whole.start() != 0 {
        write!(out, ", visible from byte {} on", o.whole.start())?;
    }
    writeln!(out)?;
    if o.data != Some(&[]) {
        writeln!(out, "    {}", data(o.data))?;
    }
    match seen.handles(o) {
        Ok(handles) => handles.iter().try_for_each(|h| writeln!(out, "    {h} leads to {}", leads(seen, *h))),
        Err(why) => writeln!(out, "    its handles can't be found: {}", why.word()),
    }
}

pub fn print(seen: &Seen, out: &mut impl Write) -> io::Result<()> {
    let (h, view) = (seen.view.header(), seen.view);
    writeln!(out, "heap of tag {}: {} slots, {} objects, {} bytes of data", h.tag, h.slots, seen.figures.objects, seen.figures.bytes)?;
    writeln!(out, "since_gc {}, reclaim_at {}, live_bytes {}", h.since_gc, h.reclaim_at, h.live_bytes)?;
    writeln!(out, "free slots: {}", list(view.free()))?;
    writeln!(out, "slots in quarantine: {}", list(view.quarantine()))?;
    if h.retired > 0 {
        writeln!(out, "retired slots: {}", list(view.retired()))?;
    }
    writeln!(out, "sealed handles: {}", h.sealed)?;
    for handle in view.sealed() {
        writeln!(out, "    {handle} leads to {}", leads(seen, *handle))?;
    }
    seen.objects().try_for_each(|o| object(seen, &o, out))
}
