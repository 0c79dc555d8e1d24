//! A heap as a graph in the language of Graphviz. Nothing of the page's text goes into it but numbers.
use crate::seen::Seen;
use crate::show::kind;
use std::io::{self, Write};
use yexwalu::Handle;

// An edge to the object that a handle leads to, or to a mark that says why it leads to none. A null handle has no edge.
fn edge(seen: &Seen, from: &str, handle: Handle, out: &mut impl Write) -> io::Result<()> {
    match seen.resolve(handle) {
        Ok(slot) => writeln!(out, "    {from} -> s{slot};"),
        Err(_) if handle.is_null() => Ok(()),
        Err(why) => {
            writeln!(out, "    h{handle} [label=\"{handle}\\n{}\", shape=plaintext];", why.word())?;
            writeln!(out, "    {from} -> h{handle} [style=dashed];")
        }
    }
}

pub fn print(seen: &Seen, out: &mut impl Write) -> io::Result<()> {
    writeln!(out, "digraph heap {{\n    node [shape=box];")?;
    for o in seen.objects() {
        writeln!(out, "    s{} [label=\"slot {}\\n{}, {} bytes\"];", o.slot, o.slot, kind(o.kind), o.whole.bytes().len())?;
    }
    for o in seen.objects() {
        match seen.handles(&o) {
            Ok(handles) => handles.iter().try_for_each(|h| edge(seen, &format!("s{}", o.slot), *h, out))?,
            Err(why) => writeln!(out, "    s{} [xlabel=\"{}\"];", o.slot, why.word())?,
        }
    }
    let sealed = seen.view.sealed();
    if !sealed.is_empty() {
        writeln!(out, "    sealed [shape=oval];")?;
    }
    for handle in sealed {
        edge(seen, "sealed", *handle, out)?;
    }
    writeln!(out, "}}")
}
