use std::fmt;

/// A place in a text.
///
/// ```
/// use yexwalu::page_stops;
/// let place = page_stops(b"tag,since").unwrap();
/// assert_eq!((place.offset, place.line, place.column), (9, 1, 10));
/// assert_eq!(place.to_string(), "line 1, column 10");
/// ```
#[derive(Clone, Copy, Debug, PartialEq, Eq, PartialOrd, Ord, Hash)]
#[non_exhaustive]
pub struct Place {
    /// How many bytes stand before it.
    pub offset: usize,
    /// Its line, counted from 1; a line ends in byte 10.
    pub line: usize,
    /// Its byte in that line, counted from 1.
    pub column: usize,
}

impl Place {
    fn of(text: &[u8], offset: usize) -> Place {
        let before = &text[..offset];
        let start = before.iter().rposition(|b| *b == b'\n').map_or(0, |i| i + 1);
        Place { offset, line: before.iter().filter(|b| **b == b'\n').count() + 1, column: offset - start + 1 }
    }
}

impl fmt::Display for Place {
    fn fmt(&self, f: &mut fmt::Formatter<'_>) -> fmt::Result {
        write!(f, "line {}, column {}", self.line, self.column)
    }
}

/// Where a text stops being a page: at the first byte that no page has after those before it, or at the text's end where that comes too early. None where the text is a page, of whatever heap.
///
/// This is a hint for people, by a small reader of its own that is not proved. Whether a text is a page is said by [`Heap::read_page`](crate::Heap::read_page); tests hold the two to each other.
///
/// ```
/// use yexwalu::{page_stops, Heap, Kind, Refusal};
/// let mut heap = Heap::new(1, 64, 4096)?;
/// heap.alloc(Kind::Bytes, b"AB")?;
/// let mut page = heap.write_page()?;
/// assert_eq!(page_stops(&page), None);
/// let second = page.iter().position(|b| *b == b'\n').unwrap() + 1;
/// page[second + 2] = b'x';
/// assert_eq!(page_stops(&page).unwrap().to_string(), "line 2, column 3");
/// # Ok::<(), Refusal>(())
/// ```
#[must_use]
pub fn page_stops(text: &[u8]) -> Option<Place> {
    let mut scan = Scan { text, at: 0 };
    let whole = scan.page().is_some() && scan.at == text.len();
    (!whole).then(|| Place::of(text, scan.at))
}

// The names of the head (docs/FORMAT.md, section 14); what stands after `slots` are the lists, in their order.
const HEADS: [&str; 2] = ["tag,since_gc,reclaim_at,live_bytes,slots,free,quarantine,sealed,retired", "tag,since_gc,reclaim_at,live_bytes,slots,free,quarantine,sealed"];
const SLOTS: [&str; 4] = ["generation,kind,type,start,writes64,data", "generation,kind,type,start,writes,data", "generation,kind,type,start,writes64,planes", "generation,kind,type,start,writes,planes"];

// The width of a number by its name: of the head, a slot's line, or a list's entry.
fn bits(name: &str) -> u32 {
    match name {
        "tag" | "kind" => 8,
        "since_gc" | "reclaim_at" | "live_bytes" | "start" | "writes64" => 64,
        _ => 32,
    }
}

// The fields of a line, each with the byte that ends it.
fn fields(names: &'static str) -> impl Iterator<Item = (&'static str, u8)> {
    let last = names.split(',').count() - 1;
    names.split(',').enumerate().map(move |(i, name)| (name, if i == last { b'\n' } else { b',' }))
}

// Goes through a text as long as it is the beginning of a page. A step that can't be made is none, and `at` is the place.
struct Scan<'a> {
    text: &'a [u8],
    at: usize,
}

impl Scan<'_> {
    fn next(&self) -> Option<u8> {
        self.text.get(self.at).copied()
    }

    // One of these lines, or as much of one as there is.
    fn names<'n>(&mut self, forms: &[&'n str]) -> Option<&'n str> {
        let rest = &self.text[self.at..];
        let alike = |form: &str| form.bytes().chain([b'\n']).zip(rest).take_while(|(a, b)| a == *b).count();
        let (far, form) = forms.iter().map(|form| (alike(form), *form)).max_by_key(|found| found.0)?;
        self.at += far;
        (far == form.len() + 1).then_some(form)
    }

    fn number(&mut self, bits: u32, end: u8) -> Option<u64> {
        let (start, mut value) = (self.at, 0u128);
        loop {
            let byte = self.next()?;
            let spare = value == 0 && self.at > start;
            match byte {
                b'0'..=b'9' if !spare => value = 10 * value + u128::from(byte - b'0'),
                _ if byte == end && self.at > start => break,
                _ => return None,
            }
            if value >> bits != 0 {
                return None;
            }
            self.at += 1;
        }
        self.at += 1;
        u64::try_from(value).ok()
    }

    fn data(&mut self) -> Option<()> {
        let start = self.at;
        while matches!(self.next()?, b'0'..=b'9' | b'a'..=b'f') {
            self.at += 1;
        }
        if self.next()? != b'\n' || (self.at - start) % 2 == 1 {
            return None;
        }
        self.at += 1;
        Some(())
    }

    fn page(&mut self) -> Option<()> {
        let head = self.names(&HEADS)?;
        let mut counts = Vec::new();
        for (name, end) in fields(head) {
            counts.push((name, self.number(bits(name), end)?));
        }
        let lists = counts.split_off(counts.iter().position(|c| c.0 == "slots")?);
        let slot = self.names(&SLOTS)?;
        for (part, count) in lists {
            if part == "slots" {
                for _ in 0..count {
                    self.slot(slot)?;
                }
                continue;
            }
            self.names(&[part])?;
            for _ in 0..count {
                self.number(if part == "sealed" { 64 } else { 32 }, b'\n')?;
            }
        }
        Some(())
    }

    fn slot(&mut self, names: &'static str) -> Option<()> {
        for (name, end) in fields(names) {
            if matches!(name, "data" | "planes") {
                self.data()?;
            } else {
                self.number(bits(name), end)?;
            }
        }
        Some(())
    }
}
