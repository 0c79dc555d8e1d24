//! Files, and a line that says how far a large one is.
use std::ffi::OsStr;
use std::fs::File;
use std::io::{self, IsTerminal, Read, Write};

// From so many bytes on a person is told that it goes on.
const LARGE: usize = 4 << 20;
const PIECE: u64 = 1 << 20;

// No page is longer: it has at most 256 bytes, 96 a slot and 2 a byte of data, of the most slots and bytes that a heap has.
const LONGEST: u64 = 1 << 32;

/// The bytes of a file, and its name for people.
pub struct Text {
    name: String,
    bytes: Vec<u8>,
}

/// Text as it can stand in a line on a terminal: what would steer the terminal is left out of it.
pub fn plain(text: &str) -> String {
    text.chars().map(|c| if c.is_control() { char::REPLACEMENT_CHARACTER } else { c }).collect()
}

/// A file's name for people.
pub fn shown(name: &OsStr) -> String {
    match name.to_string_lossy().as_ref() {
        "-" => "standard input".into(),
        "" => "''".into(),
        name => plain(name),
    }
}

/// The system's words for what failed, without the number that stands behind them: numbers are those of refusals here.
pub fn words(why: &io::Error) -> String {
    let text = why.to_string();
    let number = why.raw_os_error().map(|n| format!(" (os error {n})"));
    number.and_then(|n| text.strip_suffix(&n)).unwrap_or(&text).into()
}

// A line that is written over and over, on a terminal alone.
fn tell(line: &str) {
    let mut err = io::stderr();
    if err.is_terminal() {
        // where this can't be written there is nothing else to say
        let _ = write!(err, "\r\x1b[K{line}");
        let _ = err.flush();
    }
}

fn too_long() -> io::Error {
    io::Error::other("longer than 4 GB, as no page is")
}

// Reads on; 0 at the end. Room is made first, so that too little memory is an error like another; at the end some bytes more are looked for.
fn read_on(from: impl Read, bytes: &mut Vec<u8>) -> io::Result<usize> {
    bytes.try_reserve(PIECE as usize + 64)?;
    let n = from.take(PIECE).read_to_end(bytes)?;
    if bytes.len() as u64 > LONGEST {
        return Err(too_long());
    }
    Ok(n)
}

impl Text {
    /// All of a file, or of standard input.
    pub fn read(name: &OsStr) -> io::Result<Text> {
        if name == "-" {
            return Text::read_from(shown(name), io::stdin().lock(), None);
        }
        let file = File::open(name)?;
        let about = file.metadata()?;
        // a pipe has no size
        let size = about.is_file().then_some(about.len());
        if size > Some(LONGEST) {
            return Err(too_long());
        }
        Text::read_from(shown(name), file, size)
    }

    fn read_from(name: String, mut from: impl Read, size: Option<u64>) -> io::Result<Text> {
        let of = size.map(|s| format!(" of {}", s >> 20)).unwrap_or_default();
        let mut bytes = Vec::new();
        let done = loop {
            match read_on(from.by_ref(), &mut bytes) {
                Ok(0) => break Ok(()),
                Ok(_) if bytes.len() >= LARGE => tell(&format!("{name}: {}{of} MB read", bytes.len() >> 20)),
                Ok(_) => {}
                Err(why) => break Err(why),
            }
        };
        if bytes.len() >= LARGE {
            tell("");
        }
        done.map(|()| Text { name, bytes })
    }

    pub fn bytes(&self) -> &[u8] {
        &self.bytes
    }

    /// Does some work on the bytes; if they are many, says so as long as it lasts, and then clears the line.
    pub fn working<T>(&self, what: &str, work: impl Fn(&[u8]) -> T) -> T {
        if self.bytes.len() < LARGE {
            return work(&self.bytes);
        }
        tell(&format!("{}: {what} {} MB", self.name, self.bytes.len() >> 20));
        let done = work(&self.bytes);
        tell("");
        done
    }
}
