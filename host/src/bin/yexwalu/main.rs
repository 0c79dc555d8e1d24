//! The command for archivists: what a page holds, and whether it is one. It rests on the calls of the library; here stand only the reading of files and the printing.
mod dot;
mod help;
mod input;
mod same;
mod seen;
mod show;
mod types;

use input::Text;
use seen::Seen;
use std::ffi::{OsStr, OsString};
use std::fs::{self, File};
use std::io::{self, BufWriter, ErrorKind, Write};
use std::process::ExitCode;
use types::Types;
use yexwalu::{page_stops, Column, Figures, Form, Handle, Heap, Refusal};

// How a run ended: the exit status.
const NO: u8 = 1;
const USAGE: u8 = 2;

type Out<'a> = BufWriter<io::StdoutLock<'a>>;

// The heap of a page and the page's form, as the proved reader has them.
type Opened = Result<(Heap, Form), Refusal>;

// A line on standard error. Where nobody listens the answer stays what it is.
macro_rules! say {
    ($($words:tt)*) => {
        drop(writeln!(io::stderr(), $($words)*))
    };
}

// What was written for a reader. One who went away has seen enough: that is no error, and the exit status stays that of the answer.
fn heard(written: io::Result<()>) -> io::Result<()> {
    match written {
        Err(why) if why.kind() == ErrorKind::BrokenPipe => Ok(()),
        written => written,
    }
}

fn refusal(why: Refusal) -> String {
    format!("{} {}", why.number(), why.word())
}

// Reads a file and opens the heap that it shows. What can't be read is said here, and is none.
fn opened(name: &OsStr) -> Option<(Text, Opened)> {
    match Text::read(name) {
        Ok(text) => {
            let heap = text.working("checking", Heap::open_with_form);
            Some((text, heap))
        }
        Err(why) => {
            say!("yexwalu: {}: {}", input::shown(name), input::words(&why));
            None
        }
    }
}

// As `opened`, for a command on one heap: a refusal is said here too. The exit status is the error.
fn heap_of(name: &OsStr) -> Result<Heap, u8> {
    let (text, opened) = opened(name).ok_or(USAGE)?;
    opened.map(|(heap, _)| heap).map_err(|why| {
        say!("yexwalu: {}", verdict(name, &text, Err(why)));
        NO
    })
}

// What often happens to a file, where it is what stands at the place.
fn found(text: &[u8], at: usize) -> &'static str {
    match text.get(at) {
        None => ", where it ends",
        Some(b'\r') => ", where a line ends as on Windows: in bytes 13 and 10, not in 10 alone",
        Some(0xef) if at == 0 => ", where a byte order mark stands",
        _ if text.starts_with(b"types,fields,constants\n") => ": it begins as a type table does",
        _ => "",
    }
}

// The same of a file that is no type table.
fn found_in_table(text: &[u8]) -> &'static str {
    if text.starts_with(b"tag,") {
        return ": it begins as a page does";
    }
    if text.windows(2).any(|pair| pair == b"\r\n") {
        return ": lines end as on Windows in it, in bytes 13 and 10, not in 10 alone";
    }
    ""
}

fn verdict(name: &OsStr, text: &Text, answer: Result<Form, Refusal>) -> String {
    let name = input::shown(name);
    match answer {
        Ok(form) => format!("{name}: accepted: {form}"),
        Err(why @ Refusal::Page) => match page_stops(text.bytes()) {
            Some(place) => format!("{name}: {}: no page from {place} on{}", refusal(why), found(text.bytes(), place.offset)),
            None => format!("{name}: {}", refusal(why)),
        },
        Err(why) => format!("{name}: {}", refusal(why)),
    }
}

fn check(files: &[&OsStr], out: &mut Out) -> io::Result<u8> {
    let mut status = 0;
    for name in files {
        let Some((text, opened)) = opened(name) else {
            status = USAGE;
            continue;
        };
        let answer = opened.map(|(_, form)| form);
        if answer.is_err() {
            status = status.max(NO);
        }
        heard(writeln!(out, "{}", verdict(name, &text, answer)))?;
    }
    Ok(status)
}

fn shelf(files: &[&OsStr], out: &mut Out) -> io::Result<u8> {
    let (mut status, mut all) = (0, Figures::default());
    heard(writeln!(out, "page,answer,objects,bytes,largest,mean,rest"))?;
    for (name, page) in files.iter().zip(1..) {
        let answer = match opened(name) {
            Some((_, opened)) => opened.and_then(|(heap, _)| heap.figures()),
            None => {
                status = USAGE;
                Err(Refusal::Page)
            }
        };
        match answer {
            Ok(figures) => {
                all = all.and(figures);
                heard(out.write_all(&figures.line(page, 0)))?;
            }
            Err(why) => {
                status = status.max(NO);
                heard(out.write_all(&Figures::default().line(page, why.number())))?;
            }
        }
    }
    heard(out.write_all(&all.line(0, 0)))?;
    Ok(status)
}

// Asks something of the heap of a file. What can't be read or is refused is said here: the exit status is the error. A heap that was just opened refuses nothing that is asked of it.
fn asked<T>(name: &OsStr, ask: impl FnOnce(&Heap) -> Result<T, Refusal>) -> Result<T, u8> {
    ask(&heap_of(name)?).map_err(|why| {
        say!("yexwalu: {}: {}", input::shown(name), refusal(why));
        NO
    })
}

// The exit status of a command that has printed its answer, or could not.
fn ended(printed: Result<io::Result<()>, u8>) -> io::Result<u8> {
    match printed {
        Ok(done) => heard(done).map(|()| 0),
        Err(status) => Ok(status),
    }
}

// The type table of a file, or none. What can't be read or is refused is said here: the exit status is the error.
fn types_of(name: Option<&OsStr>) -> Result<Types, u8> {
    let Some(name) = name else {
        return Ok(Types::default());
    };
    let say = |why: String| say!("yexwalu: {}: {why}", input::shown(name));
    let text = Text::read(name).map_err(|why| {
        say(input::words(&why));
        USAGE
    })?;
    Types::read(text.bytes()).map_err(|why| {
        say(format!("{}: no type table to go by{}", refusal(why), found_in_table(text.bytes())));
        NO
    })
}

fn show(name: &OsStr, dot: bool, table: Option<&OsStr>, out: &mut Out) -> io::Result<u8> {
    let print = |types: Types| {
        asked(name, |heap| {
            let seen = Seen::of(heap, &types)?;
            Ok(if dot { dot::print(&seen, out) } else { show::print(&seen, out) })
        })
    };
    ended(types_of(table).and_then(print))
}

fn length(name: &OsStr, column: Column, out: &mut Out) -> io::Result<u8> {
    ended(asked(name, |heap| Ok(writeln!(out, "{}", heap.page_length_with(column)?))))
}

// Writes a file that is not there yet: one that is there stays as it is, and what can't be written whole is taken away again. What fails is said here.
fn created(name: &OsStr, bytes: &[u8]) -> Result<(), u8> {
    let written = File::options().write(true).create_new(true).open(name).and_then(|mut file| {
        let done = file.write_all(bytes).and_then(|()| file.sync_all());
        // where it can't be taken away either, the first error says enough
        done.inspect_err(|_| drop(fs::remove_file(name)))
    });
    written.map_err(|why| {
        let why = if why.kind() == ErrorKind::AlreadyExists { "is there already, and stays as it is".into() } else { input::words(&why) };
        say!("yexwalu: {}: {why}", input::shown(name));
        USAGE
    })
}

// The page of a file's heap as it is written today, to standard output or into a new file.
fn convert(name: &OsStr, column: Column, to: Option<&OsStr>, out: &mut Out) -> io::Result<u8> {
    let put = |page: Vec<u8>| match to {
        Some(new) if new != "-" => created(new, &page).map(Ok),
        _ => Ok(out.write_all(&page)),
    };
    ended(asked(name, |heap| heap.page_with(column)).and_then(put))
}

// The heap of a file and where its comparison starts. What is wrong is said here: the exit status is the error.
fn side_of(name: &OsStr, given: Option<&[Handle]>, option: &str) -> Result<same::Side, u8> {
    let heap = heap_of(name)?;
    match same::roots(&heap, given) {
        Ok(Some(roots)) => Ok((heap, roots)),
        Ok(None) => {
            say!("yexwalu: {}: nothing is sealed in it, so its roots are to be given: {option} H,H..\n{}", input::shown(name), more("same"));
            Err(USAGE)
        }
        Err(why) => {
            say!("yexwalu: {}: {}", input::shown(name), refusal(why));
            Err(NO)
        }
    }
}

// Two pages beside each other. Both are looked at before one is refused, so that all that is wrong is said.
fn same(names: [&OsStr; 2], roots: &[Option<Vec<Handle>>; 2], table: Option<&OsStr>, out: &mut Out) -> io::Result<u8> {
    let types = types_of(table);
    let a = side_of(names[0], roots[0].as_deref(), "--roots");
    let b = side_of(names[1], roots[1].as_deref(), "--roots-b");
    let (types, a, b) = match (types, a, b) {
        (Ok(types), Ok(a), Ok(b)) => (types, a, b),
        (types, a, b) => return Ok([types.err(), a.err(), b.err()].into_iter().flatten().max().unwrap_or(NO)),
    };
    match same::verdict(&types, &a, &b) {
        Ok(word) => heard(writeln!(out, "{word}")).map(|()| if word == "same" { 0 } else { NO }),
        Err(why) => {
            let hint = if table.is_none() { ": an object that is reached can't be traced; its types are given by --types TABLE" } else { ": an object that is reached can't be traced by this table" };
            for (name, _) in names.iter().zip([&a, &b]).filter(|(_, side)| same::refuses(&types, side)) {
                say!("yexwalu: {}: {}{}", input::shown(name), refusal(why), if why == Refusal::Untraceable { hint } else { "" });
            }
            Ok(NO)
        }
    }
}

// Where more is said: of a command, or of all where there is none of this name.
fn more(command: &str) -> String {
    format!("yexwalu {command}{}--help says more.", if command.is_empty() { "" } else { " " })
}

fn usage(command: &str, why: &str) -> io::Result<u8> {
    say!("yexwalu: {why}\n{}", more(if help::COMMANDS.contains(&command) { command } else { "" }));
    Ok(USAGE)
}

// What stands after a command's name. A file's name may be any bytes; a command and its options are text.
#[derive(Default)]
struct Options<'a> {
    files: Vec<&'a OsStr>,
    dot: bool,
    table: Option<&'a OsStr>,
    column: Option<Column>,
    to: Option<&'a OsStr>,
    // of the first page and of the second
    roots: [Option<Vec<Handle>>; 2],
}

impl<'a> Options<'a> {
    // The error is what is wrong with them.
    fn read(command: &str, words: &'a [OsString]) -> Result<Options<'a>, String> {
        let mut options = Options::default();
        let mut words = words.iter().map(OsString::as_os_str);
        while let Some(word) = words.next() {
            match (command, word.to_string_lossy().as_ref()) {
                ("show", "--dot") => options.dot = true,
                ("show" | "same", "--types") => options.table = Some(words.next().ok_or("--types takes a file")?),
                ("length" | "convert", "--data") => options.choose(Column::Data)?,
                ("length" | "convert", "--planes") => options.choose(Column::Planes)?,
                ("same", option @ ("--roots" | "--roots-b")) => {
                    let list = words.next().and_then(|word| same::handles(word.to_str()?));
                    options.roots[usize::from(option == "--roots-b")] = Some(list.ok_or(format!("{option} takes handles: decimals with commas between them"))?);
                }
                ("convert", "-o") => options.to = Some(words.next().ok_or("-o takes a file")?),
                (_, "--") => options.files.extend(words.by_ref()),
                (_, option) if option.starts_with('-') && option != "-" => return Err(format!("{command} has no option {option}")),
                _ => options.files.push(word),
            }
        }
        Ok(options)
    }

    fn choose(&mut self, column: Column) -> Result<(), String> {
        match self.column.replace(column) {
            Some(other) if other != column => Err("--data or --planes, not both".into()),
            _ => Ok(()),
        }
    }
}

fn command(words: &[OsString], out: &mut Out) -> io::Result<u8> {
    let Some((name, rest)) = words.split_first() else {
        return usage("", &format!("a command is missing: {}", help::COMMANDS.join(", ")));
    };
    let asked = words.iter().take_while(|w| *w != "--").any(|w| w == "--help" || w == "-h");
    if asked || name == "help" {
        // `yexwalu help show` and `yexwalu show --help` are the same
        let about = if name == "help" { rest.first() } else { Some(name) };
        heard(write!(out, "{}", help::of(&about.map_or("".into(), |name| name.to_string_lossy()))))?;
        return Ok(0);
    }
    let name = name.to_string_lossy();
    if name == "--version" || name == "-V" {
        return heard(writeln!(out, "yexwalu {}", env!("CARGO_PKG_VERSION"))).map(|()| 0);
    }
    if !help::COMMANDS.contains(&name.as_ref()) {
        return usage("", &format!("no command {}; there are {}", input::plain(&name), help::COMMANDS.join(", ")));
    }
    let options = match Options::read(&name, rest) {
        Ok(options) => options,
        Err(why) => return usage(&name, &why),
    };
    let files = &options.files;
    match (name.as_ref(), options.column) {
        ("check" | "shelf", _) if files.is_empty() => usage(&name, &format!("{name} takes files")),
        ("show" | "length" | "convert", _) if files.len() != 1 => usage(&name, &format!("{name} takes one file")),
        ("same", _) if files.len() != 2 => usage(&name, "same takes two files"),
        _ if files.iter().copied().chain(options.table).filter(|name| *name == "-").count() > 1 => usage(&name, "standard input can be one of the files, not several"),
        ("convert", None) => usage(&name, "convert takes --data or --planes"),
        ("check", _) => check(files, out),
        ("shelf", _) => shelf(files, out),
        ("length", column) => length(files[0], column.unwrap_or(Column::Data), out),
        ("convert", Some(column)) => convert(files[0], column, options.to, out),
        ("show", _) => show(files[0], options.dot, options.table, out),
        _ => same([files[0], files[1]], &options.roots, options.table, out),
    }
}

fn main() -> ExitCode {
    let words: Vec<OsString> = std::env::args_os().skip(1).collect();
    let mut out = BufWriter::new(io::stdout().lock());
    let status = command(&words, &mut out).and_then(|status| heard(out.flush()).map(|()| status));
    match status {
        Ok(status) => ExitCode::from(status),
        Err(why) => {
            say!("yexwalu: standard output: {}", input::words(&why));
            ExitCode::from(USAGE)
        }
    }
}
