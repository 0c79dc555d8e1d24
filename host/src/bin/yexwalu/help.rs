//! What `--help` prints: of all commands in short, and of one by itself.

/// The commands.
pub const COMMANDS: [&str; 6] = ["check", "show", "same", "length", "convert", "shelf"];

/// Of all commands.
pub const ALL: &str = "\
Questions about pages: the heaps of saved VHDL runs as text.

    yexwalu check FILE..                    is each file a page of a heap, and of which form?
    yexwalu show FILE                       what a page holds: its objects, and where their handles lead
    yexwalu same FILE FILE                  do two pages hold the same model? And which comes first?
    yexwalu length FILE                     how many bytes the page of its heap has, written today
    yexwalu convert --data|--planes FILE    that page, with objects as they are or in byte planes
    yexwalu shelf FILE..                    figures of each page, and of all of them together
    yexwalu COMMAND --help                  more about one of these
    yexwalu --version

FILE is a page; - is standard input. After -- each word is a FILE, also one that begins with -:
yexwalu check -- -old.page

Answers go to standard output, errors to standard error. No file that is there is changed.
Exit status: 0 yes, and done; 1 refused, and different; 2 bad usage, or a file that can't be read
or written. A page is refused with a number and a word, which `yexwalu check --help` explains.

What a page is, byte by byte, stands in docs/FORMAT.md of the repository.
";

const CHECK: &str = "\
yexwalu check FILE..

Is each file a page of a heap? A line a file says `accepted` and the page's form, or the number and
the word of the refusal:

    accepted: writes64, data, retired    the names by which forms differ (docs/FORMAT.md, section 14):
                     writes64 or writes, data or planes, and retired where the page has that list
    17 page          the text is no page. The line and the column, counted from 1, say where it stops
                     being one. They are a hint, found by a second reader that is not proved; the
                     number is the proved reader's
    1 broken heap    the text is a page, but what it shows is no heap (docs/FORMAT.md, section 8)
    5 full           it has more slots than a heap can have
    6 no room        it has more data than a heap can have

Exit status: 0 all are accepted; 1 one is refused; 2 one can't be read. All are looked at.
";

const SHOW: &str = "\
yexwalu show [--types TABLE] FILE
yexwalu show [--types TABLE] --dot FILE | dot -Tsvg > FILE.svg

What a page holds: a summary, then each object with its handle, its kind, the first bytes of its data
and the handles in it, and where each of them leads.

    --types TABLE    the run's type table as text (docs/FORMAT.md, section 6). Where handles stand in an
                     object of a type is said by the table: without it such an object is shown by its
                     bytes alone. Handles in objects of kind Handles are found without it
    --dot            a graph of the objects for Graphviz

Exit status: 0 shown; 1 the page or the table is refused (`yexwalu check --help`); 2 one can't be read.
";

const SAME: &str = "\
yexwalu same [--types TABLE] [--roots H,H..] [--roots-b H,H..] FILE FILE

Do two pages hold the same model, under whatever slot numbers? What the roots of the two lead to is
compared, object by object (docs/FORMAT.md, section 18):

    same                  nothing differs but slot numbers, generations, write counts, and what no root
                          leads to
    different: less       the first page comes before the second in the order of heaps
    different: greater    it comes after it

    --roots H,H..         the roots of the first page, decimals with commas between them (`yexwalu show`
                          prints a page's handles)
    --roots-b H,H..       those of the second; the k-th of the one goes with the k-th of the other
    --types TABLE         the run's type table, by which objects of a type are compared

A page does not have its run's roots. Where none are given, its sealed handles are the roots: the
objects that were there when the simulation began, in slot order, as a rule the order in which they
were made. A page that has nothing sealed needs roots (status 2). A root that leads nowhere, a seal of
an object that is gone too, goes with the same number that leads nowhere. Refused with

    13 untraceable        an object that a root leads to can't be traced: it is of a type, and no
                          --types was given, or the table is that of another run

Exit status: 0 same; 1 different, or refused; 2 bad usage, or a file that can't be read.
";

const LENGTH: &str = "\
yexwalu length [--data|--planes] FILE

How many bytes the page of a file's heap has when it is written today (`yexwalu convert`).

    --data      with objects as they are, which is meant where neither is given
    --planes    with objects in byte planes

Exit status: 0 told; 1 the page is refused (`yexwalu check --help`); 2 it can't be read.
";

const CONVERT: &str = "\
yexwalu convert --data|--planes [-o NEW] FILE

A page of any form, written in the form of today, with writes64 and retired. The heap is the same.

    --data      with objects as they are
    --planes    with objects in byte planes, which pack better where neighbouring numbers differ little
    -o NEW      into a file that is not there yet: one that is there stays as it is (status 2). What
                can't be written whole is taken away again
    -o -        to standard output, as without -o; a file of that name is -o ./-

Exit status: 0 written; 1 the page is refused (`yexwalu check --help`); 2 a file can't be read or written.
";

const SHELF: &str = "\
yexwalu shelf FILE..

Figures of each page, and of all of them together, under the names

    page,answer,objects,bytes,largest,mean,rest

A line a file, numbered from 1, and a last line with page 0 over all accepted ones. Bytes are those of
the objects' data, mean and rest the quotient and the remainder of bytes by objects. A page that is
refused shows its number and zeros, a file that can't be read 17. The program `shelf` prints the same
for pages of at most 32,768 bytes (docs/FORMAT.md, section 16).

Exit status: 0 all are accepted; 1 one is refused; 2 one can't be read. All are looked at.
";

/// Of one command; of all where there is none of this name.
pub fn of(command: &str) -> &'static str {
    match command {
        "check" => CHECK,
        "show" => SHOW,
        "same" => SAME,
        "length" => LENGTH,
        "convert" => CONVERT,
        "shelf" => SHELF,
        _ => ALL,
    }
}
