#!/usr/bin/env python3
"""Counts the lines of definitions that docs/READING.md names: those of each file, their sums, and for each theorem those that its statement rests on.

usage: python3 tools/reading.py            at the top of the repository: writes the counts into docs/READING.md
       python3 tools/reading.py --check    writes nothing: are the counts right, has each file the definitions that its row names, does each definition that the contract of a public call
                                           or the statement of a theorem rests on stand in a file of the tables or in that of a statement, and does no other stand in specs/ outside specs/Inner/? Else it
                                           says what is not so, with status 1
       python3 tools/reading.py --names NAME..    lists what these definitions rest on, file by file (Demand, or collect_door.Demand where several crates have one)

A line counts that is neither empty nor a comment nor an import. A definition rests on those that its lines name, and so on; a theorem on those that its statement names, which counts itself. Structs and
enums of code are no lines of specs/ and count apart.
"""
import glob
import re
import sys

PAGE = "docs/READING.md"
IMPORTS = ("use ", "pub use ", "pub mod ", "mod ")
TOKEN = re.compile(r"[^\s(){}\[\],;]+")


def read(path):
    with open(path, encoding="utf-8") as f:
        return f.read()


def counts(line):
    return bool(line.strip()) and not line.lstrip().startswith("--") and not line.startswith(IMPORTS)


def module_of(path):
    """crates/heap/specs/Inner/Runs.antt -> heap.specs.Inner.Runs"""
    return path.removeprefix("crates/").removesuffix(".antt").replace("/", ".")


def brought(text):
    """The names that an import brings: name -> (module, its name there)."""
    m = re.match(r"(\S+?)\.\{(.*)\}$", " ".join(text.split()).removeprefix("Rattle."))
    out = {}
    for part in m[2].split(",") if m else []:
        word, _, as_name = part.strip().partition(" as ")
        out[as_name.strip() or word.strip()] = (m[1], word.strip())
    return out


class Source:
    """A file of specs/ or proofs/: its definitions, each with its lines, and the names that it brings in. Of a proof only the statement is read."""

    def __init__(self, path):
        self.path, self.scope, self.alias, self.items, self.inner = path, {}, {}, {}, {}
        proofs = "/proofs/" in path
        begins = re.compile(r" *(?:(?:abbrev|unfoldable) )?(?:pub )?(?:(data|record) )?(\S+)(?: |$)")
        modules, waiting, name, kind, stated = [], [], None, None, True
        for line in read(path).split("\n"):
            if line.startswith(("use ", "pub use ")):
                text = line.split("use ", 1)[1].strip()
                self.scope.update(brought(text))
                m = re.match(r"(?:Rattle\.)?(\S+) as (\S+)$", text)
                if m:
                    self.alias[m[2]] = m[1]
                continue
            if not counts(line):
                continue
            indent = len(line) - len(line.lstrip())
            while indent < 2 * len(modules):
                modules.pop()
            here = indent == 2 * len(modules)
            word = line.split()[0]
            if here and word == "module":
                modules.append(line)
                name = None
            elif here and (word.startswith("infix") or word == "unfolding"):
                waiting.append(line)
            elif here and (word in ("abbrev", "unfoldable", "pub", "data", "record") or proofs and re.match(r" *[^\s(]+ :( |$)", line)):
                m = begins.match(line)
                kind, name, stated = m[1], m[2], True
                self.items[name] = modules + waiting + [line]
                waiting = []
            elif name:
                stated = stated and not (proofs and here)
                if stated:
                    self.items[name] += waiting + [line]
                waiting = []
                if kind == "data" and re.match(r" +\S+ :", line):
                    self.inner[word] = self.inner[name + "." + word] = name


class Book:
    """All definitions and statements. A definition is ("spec", module, name), a struct or enum of code ("code", crate, name)."""

    def __init__(self):
        self.files, self.code, self.below = {}, {}, {}
        for path in glob.glob("crates/*/specs/**/*.antt", recursive=True) + glob.glob("crates/*/proofs/**/*.antt", recursive=True):
            if not re.search(r"/proofs/.+/(Answers|Invariants).antt$", path):
                self.files[module_of(path)] = Source(path)
        self.sources = {p: read(p) for p in glob.glob("crates/*/src/**/*.rt", recursive=True)}
        for path, text in self.sources.items():
            for m in re.finditer(r"^pub (?:struct|enum) (\w+)[^{;]*\{(.*?)^\}", text, re.M | re.S):
                self.code[path.split("/")[1], m[1]] = 2 + sum(bool(l.strip()) and not l.strip().startswith(("//", "#[")) for l in m[2].split("\n"))

    def find(self, module, word):
        if ".specs.declared" in module:
            crate = module.split(".")[0]
            return next((("code", crate, w) for w in [word] + module.split(".")[::-1] if (crate, w) in self.code), None)
        file = self.files.get(module)
        word = file.inner.get(word, word) if file else word
        if file and word in file.items:
            return ("spec", module, word)
        return self.find(*file.scope[word]) if file and word in file.scope else None

    def named(self, text, scope, alias):
        """The definitions that a text names, where `scope` says what a name means."""
        words, out = set(TOKEN.findall(text)), set()
        for word in words:
            head, _, last = word.removeprefix("Rattle.").rpartition(".")
            first = word.split(".")[0]
            if word.startswith("Rattle."):
                out.add(self.find(head, last))
            elif word in scope or first in scope:
                out.add(self.find(*scope.get(word, scope.get(first))))
            elif "." in word and first in alias:
                out.add(self.find(alias[first], word.split(".")[1]))
        for name in scope:
            if "◌" in name and all(p in words for p in name.split("◌") if p):
                out.add(self.find(*scope[name]))
        return out - {None}

    def next(self, node):
        if node not in self.below:
            self.below[node] = set()
            if node[0] == "spec":
                file = self.files[node[1]]
                own = {name: (node[1], name) for name in [*file.items, *file.inner]}
                text = re.sub(r"(^|\s)--.*", "", "\n".join(file.items[node[2]]), flags=re.M)
                self.below[node] = self.named(text, file.scope | own, file.alias)
        return self.below[node]

    def rests(self, nodes):
        seen, left = set(), list(nodes)
        while left:
            node = left.pop()
            if node not in seen:
                seen.add(node)
                left.extend(self.next(node))
        return seen

    def lines(self, nodes):
        return sum(len(self.files[n[1]].items[n[2]]) for n in nodes if n[0] == "spec" and ".specs." in n[1])

    def code_lines(self, nodes):
        return sum(self.code[n[1:]] for n in nodes if n[0] == "code")

    def clauses(self, path, prefix=""):
        """What the clauses of a file's functions of such names name."""
        text, scope = self.sources[path], {}
        for line in re.findall(r"^ghost use ([^;]+);", text, re.M):
            scope.update(brought(line))
        return set().union(*(self.named(call, scope, {}) for call in re.findall(rf"^pub fn {prefix}(.*?)^\{{", text, re.M | re.S)))

    def contracts(self):
        """What the clauses of the public calls name; the exports have the clauses of the calls."""
        return set().union(*(self.clauses(path, "yexwalu_") for path in self.sources if not path.startswith("crates/yexwalu_c/")))

    def statement(self, cell, before):
        """The definitions that a row of theorems names, and the crates where they stand, those of the row before where it names none."""
        crates = re.findall(r"crates/(\w+)", cell) or before
        names = [n for n in re.findall(r"`([^`\s]+)`", cell) if not n.startswith("yexwalu_")]
        found = {("spec", m, n) for m, f in self.files.items() if m.split(".")[0] in crates for n in f.items if n in names}
        for path in re.findall(r"the contracts of (crates/\S+\.rt)", cell):
            found |= self.clauses(path)
        if not names:
            for path in re.findall(r"crates/\S+?\.antt", cell):
                found |= {("spec", module_of(path), n) for n, ls in self.files[module_of(path)].items.items() if ls[-1].lstrip().startswith("pub ")}
        return found, crates


def row_of_files(book, cells, wrong):
    path = cells[3]
    if module_of(path) not in book.files:
        wrong.append(f"no such file: {path}")
        return 0
    file = book.files[module_of(path)]
    for name in re.findall(r"`([^`]+)`", cells[2]):
        if name not in file.items and name not in file.inner:
            wrong.append(f"{path} has no {name}")
    return sum(map(counts, read(path).split("\n")))


def main():
    book = Book()
    if "--names" in sys.argv:
        for name in sys.argv[sys.argv.index("--names") + 1 :]:
            crate, _, word = name.rpartition(".")
            rest = book.rests({("spec", m, word) for m, f in book.files.items() if word in f.items and (not crate or m.split(".")[0] == crate)})
            for module in sorted({n[1] for n in rest}):
                print(module, " ".join(sorted(n[2] for n in rest if n[1] == module)))
            print(f"{name}: {book.lines(rest)} lines, and {book.code_lines(rest)} of structs and enums of code")
        return 0
    rows = read(PAGE).split("\n")
    wrong, out, listed, here, total, crates, stated = [], [], set(), set(), 0, [], set()
    needed = book.rests(book.contracts())
    for row in rows:
        cells = [c.strip() for c in re.split(r"(?<!\\)\|", row.strip().strip("|"))]
        if row.startswith("| ") and len(cells) == 5 and cells[3].endswith(".antt"):
            n = row_of_files(book, cells, wrong)
            total += n
            here.add(cells[3])
            row = re.sub(r"\| [\d,]* *\|$", f"| {n:,} |", row)
        elif row.startswith("| ") and len(cells) == 4 and cells[3] != "Rests on":
            nodes, crates = book.statement(cells[1], crates)
            if not nodes:
                wrong.append(f"a statement that is not found: {cells[1]}")
            stated |= nodes
            row = re.sub(r"\| [\d,]* *\|$", f"| {book.lines(book.rests(nodes)):,} |", row)
        elif re.match(r"[\d,]+ lines in \d+ files", row):
            row = re.sub(r"^[\d,]+ lines in \d+ files", f"{total:,} lines in {len(here)} files", row)
            row = re.sub(r"rest on [\d,]+ lines of specs/ and [\d,]+", f"rest on {book.lines(needed):,} lines of specs/ and {book.code_lines(needed):,}", row)
            listed, here, total = listed | here, set(), 0
        out.append(row)
    read_of = needed | book.rests(stated)
    stating = {n[1] for n in stated if n[0] == "spec"}
    for node in sorted(read_of):
        if node[0] == "spec" and ".specs." in node[1] and book.files[node[1]].path not in listed and node[1] not in stating:
            wrong.append(f"a contract or a theorem rests on it, and it is in no table: {node[2]} in {book.files[node[1]].path}")
    for module, file in sorted(book.files.items()):
        for name in file.items if ".specs." in module else []:
            inner = ".specs.Inner." in module
            if inner == (("spec", module, name) in read_of):
                wrong.append(f"{'a contract or a theorem rests' if inner else 'no public contract and no theorem rests'} on {name} in {file.path}")
    if "--check" in sys.argv:
        wrong += [f"{PAGE}, line {i + 1}, not as counted: {row}" for i, (row, new) in enumerate(zip(rows, out)) if row != new]
    elif out != rows:
        with open(PAGE, "w", encoding="utf-8") as f:
            f.write("\n".join(out))
    print("\n".join(wrong + [f"{PAGE}: {len(listed)} files, {len(wrong)} faults"]))
    return 1 if wrong else 0


sys.exit(main())
