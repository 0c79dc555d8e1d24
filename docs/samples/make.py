#!/usr/bin/env python3
"""make.py REPLAY: writes the samples of this folder again, with the built program `replay` (`rt run` in crates/replay makes it: crates/replay/out/replay). Run it when the form of the page changes.
make.py --deposit: writes the bag deposit/ alone, from the samples that are there. Run it when docs/FORMAT.md or reader.py changes, of which the bag has a copy.

Good pages are what `replay` answers to `page` after a script of calls. Refused ones are good ones with one thing changed. Tables are written by `table` below."""
import hashlib
import os
import struct
import subprocess
import sys

here = os.path.dirname(os.path.abspath(__file__))
NO = 4294967295


def page(replay, script, column="data"):
    """The page of the heap that a script of calls makes, with this column."""
    out = subprocess.run([replay], input="\n".join(script + ["page " + column, ""]), capture_output=True, text=True, check=True).stdout.split("\n")
    bad = [(a, b) for a, b in zip([x for x in script if not x.startswith("#")], out) if not b.startswith("0")]
    if bad:
        sys.exit(f"the script went wrong: {bad}")
    return out[len(script)][2:].replace(";", "\n").encode()


def table(types, fields=(), constants=()):
    """The text of a type table: rows of numbers with a name; a constant is its bytes (None: not plain bytes) and a name."""
    pool, rows = b"", []
    for data, name in constants:
        rows.append((0, 0, 0, name) if data is None else (1, len(pool), len(data), name))
        pool += data or b""
    text = f"types,fields,constants\n{len(types)},{len(fields)},{len(rows)}\n"
    for names, lines in (("class,a,b,c,name", types), ("type,constant,name", fields), ("plain,start,length,name", rows)):
        text += names + "\n" + "".join(",".join(str(x) for x in row) + "\n" for row in lines)
    return (text + "bytes\n" + pool.hex() + "\n").encode()


def dim(left, right, down=0):
    return struct.pack("<qqq", left, right, down)


def logic(codes):
    """Positions of a logic array, packed: FORMAT.md, section 7."""
    n, words = len(codes), [0] * (4 * ((len(codes) + 63) // 64))
    for j, c in enumerate("UX01ZWLH-".index(x) for x in codes):
        b = n - 1 - j
        for k in range(4):
            words[4 * (b // 64) + k] |= (c >> k & 1) << b % 64
    return struct.pack(f"<{len(words)}Q", *words)


def document(files):
    """The examples and digests in FORMAT.md, where the files that stand here now are shown."""
    path = os.path.join(here, "..", "FORMAT.md")
    text = open(path).read()
    block = lambda data: "".join("    " + line + "\n" for line in data.decode().split("\n")[:-1])
    for name in ("bytes.page", "handles.page", "planes.page", "record.table", "record.page", "logic.table", "logic.page"):
        old = open(os.path.join(here, name), "rb").read()
        text = text.replace(block(old), block(files[name])).replace(hashlib.sha256(old).hexdigest() + "  " + name, hashlib.sha256(files[name]).hexdigest() + "  " + name)
    open(path, "w").write(text)


# What a deposit says of itself (FORMAT.md, section 1).
ABOUT = """Model: the chain of two records of FORMAT.md, section 13. It was made by hand as a sample and stands for a run's model; no simulation was run for it.
Engine: yavs, commit 1476c939e3, whose heap.rs and ty.rs a page and a type table follow.

heap-1.page: the heap of the process `mixer`, tag 1. Form: yexwalu page with `writes64`, `data` and `retired` (FORMAT.md, section 14).
types.table: the types of all pages of this bag. Form: yexwalu type table, the first form.
FORMAT.md: what the texts mean.
reader.py: a reader of both, Python 3 with its standard library: reader.py page heap-1.page types.table

No heap was shared, so there is no page of tag 2.

Depositor: the authors of Yexwalu, in whose repository this bag is a sample.
Terms: the MIT License, Copyright (c) 2026 the Yexwalu authors; its text is LICENSE of that repository. NOTICE there has the terms of yavs, MIT too.
"""


def deposit(files):
    """A whole deposit, as a bag of RFC 8493."""
    inside = {"heap-1.page": files["record.page"], "types.table": files["record.table"], "about.txt": ABOUT.encode()}
    for name, path in (("FORMAT.md", "../FORMAT.md"), ("reader.py", "reader.py")):
        inside[name] = open(os.path.join(here, path), "rb").read()
    manifest = "".join(f"{hashlib.sha256(inside[n]).hexdigest()}  data/{n}\n" for n in sorted(inside))
    files.update({"deposit/data/" + n: text for n, text in inside.items()})
    files["deposit/bagit.txt"] = b"BagIt-Version: 1.0\nTag-File-Character-Encoding: UTF-8\n"
    files["deposit/manifest-sha256.txt"] = manifest.encode()


def write(files):
    for name, text in files.items():
        os.makedirs(os.path.dirname(os.path.join(here, name)) or here, exist_ok=True)
        with open(os.path.join(here, name), "wb") as out:
            out.write(text)
    with open(os.path.join(here, "SHA256SUMS"), "w") as out:
        out.write("".join(f"{hashlib.sha256(files[n]).hexdigest()}  {n}\n" for n in sorted(files)))
    print(len(files), "files")


def bag_alone():
    """The bag, of the samples that are there; their digests stay."""
    names = [line[66:-1] for line in open(os.path.join(here, "SHA256SUMS")) if not line[66:].startswith("deposit/")]
    files = {n: open(os.path.join(here, n), "rb").read() for n in names}
    deposit(files)
    write(files)


def main(replay):
    files = {}
    first = 72057594037927937      # the handle of slot 0 of tag 1 at generation 1
    files["empty.page"] = page(replay, ["new 1 64 4096"])
    files["bytes.page"] = page(replay, ["new 1 64 4096", "alloc 2 0 0 4142"])
    files["handles.page"] = page(replay, ["new 1 64 4096", "alloc 2 0 0 4142", "alloc 3 0 0 " + (bytes(24) + struct.pack("<Q", first)).hex(), "seal", "alloc 2 0 0 00", f"take {first + (2 << 32)}"])

    # an object in byte planes: the counters 1000, 1001 and 1003, and a byte; and the same heap with the names of the first form but for that
    counters = ["new 1 64 4096", "alloc 2 0 0 " + (struct.pack("<3Q", 1000, 1001, 1003) + b"\7").hex()]
    files["planes.page"] = page(replay, counters, "planes")
    files["planes-first-form.page"] = files["planes.page"].replace(b",writes64,", b",writes,").replace(b",retired\n", b"\n").replace(b",0,0,0,0\n", b",0,0,0\n", 1)[:-len(b"retired\n")]

    # one heap in every form: its write count is the largest of 32 bits, and slot 2 is worn out, which forms without `retired` have in `free`; a count that only `writes64` has
    first_form = b"tag,since_gc,reclaim_at,live_bytes,slots,free,quarantine,sealed\n1,34,4096,0,3,2,0,0\ngeneration,kind,type,start,writes,data\n1,2,0,0,4294967295,4142\n2,0,0,0,0,\n4294967295,0,0,0,0,\nfree\n2\n1\nquarantine\nsealed\n"
    files["first-form.page"] = first_form
    files["second-form.page"] = first_form.replace(b",writes,", b",writes64,")
    files["third-form.page"] = page(replay, ["load 64 " + first_form.decode().replace("\n", ";")])
    files["mixed-form.page"] = files["third-form.page"].replace(b",writes64,", b",writes,")
    files["counts.page"] = page(replay, ["load 64 " + first_form.decode().replace("\n", ";"), "write 0 0 43"])

    # a record {next: access; level: Int; steps: array of Int}: the descriptor of steps (1 to 5), then the value; and a chain of two such records
    record = table([(0, 0, 100, 0, "percent"), (4, 0, NO, 1, "steps"), (6, 0, 0, 0, "link"), (5, 0, 3, 0, "node")], [(2, NO, "next"), (0, NO, "level"), (1, NO, "steps")])
    node = lambda handle, level, steps: (dim(1, len(steps)) + struct.pack(f"<Qq{len(steps)}i", handle, level, *steps) + bytes(-(16 + 4 * len(steps)) % 8)).hex()
    files["record.table"] = record
    files["record.page"] = page(replay, ["new 1 64 4096", "alloc 1 3 0 " + node(0, 75, [1, 2, 3, 4, 5]), "alloc 1 3 0 " + node(first, 40, [7])])

    # a logic array of ten positions, its bounds (9 downto 0) a constant of the table
    files["logic.table"] = table([(2, 9, 1, 0, "std_ulogic: 'U' 'X' '0' '1' 'Z' 'W' 'L' 'H' '-'"), (4, 0, NO, 1, "vector"), (5, 0, 1, 0, "frame")], [(1, 0, "data")], [(dim(9, 0, 1), "9 downto 0")])
    files["logic.page"] = page(replay, ["new 1 64 4096", "alloc 1 1 0 " + (dim(9, 0, 1) + logic("U01ZX-HL10")).hex(), "alloc 1 2 0 " + logic("0101010101").hex()])

    # two heaps of one run: a process's (tag 1) whose object leads into the shared one (tag 2)
    shared = 2 << 56 | 1
    files["process.page"] = page(replay, ["new 1 64 4096", "alloc 1 0 0 " + struct.pack("<Q", shared).hex()])
    files["shared.page"] = page(replay, ["new 2 64 4096", "alloc 2 0 0 " + b"shared".hex()])
    files["access.table"] = table([(6, 0, 0, 0, "pointer")])

    # refused pages: one thing changed
    good, full = files["bytes.page"], files["handles.page"]
    files["17-cut.page"] = good[:-1]
    files["17-more.page"] = good + b"\n"
    files["17-names.page"] = good.replace(b"generation,", b"generations,")
    files["17-spare-zero.page"] = good.replace(b"\n1,34,", b"\n1,034,")
    files["17-width.page"] = good.replace(b"\n1,34,", b"\n256,34,")
    files["17-uppercase.page"] = good.replace(b",4142\n", b",4A42\n")
    files["17-half-byte.page"] = good.replace(b",4142\n", b",414\n")
    files["17-planes-half-byte.page"] = files["planes.page"].replace(b",e80102", b",e8010")
    files["17-planes-and-data.page"] = files["planes.page"].replace(b",planes\n", b",data,planes\n")
    files["17-count.page"] = good.replace(b"\n1,34,4096,0,1,", b"\n1,34,4096,0,2,")
    files["17-first-form-count.page"] = first_form.replace(b",4294967295,", b",4294967296,")
    files["1-kind.page"] = good.replace(b"\n1,2,0,", b"\n1,4,0,")
    files["1-generation.page"] = good.replace(b"\n1,2,0,", b"\n0,2,0,")
    files["1-type-of-bytes.page"] = good.replace(b"\n1,2,0,", b"\n1,2,7,")
    files["1-dead-with-data.page"] = full.replace(b"\n2,0,0,0,0,\n", b"\n2,0,0,0,0,00\n")
    files["1-two-places.page"] = full.replace(b"quarantine\n2\n", b"quarantine\n1\n")
    files["1-seal-order.page"] = full.replace(b"72057594037927937\n72057598332895233\n", b"72057598332895233\n72057594037927937\n")
    files["1-reclaim.page"] = good.replace(b",4096,", b",4095,")
    now = files["third-form.page"]
    files["1-retired-young.page"] = now.replace(b"\n4294967295,0,0,0,0,\n", b"\n5,0,0,0,0,\n")
    files["1-free-worn-out.page"] = now.replace(b",3,1,0,0,1\n", b",3,2,0,0,0\n").replace(b"free\n1\n", b"free\n2\n1\n").replace(b"retired\n2\n", b"retired\n")
    files["17-retired-missing.page"] = now[:now.rindex(b"retired\n")]
    files["17-retired-unnamed.page"] = now.replace(b",retired\n", b"\n").replace(b",3,1,0,0,1\n", b",3,1,0,0\n")

    # refused tables
    files["17-comma.table"] = record.replace(b",percent\n", b",per,cent\n")
    files["17-too-many.table"] = record.replace(b"\n4,3,0\n", b"\n4097,3,0\n")
    files["17-field-width.table"] = record.replace(b"\n2,4294967295,next", b"\n2,4294967296,next")
    files["10-class.table"] = record.replace(b"\n6,0,0,0,link", b"\n9,0,0,0,link")
    files["10-logic.table"] = files["logic.table"].replace(b"\n2,9,1,", b"\n2,9,4,")
    files["10-dims.table"] = record.replace(b",1,steps", b",256,steps")
    files["10-fields.table"] = record.replace(b"\n5,0,3,0,node", b"\n5,1,3,0,node")
    files["10-constant.table"] = files["logic.table"].replace(b"\n1,0,24,", b"\n1,1,24,")
    files["10-unfolding.table"] = table([(5, 0, 2, 0, "ring")], [(0, NO, "left"), (0, NO, "right")])

    document(files)
    deposit(files)
    write(files)


if __name__ == "__main__":
    if len(sys.argv) != 2:
        sys.exit(__doc__)
    bag_alone() if sys.argv[1] == "--deposit" else main(sys.argv[1])
