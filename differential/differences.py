#!/usr/bin/env python3
"""Shows each named difference of docs/DIFFERENCES.md on its smallest input: what both builds of the Rust answer, and what the port answers.

    differences.py --oracle PATH --checked PATH [--replay PATH]

The last answer of each script is shown; where the port refuses earlier, its refusal. It ends with 1 if one is not as the page says."""

import argparse
import sys

from machine import answers
from shapes import COLUMNS, NAMES, I64, LOG, NO, U32, U64, h, le, page, to

WIDE = to((1 - I64, I64 - 1))
TWO_DEAD = ["new 1 2 64", "alloc 2 0 0 -", "alloc 2 0 0 -", f"free {h(0, 1)}", f"free {h(1, 1)}"]

LOST = f"0 {NAMES};1,64,4096,0,2,1,1,0;{COLUMNS};2,0,0,0,0,;2,0,0,0,0,;free;1;quarantine;0;sealed;"

# One slot, live at the last generation.
WORN = f"load 1 {page([1, 0, 4096, 0], [f'{U32},2,0,0,0,'])} 64"

# Name, script, then the answer of the port, the last one of the release build and that of the checked build.
ROWS = [
    ("aligning that overflows", ["table", "ty 2 1 0", f"ty 4 0 {NO} 1", "ty 0 0 1", f"ty 5 1:{NO},2:{NO}", f"layout 3 {WIDE}"], "12", "0 8 8 0 1 24 0,0", "panic"),
    ("the record's own aligning", ["table", "ty 2 1 0", f"ty 4 0 {NO} 1", "ty 0 0 1", f"ty 5 2:{NO},1:{NO}", f"layout 3 {to((1 - I64, I64 - 9))}"], "12", "0 0 8 0 1 24 0,8", "panic"),
    ("a slot that was never there", ["new 1 1 64", f"resolve {h(0, 1)}"], "19", "4", "4"),
    ("reissue beyond the slots", ["new 1 1 64", "reissue 0 0"], "9", "panic", "panic"),
    ("reissue of a dead slot", ["new 1 1 64", "alloc 2 0 0 -", f"free {h(0, 1)}", "reissue 0 0"], "9", f"0 {h(0, 3)}", f"0 {h(0, 3)}"),
    ("reissue at the last generation", [WORN, "reissue 0 0"], "20", f"0 {h(0, 1)}", f"0 {h(0, 1)}"),
    ("a worn-out slot", [WORN, f"free {h(0, U32)}", "recycle -", "alloc 2 0 0 -"], "5", f"0 {h(0, 2)}", f"0 {h(0, 2)}"),
    ("an array of stride 0", ["table", "ty 6", f"ty 4 0 {NO} 1", f"ty 4 1 {NO} 1", f"objh 2 {WIDE + to((1, 0))}"], "0 -", "hang", "hang"),
    ("output on 13, an object", ["table", "ty 6", f"ty 5 0:{NO},0:{NO}", f"objh 1 {le(7)}"], "13", "13 7", "13 7"),
    ("output on 13, a value", ["table", "ty 6", f"ty 5 0:{NO},0:{NO}", f"valh 1 {le(7)}"], "13", "13 7", "13 7"),
    ("output on 13, a frame", ["table", f"slotroots 0:0,0:1,9:0 {le(7)}"], "13", "13 7 7", "13 7 7"),
    ("a block past the code", ["func - 0:1", "live 0"], "15", "panic", "panic"),
    ("blocks that share an instruction", ["func - 0:1,0:1", "inst 1 - - -", "live 0"], "15", "0 0=-;0=-", "0 0=-;0=-"),
    ("pins that do not rise", TWO_DEAD + ["recycle 1,0", "page"], "14", LOST, LOST),
    ("a free slot beyond the slots", [f"load 1 {NAMES};1,0,4096,0,0,1,0,0;{COLUMNS};free;0;quarantine;sealed; 64", "alloc 2 0 0 -"], "1", "panic", "panic"),
    ("a write to a dead slot", ["new 1 1 64", "alloc 2 0 0 -", f"free {h(0, 1)}", "write 0 0 -", "raw"], None, "0 2/Bytes/0/1/dead ", "0 2/Bytes/0/1/dead "),
    # The oracle's `write` tests the range first, its `rawwrite` calls `data_mut` first.
    ("a write beyond the visible data", ["new 1 1 64", "alloc 2 0 0 -", "rawwrite 0 1 41", "stamp 0"], None, "0 1 1", "0 1 1"),
    ("the same, tested first", ["new 1 1 64", "alloc 2 0 0 -", "write 0 1 41", "stamp 0"], "0 1 0", "0 1 0", "0 1 0"),
    ("a dead slot's leftovers", ["new 1 1 64", "alloc 1 9 3 41", f"free {h(0, 1)}", "raw"], None, "0 2/Typed(TyId(9))/3/0/dead ", "0 2/Typed(TyId(9))/3/0/dead "),
    ("the epoch's end", ["new 1 1 64", "alloc 2 0 0 -", f"setepoch {U64} {LOG}", f"edit {h(0, 1)} - 0"], "0 0", "0 0", "panic"),
    # The script's word for the public call's 11.
    ("no descriptor size", ["table", "descsize 0"], "none", "none", "none"),
]


def last(path, lines):
    got, end = answers(path, lines, 60)
    return got[-1] if len(got) == len(lines) or got[-1:] == ["hang"] else f"{len(got)} answers, ends with {end}"


def main():
    p = argparse.ArgumentParser(description=__doc__.splitlines()[0])
    p.add_argument("--oracle", required=True)
    p.add_argument("--checked", required=True)
    p.add_argument("--replay")
    a = p.parse_args()
    wrong = 0
    for name, lines, port, release, checked in ROWS:
        print(name)
        for who, path, wanted in (("release", a.oracle, release), ("checked", a.checked, checked), ("port", a.replay, port)):
            if path is None or wanted is None:
                continue
            # 1 and 14 are answers to the line before the last
            early = who == "port" and wanted in ("1", "14")
            got = last(path, lines[:-1] if early else lines)
            good = got.startswith("panic") if wanted == "panic" else got == wanted
            wrong += not good
            print(f"  {who}: {got}" + ("" if good else f"   NOT {wanted}"))
    return 1 if wrong else 0


if __name__ == "__main__":
    sys.exit(main())
