#!/usr/bin/env python3
"""Runs scripts through the oracle and through replay and compares the answers line by line.

    compare.py --oracle PATH [--replay PATH] --seeds 1-20 [--lines 2000]     scripts made from seeds
    compare.py --oracle PATH --replay PATH --script FILE                     a script from a file
    compare.py --oracle PATH --replay PATH --shapes                          the fixed scripts of shapes.py; --large for the large ones

Without --replay it runs the oracle alone and prints the spread of its answers. A disagreement is cut down to a smallest script and printed.
The end is a table of calls by command and answer, and one line of sums."""

import argparse
import collections
import sys
import time

import generate
import known
import shapes
from machine import answers, oracle_answers

YES_NO = ("gcdue", "reclaimdue", "hasquarantine", "isplain", "hashandles")


def commands(lines):
    return [x for x in lines if x and not x.startswith("#")]


def kind(line, answer):
    """The pair that is counted: a command and its answer's number (for a question also what was told)."""
    command = line.split(" ", 1)[0]
    told = answer if command in YES_NO else known.number(answer)
    return command, told


def unlike(lines, left, right):
    """The first line that is not answered alike, or None. Lines that were not answered are not alike."""
    for k, line in enumerate(lines):
        a, b = (left[k] if k < len(left) else "nothing"), (right[k] if k < len(right) else "nothing")
        if known.same(line.split(" ", 1)[0], a, b) is None:
            return k, a, b
    return None


class Pair:
    def __init__(self, oracle, replay):
        self.oracle, self.replay = oracle, replay

    def unlike(self, lines):
        return unlike(lines, oracle_answers(self.oracle, lines, 60)[0], answers(self.replay, lines, 60)[0])

    def fails(self, lines, command):
        """Is the last line, a call of this command, the first one not answered alike? A panic or hang of the oracle is another matter."""
        if not lines or lines[-1].split(" ", 1)[0] != command:
            return False
        found = self.unlike(lines)
        if found is None or found[0] != len(lines) - 1:
            return False
        return not found[1].startswith(("panic", "bad", "hang")) and known.outside(command, found[1], found[2]) is None

    def smallest(self, lines, seconds=120):
        """Delta debugging: lines first, then what stands in them."""
        end = time.time() + seconds
        command = lines[-1].split(" ", 1)[0]
        if not self.fails(lines, command):
            return lines
        chunk = max(1, len(lines) // 2)
        while time.time() < end:
            k, cut = 0, False
            while k < len(lines) - 1 and time.time() < end:
                trial = lines[:k] + lines[min(k + chunk, len(lines) - 1) :]
                if self.fails(trial, command):
                    lines, cut = trial, True
                else:
                    k += chunk
            if chunk == 1 and not cut:
                break
            chunk = max(1, chunk // 2)
        return self.shorter_fields(lines, command, end)

    def shorter_fields(self, lines, command, end):
        again = True
        while again and time.time() < end:
            again = False
            for k in range(len(lines)):
                for trial in shorter(lines[k]):
                    if time.time() > end:
                        break
                    new = lines[:k] + [trial] + lines[k + 1 :]
                    if self.fails(new, command):
                        lines, again = new, True
                        break
        return lines


def shorter(line):
    """The line with one field made smaller."""
    parts = line.split(" ")
    for k in range(1, len(parts)):
        f, small = parts[k], []
        if parts[0] == "run" and f.endswith(";"):
            calls = f.split(";")[:-1]
            small = ["".join(x + ";" for x in calls[:j] + calls[j + 1 :]) or "-" for j in range(len(calls))]
        elif "," in f and ";" not in f:
            items = f.split(",")
            small = [",".join(items[:j] + items[j + 1 :]) for j in range(len(items))]
        elif f.isdecimal() and len(f) < 21 and f not in ("0", "1"):
            small = ["0", "1", str(int(f) // 2)]
        elif len(f) > 2 and all(c in "0123456789abcdef" for c in f):
            small = ["-", f[: len(f) // 4 * 2], f[:-2], "00" * (len(f) // 2)]
        for s in small:
            if s != f:
                yield " ".join(parts[:k] + [s] + parts[k + 1 :])


class Sums:
    def __init__(self):
        self.counts, self.notes = collections.Counter(), collections.Counter()
        self.calls = self.scripts = self.disagreements = 0

    def add(self, lines, left, right=None):
        self.scripts += 1
        self.calls += len(lines)
        for k, line in enumerate(lines):
            self.counts[kind(line, left[k])] += 1
            if right is not None and k < len(right) and right[k] != left[k]:
                name = known.same(line.split(" ", 1)[0], left[k], right[k])
                self.notes[name or "not alike"] += 1

    def table(self):
        heads = sorted({n for _, n in self.counts}, key=order)
        rows = [["command"] + heads]
        for c in sorted({c for c, _ in self.counts}):
            rows.append([c] + [str(self.counts[c, n] or "") for n in heads])
        rows.append(["all"] + [str(sum(v for (_, n), v in self.counts.items() if n == h)) for h in heads])
        wide = [max(len(r[k]) for r in rows) for k in range(len(heads) + 1)]
        return "\n".join("  ".join(x.rjust(w) if k else x.ljust(w) for k, (x, w) in enumerate(zip(r, wide))) for r in rows)


def order(n):
    return (0, int(n.split(" ")[0]), n) if n.split(" ")[0].isdecimal() else (1, 0, n)


def report(name, pair, lines, found):
    k, a, b = found
    print(f"{name}: line {k + 1} is not answered alike\n  {lines[k][:300]}\n  oracle {a[:300]}\n  replay {b[:300]}")
    note = known.outside(lines[k].split(" ", 1)[0], a, b)
    if note:
        print(f"  a named difference: {note}: {known.OUTSIDE[note]}")
        return
    small = pair.smallest(lines[: k + 1])
    print("  smallest script:")
    for line in small:
        print("    " + line)
    print("  oracle " + oracle_answers(pair.oracle, small)[0][-1][:300])
    got = answers(pair.replay, small)
    print(f"  replay {got[0][-1][:300] if len(got[0]) == len(small) else 'nothing'} (ends with {got[1]})")
    sys.stdout.flush()


def seeds(text):
    for part in text.split(","):
        a, _, b = part.partition("-")
        yield from range(int(a), int(b or a) + 1)


HEAP = set(
    "new load setepoch alloc fill edit write reissue take free recycle seal gcdue reclaimdue hasquarantine isplain "
    "run resolve data kind stamp slots page pagelen epoch".split()
)


def heap_only(oracle, lines):
    """The commands on the heap alone, collections apart, with the oracle's answers to them."""
    kept = [x for x in lines if x.split(" ", 1)[0] in HEAP]
    left = oracle_answers(oracle, kept)[0]
    return kept[: len(left)], left


def scripts(a):
    """Name, lines and the oracle's answers of each script that was asked for."""
    fixed, without = [], ["collect", "joined"] if a.heap else a.without.split(",")
    if a.script:
        with open(a.script) as f:
            fixed.append((a.script, commands(f.read().splitlines())))
    if a.shapes:
        fixed += [(s.__name__, [x for x in s() if x.split(" ", 1)[0] not in without]) for s in shapes.ALL]
    if a.large:
        fixed += [(s.__name__, list(s())) for s in shapes.LARGE]
    for name, lines in fixed:
        left = oracle_answers(a.oracle, lines)[0]
        yield name, lines[: len(left)], left
    for seed in seeds(a.seeds) if a.seeds else []:
        lines, left = generate.script(a.oracle, seed, a.lines, without=without)
        yield f"seed {seed}", *(heap_only(a.oracle, lines) if a.heap else (lines, left))


def main():
    p = argparse.ArgumentParser(description=__doc__.splitlines()[0])
    p.add_argument("--oracle", required=True)
    p.add_argument("--replay")
    p.add_argument("--seeds", help="numbers and ranges, such as 1-20,77")
    p.add_argument("--lines", type=int, default=2000, help="lines a script, at least")
    p.add_argument("--script", help="a script instead of seeds")
    p.add_argument("--shapes", action="store_true", help="the fixed scripts instead of seeds")
    p.add_argument("--large", action="store_true", help="the large fixed scripts instead of seeds")
    p.add_argument("--without", default="", help="commands to leave out of the scripts: collect, joined or both")
    p.add_argument("--heap", action="store_true", help="of the scripts from seeds only the commands on the heap, collections apart")
    p.add_argument("--stop", type=int, default=5, help="disagreements after which to stop")
    a = p.parse_args()
    sums, began, found_all = Sums(), time.time(), []
    pair = Pair(a.oracle, a.replay)
    for name, lines, left in scripts(a):
        right = answers(a.replay, lines)[0] if a.replay else None
        sums.add(lines, left, right)
        if right is None:
            continue
        found = unlike(lines, left, right)
        if found:
            sums.disagreements += 1
            report(name, pair, lines, found)
            if sums.disagreements >= a.stop:
                break
    print(sums.table())
    for name, n in sorted(sums.notes.items()):
        print(f"{name}: {n}")
    print(f"scripts {sums.scripts}, calls {sums.calls}, seconds {time.time() - began:.1f}, scripts with a disagreement {sums.disagreements}")
    return 1 if sums.disagreements else 0


if __name__ == "__main__":
    sys.exit(main())
