#!/usr/bin/env python3
"""packing.py: how well pages pack with data and with byte planes (docs/FORMAT.md, section 2). Python 3; xz and zstd where they are at hand, gzip, bzip2 and xz else from the standard library.

Prints the table of docs/PERFORMANCE.md. The heaps are made here, with a fixed seed: arrays of counters, arrays of reals, Handles objects, and one heap with counters, reals and handles. Every page is read back before it is packed."""
import bz2
import gzip
import lzma
import math
import os
import random
import shutil
import struct
import subprocess
import sys

sys.path.insert(0, os.path.join(os.path.dirname(os.path.abspath(__file__)), "..", "docs", "samples"))
import reader

OBJECTS, WORDS = 256, 64


def counters(rng, i):
    """An Int array: a count that goes on by small steps, as event counts and times do."""
    n, words = rng.randrange(1 << 40), []
    for _ in range(WORDS):
        n += rng.choice([1, 1, 1, 2, 5, 10])
        words.append(n)
    return 2, struct.pack(f"<{WORDS}Q", *words)


def wave(rng):
    phase, size = rng.random() * 6, 1 + rng.random()
    return [size * math.sin(phase + k / 50) for k in range(WORDS)]


def reals(rng, i):
    """A Real array: a wave in steps, as a sampled signal is."""
    return 2, struct.pack(f"<{WORDS}d", *wave(rng))


def rounded(rng, i):
    """The same rounded to four digits, so that values come again."""
    return 2, struct.pack(f"<{WORDS}d", *(round(x, 4) for x in wave(rng)))


def handles(rng, i):
    """A Handles object: 24 bytes, then handles of tag 1 to objects near by."""
    return 3, bytes(24) + struct.pack(f"<{WORDS}Q", *(1 << 56 | (i + k) % OBJECTS << 32 | 1 for k in range(WORDS)))


def page(objects, column):
    """The page of a heap of these objects, none of them ever written or collected."""
    since = min(sum(len(d) + 32 for _, d in objects), 2 ** 64 - 1)
    text = ",".join(reader.HEADS[-1]) + f"\n1,{since},4096,0,{len(objects)},0,0,0,0\n" + f"generation,kind,type,start,writes64,{column}\n"
    for kind, data in objects:
        text += f"1,{kind},0,0,0,{(reader.planes(data) if column == 'planes' else data).hex()}\n"
    return (text + "free\nquarantine\nsealed\nretired\n").encode()


def piped(*command):
    return lambda text: subprocess.run(command, input=text, capture_output=True, check=True).stdout


def packers():
    yield "gzip -9", lambda text: gzip.compress(text, 9, mtime=0)
    yield "bzip2 -9", lambda text: bz2.compress(text, 9)
    yield "xz -9e", piped("xz", "-9e", "-c") if shutil.which("xz") else lambda text: lzma.compress(text, preset=9 | lzma.PRESET_EXTREME)
    if shutil.which("zstd"):
        yield "zstd -19", piped("zstd", "-19", "-q", "-c")


def main():
    rng = random.Random(11)
    heaps = {name: [make(rng, i) for i in range(OBJECTS)] for name, make in (("counters", counters), ("reals", reals), ("reals of four digits", rounded), ("handles", handles))}
    heaps["counters, reals, handles"] = [(counters, reals, handles)[i % 3](rng, i) for i in range(OBJECTS)]
    tools = list(packers())
    print("| Heap | Page (bytes) | " + " | ".join(f"{name}: data | planes | planes / data" for name, _ in tools) + " |")
    print("|---|---|" + "---|---|---|" * len(tools))
    for name, objects in heaps.items():
        data, planes = page(objects, "data"), page(objects, "planes")
        for text in (data, planes):
            heap = reader.read_page(text)
            assert [(s["kind"], s["data"]) for s in heap["slots"]] == objects
        assert len(planes) == len(data) + 2
        row = [name, f"{len(data):,}"]
        for _, pack in tools:
            a, b = len(pack(data)), len(pack(planes))
            row += [f"{a:,}", f"{b:,}", f"{b / a:.2f}"]
        print("| " + " | ".join(row) + " |")


if __name__ == "__main__":
    main()
