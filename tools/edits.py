#!/usr/bin/env python3
"""Reads each edit of crates/NAME/must-fail and crates/NAME/wrong, and says where one no longer fits the file that it changes.

usage: python3 tools/edits.py [--show] [NAME..]        at the top of the repository
       python3 tools/edits.py --try [NAME..]           has `rt must-fail` try the edits of wrong/, in a copy of the repository

The gate tries those of must-fail/. Those of wrong/ take a crate that is proved slowly, or show what another edit shows: they are tried outside it.
Applies the pairs of an edit in turn to a copy of the text, as `rt` does. Told are: a file that is missing or outside src/, specs/ and proofs/,
an `old:` that does not stand or stands more than once, a `new:` that is the same text, an edit with no pair, and a pair cut in half.
`--show` prints each line that an edit makes, with its place. Whether the check refuses an edit is for `rt must-fail` to say. Ends with status 1 if
anything is told, or an edit that is tried is not refused.
"""
import glob
import os
import shutil
import subprocess
import sys
import tempfile


def steps_of(path):
    """The pairs of an edit, each with its file, and what is wrong with its lines."""
    name, old, steps, wrong = None, None, [], []
    with open(path, encoding="utf-8") as f:
        lines = f.read().split("\n")
    for line in lines:
        if line.startswith("file: "):
            name = line[len("file: ") :].strip()
        elif line.startswith("old: "):
            if old is not None:
                wrong.append("an old: with no new: after it")
            old = line[len("old: ") :]
        elif line.startswith("new:"):
            if name is None or not old:
                wrong.append("a new: before any file: or old:")
            else:
                steps.append((name, old, line[len("new:") :].removeprefix(" ")))
            old = None
    if old is not None:
        wrong.append("an old: with no new: after it")
    if not steps and not wrong:
        wrong.append("no pair")
    return steps, wrong


def told(path, show):
    """What is wrong with one edit, a list of lines."""
    steps, wrong = steps_of(path)
    if wrong:
        return wrong
    crate = os.path.dirname(os.path.dirname(path))
    texts = {}
    for name, old, new in steps:
        if os.path.normpath(name) != name or not name.startswith(("src/", "specs/", "proofs/")):
            wrong.append(f"{name}: not below src/, specs/ or proofs/")
            continue
        target = f"{crate}/{name}"
        if name not in texts:
            if not os.path.isfile(target):
                wrong.append(f"{name}: no such file")
                continue
            with open(target, encoding="utf-8") as f:
                texts[name] = f.read()
        count = texts[name].count(old)
        if count != 1:
            wrong.append(f"{name}: stands {count} times: {old}")
        elif old == new:
            wrong.append(f"{name}: new: is old: {old}")
        else:
            at = texts[name].index(old)
            texts[name] = texts[name].replace(old, new)
            if show:
                row = texts[name].count("\n", 0, at)
                print(f"{path}: {name}:{row + 1}: {texts[name].split(chr(10))[row].strip()}")
    return wrong


def tried(names):
    """Has rt try the edits of wrong/, and returns its status. Only a copy is changed."""
    names = [it for it in names or sorted(os.listdir("crates")) if os.path.isdir(f"crates/{it}/wrong")]
    with tempfile.TemporaryDirectory(prefix="edits-") as room:
        shutil.copytree("crates", f"{room}/crates", ignore=shutil.ignore_patterns("must-fail", "out"))
        shutil.copy("crates.txt", room)
        for name in names:
            os.rename(f"{room}/crates/{name}/wrong", f"{room}/crates/{name}/must-fail")
        return subprocess.run(["rt", "must-fail", *names], cwd=room).returncode if names else 0


def main():
    words = sys.argv[1:]
    show = "--show" in words
    names = [it for it in words if not it.startswith("--")]
    if "--try" in words:
        return tried(names)
    paths = sorted(glob.glob("crates/*/must-fail/*.edit") + glob.glob("crates/*/wrong/*.edit"))
    if names:
        paths = [it for it in paths if it.split("/")[1] in names]
    bad = 0
    for path in paths:
        lines = told(path, show)
        bad += bool(lines)
        for line in lines:
            print(f"{path}: {line}")
    print(f"edits: {len(paths)} read, {bad} that do not fit")
    return 1 if bad else 0


sys.exit(main())
