"""The two programs behind pipes: the oracle one line at a time, and either of them over a whole script."""

import os
import subprocess

from known import earlier


class Hang(Exception):
    pass


# The oracle has no `pagelen`: it is asked for the page, whose bytes are counted. A page is loaded in its earliest form.
def to_oracle(line):
    if line.startswith("load "):
        words = line.split(" ")
        return " ".join([*words[:2], earlier(words[2]), *words[3:]])
    return "page" if line == "pagelen" else line


def from_oracle(line, answer):
    return f"0 {len(answer) - 2}" if line == "pagelen" and answer.startswith("0 ") else answer


class Oracle:
    """The oracle in the loop of the generator, which needs its handles. The Rust's stale (4) is two answers in the port: it is told as 19 where the slot index is not below the slot count."""

    def __init__(self, path, seconds=5):
        env = dict(os.environ, ORACLE_FLUSH="1", ORACLE_SECONDS=str(seconds))
        self.p = subprocess.Popen([path], stdin=subprocess.PIPE, stdout=subprocess.PIPE, env=env, bufsize=1 << 16)

    def ask(self, line):
        before = self.epoch() if line.startswith("run ") else 0
        answer = self.told(line)
        return "19" if answer == "4" and self.never_issued(line, before) else answer

    def epoch(self):
        return int(self.told("epoch").split(" ")[1])

    def never_issued(self, line, before):
        """Was the stale handle's slot never there? A refused call keeps the slot count. A script is refused at the take after those that have each raised the epoch."""
        command, first = line.split(" ")[:2]
        if command == "run":
            takes = [x.split(",")[1] for x in first.split(";") if x.startswith("take,")]
            first = takes[(self.epoch() - before) % (1 << 64)]
        return (int(first) >> 32 & 0xFFFFFF) >= int(self.told("slots").split(" ")[1])

    def told(self, line):
        self.p.stdin.write(to_oracle(line).encode() + b"\n")
        self.p.stdin.flush()
        answer = self.p.stdout.readline().decode().rstrip("\n")
        if answer in ("hang", ""):
            raise Hang(line)
        return from_oracle(line, answer)

    def close(self):
        self.p.stdin.close()
        self.p.stdout.close()
        self.p.wait()


def answers(path, lines, seconds=600):
    """What the program prints for a script, and how it ended (0, another code, or `time`)."""
    env = dict(os.environ, ORACLE_SECONDS="5")
    try:
        r = subprocess.run(
            [path], input=("\n".join(lines) + "\n").encode(), stdout=subprocess.PIPE, stderr=subprocess.DEVNULL, env=env, timeout=seconds
        )
    except subprocess.TimeoutExpired as e:
        return (e.stdout or b"").decode(errors="replace").splitlines(), "time"
    return r.stdout.decode(errors="replace").splitlines(), r.returncode


def oracle_answers(path, lines, seconds=600):
    """The same of the oracle."""
    told, end = answers(path, [to_oracle(x) for x in lines], seconds)
    return [from_oracle(x, y) for x, y in zip(lines, told)] + told[len(lines) :], end
