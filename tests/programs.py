#!/usr/bin/env python3
"""Runs the programs as processes and compares what they write with the independent model.

    programs.py [NAME..]      the programs whose answers are the ideal box's; 'best' and 'box' where none is named
"""
import os
import random
import subprocess
import sys
import time

import model
import traffic

ROOT = os.path.dirname(os.path.dirname(os.path.abspath(__file__)))
passed = failed = 0


def program(name):
    """Where a program lies when ./run has built it."""
    return os.path.join(ROOT, "crates", name + "_cli", "out", name + "_cli")


def check(what, good):
    global passed, failed
    if good:
        passed += 1
    else:
        failed += 1
        print("FAILED: " + what)


def run(name, args=(), data=b"", **more):
    command = [program(name), *args]
    if "stdin" not in more:
        more["input"] = data
    if "stdout" not in more:
        more["stdout"] = subprocess.PIPE
    return subprocess.run(command, stderr=subprocess.PIPE, **more)


def arguments(name):
    helped = run(name, ["--help"])
    check(name + " --help ends well", helped.returncode == 0 and helped.stderr == b"")
    check(name + " --help says its name", helped.stdout.startswith(b"usage: " + name.encode()))
    for args in (["--what"], ["--hex", "x"], [""], ["-h"]):
        wrong = run(name, args, b"\0\2\1\1")
        check("%s %s is an error" % (name, args), wrong.returncode == 1 and wrong.stdout == b"" and b"unknown argument" in wrong.stderr)


def files(name):
    folder = os.open("/", os.O_RDONLY)
    unread = run(name, stdin=folder)
    os.close(folder)
    check(name + ": an input that can't be read", unread.returncode == 1 and b"input" in unread.stderr)
    with open("/dev/full", "wb") as full:
        unwritten = run(name, data=b"\0\0", stdout=full)
    check(name + ": an output that can't be written", unwritten.returncode == 1 and b"output" in unwritten.stderr)
    closed = subprocess.run(["sh", "-c", 'exec "$0" >&-', program(name)], input=b"\0\0", stderr=subprocess.PIPE)
    check(name + ": a closed output", closed.returncode == 1 and b"output" in closed.stderr)
    helped = subprocess.run(["sh", "-c", 'exec "$0" --help >&-', program(name)], stderr=subprocess.PIPE)
    check(name + ": --help with a closed output", helped.returncode == 1)
    empty = run(name)
    check(name + ": an empty input", empty.returncode == 0 and empty.stdout == b"" and empty.stderr == b"")


def same(name, what, data, args=()):
    got = run(name, args, data)
    check("%s %s: %s" % (name, " ".join(args), what), got.returncode == 0 and got.stdout == model.answers(data, "--hex" in args))


def prompt(name):
    """Answers to all that has come are written before the program waits for more."""
    p = subprocess.Popen([program(name)], stdin=subprocess.PIPE, stdout=subprocess.PIPE)
    words = [b"\1\3", b"\2\xff\xff\xff", b"\2" + b"\1" + bytes(64) + b"\xff\xff", b"", b"\2\xff"]
    box, good = model.Ideal(), True
    for word in words:
        p.stdin.write(model.frame(word))
        p.stdin.flush()
        answer = box.word(word)
        if answer is not None:
            want = model.frame(answer)
            good = good and p.stdout.read(len(want)) == want
    p.stdin.write(b"\0")
    p.stdin.flush()
    time.sleep(0.1)
    p.stdin.write(b"\1\7")
    p.stdin.close()
    good = good and p.stdout.read() == model.frame(b"\5\1")
    check(name + " answers before it waits", p.wait() == 0 and good)


def cuts(name, seed):
    """A stream of a few kB, cut at every byte."""
    data = b"".join(model.frame(w) for w in traffic.stream("mix", 3, 12, seed, damage=0.3))[:2500]
    for end in range(len(data) + 1):
        same(name, "stream %d cut at %d" % (seed, end), data[:end])


def line_cuts(name, seed):
    data = hex_of(traffic.stream("mix", 2, 4, seed, damage=0.3), random.Random(seed))[:1500]
    for end in range(len(data) + 1):
        same(name, "lines %d cut at %d" % (seed, end), data[:end], ["--hex"])


def hex_of(words, rng):
    """Words as lines, with blanks and capital letters, and lines that are no words."""
    out = []
    for word in words:
        line = word.hex()
        kind = rng.randrange(6)
        if kind == 0:
            line = line.upper()
        elif kind == 1:
            line = " ".join(line[i:i + 2] for i in range(0, len(line), 2)) + "\r"
        elif kind == 2 and rng.random() < 0.3:
            line = rng.choice(["0", "0g", "xyz", line + "f", line + "!", "\t", "", "\xff", "0x01", "1 2 3"])
        out.append(line)
    return ("\n".join(out) + "\n").encode("latin-1")


def random_streams(name, rounds):
    for seed in range(rounds):
        for n in range(1, 33):
            rng = random.Random(1000 * n + seed)
            pattern = rng.choice(sorted(traffic.PATTERNS))
            words = list(traffic.stream(pattern, n, rng.randint(5, 60), seed, rng.choice([0.3, 0.9, 1.0]), rng.choice([0.0, 0.1, 0.4])))
            data = b"".join(model.frame(w) for w in words)
            same(name, "%s n=%d seed=%d" % (pattern, n, seed), data)
            same(name, "%s n=%d seed=%d" % (pattern, n, seed), hex_of(words, rng), ["--hex"])
            broken = bytearray(data)
            for _ in range(rng.randint(1, 5)):
                broken[rng.randrange(len(broken))] = rng.randrange(256)
            same(name, "%s n=%d seed=%d, bytes changed" % (pattern, n, seed), bytes(broken))
            same(name, "noise n=%d seed=%d" % (n, seed), rng.randbytes(rng.randint(1, 3000)))


def long_streams(name):
    """Queues that fill up and turn away, over many large reads."""
    for n, slots in ((1, 600), (2, 900), (8, 600), (32, 400)):
        data = b"".join(model.frame(w) for w in traffic.stream("full", n, slots, n))
        same(name, "full n=%d" % n, data)


def main():
    for name in sys.argv[1:] or ["best", "box"]:
        arguments(name)
        files(name)
        prompt(name)
        long_streams(name)
        random_streams(name, int(os.environ.get("ROUNDS", "8")))
        for seed in (1, 2):
            cuts(name, seed)
        line_cuts(name, 1)
    print("%d passed, %d failed" % (passed, failed))
    return 1 if failed else 0


if __name__ == "__main__":
    sys.exit(main())
