#!/usr/bin/env python3
"""Holds the plain boxes of the benchmark to the independent model in tests/: bench/against_model.py [ROUNDS]."""
import os
import random
import subprocess
import sys

ROOT = os.path.dirname(os.path.dirname(os.path.abspath(__file__)))
sys.path.insert(0, os.path.join(ROOT, "tests"))
sys.dont_write_bytecode = True

import model
import traffic

BOXES = ("ideal", "scanning", "tables")


def answers(box, data):
    program = os.path.join(ROOT, "target", "bench", "plain")
    return subprocess.run([program, "answer", box], input=data, stdout=subprocess.PIPE, check=True).stdout


def streams(rounds):
    """Streams with their names: short ones for each number of lines, bytes changed, noise, and long full ones."""
    for seed in range(rounds):
        for n in range(1, 33):
            rng = random.Random(100 * n + seed)
            pattern = rng.choice(sorted(traffic.PATTERNS))
            words = traffic.stream(pattern, n, rng.randint(5, 80), seed, rng.choice([0.3, 0.9, 1.0]), rng.choice([0.0, 0.1, 0.4]))
            data = b"".join(model.frame(word) for word in words)
            yield "%s n=%d seed=%d" % (pattern, n, seed), data
            broken = bytearray(data)
            for _ in range(rng.randint(1, 5)):
                broken[rng.randrange(len(broken))] = rng.randrange(256)
            yield "%s n=%d seed=%d, bytes changed" % (pattern, n, seed), bytes(broken)
            yield "noise seed=%d" % (100 * n + seed), rng.randbytes(rng.randint(1, 3000))
        for pattern in ("full", "chorus", "rounds"):
            for n in (7, 32):
                words = traffic.stream(pattern, n, 700, seed, damage=0.02)
                yield "long %s n=%d seed=%d" % (pattern, n, seed), b"".join(model.frame(word) for word in words)


def main():
    subprocess.run([os.path.join(ROOT, "bench", "run"), "--help"], stdout=subprocess.DEVNULL, check=True)
    passed = failed = 0
    for name, data in streams(int(sys.argv[1]) if len(sys.argv) > 1 else 3):
        want = model.answers(data)
        for box in BOXES:
            if answers(box, data) == want:
                passed += 1
            else:
                failed += 1
                print("FAILED: %s, %s" % (box, name))
    print("%d passed, %d failed" % (passed, failed))
    return 1 if failed else 0


if __name__ == "__main__":
    sys.exit(main())
