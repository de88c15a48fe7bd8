#!/usr/bin/env python3
"""Seeded traffic for a box: streams of words, with damage where it is asked for.

    traffic.py PATTERN [--n 8] [--slots 200] [--seed 1] [--load 0.9] [--damage P] > stream

A row is what arrives in a slot: for each input None or an output. A pattern gives rows for ever.
"""
import argparse
import random
import sys

from model import BODY, CHOICE, NONE, SETTINGS, SLOT, frame


def settings_word(n):
    return bytes([SETTINGS, n])


def slot_word(row, rng):
    word = bytearray([SLOT])
    for output in row:
        if output is None:
            word.append(NONE)
        else:
            word.append(output)
            word += rng.randbytes(BODY)
    return bytes(word)


def uniform(rng, n, load):
    while True:
        yield [rng.randrange(n) if rng.random() < load else None for _ in range(n)]


def chorus(rng, n, load):
    """For a while many inputs send to one output, the others elsewhere."""
    while True:
        hot = rng.randrange(n)
        singers = set(rng.sample(range(n), rng.randint(1, n)))
        for _ in range(rng.randint(5, 60)):
            yield [hot if i in singers else rng.randrange(n) if rng.random() < load else None for i in range(n)]


def burst(rng, n, load):
    """Each input sends to one output for a while, then is silent."""
    to = [None] * n
    while True:
        for i in range(n):
            if rng.random() < 1 / 12:
                to[i] = rng.randrange(n) if rng.random() < load else None
        yield list(to)


def rounds(rng, n, load):
    """All inputs send to one output for some slots, then each to one of its own."""
    while True:
        output = rng.randrange(n)
        for _ in range(rng.randint(1, n)):
            yield [output] * n
        own = list(range(n))
        for _ in range(rng.randint(1, n + 2)):
            rng.shuffle(own)
            yield [o if rng.random() < load else None for o in own]


def full(rng, n, load):
    """Every input sends in every slot, nearly all to few outputs: queues are full, and cells are turned away."""
    few = rng.sample(range(n), max(1, n // 4))
    while True:
        yield [rng.choice(few) if rng.random() < 0.9 else rng.randrange(n) for _ in range(n)]


def silent(rng, n, load):
    while True:
        yield [None] * n


def mix(rng, n, load):
    """Stretches of the others."""
    while True:
        rows = rng.choice([uniform, chorus, burst, rounds, full, silent])(rng, n, load)
        for _ in range(rng.randint(1, 25)):
            yield next(rows)


PATTERNS = {p.__name__: p for p in (uniform, chorus, burst, rounds, full, silent, mix)}


def damaged(rng, n, word):
    """A word that is wrong, nearly always, made from a right one for n lines."""
    def wrong():
        return rng.choice([n, 32, 33, 254, rng.randint(n, 254)])

    row = [rng.randrange(n) if rng.random() < 0.6 else None for _ in range(n)]
    kind = rng.randrange(12)
    if kind == 0:
        return b""
    if kind == 1:
        return word[:rng.randrange(len(word))]
    if kind == 2:
        return word + rng.randbytes(rng.choice([1, 1, 2, 64, 65, 300]))
    if kind == 3:
        return bytes([rng.randrange(256)]) + word[1:]
    if kind == 4:
        return bytes([rng.choice([0, 3, 4, 5, 6, 128, 255])])
    if kind == 5:
        return settings_word(rng.choice([0, 33, 64, 255]))
    if kind == 6:
        return bytes([SETTINGS]) + rng.randbytes(rng.choice([0, 2, 3, 66]))
    if kind == 7:
        row[rng.randrange(n)] = wrong()
        return slot_word(row, rng)
    if kind == 8:
        row[rng.randrange(n)] = wrong()
        whole = slot_word(row, rng)
        return rng.choice([whole[:-1], whole + b"\0", whole[:len(whole) // 2]])
    if kind == 9:
        return slot_word(row + [None], rng)
    if kind == 10:
        return bytes([CHOICE] + [NONE if o is None else o for o in row])
    changed = bytearray(slot_word(row, rng))
    changed[rng.randrange(len(changed))] = rng.randrange(256)
    return bytes(changed)


def stream(pattern, n, slots, seed, load=0.9, damage=0.0):
    """The words of a stream: settings, then slots; before each, with this chance, damaged words and new settings."""
    rng = random.Random("%s %d %d" % (pattern, n, seed))
    rows = PATTERNS[pattern](rng, n, load)
    words = [settings_word(n)] + [slot_word(next(rows), rng) for _ in range(slots)]
    for word in words:
        while rng.random() < damage:
            yield damaged(rng, n, word)
        if rng.random() < damage / 20:
            yield settings_word(n)
        yield word


def main():
    ap = argparse.ArgumentParser()
    ap.add_argument("pattern", choices=sorted(PATTERNS))
    ap.add_argument("--n", type=int, default=8)
    ap.add_argument("--slots", type=int, default=200)
    ap.add_argument("--seed", type=int, default=1)
    ap.add_argument("--load", type=float, default=0.9)
    ap.add_argument("--damage", type=float, default=0.0)
    a = ap.parse_args()
    for word in stream(a.pattern, a.n, a.slots, a.seed, a.load, a.damage):
        sys.stdout.buffer.write(frame(word))


if __name__ == "__main__":
    main()
