#!/usr/bin/env python3
"""An independent model of the ideal box: words in, answers out.

    model.py [--hex] < stream > answers

A word is answered by bytes, or by None where it has no answer (settings that were taken).
"""
import sys

ROOM = 256          # cells that a queue holds
MOST_LINES = 32
BODY = 64           # bytes of a cell
NONE = 255
SLOT_LIMIT = 2 ** 32

SETTINGS, SLOT, ANSWER, CHOICE, REFUSAL = 1, 2, 3, 4, 5
MALFORMED, LINES, NO_OUTPUT, TOO_LATE = 1, 2, 3, 4


def read_slot(word, n):
    """What arrives by each input, None or (output, 64 bytes), and the faults of the word."""
    arrivals, faults, at = [], set(), 1
    for _ in range(n):
        if at >= len(word):
            faults.add(MALFORMED)
            break
        output = word[at]
        at += 1
        if output == NONE:
            arrivals.append(None)
            continue
        if output >= n:
            faults.add(NO_OUTPUT)
        body = word[at:at + BODY]
        at += BODY
        if len(body) < BODY:
            faults.add(MALFORMED)
            break
        arrivals.append((output, body))
    if at != len(word):
        faults.add(MALFORMED)
    return arrivals, faults


class Ideal:
    """A queue for each output; in a slot what arrives is queued by input, then the first of each queue leaves."""

    def __init__(self):
        self.n = None
        self.slots = 0
        self.queues = []

    def word(self, word):
        kind = word[0] if word else None
        if kind == SETTINGS:
            return self.settings(word)
        if kind == SLOT and self.n is not None:
            return self.slot(word)
        return refusal({MALFORMED})

    def settings(self, word):
        faults = set()
        if len(word) != 2:
            faults.add(MALFORMED)
        if len(word) >= 2 and not 1 <= word[1] <= MOST_LINES:
            faults.add(LINES)
        if faults:
            return refusal(faults)
        self.n, self.slots = word[1], 0
        self.queues = [[] for _ in range(self.n)]
        return None

    def slot(self, word):
        arrivals, faults = read_slot(word, self.n)
        if self.slots >= SLOT_LIMIT:
            faults.add(TOO_LATE)
        if faults:
            return refusal(faults)
        turned_away = bytearray(self.n)
        for source, arrival in enumerate(arrivals):
            if arrival is None:
                continue
            output, body = arrival
            if len(self.queues[output]) >= ROOM:
                turned_away[source] = 1
            else:
                self.queues[output].append((source, self.slots, body))
        answer = bytearray([ANSWER])
        for queue in self.queues:
            if not queue:
                answer.append(NONE)
                continue
            source, slot, body = queue.pop(0)
            answer.append(source)
            answer += slot.to_bytes(4, "big") + body
        self.slots += 1
        return bytes(answer + turned_away)


def refusal(faults):
    return bytes([REFUSAL, min(faults)])


def words_of_frames(data):
    """The words of a stream of frames; a frame that the end cuts counts as the empty word."""
    at = 0
    while at < len(data):
        size = int.from_bytes(data[at:at + 2], "big")
        if at + 2 + size > len(data):
            yield b""
            return
        yield data[at + 2:at + 2 + size]
        at += 2 + size


def words_of_lines(data):
    """The words of a stream of lines; a line that is no row of whole bytes counts as the empty word."""
    lines = data.split(b"\n")
    if lines[-1] == b"":
        lines.pop()
    for line in lines:
        digits = line.translate(None, b" \t\r")
        try:
            yield bytes.fromhex(digits.decode("ascii")) if digits.isalnum() else b""
        except ValueError:
            yield b""


def frame(word):
    return len(word).to_bytes(2, "big") + word


def hex_line(word):
    return word.hex().encode() + b"\n"


def answers(data, hex_lines=False):
    """All that a program over the ideal box writes for this input."""
    words, spell = (words_of_lines, hex_line) if hex_lines else (words_of_frames, frame)
    box = Ideal()
    given = (box.word(word) for word in words(data))
    return b"".join(spell(answer) for answer in given if answer is not None)


if __name__ == "__main__":
    sys.stdout.buffer.write(answers(sys.stdin.buffer.read(), "--hex" in sys.argv[1:]))
