#!/usr/bin/env python3
"""A second, independent implementation of docs/MACHINE.md and docs/FORMATS.md: python3 tools/model.py < calls.gtm

It shares no code with the library, and is written to be read, not to be fast. tools/fuzz.py compares golden with it.
"""

import struct
import sys

END_OF_CLOCK = 1_000_000_000
LINES = 4096
ROWS = 4096
STORES = 32
WAYS = (
    (1, 2, 4, 8, 16, 32, 3, 6, 12, 24, 48, 33),
    (37, 11, 22, 44, 25, 50, 7, 14, 28, 56, 49, 35),
    (21, 42, 5, 10, 20, 40, 17, 34, 13, 26, 52, 41),
    (63, 31, 47, 55, 59, 61, 62, 1, 9, 18, 36, 27),
)


class ExactBook:
    """An entry for each line: write stamp, read mark, count of stores, owner."""

    def __init__(self):
        self.entries = {}

    def entry(self, line):
        return self.entries.setdefault(line, [0, (0, 0), 0, None])

    def line_state(self, line):
        return (*self.entry(line), True)

    def note(self, line, time):
        entry = self.entry(line)
        entry[1] = max(entry[1], time)

    def reserve(self, line, time):
        entry = self.entry(line)
        entry[0] = max(entry[0], time[0] + 1)
        entry[2:] = [1, time[1]]

    def add(self, line):
        self.entry(line)[2] += 1

    def release(self, line):
        self.entry(line)[2:] = [0, None]


class CondensedBook:
    """Sixteen slots of [line, write stamp, read mark, count, owner], and a filter for all other lines."""

    def __init__(self):
        self.slots = [None] * 16
        self.ways = [[[0, (0, 0)] for _ in range(64)] for _ in WAYS]

    def four(self, line):
        for way, numbers in zip(self.ways, WAYS):
            index = 0
            for bit, number in enumerate(numbers):
                if line >> bit & 1:
                    index ^= number
            yield way[index]

    def slot_of(self, line):
        return next((slot for slot in self.slots if slot and slot[0] == line), None)

    def place_to_take(self):
        keys = [(slot[1] if slot else 0, n) for n, slot in enumerate(self.slots) if not slot or slot[3] == 0]
        return min(keys)[1] if keys else None

    def line_state(self, line):
        slot = self.slot_of(line)
        if slot:
            return (*slot[1:], True)
        four = list(self.four(line))
        return min(e[0] for e in four), min(e[1] for e in four), 0, None, self.place_to_take() is not None

    def raise_entries(self, line, written, read):
        for entry in self.four(line):
            entry[:] = [max(entry[0], written), max(entry[1], read)]

    def note(self, line, time):
        slot = self.slot_of(line)
        if slot:
            slot[2] = max(slot[2], time)
        else:
            self.raise_entries(line, 0, time)

    def reserve(self, line, time):
        slot = self.slot_of(line)
        if not slot:
            written, read = self.line_state(line)[:2]
            place = self.place_to_take()
            out = self.slots[place]
            if out:
                self.raise_entries(*out[:3])
            slot = self.slots[place] = [line, written, read, 0, None]
        slot[1] = max(slot[1], time[0] + 1)
        slot[3:] = [1, time[1]]

    def add(self, line):
        self.slot_of(line)[3] += 1

    def release(self, line):
        slot = self.slot_of(line)
        if slot:
            slot[3:] = [0, None]


class Warp:
    def __init__(self, stamp):
        self.phase, self.stamp, self.log, self.outcome = "idle", stamp, [], None


class Machine:
    def __init__(self, book, stamps, values):
        self.book, self.memory = book, values
        self.warps = [Warp(stamp) for stamp in stamps]
        self.queue = []  # of (warp number, line, value to store or None)

    def refusal(self, letter, number, line):
        if number >= len(self.warps):
            return 1
        warp = self.warps[number]
        if warp.phase == "idle" and letter != "B":
            return 2
        if warp.phase != "idle" and letter == "B":
            return 3
        if warp.phase in ("waiting", "settled") and letter != "F":
            return 4
        if warp.phase == "open" and letter == "F":
            return 5
        if letter in "LS" and line >= min(len(self.memory), LINES):
            return 6
        if letter == "S" and len(warp.log) >= STORES:
            return 7
        if letter == "B" and warp.stamp > END_OF_CLOCK:
            return 8
        return None

    def call(self, letter, number, line, value):
        refusal = self.refusal(letter, number, line)
        if refusal:
            return f"no {refusal}"
        warp = self.warps[number]
        if letter == "B":
            warp.phase, warp.log = "open", []
            return "ok"
        if letter in "LS":
            return self.access(number, line, value if letter == "S" else None)
        if letter == "F":
            return self.fetch(number)
        if letter == "C":
            for at, stored in warp.log:
                self.memory[at] = stored
        self.end(number, warp.stamp)
        return "ok"

    def fetch(self, number):
        warp = self.warps[number]
        if warp.phase == "waiting":
            return "wait"
        outcome = warp.outcome
        if isinstance(outcome, tuple):
            return self.lose(number, *outcome)
        warp.phase = "open"
        return outcome

    def lose(self, number, cause, stamp):
        self.end(number, stamp)
        return f"gone {cause} {stamp}"

    def is_full(self, line):
        waited = [request[1] for request in self.queue]
        return waited.count(line) >= 4 or (line not in waited and len(set(waited)) >= 4)

    def access(self, number, line, value):
        warp = self.warps[number]
        written, _, _, owner, _ = self.book.line_state(line)
        if owner == number:
            if value is None:
                self.book.note(line, (warp.stamp, number))
                return "val %d" % [v for at, v in warp.log if at == line][-1]
            self.book.add(line)
            warp.log.append((line, value))
            return "ok"
        verdict = self.verdict(number, line, value)
        if verdict == "wait":
            if self.is_full(line):
                return self.lose(number, 3, warp.stamp)
            warp.phase = "waiting"
            self.queue.append((number, line, value))
            return "wait"
        if isinstance(verdict, tuple):
            return self.lose(number, *verdict)
        return self.serve(number, line, value)

    def verdict(self, number, line, value):
        """What the access steps after the first decide: a cause and the next stamp, "wait", or None to go on."""
        stamp = self.warps[number].stamp
        written, read, _, owner, slot = self.book.line_state(line)
        if written > stamp:
            return 1, (written if value is None else max(written, read[0])) + 1
        if value is not None and read > (stamp, number):
            return 2, max(written, read[0]) + 1
        if owner is not None:
            return "wait"
        if value is not None and not slot:
            return 4, stamp
        return None

    def serve(self, number, line, value):
        warp = self.warps[number]
        if value is None:
            self.book.note(line, (warp.stamp, number))
            return f"val {self.memory[line]}"
        self.book.reserve(line, (warp.stamp, number))
        warp.log.append((line, value))
        return "ok"

    def end(self, number, stamp):
        warp = self.warps[number]
        lines = list(dict.fromkeys(line for line, _ in warp.log))
        for line in lines:
            self.book.release(line)
        warp.phase, warp.stamp, warp.log = "idle", stamp, []
        for line in lines:
            here = [request for request in self.queue if request[1] == line]
            for request in sorted(here, key=lambda request: self.warps[request[0]].stamp):
                self.retry(request)

    def retry(self, request):
        verdict = self.verdict(*request)
        if verdict == "wait":
            return
        self.queue.remove(request)
        warp = self.warps[request[0]]
        warp.phase = "settled"
        warp.outcome = verdict or self.serve(*request)


def header(data):
    """The book, the first stamps, the values and the place of the rows; or the `bad` row, if the header is damaged."""
    if data[:3] != b"GTM":
        return "bad 11 0"
    if data[3:5] != b"\x00\x01":
        return "bad 12 3"
    if data[5:6] not in (b"E", b"C"):
        return "bad 14 5"
    if len(data) < 9:
        return "bad 9 6"
    warps, lines = struct.unpack(">BH", data[6:9])
    if not (1 <= warps <= 32 and 1 <= lines <= LINES):
        return "bad 9 6"
    rows = 9 + 4 * warps + 4 * lines
    if len(data) < rows:
        return f"bad 13 {len(data)}"
    stamps = list(struct.unpack_from(f">{warps}I", data, 9))
    for n, stamp in enumerate(stamps):
        if stamp > END_OF_CLOCK:
            return f"bad 10 {9 + 4 * n}"
    book = ExactBook() if data[5:6] == b"E" else CondensedBook()
    return book, stamps, list(struct.unpack_from(f">{lines}I", data, 9 + 4 * warps)), rows


def listing(data):
    parsed = header(data)
    if isinstance(parsed, str):
        return parsed + "\n"
    book, stamps, values, start = parsed
    machine = Machine(book, stamps, values)
    rows = []
    for n in range(ROWS + 1):
        place = start + 8 * n
        if place >= len(data):
            break
        if n == ROWS:
            return "".join(rows) + f"bad 15 {place}\n"
        if place + 8 > len(data):
            return "".join(rows) + f"bad 13 {place}\n"
        letter, warp, line, value = struct.unpack_from(">cBHI", data, place)
        if letter not in (b"B", b"L", b"S", b"C", b"D", b"F"):
            return "".join(rows) + f"bad 14 {place}\n"
        letter = letter.decode()
        rows.append(f"{n + 1} {letter} {warp} {machine.call(letter, warp, line, value)}\n")
    return "".join(rows) + "".join(f"mem {n} {value}\n" for n, value in enumerate(machine.memory))


if __name__ == "__main__":
    sys.stdout.write(listing(sys.stdin.buffer.read()))
