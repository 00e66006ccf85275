#!/usr/bin/env python3
"""Runs the program golden on random and damaged files: python3 tools/fuzz.py [COUNT [SEED]]

1. For each file, golden must print the same listing as tools/model.py, with status 0 and nothing on standard error.
2. The other commands (a file by name, --compare, --explain, --help, --version) must work, and wrong arguments must be refused.
3. With standard output closed or full, standard input closed or a folder, or too little memory, golden must end with status 1,
   one sentence on standard error and no listing, or with status 0 and the whole listing.

The seed determines the files. Each run may take ten seconds. The first failure ends the script with status 1 and leaves the
file in /tmp.
"""

import os
import random
import resource
import struct
import subprocess
import sys
import tempfile

from model import LINES, ROWS, listing

HERE = os.path.dirname(os.path.dirname(os.path.abspath(__file__)))
PROGRAM = os.environ.get("GOLDEN", os.path.join(HERE, "crates", "golden", "out", "golden"))
STAMPS = (0, 0, 0, 1, 2, 5, 20, 999_999_999, 1_000_000_000)


def rows(rng, warps, lines, count):
    """Calls of a few warps on a few lines, so that they conflict. A few calls name a warp or a line that does not exist."""
    calls = []
    for _ in range(count):
        letter = rng.choice(b"BBLLLLSSSSSCDF")
        warp = rng.randrange(warps) if rng.random() < 0.98 else rng.randrange(256)
        line = rng.randrange(lines) if rng.random() < 0.98 else rng.randrange(65536)
        calls.append(struct.pack(">BBHI", letter, warp, line, rng.getrandbits(32)))
    return b"".join(calls)


def sound_file(rng, longest=60):
    """A file without damage, except that a first stamp may be past the end of the clock."""
    warps = rng.choice((1, 2, 3, 8, 32))
    lines = rng.choice((1, 2, 3, 24, 40))
    stamps = [rng.choice(STAMPS) for _ in range(warps)]
    if rng.random() < 0.02:
        stamps[rng.randrange(warps)] = rng.getrandbits(32)
    values = [rng.getrandbits(32) for _ in range(lines)]
    head = b"GTM\x00\x01" + rng.choice((b"E", b"C")) + struct.pack(">BH", warps, lines)
    numbers = struct.pack(f">{warps + lines}I", *stamps, *values)
    return head + numbers + rows(rng, warps, lines, rng.randrange(longest))


def noise(rng):
    return rng.randbytes(rng.randrange(64))


def marked_noise(rng):
    return b"GTM\x00\x01" + rng.choice((b"E", b"C", b"")) + rng.randbytes(rng.randrange(64))


def cut(rng):
    data = sound_file(rng)
    return data[: rng.randrange(len(data) + 1)]


def spoiled(rng):
    data = bytearray(sound_file(rng))
    for _ in range(rng.randrange(1, 4)):
        data[rng.randrange(len(data))] = rng.getrandbits(8)
    return bytes(data)


def lengthened(rng):
    return sound_file(rng) + rng.randbytes(rng.randrange(1, 12))


def long_file(rng):
    return sound_file(rng, 1500)


def too_long(rng):
    """The maximum number of warps and lines, about the maximum number of rows, and a few random bytes."""
    head = b"GTM\x00\x01" + rng.choice((b"E", b"C")) + struct.pack(">BH", 32, LINES) + bytes(4 * (32 + LINES))
    return head + rows(rng, 32, rng.choice((8, LINES)), ROWS + rng.choice((-1, 0, 1))) + noise(rng)[: rng.randrange(9)]


def longest(more):
    """The longest file, with `more` bytes added or, if `more` is negative, removed."""
    head = b"GTM\x00\x01E" + struct.pack(">BH", 32, LINES) + bytes(4 * (32 + LINES))
    data = head + (b"B" + bytes(7)) * (ROWS + 1)
    return data[: len(head) + 8 * ROWS + more]


MAKERS = [sound_file] * 6 + [noise, marked_noise, cut, cut, spoiled, spoiled, spoiled, lengthened]


def made(seed, number):
    """The file with a number. Most are short; every 100th is longer, and every 2,000th has the full size."""
    rng = random.Random(seed * 1_000_003 + number)
    if number % 2000 == 1999:
        return too_long(rng)
    if number % 100 == 99:
        return long_file(rng)
    return rng.choice(MAKERS)(rng)


def fail(why, data, ran=None):
    place = f"/tmp/fuzz-{os.getpid()}.gtm"
    with open(place, "wb") as file:
        file.write(data)
    print(f"FAILED: {why}; the file is {place}")
    if ran:
        print(f"status {ran.returncode}, standard error {ran.stderr[:300]!r}")
    sys.exit(1)


def run(data, **more):
    try:
        return subprocess.run([PROGRAM], input=data, capture_output=True, timeout=10, **more)
    except subprocess.TimeoutExpired:
        fail("it does not end", data)


def check(data):
    ran = run(data)
    if ran.returncode != 0 or ran.stderr:
        fail("a file is no error", data, ran)
    if ran.stdout != listing(data).encode():
        fail("the listing differs from the model's", data, ran)


def one_sentence(ran):
    text = ran.stderr.decode()
    return ran.returncode == 1 and text.startswith("golden: ") and text.count("\n") == 1 and text.endswith("\n")


def failing_system(seed):
    """Runs the program with standard streams that fail, then with less and less memory."""
    data = made(seed, 1999)
    place = f"/tmp/fuzz-{os.getpid()}.gtm"
    with open(place, "wb") as file:
        file.write(data)
    for streams in (f"< {place} >&-", f"< {place} > /dev/full", "<&-", "< /tmp"):
        ran = subprocess.run(["sh", "-c", f"'{PROGRAM}' {streams}"], capture_output=True, timeout=10)
        if not one_sentence(ran) or ran.stdout:
            fail(f"streams {streams}", data, ran)
    os.remove(place)
    short = 0
    for kilobytes in range(4000, 1000, -50):
        limit = kilobytes * 1024
        ran = run(data, preexec_fn=lambda: resource.setrlimit(resource.RLIMIT_AS, (limit, limit)))
        if ran.returncode == 0 and ran.stdout == listing(data).encode():
            continue
        if ran.returncode in (127, -11, -6) and not ran.stdout:
            break  # the system could not even load the program
        if not one_sentence(ran) or ran.stdout:
            fail(f"with {kilobytes} KiB", data, ran)
        short += 1
    print(f"4 failing streams and {short} runs out of memory were reported as they must be")


def run_with(*words):
    return subprocess.run([PROGRAM, *words], stdin=subprocess.DEVNULL, capture_output=True, timeout=10)


def other_commands(seed):
    """Runs the program with arguments: a file, a comparison, an explanation, --help, --version and wrong arguments."""
    data = made(seed, 99)
    rows = listing(data).encode()
    with tempfile.TemporaryDirectory() as room:
        calls, ours, theirs = (f"{room}/{name}" for name in ("calls", "ours", "theirs"))
        for place, text in ((calls, data), (ours, rows), (theirs, b"x" + rows)):
            with open(place, "wb") as file:
                file.write(text)
        ran = run_with("--explain", calls)
        shown = b"".join(line for line in ran.stdout.splitlines(True) if not line.startswith(b" "))
        if run_with(calls).stdout != rows or ran.stdout == rows or shown != rows or ran.returncode:
            fail("a file that is named, or its explanation", data, ran)
        for place, status, first in ((ours, 0, b"match: "), (theirs, 1, b"row 1 differs\n")):
            ran = run_with("--compare", place, calls)
            if ran.returncode != status or not ran.stdout.startswith(first) or ran.stderr:
                fail("a comparison", data, ran)
        none = f"{room}/none"
        for words in (["--help", calls], ["--compare"], ["--compare", "-", calls], ["-x"], [calls, calls], [room], [none]):
            ran = run_with(*words)
            if not one_sentence(ran) or ran.stdout:
                fail(f"the arguments {words}", data, ran)
    if any(it.returncode or it.stderr or not it.stdout for it in (run_with("--help"), run_with("--version"))):
        fail("--help or --version", data)
    print("a file by name, its explanation and two comparisons are right, and 7 wrong command lines are refused")


def main():
    count = int(sys.argv[1]) if len(sys.argv) > 1 else 20_000
    seed = int(sys.argv[2]) if len(sys.argv) > 2 else 1
    if not os.access(PROGRAM, os.X_OK):
        sys.exit("fuzz: build the program first, by ./golden < examples/two_warps.gtm")
    for number in range(count):
        check(made(seed, number))
    for more in (-1, 0, 1, 2):
        check(longest(more))
    print(f"{count} files of seed {seed} and 4 of about the maximum length: every listing is the model's")
    other_commands(seed)
    failing_system(seed)


main()
