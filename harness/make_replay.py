#!/usr/bin/env python3
"""Makes the list that the program `replay` runs: session files with the listings that the published source gives them.

usage: harness/make_replay.py ORACLE > crates/replay/stdin

ORACLE is the oracle's program, harness/target/release/oracle. The list has the files of examples/, courses that the source
itself steers, each damaged in some ways, and the limits: no byte, one byte, every seventh cut of a file, sixteen and
seventeen orders, twenty-four fills, thousands of records, and files of 65,535, 65,536 and 65,537 bytes; after `SI` escrows
at what an order needs and beside it. The seed is one whose list has every refusal that a file can have.
"""
import glob
import os
import random
import re
import struct
import subprocess
import sys
import tempfile

if len(sys.argv) != 2:
    sys.exit(__doc__)
oracle = sys.argv[1]
top = os.path.dirname(os.path.dirname(os.path.abspath(__file__)))
sys.path.insert(0, os.path.join(top, "examples"))
sys.dont_write_bytecode = True
import make  # noqa: E402

SEED, COURSES, SHORT = 20261117, 140, 3000
random.seed(SEED)
REFUSALS = set(range(1, 27)) - {9} | {31}


def damaged(data):
    """A byte changed, a byte lost, the end cut."""
    i = random.randrange(len(data))
    yield data[:i] + bytes([data[i] ^ (1 << random.randrange(8))]) + data[i + 1:]
    yield data[:i] + data[i + 1:]
    yield data[:i]


def limits():
    yield b""
    yield b"S"
    yield b"SX"
    sixteen = b"".join(make.order(make.wallet(i + 1), i % 2, 9, 10, 3) for i in range(16))
    yield make.header() + sixteen
    yield make.header() + make.header()
    yield make.header() + make.clear() + sixteen
    yield make.header() + sixteen + make.order(make.wallet(40), 0, 9, 10, 3)
    screens = b"".join(make.screen(i, i % 2, id=make.investor(i + 1)) for i in range(16))
    course = make.header(authority=make.wallet(9), rofr_window=50) + sixteen + screens + make.clear() + make.allocate(255)
    purchases = b"".join(make.exercise(make.wallet(9), i % 8, 1, now=120) for i in range(20))
    settles = b"".join(make.settle(i) for i in range(26))
    yield course + make.exercise(make.wallet(8), 0, 1, now=120) + make.close(make.wallet(8), now=120)
    yield course + purchases + make.close(make.wallet(9), now=120) + settles + make.finish()
    whole = make.EXAMPLES["case-l"]
    for n in range(0, len(whole), 7):
        yield whole[:n]
    for size in (65535, 65536, 65537):
        yield (whole + b"ST" * size)[:size]
    yield make.header() + make.settle(0) * ((65536 - len(make.header())) // len(make.settle(0)))
    half = 1 << 63
    for last in (half, half - 1):
        book = b"".join(make.order(make.wallet(i + 1), i // 2, 1, 1, q) for i, q in enumerate([half, last, half, last]))
        passed = b"".join(make.screen(i, i // 2, id=make.investor(i + 1)) for i in range(4))
        yield make.header(reserve=0) + book + passed + make.clear() + make.allocate(255)


def headers():
    """`SI` cut and whole, with decimals up to the limit and beyond it, and beside another header."""
    si = make.header(decimals=19)
    yield from (si[:n] for n in (2, 93, 94, 95))
    yield from (make.header(decimals=n) for n in (0, 1, 18, 20, 255))
    for decimals in (19, 20):
        yield make.header(decimals=decimals, min_reveals=1, max_cash=0)
        yield make.header(decimals=decimals, max_cash=0)
    yield from (one + two for one in (make.header(), si) for two in (make.header(), si, make.header(decimals=20), b"SH", b"SI"))
    yield si + make.clear() + si


MOST = (1 << 64) - 1
FIGURES = [  # decimals, limit, quantity
    (0, 13, 250), (0, 1 << 32, 1 << 32), (0, MOST, 1), (0, MOST, 2), (1, 13, 250), (2, 13, 250), (2, 13, 300), (6, 999999, 7),
    (18, MOST, MOST), (18, MOST, 10 ** 18), (18, MOST, 10 ** 18 + 1),
    (19, 1, 1), (19, MOST, MOST), (19, MOST, 10 ** 19), (19, MOST, 10 ** 19 + 1), (19, 10 ** 19, MOST),
]


def escrows():
    """After `SI` a buy and a sell with an escrow of what they need, one less and one more."""
    for decimals, limit, qty in FIGURES:
        amount = -(-limit * qty // 10 ** decimals)
        for side, needed in ((make.BUY, amount), (make.SELL, qty)):
            for escrow in sorted({min(needed + more, MOST) for more in (-1, 0, 1)}):
                yield make.header(decimals=decimals) + make.order(make.wallet(1), side, escrow, limit, qty)


ODD = [  # side, escrow, limit, revealed: two that need more, and others that 4 or 6 refuses first
    (0, 1, 10 ** 19, 1), (1, 2, 1, 1),
    (0, 0, 10 ** 19, 1), (1, 0, 1, 1), (2, 1, 10 ** 19, 1), (0, 1, 10 ** 19, 0), (0, 1, 0, 1),
]


def books():
    """After `SI` a whole course; and orders that are refused for one thing or several, as the seventeenth and of an owner seen."""
    sixteen = b"".join(make.order(make.wallet(i + 1), i % 2, 30, 10, 3) for i in range(16))
    screens = b"".join(make.screen(i, i % 2, id=make.investor(i + 1)) for i in range(16))
    settles = b"".join(make.settle(i) for i in range(9))
    for decimals in (0, 19):
        header = make.header(decimals=decimals)
        yield header + sixteen + screens + make.clear() + make.allocate(255) + settles + make.finish()
        unrevealed = make.order(make.wallet(1), make.SELL, 1, 0, 0, revealed=0)
        yield header + unrevealed + make.screen(0, make.SELL) + unrevealed
        for side, escrow, limit, revealed in ODD:
            odd, seen = (make.order(make.wallet(owner), side, escrow, limit, 3, revealed=revealed) for owner in (40, 1))
            yield from (header + odd, header + sixteen[:60] + seen, header + sixteen + odd, header + sixteen + seen)


def listing(data):
    return subprocess.run([oracle], input=data, capture_output=True, check=True).stdout


def main():
    files = [make.EXAMPLES[name] for name in sorted(make.EXAMPLES)]
    files += [*limits(), *headers(), *escrows(), *books()]
    with tempfile.TemporaryDirectory() as folder:
        subprocess.run([oracle, "--gen", str(SEED), str(COURSES), folder], check=True)
        for path in sorted(glob.glob(os.path.join(folder, "*"))):
            with open(path, "rb") as f:
                data = f.read()
            if 0 < len(data) < SHORT:
                files.append(data)
                files.extend(damaged(data))
    seen = set()
    for data in files:
        text = listing(data)
        seen |= {int(number) for number in re.findall(rb"refused (\d+)", text)}
        sys.stdout.buffer.write(struct.pack("<I", len(data)) + data + struct.pack("<I", len(text)) + text)
    print(f"{len(files)} files", file=sys.stderr)
    if seen != REFUSALS:
        sys.exit(f"refusals that the list lacks: {sorted(REFUSALS - seen)}")


main()
