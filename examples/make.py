#!/usr/bin/env python3
"""Writes the example session files beside this script, field by field.

usage: examples/make.py            (docs/SESSION-FILE.md describes every field)

Numbers are little-endian; times and rofr_window are signed. A wallet is 32 bytes, an investor id 16.
"""
import os
import struct

HERE = os.path.dirname(os.path.abspath(__file__))


def wallet(n):
    return bytes([n]) * 32


def investor(n):
    return bytes([n]) * 16


NO_WALLET = bytes(32)
NO_ID = bytes(16)
BUY, SELL = 0, 1
PUBLIC, BANDED, AGGREGATE_ONLY, DATA_ROOM = 0, 1, 2, 3


def header(reveal_end=100, rofr_window=0, settle_deadline=200, max_cash=1000, min_reveals=2, forced=0,
           authority=NO_WALLET, mark=1, reserve=9, reference=10, policy=PUBLIC, band_bps=0, decimals=None):
    """SH, 94 bytes; with decimals SI, 95 bytes."""
    letters, last = (b"SH", b"") if decimals is None else (b"SI", bytes([decimals]))
    return (letters + struct.pack("<qqqQBB", reveal_end, rofr_window, settle_deadline, max_cash, min_reveals, forced)
            + authority + struct.pack("<BQQBQ", mark, reserve, reference, policy, band_bps) + last)


def order(owner, side, escrowed, limit, qty, revealed=1):
    """OR, 60 bytes. An unrevealed order has limit and qty 0."""
    return b"OR" + owner + struct.pack("<BQBQQ", side, escrowed, revealed, limit, qty)


def screen(number, side, verdict=0, id=None, now=150):
    """SC, 30 bytes. A passed buy has an id; without one the id is zeros."""
    return b"SC" + struct.pack("<qBBBB", now, number, side, verdict, 0 if id is None else 1) + (id or NO_ID)


def clear(now=150):
    return b"CL" + struct.pack("<q", now)


def allocate(max_fills, now=150):
    return b"AL" + struct.pack("<qB", now, max_fills)


def exercise(issuer, fill, qty, now=150):
    return b"RX" + struct.pack("<q", now) + issuer + struct.pack("<IQ", fill, qty)


def close(caller, now=150):
    return b"RC" + struct.pack("<q", now) + caller


def settle(fill):
    return b"ST" + struct.pack("<I", fill)


def skip(fill, reason, now=150):
    return b"SK" + struct.pack("<qIB", now, fill, reason)


def finish(now=150):
    return b"FN" + struct.pack("<q", now)


def expire(now):
    return b"EX" + struct.pack("<q", now)


# Four orders of four owners: case L of document 01.
BOOK = (order(wallet(1), BUY, 60, 12, 5) + order(wallet(2), BUY, 40, 11, 3)
        + order(wallet(3), SELL, 4, 9, 4) + order(wallet(4), SELL, 3, 11, 3))
SCREENS = (screen(0, BUY, id=investor(1)) + screen(1, BUY, id=investor(2))
           + screen(2, SELL, id=investor(3)) + screen(3, SELL, id=investor(4)))

EXAMPLES = {
    # two cranks, two fills settled, one skipped, a banded print
    "case-l": header(policy=BANDED, band_bps=2500) + BOOK + SCREENS + clear() + allocate(2) + allocate(5)
    + settle(0) + settle(1) + skip(2, 6) + finish(),
    # the issuer buys one fill whole and part of another; what is left is skipped in part
    "issuer-buys": header(rofr_window=50, authority=wallet(9)) + BOOK + SCREENS + clear() + allocate(255)
    + exercise(wallet(9), 1, 1, now=120) + exercise(wallet(9), 0, 3, now=120) + close(wallet(9), now=120)
    + skip(0, 1) + settle(1) + settle(2) + finish(),
    # no reserve and no mark: a forced sale, of which only the volume is shown
    "forced-sale": header(forced=1, mark=0, reserve=0, policy=AGGREGATE_ONLY)
    + order(wallet(1), BUY, 10, 2, 5) + order(wallet(2), SELL, 5, 1, 5)
    + screen(0, BUY, id=investor(1)) + screen(1, SELL) + clear() + allocate(1) + settle(0) + finish(),
    # bids and asks that do not meet: the clear fails with NoCross
    "no-cross": header(reserve=0) + order(wallet(1), BUY, 10, 8, 5) + order(wallet(2), SELL, 5, 9, 5)
    + screen(0, BUY, id=investor(1)) + screen(1, SELL) + clear() + allocate(1),
    # the second order has the first one's owner: the file ends there
    "refused": header() + order(wallet(1), BUY, 60, 12, 5) + order(wallet(1), SELL, 4, 9, 4) + clear(),
    # past the deadline nothing can be cleared, and the session expires
    "expired": header() + BOOK + clear(now=200) + expire(199) + expire(200) + expire(300),
    # at two decimals 250 x 13 is 32.5 of cash: an escrow of 33 just covers it; a sell is covered by its quantity
    "covered": header(decimals=2) + order(wallet(1), BUY, 33, 13, 250) + order(wallet(2), SELL, 200, 9, 200)
    + order(wallet(3), BUY, 1, 0, 0, revealed=0) + screen(0, BUY, id=investor(1)) + screen(1, SELL) + clear() + allocate(1)
    + settle(0) + finish(),
    # an escrow of 32 does not: the file ends there
    "uncovered": header(decimals=2) + order(wallet(2), SELL, 200, 9, 200) + order(wallet(1), BUY, 32, 13, 250) + clear(),
}

if __name__ == "__main__":
    for name, data in EXAMPLES.items():
        with open(os.path.join(HERE, name + ".session"), "wb") as f:
            f.write(data)
        print(f"{name}.session: {len(data)} bytes")
