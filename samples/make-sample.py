#!/usr/bin/env python3
"""Writes samples/mixed.bin: every kind of operation and every fault but 1.

usage: samples/make-sample.py [FILE]
"""
import pathlib
import struct
import sys


def operation(code, fields, data=b""):
    """Code and whole length, both in four bytes, then the rest. Numbers are little-endian."""
    rest = fields + data
    return struct.pack("<II", code, 8 + len(rest)) + rest


def format_error(data):
    return operation(0x01, struct.pack("<H", len(data)), data)


def can(id, ide, rtr, data):
    return operation(0x10, struct.pack("<IBBH", id, ide, rtr, len(data)), data)


def can_fd(id, ide, brs, esi, data):
    return operation(0x11, struct.pack("<IBBBH", id, ide, brs, esi, len(data)), data)


def can_xl(id, ide, sec, sdt, vcid, af, data):
    return operation(0x12, struct.pack("<IBBBBIH", id, ide, sec, sdt, vcid, af, len(data)), data)


def confirm(id):
    return operation(0x20, struct.pack("<I", id))


def arbitration_lost(id):
    return operation(0x30, struct.pack("<I", id))


def bus_error(id, code, flag, sender):
    return operation(0x31, struct.pack("<IBBB", id, code, flag, sender))


def baud_rate(kind, rate):
    return operation(0x40, struct.pack("<BI", kind, rate))


def behaviour(value):
    return operation(0x40, struct.pack("<BB", 4, value))


def status(value):
    return operation(0x41, struct.pack("<B", value))


def wakeup():
    return operation(0x42, b"")


STREAM = [
    # Settings: the three baud rates, both behaviours, the three statuses.
    baud_rate(1, 500_000),
    baud_rate(2, 2_000_000),
    baud_rate(3, 10_000_000),
    behaviour(1),
    behaviour(2),
    status(1),
    status(2),
    status(3),
    wakeup(),
    # CAN: with data, without, a remote frame, and the largest ID of each length.
    can(15, 0, 0, bytes.fromhex("AA BB")),
    can(16, 0, 0, b""),
    can(2047, 0, 1, b""),
    can(536_870_911, 1, 0, bytes(range(8))),
    # CAN FD, in the longest form too.
    can_fd(0x123, 0, 1, 0, bytes(range(0x10, 0x1C))),
    can_fd(0x18DAF110, 1, 0, 1, bytes(range(0xC0, 0x100))),
    # CAN XL: one byte, and more data than a terminal is wide.
    can_xl(0x400, 0, 0, 0x03, 0x00, 0x12345678, b"\xFE"),
    can_xl(0x1ABCDEF0, 1, 1, 0x05, 0x2A, 0xFFFFFFFF, bytes(range(192))),
    # What closes an open frame.
    confirm(15),
    arbitration_lost(16),
    bus_error(15, 1, 2, 0),
    bus_error(536_870_911, 2, 1, 1),
    bus_error(3, 3, 2, 0),
    bus_error(4, 4, 2, 0),
    bus_error(5, 5, 1, 1),
    bus_error(6, 6, 2, 1),
    # A Format Error that carries three bytes, and one that carries none.
    format_error(bytes([1, 2, 3])),
    format_error(b""),
    # Fault 3: there is no code 0x50.
    operation(0x50, bytes([0xDE, 0xAD])),
    # Fault 4: a baud rate with one byte only; kind 5; a CAN Transmit whose DL says 3 where two
    # bytes follow.
    operation(0x40, bytes([1, 0x05])),
    operation(0x40, bytes([5, 0, 0, 0, 0])),
    operation(0x10, struct.pack("<IBBH", 15, 0, 0, 3), bytes.fromhex("AA BB")),
    # Fault 5: an ID of 2,048 with Ide 0; a remote frame with data, as old recordings have it; an FD
    # frame of 9 bytes; status 4.
    can(2048, 0, 0, b""),
    can(256, 0, 1, bytes(range(1, 9))),
    can_fd(1, 0, 0, 0, bytes(9)),
    status(4),
    # Reading goes on behind these faults.
    confirm(536_870_911),
    # Fault 2: a Confirm that is cut off after ten of its twelve bytes.
    confirm(15)[:10],
]


def main():
    beside = pathlib.Path(__file__).resolve().parent / "mixed.bin"
    path = pathlib.Path(sys.argv[1]) if len(sys.argv) > 1 else beside
    path.write_bytes(b"".join(STREAM))


main()
