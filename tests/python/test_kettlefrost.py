"""Tests of the Python module: python3 -m unittest discover -s tests/python

KETTLEFROST_LIBRARY has to name the shared library.
"""
import _ctypes
import ctypes
import dataclasses
import doctest
import enum
import inspect
import os
import pathlib
import re
import shutil
import struct
import subprocess
import sys
import tempfile
import types
import unittest

ROOT = pathlib.Path(__file__).resolve().parents[2]
MODULE = ROOT / "bindings" / "python" / "kettlefrost.py"
HEADER = ROOT / "include" / "kettlefrost.h"
sys.path.insert(0, str(MODULE.parent))

import kettlefrost as kf  # noqa: E402
from kettlefrost import (  # noqa: E402
    ArbitrationLost, Behaviour, Bus, BusError, CanFdTransmit, CanTransmit, CanXlTransmit, Carried,
    Configuration, ConfigurationKind, Confirm, ErrorCode, ErrorFlag, Fault, FormatError, Idle,
    Injection, NodeStatus, Number, Refused, Register, Status, Wakeup, operations,
)

# Bytes as printed in the sessions W1 to W6.
W1 = bytes.fromhex("10 00 00 00 12 00 00 00 0F 00 00 00 00 00 02 00 AA BB")
W2 = bytes.fromhex("20 00 00 00 0C 00 00 00 0F 00 00 00")
W3 = bytes.fromhex("30 00 00 00 0C 00 00 00 10 00 00 00")
W4 = bytes.fromhex("01 00 00 00 0D 00 00 00 03 00 01 02 03")
FRAME_16 = bytes.fromhex("10 00 00 00 10 00 00 00 10 00 00 00 00 00 00 00")
CONFIRM_16 = bytes.fromhex("20 00 00 00 0C 00 00 00 10 00 00 00")

BUS_OFF = Status(NodeStatus.BUS_OFF).encode()
DISCARDING = Configuration(
    ConfigurationKind.ARBITRATION_LOST_BEHAVIOR, Behaviour.DISCARD_AND_NOTIFY).encode()

# Operations of each kind with their code and the layout of what follows code and length: a struct
# format and the values.
KINDS = [
    (FormatError(b"\x01\x02\x03"), 0x01, "<H3s", (3, b"\x01\x02\x03")),
    (CanTransmit(0x12345678, 1, 0, b"\x09"), 0x10, "<IBBH1s", (0x12345678, 1, 0, 1, b"\x09")),
    (CanTransmit(0x123, 0, 1), 0x10, "<IBBH", (0x123, 0, 1, 0)),
    (CanFdTransmit(5, 0, 1, 0, bytes(12)), 0x11, "<IBBBH12s", (5, 0, 1, 0, 12, bytes(12))),
    (CanFdTransmit(5, 1, 0, 1), 0x11, "<IBBBH", (5, 1, 0, 1, 0)),
    (CanXlTransmit(6, 1, 0, 3, 4, 0x89ABCDEF, b"\x07\x08"), 0x12, "<IBBBBIH2s",
     (6, 1, 0, 3, 4, 0x89ABCDEF, 2, b"\x07\x08")),
    (CanXlTransmit(6, 0, 1, data=b"\x07"), 0x12, "<IBBBBIH1s", (6, 0, 1, 0, 0, 0, 1, b"\x07")),
    (Confirm(15), 0x20, "<I", (15,)),
    (ArbitrationLost(16), 0x30, "<I", (16,)),
    (BusError(17, ErrorCode.BROKEN_ERROR_FRAME, ErrorFlag.SECONDARY_ERROR_FLAG, 1), 0x31, "<IBBB",
     (17, 6, 2, 1)),
    (Configuration(ConfigurationKind.CAN_XL_BAUDRATE, 0x01020304), 0x40, "<BI", (3, 0x01020304)),
    (Configuration(ConfigurationKind.ARBITRATION_LOST_BEHAVIOR, 2), 0x40, "<BB", (4, 2)),
    (Status(NodeStatus.ERROR_PASSIVE), 0x41, "<B", (2,)),
    (Wakeup(), 0x42, "<", ()),
]

# Size, then the offset of each field.
LAYOUTS = {
    kf.kf_slot: (20, {"accepted": 0, "id": 4, "af": 8, "length": 12, "kind": 14, "owner": 15,
                      "first": 16, "second": 17, "third": 18, "fourth": 19}),
    kf.kf_node_state: (20, {"rates": 0, "fill": 12, "status": 14, "behaviour": 15, "pending": 16}),
    kf.kf_state: (168, {"count": 0, "round": 4, "nodes": 8}),
    kf.kf_answer: (188, {"number": 0, "id": 4, "age": 8, "length": 12, "sender": 14, "idle": 15,
                         "errored": 16, "state": 20}),
    kf.kf_operation: (20, {"code": 0, "id": 4, "word": 8, "length": 12, "first": 14, "second": 15,
                           "third": 16, "fourth": 17}),
    kf.kf_reading: (40, {"end": 0, "fault": 4, "next": 8, "operation": 16}),
    kf.kf_part: (16, {"start": 0, "length": 8}),
    kf.kf_written: (16, {"refusal": 0, "length": 8}),
    kf.kf_register: (1388, {"ids": 0, "count": 1380, "off": 1384}),
    kf.kf_register_answer: (1392, {"number": 0, "reg": 4}),
}


def load_tests(loader, tests, pattern):
    tests.addTests(doctest.DocTestSuite(kf))
    return tests


def layout(code, form, values):
    """An operation's bytes by its layout, whether its rules hold or not."""
    rest = struct.pack(form, *values)
    return struct.pack("<II", code, 8 + len(rest)) + rest


def can(id, ide=0, length=0):
    return layout(0x10, "<IBBH", (id, ide, 0, length)) + bytes(length)


def with_length(buffer, length):
    """The buffer with another number in its length field."""
    return buffer[:4] + struct.pack("<I", length) + buffer[8:]


def items(buffer):
    return [item for _, item, _ in operations(buffer)]


def faults(buffer):
    return [item.number.value for item in items(buffer) if isinstance(item, Fault)]


def memory():
    """Slots, payload and queues with their lengths, as the calls of the bus take them."""
    slots = (kf.kf_slot * kf.SLOTS)()
    payload = (ctypes.c_char * kf.PAYLOAD_BYTES)()
    queues = (ctypes.c_char * kf.QUEUE_BYTES)()
    return [slots, kf.SLOTS, payload, kf.PAYLOAD_BYTES, queues, kf.QUEUE_BYTES]


def held(bus):
    """All that a bus holds, as far as it can be read."""
    return bus.round_number, [bus.node(i) for i in range(bus.node_count)]


class Case(unittest.TestCase):
    def assert_refused(self, number, call, *arguments):
        with self.assertRaises(Refused) as caught:
            call(*arguments)
        self.assertEqual(caught.exception.number, number)
        self.assertIn(Number(number).words, str(caught.exception))


class Sessions(Case):
    def test_w1(self):
        operation = CanTransmit(15, data=b"\xAA\xBB")
        self.assertEqual(operation.encode(), W1)
        self.assertEqual(list(operations(W1)), [(0, operation, b"\xAA\xBB")])

    def test_w2(self):
        self.assertEqual(Confirm(15).encode(), W2)
        self.assertEqual(list(operations(W2)), [(0, Confirm(15), b"")])

    def test_w3(self):
        self.assertEqual(ArbitrationLost(16).encode(), W3)
        self.assertEqual(list(operations(W3)), [(0, ArbitrationLost(16), b"")])

    def test_w4(self):
        bus = Bus(2)
        bus.submit(0, b"\x01\x02\x03")
        self.assertEqual(bus.node(0).fill, len(W4))
        self.assertEqual(bus.collect(0), W4)
        self.assertEqual(bus.collect(0), b"")

    def w1_against_16(self, configuration):
        bus, registers = Bus(3), [Register() for _ in range(3)]
        for node, buffer in ((0, W1), (1, configuration + FRAME_16)):
            bus.submit(node, buffer)
            registers[node].enter(buffer)
        self.assertEqual([register.open for register in registers], [(15,), (16,), ()])
        self.assertEqual(bus.round(), Carried(sender=0, id=15, errored=False, age=0))
        return bus, registers

    def assert_collected(self, bus, registers, queues):
        for node, queue in enumerate(queues):
            self.assertEqual(bus.node(node).fill, len(queue))
            self.assertEqual(bus.collect(node), queue)
            registers[node].read(queue)
            self.assertEqual(registers[node].open, ())

    def test_w5(self):
        bus, registers = self.w1_against_16(DISCARDING)
        self.assertEqual([bus.node(i).pending for i in range(3)], [0, 0, 0])
        self.assertEqual(bus.round(), Idle())
        self.assert_collected(bus, registers, [W2, W1 + W3, W1])

    def test_w6(self):
        bus, registers = self.w1_against_16(b"")
        self.assertEqual([bus.node(i).pending for i in range(3)], [0, 1, 0])
        self.assertEqual(bus.round(), Carried(sender=1, id=16, errored=False, age=1))
        self.assertEqual(bus.round(), Idle())
        self.assertEqual(bus.round_number, 2)
        self.assert_collected(bus, registers, [W2 + FRAME_16, W1 + CONFIRM_16, W1 + FRAME_16])

    def test_w7(self):
        bus = Bus(2)
        self.assert_refused(8, bus.submit, 0, W1 * 5)
        self.assertEqual(bus.node(0).pending, 0)
        bus.submit(0, W1 * 4)
        self.assertEqual(bus.node(0).pending, 4)

    def test_w8(self):
        for id, ide, legal in ((2_047, 0, True), (2_048, 0, False),
                               (536_870_911, 1, True), (536_870_912, 1, False)):
            with self.subTest(id=id, ide=ide):
                self.check_legal(CanTransmit(id, ide), can(id, ide), legal)

    def test_w9(self):
        for kind, length, legal in ((CanTransmit, 8, True), (CanTransmit, 9, False),
                                    (CanFdTransmit, 9, False), (CanFdTransmit, 12, True),
                                    (CanFdTransmit, 64, True), (CanXlTransmit, 0, False),
                                    (CanXlTransmit, 2_049, False), (CanXlTransmit, 2_048, True)):
            with self.subTest(kind=kind, length=length):
                form = {CanTransmit: "<I2xH", CanFdTransmit: "<I3xH", CanXlTransmit: "<I8xH"}[kind]
                data = bytes(range(256)) * 9
                buffer = layout(kind.code, form + f"{length}s", (1, length, data[:length]))
                self.check_legal(kind(1, data=data[:length]), buffer, legal)

    def check_legal(self, operation, buffer, legal):
        if legal:
            self.assertEqual(operation.encode(), buffer)
            self.assertEqual(items(buffer), [operation])
        else:
            self.assert_refused(7, operation.encode)
            self.assertEqual(faults(buffer), [5])

    def test_w10(self):
        for length in (7, 13):
            buffer = with_length(W2, length)
            self.assertEqual([(0, Fault(2), buffer)], list(operations(buffer)))


class Refusals(Case):
    def test_1_wrong_memory(self):
        right = memory()
        state = kf.kf_start(*right, 2).state
        calls = {
            "start": lambda sizes: kf.kf_start(*sizes, 2),
            "submit": lambda sizes: kf.kf_submit(state, *sizes, 0, b"", 0),
            "round": lambda sizes: kf.kf_round(state, *sizes, 0, 0, 0),
            "collect": lambda sizes: kf.kf_collect(state, *sizes, 0, (ctypes.c_char * 0)(), 0),
        }
        for name, call in calls.items():
            self.assertEqual(call(right).number, Number.DONE, name)
            for size in (1, 3, 5):
                wrong = list(right)
                wrong[size] -= 1
                self.assertEqual(call(wrong).number, Number.WRONG_MEMORY, (name, size))

    def test_2_bad_node_count(self):
        for nodes in (0, 1, 9, 2 ** 32 - 1):
            self.assert_refused(2, Bus, nodes)
        for nodes in range(kf.MIN_NODES, kf.MAX_NODES + 1):
            self.assertEqual(Bus(nodes).node_count, nodes)

    def test_3_invalid_state(self):
        right = memory()
        garbage = kf.kf_state.from_buffer_copy(b"\xA5" * ctypes.sizeof(kf.kf_state))
        room = (ctypes.c_char * kf.QUEUE_CAPACITY)()
        for answer in (kf.kf_submit(garbage, *right, 0, W1, len(W1)),
                       kf.kf_round(garbage, *right, 0, 0, 0),
                       kf.kf_collect(garbage, *right, 0, room, len(room))):
            self.assertEqual(answer.number, Number.INVALID)
            self.assertEqual(bytes(answer.state), bytes(garbage))

    def test_3_invalid_register(self):
        register = kf.kf_register(count=kf.MAX_OPEN + 1)
        for call in (kf.kf_register_enter, kf.kf_register_read):
            answer = call(register, b"", 0)
            self.assertEqual(answer.number, Number.INVALID)
            self.assertEqual(bytes(answer.reg), bytes(register))

    def test_4_not_attached(self):
        bus = Bus(3)
        self.assert_refused(4, bus.submit, 3, W1)
        self.assert_refused(4, bus.collect, 3)

    def test_5_buffer_too_long(self):
        bus = Bus(2)
        self.assert_refused(5, bus.submit, 0, bytes(kf.MAX_SUBMIT + 1))
        bus.submit(0, bytes(kf.MAX_SUBMIT))
        self.assertEqual(bus.node(0).fill, kf.QUEUE_CAPACITY)

    def test_6_bad_injection(self):
        bus = Bus(3)
        bus.submit(0, W1)
        bus.submit(1, BUS_OFF)
        before = held(bus)
        for injection in ((0, 0), (7, 0), (257, 0), (1, 3), (1, 1)):
            self.assert_refused(6, bus.round, Injection(*injection))
        self.assertEqual(held(bus), before)

    def test_7_rule_broken(self):
        for operation in (CanTransmit(1, ide=2), CanTransmit(1, rtr=2), Status(4),
                          Configuration(5, 1), Configuration(4, 257), Configuration(1, 0),
                          BusError(1, 7, 1, 0), BusError(1, 1, 3, 0), Confirm(kf.MAX_ID + 1)):
            self.assert_refused(7, operation.encode)

    def test_7_remote_frame_with_data(self):
        for length in (1, 8):
            self.assert_refused(7, CanTransmit(5, rtr=1, data=bytes(length)).encode)
        remote = CanTransmit(5, rtr=1)
        self.assertEqual([op for _, op, _ in kf.operations(remote.encode())], [remote])

    def test_remote_frame_with_data_is_answered(self):
        with_data = bytes.fromhex("10000000 11000000 05000000 0001 0100 AA")
        bus = Bus(2)
        bus.submit(0, with_data)
        bus.submit(1, BUS_OFF + with_data)
        for node in (0, 1):
            self.assertEqual(bus.node(node).pending, 0)
            self.assertEqual(bus.collect(node), FormatError(with_data).encode())

    def test_7_length_not_that_of_the_data(self):
        room = (ctypes.c_char * 64)()
        record = kf.kf_operation(code=kf.Code.CAN_TRANSMIT, id=15, length=3)
        written = kf.kf_write(record, b"\xAA\xBB", 2, room, len(room))
        self.assertEqual((written.refusal, written.length), (7, 0))
        self.assertEqual(room.raw, bytes(64))

    def test_8_four_pending(self):
        bus = Bus(2)
        bus.submit(0, W1 * 4)
        before = held(bus)
        self.assert_refused(8, bus.submit, 0, DISCARDING + W1)
        self.assertEqual(held(bus), before)

    def test_9_queue_full(self):
        bus = Bus(2)
        bus.submit(1, bytes(kf.MAX_SUBMIT))
        bus.submit(0, W1)
        before = held(bus)
        self.assert_refused(9, bus.round)
        self.assert_refused(9, bus.submit, 0, Wakeup().encode())
        self.assertEqual(held(bus), before)

    def test_10_rounds_used_up(self):
        right = memory()
        state = kf.kf_submit(kf.kf_start(*right, 2).state, *right, 0, W1, len(W1)).state
        state.round = kf.MAX_ROUND
        answer = kf.kf_round(state, *right, 0, 0, 0)
        self.assertEqual(answer.number, Number.ROUNDS_USED_UP)
        self.assertEqual(bytes(answer.state), bytes(state))

    def test_11_buffer_too_small(self):
        right = memory()
        state = kf.kf_submit(kf.kf_start(*right, 2).state, *right, 0, b"\x01", 1).state
        for room, number in ((10, 11), (11, 0)):
            answer = kf.kf_collect(state, *right, 0, (ctypes.c_char * room)(), room)
            self.assertEqual(answer.number, number)
        record = kf.kf_operation(code=kf.Code.CONFIRM, id=15)
        for room, number in ((11, 11), (12, 0)):
            written = kf.kf_write(record, b"", 0, (ctypes.c_char * room)(), room)
            self.assertEqual(written.refusal, number)

    def test_12_register_full(self):
        register = Register()
        register.enter(can(7) * kf.MAX_OPEN)
        before = register.open
        self.assertEqual(before, (7,) * kf.MAX_OPEN)
        self.assert_refused(12, register.enter, can(8))
        self.assertEqual(register.open, before)

    def test_13_register_differs(self):
        register = Register()
        register.enter(can(7))
        for closing in (Confirm(8), ArbitrationLost(8), BusError(8, 1, 1, 1)):
            self.assert_refused(13, register.read, closing.encode())
        self.assertEqual(register.open, (7,))


class Operations(Case):
    def test_layout_and_round_trip(self):
        for operation, code, form, values in KINDS:
            with self.subTest(operation=operation):
                buffer = layout(code, form, values)
                self.assertEqual(operation.encode(), buffer)
                self.assertEqual(list(operations(buffer)), [(0, operation, operation.data)])

    def test_every_kind_is_tried(self):
        kinds = kf.Operation.__subclasses__()
        self.assertEqual({type(operation) for operation, *_ in KINDS}, set(kinds))
        self.assertEqual(sorted(kind.code for kind in kinds), sorted(kf.Code))

    def test_positions(self):
        buffers = [layout(*rest) for _, *rest in KINDS]
        found = [(position, item) for position, item, _ in operations(b"".join(buffers))]
        starts = [sum(map(len, buffers[:i])) for i in range(len(buffers))]
        self.assertEqual(found, list(zip(starts, (operation for operation, *_ in KINDS))))

    def test_faults(self):
        unknown = layout(0x50, "<H", (1,))
        longer = with_length(W2 + b"\x00", 13)
        end = b"\x20\x00\x00"
        found = list(operations(unknown + longer + can(2_048) + W2 + end))
        self.assertEqual(found, [
            (0, Fault(3), unknown), (10, Fault(4), longer), (23, Fault(5), can(2_048)),
            (39, Confirm(15), b""), (51, Fault(1), end),
        ])

    def test_values_of_tables_read_as_enums(self):
        [error] = items(BusError(1, 2, 1, 0).encode())
        self.assertIsInstance(error.error_code, ErrorCode)
        self.assertIsInstance(error.error_flag, ErrorFlag)

    def test_any_bytes_like_object_is_read(self):
        for buffer in (W1, bytearray(W1), memoryview(W1)):
            self.assertEqual(items(buffer), items(W1))
        for wrong in (18, "text", None):
            with self.assertRaises(TypeError):
                items(wrong)
            with self.assertRaises(TypeError):
                CanTransmit(1, data=wrong).encode()


class Numbers(Case):
    """A number that does not fit is an error, and is not cut to one that does."""

    def assert_does_not_fit(self, call, *arguments):
        with self.assertRaises(OverflowError):
            call(*arguments)

    def test_fields_of_operations(self):
        columns = {name: 8 * ctypes.sizeof(kind) for name, kind in kf.kf_operation._fields_}
        for operation, *_ in KINDS:
            for field in dataclasses.fields(operation):
                if field.name == "data":
                    continue
                for number in (-1, 1 << columns[field.metadata["column"]]):
                    wrong = dataclasses.replace(operation, **{field.name: number})
                    self.assert_does_not_fit(wrong.encode)

    def test_data(self):
        self.assertEqual(len(FormatError(bytes(65_535)).encode()), 65_545)
        self.assert_does_not_fit(FormatError(bytes(65_536)).encode)

    def test_arguments(self):
        bus = Bus(3)
        # The low 32 bits of the second are a node count, a node number and an error code.
        for wrong in (-1, (1 << 32) + 2):
            self.assert_does_not_fit(Bus, wrong)
            self.assert_does_not_fit(bus.submit, wrong, W1)
            self.assert_does_not_fit(bus.collect, wrong)
            self.assert_does_not_fit(bus.round, Injection(wrong, 0))
            self.assert_does_not_fit(bus.round, Injection(ErrorCode.BIT_ERROR, wrong))
        for wrong in (-1, 1 << 64):
            self.assert_does_not_fit(kf.kf_read, W1, len(W1), wrong)

    def test_fields_of_structures(self):
        entry = kf.kf_node_state(rates=(1, 2, 3))
        self.assert_does_not_fit(setattr, entry, "status", 256)
        self.assert_does_not_fit(setattr, entry, "rates", (1, 2, 1 << 32))
        self.assert_does_not_fit(entry.rates.__setitem__, 0, -1)
        self.assert_does_not_fit(entry.rates.__setitem__, slice(0, 2), [1, 1 << 32])
        self.assertEqual((entry.status, list(entry.rates)), (0, [1, 2, 3]))

    def test_other_types(self):
        for wrong in (1.0, "1", None):
            with self.assertRaises(TypeError):
                CanTransmit(wrong).encode()
            with self.assertRaises(TypeError):
                Bus(wrong)

    def test_count_of_arguments(self):
        for arguments in ((W1, len(W1)), (W1, len(W1), 0, 0)):
            with self.assertRaises(TypeError):
                kf.kf_read(*arguments)


class Held(Case):
    def test_a_new_node(self):
        start = (NodeStatus.ERROR_ACTIVE, Behaviour.BUFFER_AND_RETRANSMIT,
                 (500_000, 2_000_000, 10_000_000), 0, 0)
        self.assertEqual(held(Bus(2)), (0, [start, start]))

    def test_a_configured_node(self):
        bus = Bus(2)
        rates = [Configuration(kind, 100 + kind).encode() for kind in (1, 2, 3)]
        bus.submit(1, DISCARDING + b"".join(rates) + W1 + Status(2).encode())
        self.assertEqual(bus.node(1), (2, 2, (101, 102, 103), 1, 0))
        self.assertEqual(bus.node(0), Bus(2).node(0))

    def test_no_such_node(self):
        for node in (-1, 2, 8):
            with self.assertRaises(IndexError):
                Bus(2).node(node)

    def test_an_injected_error(self):
        bus = Bus(3)
        bus.submit(0, W1)
        self.assertEqual(bus.round(Injection(ErrorCode.ACK_ERROR, 2)), Carried(0, 15, True, 0))
        self.assertEqual([items(bus.collect(i)) for i in range(3)], [
            [BusError(15, 5, 2, 1)], [BusError(15, 5, 2, 0)], [BusError(15, 5, 1, 0)],
        ])

    def test_bus_off(self):
        bus, register = Bus(2), Register()
        for buffer in (W1, BUS_OFF):
            bus.submit(0, buffer)
            register.enter(buffer)
        self.assertEqual((bus.node(0).status, bus.node(0).pending), (NodeStatus.BUS_OFF, 0))
        self.assertEqual((register.open, register.bus_off), ((), True))
        register.enter(Status(NodeStatus.ERROR_ACTIVE).encode())
        self.assertIs(register.bus_off, False)


class Interface(Case):
    def test_layouts(self):
        for record, (size, offsets) in LAYOUTS.items():
            with self.subTest(record=record.__name__):
                self.assertEqual(ctypes.sizeof(record), size)
                names = [name for name, _ in record._fields_]
                self.assertEqual({name: getattr(record, name).offset for name in names}, offsets)

    def test_layouts_are_of_all_structures(self):
        structures = {item for name, item in vars(kf).items()
                      if name.startswith("kf_") and inspect.isclass(item)}
        self.assertEqual(set(LAYOUTS), structures)

    def test_library_of_another_layout(self):
        kf._check_layout(1_392_188_020_040_016_016)
        for number in (0, 1_392_188_020_040_016_020, 1_392_192_020_040_016_016):
            with self.assertRaisesRegex(ImportError, f"layout {number}, this module of 1392188"):
                kf._check_layout(number)

    @unittest.skipUnless(HEADER.exists(), "there is no C header")
    def test_constants_are_those_of_the_c_header(self):
        found = re.findall(r"\b(KF_\w+) (?:= )?(0x[0-9A-F]+|\d+)", HEADER.read_text())
        values = {name: int(text, 0) for name, text in found}
        version = [values.pop(f"KF_VERSION_{part}") for part in ("MAJOR", "MINOR", "PATCH")]
        self.assertEqual(kf.__version__, ".".join(map(str, version)))
        self.assertEqual(dict(constants()), values)

    def test_every_public_item_has_a_docstring(self):
        undocumented = [name for name, item in public_items() if not inspect.getdoc(item)]
        self.assertEqual(undocumented, [])

    def test_data_lie_in_the_buffer(self):
        reading = kf.kf_read(W2 + W1, 30, 12)
        self.assertEqual((reading.end, reading.fault, reading.next), (0, 0, 30))
        part = kf.kf_data(W2 + W1, 30, reading.operation, reading.next)
        self.assertEqual((part.start, part.length), (28, 2))
        self.assertEqual(kf.kf_read(W1, len(W1), len(W1)).end, 1)


def constants():
    """Name in C and value of each constant."""
    for name, item in vars(kf).items():
        if isinstance(item, int) and not name.startswith("_"):
            yield f"KF_{name}", item
        elif inspect.isclass(item) and issubclass(item, enum.IntEnum):
            prefix = "KF_FAULT_" if item is kf.FaultNumber else "KF_"
            yield from ((prefix + member.name, member.value) for member in item)


def public_items():
    """Classes and functions of the module, and what the classes define, by name."""
    for name, item in vars(kf).items():
        if name.startswith("_") or getattr(item, "__module__", None) != "kettlefrost":
            continue
        yield name, item
        for inner, value in vars(item).items() if inspect.isclass(item) else ():
            if not inner.startswith("_") and isinstance(value, (types.FunctionType, property)):
                yield f"{name}.{inner}", value


class Loading(Case):
    def load(self, folder, **environment):
        """Imports the module in another process, with only this environment."""
        return subprocess.run([sys.executable, "-c", "import kettlefrost; kettlefrost.Bus(2)"],
                              cwd=folder, env={"PYTHONPATH": str(folder), **environment},
                              capture_output=True, text=True, check=False)

    def test_beside_the_module(self):
        with tempfile.TemporaryDirectory() as folder:
            shutil.copy(MODULE, folder)
            shutil.copy(os.environ["KETTLEFROST_LIBRARY"], f"{folder}/libkettlefrost.so")
            self.assertEqual(self.load(folder).returncode, 0)

    def test_library_without_the_calls(self):
        run = self.load(MODULE.parent, KETTLEFROST_LIBRARY=_ctypes.__file__)
        self.assertIn("ImportError: the library is of another version", run.stderr)

    def test_path_that_names_no_library(self):
        run = self.load(MODULE.parent, KETTLEFROST_LIBRARY="missing.so")
        self.assertIn("ImportError", run.stderr)
        self.assertIn(str(MODULE.parent / "missing.so"), run.stderr)


if __name__ == "__main__":
    unittest.main()
