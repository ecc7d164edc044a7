"""Kettlefrost, a proved CAN bus for co-simulation, from Python.

A session of three nodes. Nodes 0 and 1 each submit a frame and the lower ID wins; the second
round has an error, which node 2 detects; the third finds nothing to send.

>>> bus = Bus(3)
>>> bus.submit(0, CanTransmit(15, data=bytes.fromhex("AA BB")).encode())
>>> frame = CanTransmit(16).encode()
>>> bus.submit(1, frame)
>>> bus.round()
Carried(sender=0, id=15, errored=False, age=0)
>>> bus.round(Injection(ErrorCode.CRC_ERROR, detector=2))
Carried(sender=1, id=16, errored=True, age=1)
>>> bus.round()
Idle()

Collecting gives bytes, which ``operations`` takes apart.

>>> collected = bus.collect(1)
>>> for position, operation, data in operations(collected):
...     print(position, operation.code.words, operation.id, data)
0 CAN Transmit 15 b'\\xaa\\xbb'
18 Bus Error 16 b''

A register of open frames, kept by a node, says which of its frames are not yet closed.

>>> register = Register()
>>> register.enter(frame)
>>> register.open
(16,)
>>> register.read(collected)
>>> register.open
()

What the library refuses is raised, and has changed nothing.

>>> bus.submit(3, frame)
Traceback (most recent call last):
    ...
kettlefrost.Refused: 4: node number not attached

A number that does not fit its field is no question for the library.

>>> CanTransmit(1 << 32).encode()
Traceback (most recent call last):
    ...
OverflowError: id: 4294967296 is not an unsigned number of 32 bits

Names that begin with ``kf_`` are the C interface itself: its structures, and its calls, which take
each slice as a pointer and a length. All else stands on these.

The shared library is looked for at the path in the environment variable ``KETTLEFROST_LIBRARY``;
where that is not set, beside this file, then as the system's loader does. It is made from the
archive by ``cc -shared -o libkettlefrost.so -Wl,--whole-archive libkettlefrost.a
-Wl,--no-whole-archive``.
"""
import ctypes
import ctypes.util
import dataclasses
import enum
import functools
import operator
import os
from typing import ClassVar, Iterator, NamedTuple, Optional, Tuple, Union

__version__ = "0.1.0"

# Nodes of a bus.
MIN_NODES = 2
MAX_NODES = 8
# The memory of a bus: slots of pending frames, bytes of their data, bytes of all queues.
SLOTS = 32
PAYLOAD_BYTES = 65_536
QUEUE_BYTES = 32_768
# One node's part of it.
SLOTS_PER_NODE = 4
QUEUE_CAPACITY = 4_096
# The longest buffer that a submit takes, in bytes; the most open IDs of a register.
MAX_SUBMIT = 4_086
MAX_OPEN = 345
# The largest numbers of a round, of an ID, and of an ID with Ide 0.
MAX_ROUND = 4_294_967_295
MAX_ID = 536_870_911
MAX_STANDARD_ID = 2_047


class _Worded(enum.IntEnum):
    """Numbers that each have a few words."""

    words: str

    # A member is looked up by its value alone.
    def __new__(cls, value: int, words: str = ""):
        member = int.__new__(cls, value)
        member._value_ = value
        member.words = words
        return member


class Code(_Worded):
    """The code of an operation; ``words`` is its name."""

    FORMAT_ERROR = 0x01, "Format Error"
    CAN_TRANSMIT = 0x10, "CAN Transmit"
    CAN_FD_TRANSMIT = 0x11, "CAN FD Transmit"
    CAN_XL_TRANSMIT = 0x12, "CAN XL Transmit"
    CONFIRM = 0x20, "Confirm"
    ARBITRATION_LOST = 0x30, "Arbitration Lost"
    BUS_ERROR = 0x31, "Bus Error"
    CONFIGURATION = 0x40, "Configuration"
    STATUS = 0x41, "Status"
    WAKEUP = 0x42, "Wakeup"


class Number(_Worded):
    """What a call answers with: 0, or why it refused."""

    DONE = 0, "done"
    WRONG_MEMORY = 1, "memory not 32 slots, 65,536 payload bytes and 32,768 queue bytes"
    BAD_NODE_COUNT = 2, "node count not 2 to 8"
    INVALID = 3, "state or register not valid"
    NOT_ATTACHED = 4, "node number not attached"
    BUFFER_TOO_LONG = 5, "buffer above 4,086 bytes"
    BAD_INJECTION = 6, "error code not in the table, or detecting node not attached or Bus-Off"
    RULE_BROKEN = 7, "operation breaks a rule, or its data do not have the length it states"
    FOUR_PENDING = 8, "four frames of the node are pending"
    QUEUE_FULL = 9, "a queue cannot hold what it is owed"
    ROUNDS_USED_UP = 10, "round number at its largest"
    BUFFER_TOO_SMALL = 11, "buffer too small for what is to be written to it"
    REGISTER_FULL = 12, "a 346th open ID"
    REGISTER_DIFFERS = 13, "closing operation of an ID that is not open"


class FaultNumber(_Worded):
    """Why bytes are no operation."""

    TOO_FEW_BYTES = 1, "fewer than 8 bytes remain"
    LENGTH_OUT_OF_RANGE = 2, "length below 8 or past end"
    UNKNOWN_CODE = 3, "unknown code"
    LENGTH_NOT_OF_KIND = 4, "length not that of its kind"
    RULE_BROKEN = 5, "content rule broken"


class ErrorCode(enum.IntEnum):
    """Error Code of a Bus Error, and of an injected error."""

    BIT_ERROR = 1
    BIT_STUFFING_ERROR = 2
    FORM_ERROR = 3
    CRC_ERROR = 4
    ACK_ERROR = 5
    BROKEN_ERROR_FRAME = 6


class ErrorFlag(enum.IntEnum):
    """Error Flag of a Bus Error: whether its receiver is the node that detected the error."""

    PRIMARY_ERROR_FLAG = 1
    SECONDARY_ERROR_FLAG = 2


class NodeStatus(enum.IntEnum):
    """Status of a node."""

    ERROR_ACTIVE = 1
    ERROR_PASSIVE = 2
    BUS_OFF = 3


class ConfigurationKind(enum.IntEnum):
    """What a Configuration sets: one of three baud rates, or a ``Behaviour``."""

    CAN_BAUDRATE = 1
    CAN_FD_BAUDRATE = 2
    CAN_XL_BAUDRATE = 3
    ARBITRATION_LOST_BEHAVIOR = 4


class Behaviour(enum.IntEnum):
    """What becomes of a node's frame that loses arbitration."""

    BUFFER_AND_RETRANSMIT = 1
    DISCARD_AND_NOTIFY = 2


class Refused(Exception):
    """A call was refused and changed nothing; ``number`` says why, ``number.words`` in words."""

    def __init__(self, number: int):
        self.number = Number(number)
        super().__init__(self.number)

    def __str__(self):
        return f"{self.number.value}: {self.number.words}"


# The C interface.

_NUMBERS = {ctypes.c_uint8, ctypes.c_uint16, ctypes.c_uint32, ctypes.c_size_t}


def _check_fits(name, value, kind):
    """ctypes would keep the low bits of a number that does not fit."""
    number, bits = operator.index(value), 8 * ctypes.sizeof(kind)
    if not 0 <= number < 1 << bits:
        raise OverflowError(f"{name}: {number} is not an unsigned number of {bits} bits")


class _Record(ctypes.Structure):
    """A structure whose numbers must fit their fields."""

    def __setattr__(self, name, value):
        kind = dict(self._fields_).get(name)
        if kind in _NUMBERS:
            _check_fits(name, value, kind)
        elif kind and isinstance(value, tuple):
            # As ctypes does, but an OverflowError stays one.
            value = kind(*value)
        super().__setattr__(name, value)


def _set_item(array, index, value):
    """The items of an array must fit."""
    for item in value if isinstance(index, slice) else [value]:
        _check_fits("item", item, array._type_)
    ctypes.Array.__setitem__(array, index, value)


class _Rates(ctypes.Array):
    """The baud rates of CAN, CAN FD and CAN XL."""

    _type_, _length_ = ctypes.c_uint32, 3
    __setitem__ = _set_item


class _Ids(ctypes.Array):
    """The IDs of a register."""

    _type_, _length_ = ctypes.c_uint32, MAX_OPEN
    __setitem__ = _set_item


class kf_slot(_Record):
    """A pending frame without its data; ``kind`` is the code of its Transmit, 0 if free."""

    _fields_ = [
        ("accepted", ctypes.c_uint32),
        ("id", ctypes.c_uint32),
        ("af", ctypes.c_uint32),
        ("length", ctypes.c_uint16),
        ("kind", ctypes.c_uint8),
        ("owner", ctypes.c_uint8),
        ("first", ctypes.c_uint8),
        ("second", ctypes.c_uint8),
        ("third", ctypes.c_uint8),
        ("fourth", ctypes.c_uint8),
    ]


class kf_node_state(_Record):
    """What the state has of one node."""

    _fields_ = [
        ("rates", _Rates),
        ("fill", ctypes.c_uint16),
        ("status", ctypes.c_uint8),
        ("behaviour", ctypes.c_uint8),
        ("pending", ctypes.c_uint8),
    ]


class kf_state(_Record):
    """The state of a bus; the entries from ``count`` on are of no node."""

    _fields_ = [
        ("count", ctypes.c_uint32),
        ("round", ctypes.c_uint32),
        ("nodes", kf_node_state * MAX_NODES),
    ]


class kf_answer(_Record):
    """The answer of a call of the bus; what a call has no value for is 0."""

    _fields_ = [
        ("number", ctypes.c_uint32),
        ("id", ctypes.c_uint32),
        ("age", ctypes.c_uint32),
        ("length", ctypes.c_uint16),
        ("sender", ctypes.c_uint8),
        ("idle", ctypes.c_uint8),
        ("errored", ctypes.c_uint8),
        ("state", kf_state),
    ]


class kf_operation(_Record):
    """An operation without its data. ``word`` is AF or the value of a Configuration, ``length`` is
    DL or n, ``first`` to ``fourth`` are the one-byte fields in their order."""

    _fields_ = [
        ("code", ctypes.c_uint32),
        ("id", ctypes.c_uint32),
        ("word", ctypes.c_uint32),
        ("length", ctypes.c_uint16),
        ("first", ctypes.c_uint8),
        ("second", ctypes.c_uint8),
        ("third", ctypes.c_uint8),
        ("fourth", ctypes.c_uint8),
    ]


class kf_reading(_Record):
    """What stands at a position: the end, a fault, or an operation; and the position after it."""

    _fields_ = [
        ("end", ctypes.c_uint32),
        ("fault", ctypes.c_uint32),
        ("next", ctypes.c_size_t),
        ("operation", kf_operation),
    ]


class kf_part(_Record):
    """Where data lie in a buffer; both 0 where there are none."""

    _fields_ = [("start", ctypes.c_size_t), ("length", ctypes.c_size_t)]


class kf_written(_Record):
    """The answer of a write; ``length`` is 0 when refused."""

    _fields_ = [("refusal", ctypes.c_size_t), ("length", ctypes.c_size_t)]


class kf_register(_Record):
    """A register: the first ``count`` of ``ids`` are open, oldest first; ``off`` is not 0 where
    the node is Bus-Off."""

    _fields_ = [("ids", _Ids), ("count", ctypes.c_uint32), ("off", ctypes.c_uint32)]


class kf_register_answer(_Record):
    """The answer of a call of the register."""

    _fields_ = [("number", ctypes.c_uint32), ("reg", kf_register)]


def _library_path():
    named = os.environ.get("KETTLEFROST_LIBRARY")
    if named:
        return os.path.abspath(named)
    beside = os.path.join(os.path.dirname(os.path.abspath(__file__)), "libkettlefrost.so")
    if os.path.exists(beside):
        return beside
    return ctypes.util.find_library("kettlefrost") or "libkettlefrost.so"


def _load(path):
    try:
        return ctypes.CDLL(path)
    except OSError as error:
        hint = "KETTLEFROST_LIBRARY can name the path of libkettlefrost.so"
        raise ImportError(f"{error} ({hint})") from error


_library = _load(_library_path())


def _exported(declaration):
    """The library's function of this name, with the types that the declaration has."""
    try:
        function = getattr(_library, declaration.__name__)
    except AttributeError as error:
        raise ImportError(f"the library is of another version: {error}") from error
    *parameters, (_, function.restype) = declaration.__annotations__.items()
    function.argtypes = [kind for _, kind in parameters]
    numbers = [(i, name, kind) for i, (name, kind) in enumerate(parameters) if kind in _NUMBERS]

    @functools.wraps(declaration)
    def call(*arguments):
        if len(arguments) != len(parameters):
            raise TypeError(f"{declaration.__name__}: {len(parameters)} arguments are needed")
        for i, name, kind in numbers:
            _check_fits(name, arguments[i], kind)
        return function(*arguments)

    return call


_U32 = ctypes.c_uint32
_Size = ctypes.c_size_t
_Slots = ctypes.POINTER(kf_slot)
# An array of c_char is taken as either; a bytes object only where the library does not write.
_Bytes = ctypes.c_char_p
_Writable = ctypes.POINTER(ctypes.c_char)


@_exported
def kf_start(
    slots: _Slots, slots_length: _Size,
    payload: _Bytes, payload_length: _Size,
    queues: _Bytes, queues_length: _Size,
    count: _U32,
) -> kf_answer:
    """Starts a bus of ``count`` nodes: frees all slots."""


@_exported
def kf_submit(
    state: kf_state,
    slots: _Slots, slots_length: _Size,
    payload: _Writable, payload_length: _Size,
    queues: _Writable, queues_length: _Size,
    node: _U32,
    buffer: _Bytes, buffer_length: _Size,
) -> kf_answer:
    """Submits a node's buffer of operations, which is taken whole or refused whole."""


@_exported
def kf_round(
    state: kf_state,
    slots: _Slots, slots_length: _Size,
    payload: _Writable, payload_length: _Size,
    queues: _Writable, queues_length: _Size,
    injected: _U32, code: _U32, detector: _U32,
) -> kf_answer:
    """Plays one round; with an error, if ``injected`` is not 0, that node ``detector`` detects."""


@_exported
def kf_collect(
    state: kf_state,
    slots: _Slots, slots_length: _Size,
    payload: _Bytes, payload_length: _Size,
    queues: _Bytes, queues_length: _Size,
    node: _U32,
    buffer: _Writable, buffer_length: _Size,
) -> kf_answer:
    """Copies a node's queue to the front of the buffer and empties the queue."""


@_exported
def kf_read(buffer: _Bytes, buffer_length: _Size, at: _Size) -> kf_reading:
    """Reads the operation at a position."""


@_exported
def kf_data(
    buffer: _Bytes, buffer_length: _Size, operation: kf_operation, next: _Size
) -> kf_part:
    """Where the data of an operation that ends at ``next`` lie."""


@_exported
def kf_write(
    operation: kf_operation,
    data: _Bytes, data_length: _Size,
    buffer: _Writable, buffer_length: _Size,
) -> kf_written:
    """Writes an operation with its data to the front of the buffer."""


@_exported
def kf_register_new() -> kf_register:
    """A register with nothing open, of a node that is not Bus-Off."""


@_exported
def kf_register_enter(
    register: kf_register, buffer: _Bytes, buffer_length: _Size
) -> kf_register_answer:
    """Enters a buffer whose submit was accepted."""


@_exported
def kf_register_read(
    register: kf_register, buffer: _Bytes, buffer_length: _Size
) -> kf_register_answer:
    """Reads the bytes that a collect gave."""


@_exported
def kf_layout() -> ctypes.c_uint64:
    """The sizes of the library's structures as one number, three decimal digits a size."""


def _check_layout(library):
    """A library whose structures have other sizes would read and write past them."""
    here = 0
    for record in (kf_register_answer, kf_answer, kf_slot, kf_reading, kf_part, kf_written):
        here = here * 1_000 + ctypes.sizeof(record)
    if here != library:
        raise ImportError(f"the library has structures of layout {library}, this module of {here}")


_check_layout(kf_layout())


# For test benches.

# What is taken where bytes are read.
BytesLike = Union[bytes, bytearray, memoryview]


def _bytes(value):
    """bytes() alone would take a number for a length."""
    return bytes(memoryview(value))


def _accept(number):
    if number != Number.DONE:
        raise Refused(number)


def _at(column, convert=int, **default):
    """A field of an operation, which stands at a column of ``kf_operation``."""
    return dataclasses.field(metadata={"column": column, "convert": convert}, **default)


class Operation:
    """What the ten operations have in common. ``data`` are empty where a kind carries none; DL or n
    is their length. A field that a kind takes from a table reads as that table's enum."""

    code: ClassVar[Code]
    data = b""

    def encode(self) -> bytes:
        """The operation as bytes. ``Refused`` with 7 if it breaks a content rule."""
        data = _bytes(self.data)
        record = kf_operation(code=self.code, length=len(data), **self._columns())
        room = (ctypes.c_char * (_LONGEST_HEADER + len(data)))()
        written = kf_write(record, data, len(data), room, len(room))
        _accept(written.refusal)
        return room.raw[:written.length]

    def _columns(self):
        fields = [field for field in dataclasses.fields(self) if field.name != "data"]
        return {field.metadata["column"]: getattr(self, field.name) for field in fields}


# That of a CAN XL Transmit.
_LONGEST_HEADER = 22


@dataclasses.dataclass(frozen=True)
class FormatError(Operation):
    """Answers bytes that the bus could not take, and carries them."""

    code = Code.FORMAT_ERROR
    data: bytes = b""


@dataclasses.dataclass(frozen=True)
class CanTransmit(Operation):
    """A CAN frame. The ID has 11 bits if ``ide`` is 0 and 29 if it is 1; data are 0 to 8 bytes, and
    none in a remote frame (``rtr`` 1)."""

    code = Code.CAN_TRANSMIT
    id: int = _at("id")
    ide: int = _at("first", default=0)
    rtr: int = _at("second", default=0)
    data: bytes = b""


@dataclasses.dataclass(frozen=True)
class CanFdTransmit(Operation):
    """A CAN FD frame; data are 0 to 8, 12, 16, 20, 24, 32, 48 or 64 bytes."""

    code = Code.CAN_FD_TRANSMIT
    id: int = _at("id")
    ide: int = _at("first", default=0)
    brs: int = _at("second", default=0)
    esi: int = _at("third", default=0)
    data: bytes = b""


@dataclasses.dataclass(frozen=True)
class CanXlTransmit(Operation):
    """A CAN XL frame; data are 1 to 2,048 bytes."""

    code = Code.CAN_XL_TRANSMIT
    id: int = _at("id")
    ide: int = _at("first", default=0)
    sec: int = _at("second", default=0)
    sdt: int = _at("third", default=0)
    vcid: int = _at("fourth", default=0)
    af: int = _at("word", default=0)
    data: bytes = b""


@dataclasses.dataclass(frozen=True)
class Confirm(Operation):
    """Tells a sender that its frame was delivered."""

    code = Code.CONFIRM
    id: int = _at("id")


@dataclasses.dataclass(frozen=True)
class ArbitrationLost(Operation):
    """Tells a sender that its frame lost and was discarded."""

    code = Code.ARBITRATION_LOST
    id: int = _at("id")


@dataclasses.dataclass(frozen=True)
class BusError(Operation):
    """Tells a node of an error; ``is_sender`` is 1 where the frame was its own."""

    code = Code.BUS_ERROR
    id: int = _at("id")
    error_code: ErrorCode = _at("first", ErrorCode)
    error_flag: ErrorFlag = _at("second", ErrorFlag)
    is_sender: int = _at("third")


@dataclasses.dataclass(frozen=True)
class Configuration(Operation):
    """Sets a baud rate, or what becomes of the node's frames that lose (a ``Behaviour``)."""

    code = Code.CONFIGURATION
    kind: ConfigurationKind = _at("first", ConfigurationKind)
    value: int = _at("word")


@dataclasses.dataclass(frozen=True)
class Status(Operation):
    """Tells the bus a node's status; Bus-Off removes its pending frames and empties its queue."""

    code = Code.STATUS
    status: NodeStatus = _at("first", NodeStatus)


@dataclasses.dataclass(frozen=True)
class Wakeup(Operation):
    """Goes to every other node that is not Bus-Off."""

    code = Code.WAKEUP


@dataclasses.dataclass(frozen=True)
class Fault:
    """Bytes that are no operation; ``number.words`` says why."""

    number: FaultNumber


_KINDS = {kind.code: kind for kind in Operation.__subclasses__()}


def _operation(record, data):
    """The operation of a record that the library has read, whose values are those of its rules."""
    kind = _KINDS[record.code]

    def value(field):
        if field.name == "data":
            return data
        return field.metadata["convert"](getattr(record, field.metadata["column"]))

    return kind(*map(value, dataclasses.fields(kind)))


def _item(content, at, reading):
    if reading.fault:
        return Fault(FaultNumber(reading.fault)), content[at:reading.next]
    part = kf_data(content, len(content), reading.operation, reading.next)
    data = content[part.start:part.start + part.length]
    return _operation(reading.operation, data), data


def operations(buffer: BytesLike) -> Iterator[Tuple[int, Union[Operation, Fault], bytes]]:
    """What stands in a buffer, in order: position, operation or fault, and data, which of a fault
    are its complete bytes."""
    content, at = _bytes(buffer), 0
    while True:
        reading = kf_read(content, len(content), at)
        if reading.end:
            return
        item, data = _item(content, at, reading)
        yield at, item, data
        at = reading.next


class Injection(NamedTuple):
    """An error to play a round with, and the number of the node that detects it."""

    code: int
    detector: int


@dataclasses.dataclass(frozen=True)
class Idle:
    """Nothing was pending: the round changed nothing, its number included."""


@dataclasses.dataclass(frozen=True)
class Carried:
    """The frame that won: delivered, or errored. ``age`` is the rounds since it was accepted."""

    sender: int
    id: int
    errored: bool
    age: int


class Node(NamedTuple):
    """What the bus holds of a node: status, behaviour, the baud rates of CAN, CAN FD and CAN XL,
    how many frames are pending, and how many bytes its queue holds."""

    status: NodeStatus
    behaviour: Behaviour
    rates: Tuple[int, int, int]
    pending: int
    fill: int


class Bus:
    """A bus with its state and memory, for one thread at a time."""

    def __init__(self, nodes: int):
        """Starts a bus of 2 to 8 nodes; refuses with 2."""
        slots = (kf_slot * SLOTS)()
        payload = (ctypes.c_char * PAYLOAD_BYTES)()
        queues = (ctypes.c_char * QUEUE_BYTES)()
        self._memory = (slots, SLOTS, payload, PAYLOAD_BYTES, queues, QUEUE_BYTES)
        self._take(kf_start(*self._memory, nodes))

    def _take(self, answer):
        _accept(answer.number)
        self._state = answer.state
        return answer

    def submit(self, node: int, buffer: BytesLike) -> None:
        """Submits a node's operations, all or none; refuses with 4, 5, 8 and 9."""
        content = _bytes(buffer)
        self._take(kf_submit(self._state, *self._memory, node, content, len(content)))

    def round(self, error: Optional[Injection] = None) -> Union[Idle, Carried]:
        """Plays one round, with an error if one is given; refuses with 6, 9 and 10."""
        code, detector = (0, 0) if error is None else error
        injected = error is not None
        answer = self._take(kf_round(self._state, *self._memory, injected, code, detector))
        if answer.idle:
            return Idle()
        return Carried(answer.sender, answer.id, bool(answer.errored), answer.age)

    def collect(self, node: int) -> bytes:
        """A node's queue, which is empty afterwards; refuses with 4."""
        room = (ctypes.c_char * QUEUE_CAPACITY)()
        answer = self._take(kf_collect(self._state, *self._memory, node, room, len(room)))
        return room.raw[:answer.length]

    @property
    def node_count(self) -> int:
        """How many nodes are attached."""
        return self._state.count

    @property
    def round_number(self) -> int:
        """How many rounds were carried out."""
        return self._state.round

    def node(self, node: int) -> Node:
        """What the bus holds of an attached node; IndexError for another number."""
        if not 0 <= operator.index(node) < self.node_count:
            raise IndexError(f"node {node} of {self.node_count}")
        entry = self._state.nodes[node]
        status, behaviour = NodeStatus(entry.status), Behaviour(entry.behaviour)
        can, can_fd, can_xl = entry.rates
        return Node(status, behaviour, (can, can_fd, can_xl), entry.pending, entry.fill)


class Register:
    """The register that a node keeps of its open frames."""

    def __init__(self):
        """Nothing open, and not Bus-Off."""
        self._record = kf_register_new()

    def _take(self, call, buffer):
        content = _bytes(buffer)
        answer = call(self._record, content, len(content))
        _accept(answer.number)
        self._record = answer.reg

    def enter(self, buffer: BytesLike) -> None:
        """Enters a buffer whose submit was accepted; refuses with 12."""
        self._take(kf_register_enter, buffer)

    def read(self, buffer: BytesLike) -> None:
        """Reads what a collect gave; refuses with 13."""
        self._take(kf_register_read, buffer)

    @property
    def open(self) -> Tuple[int, ...]:
        """The IDs of the frames that are not yet closed, oldest first."""
        return tuple(self._record.ids[:self._record.count])

    @property
    def bus_off(self) -> bool:
        """Whether the node is Bus-Off, by the last Status entered."""
        return bool(self._record.off)
