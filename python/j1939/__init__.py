"""SAE J1939 for Python, over the proved library libj1939: who on a bus of a truck, bus or tractor said what.

    import j1939

    for line in j1939.report("trip.log"):
        print(line)

What a call promises is what `j1939.h` says of the call of the same name. Times are microseconds. Sections are those of SAE
J1939-21 (data link), -71 (application), -73 (diagnostics) and -81 (network management).
"""

from __future__ import annotations

import ctypes
import os
import re
from decimal import Decimal
from pathlib import Path
from types import TracebackType
from typing import BinaryIO, Callable, Iterable, Iterator, NamedTuple, Optional, Protocol, Union

__all__ = [
    "Fault",
    "Frame",
    "Id",
    "Lamp",
    "Listener",
    "Message",
    "Name",
    "Reading",
    "Refused",
    "Table",
    "failure_name",
    "frames",
    "function_name",
    "group_name",
    "listen",
    "maker_name",
    "parameter_name",
    "report",
]

LONGEST = 1785
LONGEST_LINE = 7200
LONGEST_NAME = 80
BAD_VALUE, NO_MEMORY, END = -1, -3, -6


class Refused(ValueError):
    """A number is out of its range, a text is no table, or a listener is closed."""


_U8, _U16, _U32, _U64 = ctypes.c_uint8, ctypes.c_uint16, ctypes.c_uint32, ctypes.c_uint64
_NAME_FIELDS = "arbitrary industry system_instance system reserved function function_instance ecu_instance"


class _Frame(ctypes.Structure):
    _fields_ = [("micros", _U64), ("id", _U32), ("len", _U8), ("data", _U8 * 8)]


class _Message(ctypes.Structure):
    _fields_ = [("micros", _U64), ("name", _U64), ("pgn", _U32), ("len", _U16), ("source", _U8), ("is_named", _U8),
                ("data", _U8 * LONGEST), ("is_addressed", _U8), ("destination", _U8)]


class _Table(ctypes.Structure):
    _fields_ = [("text", ctypes.c_char_p), ("size", ctypes.c_size_t)]


class _Wrong(ctypes.Structure):
    _fields_ = [("line", _U32), ("column", _U8)]


class _Fault(ctypes.Structure):
    _fields_ = [("spn", _U32), ("version_1", _U32), ("version_2", _U32), ("fmi", _U8), ("count", _U8), ("conversion", _U8)]


class _Id(ctypes.Structure):
    _fields_ = [("pgn", _U32), ("priority", _U8), ("source", _U8), ("destination", _U8)]


class _Name(ctypes.Structure):
    _fields_ = [("identity", _U32), ("manufacturer", _U16), *((field, _U8) for field in _NAME_FIELDS.split())]


class _Handle(ctypes.Structure):
    _fields_ = [("part", _U64), ("memory", _U64)]


def _load() -> ctypes.CDLL:
    """The library that J1939_SHARED names, or the one beside this file, or the one that is installed."""
    beside = Path(__file__).with_name("libj1939.so")
    name = os.environ.get("J1939_SHARED") or (str(beside) if beside.exists() else "libj1939.so.0.2")
    try:
        library = ctypes.CDLL(name)
    except OSError as fault:
        raise ImportError(f"{fault}; J1939_SHARED names the library (c/build/libj1939.so of `make -C c`)") from fault
    # size_t is wider than what ctypes takes a number for, and an identifier isn't signed.
    pointer, size, word = ctypes.c_void_p, ctypes.c_size_t, ctypes.c_uint32
    library.j1939_table_init.argtypes = [pointer, ctypes.c_char_p, size, pointer]
    library.j1939_report_line.argtypes = [pointer, size, ctypes.c_char_p, size]
    library.j1939_report_line_by.argtypes = [pointer, pointer, size, ctypes.c_char_p, size]
    library.j1939_fault_at.argtypes = [pointer, size, pointer]
    for number in ("parameter", "group", "function", "maker", "failure"):
        getattr(library, f"j1939_{number}_name").argtypes = [word, ctypes.c_char_p, size]
    library.j1939_id_split.argtypes = [word, pointer]
    library.j1939_name_split.argtypes = [ctypes.c_uint64, pointer]
    library.j1939_listener_holder.argtypes = [pointer, ctypes.c_uint8, pointer]
    return library


_library = _load()


def _answer(answer: int) -> int:
    """What a call answers, where it doesn't refuse."""
    if answer == NO_MEMORY:
        raise MemoryError
    if answer < 0:
        raise Refused("a number is out of its range" if answer == BAD_VALUE else "the listener is closed")
    return answer


class Frame(NamedTuple):
    """A frame: when it was seen, its identifier of 29 bits, and 0 to 8 bytes (J1939-21, 5.2)."""

    micros: int
    id: int
    data: bytes


class Id(NamedTuple):
    """The fields of an identifier (J1939-21, 5.2)."""

    pgn: int
    priority: int
    source: int
    destination: int

    @classmethod
    def of(cls, identifier: int) -> Id:
        """Those of an identifier; refused from 2^29 on."""
        fields = _Id()
        _answer(_library.j1939_id_split(_fits(identifier, 32), ctypes.byref(fields)))
        return cls(fields.pgn, fields.priority, fields.source, fields.destination)

    def compose(self) -> int:
        """The identifier of these fields; refused where there is none."""
        pgn, rest = _fits(self.pgn, 32), [_fits(field, 8) for field in self[1:]]
        identifier = ctypes.c_uint32()
        _answer(_library.j1939_id_compose(ctypes.byref(_Id(pgn, *rest)), ctypes.byref(identifier)))
        return identifier.value


class Name(NamedTuple):
    """The fields of a NAME (J1939-81, 4.1.1)."""

    identity: int
    manufacturer: int
    arbitrary: int
    industry: int
    system_instance: int
    system: int
    reserved: int
    function: int
    function_instance: int
    ecu_instance: int

    @classmethod
    def of(cls, name: int) -> Name:
        """Those of a NAME of 64 bits."""
        fields = _Name()
        _answer(_library.j1939_name_split(_fits(name, 64), ctypes.byref(fields)))
        return cls(*(getattr(fields, field) for field, _ in _Name._fields_))

    def compose(self) -> int:
        """The NAME of these fields; refused where one is too large for its bits."""
        widths = [32, 16] + 8 * [8]
        name = ctypes.c_uint64()
        fields = _Name(*(_fits(field, width) for field, width in zip(self, widths)))
        _answer(_library.j1939_name_compose(ctypes.byref(fields), ctypes.byref(name)))
        return name.value


class Table:
    """A table of parameters of your own: its text, lines as `j1939 groups` prints them (docs/FORMATS.md). A text that is none is
    refused, by its first wrong line and column."""

    def __init__(self, text: Union[str, bytes]) -> None:
        # The library reads it as long as the table is used.
        self._text = text.encode("utf-8", "surrogateescape") if isinstance(text, str) else bytes(text)
        self._plain, wrong = _Table(), _Wrong()
        if _library.j1939_table_init(ctypes.byref(self._plain), self._text, len(self._text), ctypes.byref(wrong)) < 0:
            raise Refused(_wrong(wrong.line, wrong.column))


def _wrong(line: int, column: int) -> str:
    """What is wrong with a text that is no table."""
    if column == 0:
        return "more than 1048576 bytes or 65536 rows"
    name = "PGN group SPN place step offset unit name states".split()[column - 1]
    return f"line {line}, column {column}: no {name}"


class Reading(NamedTuple):
    """A parameter of a message: its SPN; its value, a number to the slot's resolution, True or False of a switch, or a text, and
    None where the sender reports no value; a number's unit; and what `report` prints of it."""

    spn: int
    value: Union[Decimal, bool, str, None]
    unit: str
    text: str


class Fault(NamedTuple):
    """A trouble code: its SPN, what is wrong with it (FMI), and how often it came, if that is told. By conversion method 1 its maker
    knows which of three versions its SPN is of; else there is one (J1939-73, 5.7.1)."""

    spn: int
    fmi: int
    occurrences: Optional[int]
    versions: tuple[int, ...]


class Lamp(NamedTuple):
    """A lamp: whether it is on, None where that isn't told, and whether it flashes."""

    is_on: Optional[bool]
    flashes: bool


class Message(NamedTuple):
    """A message, of one frame or put together of packets (J1939-21, 5.10): the moment of its last frame, its group, the address
    that sent it, the NAME that held that address, if any claim tells it, where it was sent (255 is all; None where no destination
    is told), and its bytes."""

    micros: int
    pgn: int
    source: int
    name: Optional[int]
    destination: Optional[int]
    data: bytes

    def readings(self, table: Optional[Table] = None) -> Iterator[Reading]:
        """The parameters in it, by the built-in table or your own; none of a group that it lacks (J1939-71)."""
        for line in self._replace(micros=0, source=0, name=None).lines(table):
            *_, spn, text = line.split(" ", 5)
            yield Reading(int(spn), *_value(text), text)

    def faults(self) -> Iterator[Fault]:
        """The trouble codes of a DM1, DM2 and their kin; none of another group (J1939-73, 5.7)."""
        message, fault = self._plain(), _Fault()
        index = 0
        while (answer := _library.j1939_fault_at(ctypes.byref(message), index, ctypes.byref(fault))) != END:
            _answer(answer)
            versions = (fault.version_1, fault.version_2, fault.spn) if fault.conversion else (fault.spn,)
            yield Fault(fault.spn, fault.fmi, None if fault.count == 127 else fault.count, versions)
            index += 1

    def lamps(self) -> Optional[dict[str, Lamp]]:
        """The lamps `malfunction`, `red`, `amber` and `protect` of such a message."""
        message, lamps = self._plain(), (ctypes.c_uint8 * 8)()
        answer = _library.j1939_lamps_of(ctypes.byref(message), ctypes.byref(lamps))
        if answer == END:
            return None
        _answer(answer)
        told = ("malfunction", "red", "amber", "protect")
        return {lamp: Lamp({0: False, 1: True}.get(lamps[2 * i]), lamps[2 * i + 1] < 2) for i, lamp in enumerate(told)}

    def lines(self, table: Optional[Table] = None) -> Iterator[str]:
        """The report's lines of it, by the built-in table or your own."""
        message = self._plain()
        message.micros, message.source = _fits(self.micros, 64), _fits(self.source, 8)
        message.name, message.is_named = _fits(self.name or 0, 64), self.name is not None
        room = LONGEST_LINE if table is None else LONGEST_LINE + len(table._text)
        line, index = ctypes.create_string_buffer(room), 0
        while True:
            if table is None:
                size = _library.j1939_report_line(ctypes.byref(message), index, line, room)
            else:
                size = _library.j1939_report_line_by(ctypes.byref(table._plain), ctypes.byref(message), index, line, room)
            if size == END:
                return
            yield ctypes.string_at(line, _answer(size) - 1).decode("utf-8", "surrogateescape")
            index += 1

    def _plain(self) -> _Message:
        if len(self.data) > LONGEST:
            raise Refused("a message has at most 1785 bytes")
        message = _Message(pgn=_fits(self.pgn, 32), len=len(self.data))
        message.data[: len(self.data)] = self.data
        return message


class Listener:
    """Hears the frames of one bus: who holds which address, and which messages are whole (J1939-21, 5.10; J1939-81, 4.2)."""

    def __init__(self) -> None:
        self._handle = _Handle()
        _answer(_library.j1939_listener_new(ctypes.byref(self._handle)))
        self._message = _Message()

    def feed(self, frame: Frame, is_single: Optional[bool] = None) -> Optional[Message]:
        """Hears the next frame of the bus: the message that is whole by it. A frame that is out of range is refused. The built-in
        table says whether the frame's group is heard in one frame, or `is_single` does, as for groups of a table of your own."""
        if len(frame.data) > 8:
            raise Refused("a frame has at most 8 bytes")
        plain = _Frame(_fits(frame.micros, 64), _fits(frame.id, 32), len(frame.data), (ctypes.c_uint8 * 8)(*frame.data))
        handle, message = ctypes.byref(self._handle), self._message
        if is_single is None:
            answer = _library.j1939_listener_feed(handle, ctypes.byref(plain), ctypes.byref(message))
        else:
            answer = _library.j1939_listener_feed_as(handle, is_single, ctypes.byref(plain), ctypes.byref(message))
        if not _answer(answer):
            return None
        return Message(
            message.micros,
            message.pgn,
            message.source,
            message.name if message.is_named else None,
            message.destination if message.is_addressed else None,
            bytes(message.data[: message.len]),
        )

    def holder(self, address: int) -> Optional[int]:
        """The NAME that holds an address, by the claims heard."""
        name = ctypes.c_uint64()
        is_held = _answer(_library.j1939_listener_holder(ctypes.byref(self._handle), _fits(address, 8), ctypes.byref(name)))
        return name.value if is_held else None

    def close(self) -> None:
        """Gives its memory back. A closed one refuses."""
        _library.j1939_listener_close(ctypes.byref(self._handle))

    def __enter__(self) -> Listener:
        return self

    def __exit__(self, kind: Optional[type[BaseException]], raised: Optional[BaseException], trace: Optional[TracebackType]) -> None:
        self.close()

    def __del__(self) -> None:
        # Where `__init__` was refused there is none.
        if hasattr(self, "_handle"):
            self.close()


class CanMessage(Protocol):
    """What is read of a message of python-can."""

    timestamp: float
    arbitration_id: int
    is_extended_id: bool
    is_error_frame: bool
    is_remote_frame: bool
    is_fd: bool
    data: Union[bytes, bytearray]


def listen(bus: Iterable[CanMessage]) -> Iterator[Message]:
    """The messages of a bus of python-can, or of any list of its messages, each as it becomes whole."""
    with Listener() as listener:
        for heard in bus:
            if not heard.is_extended_id or heard.is_error_frame or heard.is_remote_frame or heard.is_fd:
                continue
            message = listener.feed(Frame(round(heard.timestamp * 1_000_000), heard.arbitration_id, bytes(heard.data)))
            if message is not None:
                yield message


_LINE = re.compile(
    rb" *\((\d{1,10})\.(\d{6})(?:\d{3})?\) +([^\x00-\x20\x7f]{1,15}) +([01][0-9A-Fa-f]{7})#((?:[0-9A-Fa-f]{2}){0,8})(?: +[RT])? *\r?"
)
_LONGEST_LINE = 256

Log = Union[str, "os.PathLike[str]", BinaryIO, Iterable[bytes]]


def frames(log: Log) -> Iterator[tuple[str, Frame]]:
    """The frames in a log as `candump -l` writes it, each with the name of its bus. Lines that are none are passed over."""
    if isinstance(log, (str, os.PathLike)):
        with open(log, "rb") as opened:
            yield from frames(opened)
        return
    for line in log:
        line = line[:-1] if line.endswith(b"\n") else line
        parts = _LINE.fullmatch(line) if len(line) <= _LONGEST_LINE else None
        if parts:
            seconds, micros, bus, identifier, data = parts.groups()
            yield bus.decode("latin-1"), Frame(int(seconds + micros), int(identifier, 16), bytes.fromhex(data.decode()))


def report(log: Log, bus: Optional[str] = None, table: Optional[Table] = None) -> Iterator[str]:
    """The lines of `j1939 report` of a log: of the bus named, or of the first frame's; by the built-in table or your own."""
    is_single = None if table is None else True
    with Listener() as listener:
        for name, frame in frames(log):
            bus = name if bus is None else bus
            message = listener.feed(frame, is_single) if name == bus else None
            if message is not None:
                yield from message.lines(table)


def parameter_name(spn: int) -> Optional[str]:
    """What a parameter is called, where its name is known."""
    return _name(_library.j1939_parameter_name, _fits(spn, 32))


def group_name(pgn: int) -> Optional[str]:
    """The short name of a group, as EEC1."""
    return _name(_library.j1939_group_name, _fits(pgn, 32))


def function_name(function: int) -> Optional[str]:
    """What a function of a NAME below 128 is called (J1939-81, 4.1.1)."""
    return _name(_library.j1939_function_name, _fits(function, 8))


def maker_name(manufacturer: int) -> Optional[str]:
    """Who makes a controller, by the manufacturer code of its NAME."""
    return _name(_library.j1939_maker_name, _fits(manufacturer, 16))


def failure_name(fmi: int) -> Optional[str]:
    """What is wrong by a failure mode identifier (FMI): `reserved` where it says nothing."""
    return _name(_library.j1939_failure_name, _fits(fmi, 8))


def _name(call: Callable[..., int], number: int) -> Optional[str]:
    text = ctypes.create_string_buffer(LONGEST_NAME)
    size = call(number, text, LONGEST_NAME)
    return None if size == END else text.raw[: _answer(size)].decode("ascii")


def _fits(number: int, bits: int) -> int:
    """A number that has so many bits at most; ctypes would cut it."""
    if not 0 <= number < 1 << bits:
        raise Refused(f"{number} is out of its range")
    return number


def _value(text: str) -> tuple[Union[Decimal, bool, str, None], str]:
    """The value and the unit that the report prints so."""
    if text.startswith('"'):
        return _ESCAPED.sub(_unescape, text[1:-1]), ""
    number, _, unit = text.partition(" ")
    return (Decimal(number), unit) if unit else ({"on": True, "off": False}.get(text), "")


_ESCAPED = re.compile(r"\\x([0-9A-F]{2})")


def _unescape(escaped: re.Match[str]) -> str:
    """A byte of a text that the report writes as two hex digits, as Latin-1 has it."""
    return chr(int(escaped[1], 16))
