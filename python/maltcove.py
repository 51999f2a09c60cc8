"""A packet scheduler by FQ-CoDel (RFC 8290), proved: the library of ``maltcove.h`` for Python.

A scheduler holds no packet. Each packet has a tag, a number of the caller's own, that comes back once: as ``Sent``,
``Dropped`` or ``Flushed``. Moments are whole microseconds below 2**60, and must not step back.

    with Scheduler("limit 1000 target 5ms") as scheduler:
        admitted = scheduler.enqueue(0, Packet(tag=42, len=1000, src="10.0.0.1", dst="10.0.0.2"))
        lost = scheduler.drops()
        sent = scheduler.dequeue(1500)

The shared library is the one that the variable ``MALTCOVE_LIBRARY`` names, else ``../c/build/libmaltcove.so`` or
``../lib/libmaltcove.so`` beside this file (a checkout, or an unpacked archive), else the system's.
"""

from __future__ import annotations

import ctypes
import ctypes.util
import enum
import ipaddress
import operator
import os
import pathlib
from dataclasses import dataclass
from typing import NamedTuple, NoReturn, Optional, Union

__all__ = [
    "Admitted", "Cause", "Dropped", "Error", "Flow", "Flushed", "Found", "Fragment", "Mark", "Packet", "Params",
    "Parsed", "Ports", "Scheduler", "Sent", "Status", "Totals", "Verdict", "WordError", "WordFault", "find", "mark",
    "parse", "version",
]


class Status(enum.IntEnum):
    """What a call answers, as ``maltcove.h`` names it. The negative ones are refusals, which change nothing."""

    OK = 0
    IDLE = 1
    NOT_OPEN = -1
    TOO_LARGE = -2
    BACKWARDS = -3
    CLOSED = -4
    EXHAUSTED = -5
    MEMORY = -6
    BAD_PACKET = -7
    BAD_WORDS = -8
    UNREAD = -9
    ALREADY_OPEN = -10
    BAD_SEED = -11
    BAD_FLOW = -12
    HASHED = -13
    NULL = -14


class WordFault(enum.IntEnum):
    """What is wrong with a parameter word."""

    UNKNOWN_WORD = 1
    MISSING_VALUE = 2
    NOT_A_NUMBER = 3
    OUT_OF_RANGE = 4
    NOT_UTF8 = 5


class Verdict(enum.IntEnum):
    """What bytes are found to be: the first rule that they break."""

    FINE = 0
    SHORT = -20
    NOT_IP = -21
    BAD_IHL = -22
    BAD_LENGTH = -23
    OVERRUN = -24
    BAD_CHAIN = -25
    TOO_LONG = -26
    BAD_JUMBO = -27
    CUT = -28
    UNKNOWN_LINK = -29


class Fragment(enum.IntEnum):
    """Which part of a datagram a packet is."""

    WHOLE = 0
    ATOMIC = 1
    FIRST = 2
    LATER = 3


class Ports(enum.IntEnum):
    """Where a packet's ports are."""

    ABSENT = 0
    FOUND = 1
    BEYOND = 2
    CUT = 3
    FRAGMENT = 4


class Mark(enum.IntEnum):
    """What marked a packet that is sent."""

    NONE = 0
    CODEL = 1
    THRESHOLD = 2


class Cause(enum.IntEnum):
    """Why a packet was dropped."""

    CODEL = 0
    OVERFLOW = 1


class _Maltcove(ctypes.Structure):
    _fields_ = [("inner", ctypes.c_void_p), ("is_open", ctypes.c_bool)]


class _Fault(ctypes.Structure):
    _fields_ = [
        ("place", ctypes.c_uint64), ("kind", ctypes.c_int32), ("offset", ctypes.c_uint64), ("len", ctypes.c_uint64),
    ]


class _Packet(ctypes.Structure):
    _fields_ = [
        ("tag", ctypes.c_uint64), ("len", ctypes.c_uint32), ("sport", ctypes.c_uint16), ("dport", ctypes.c_uint16),
        ("src", ctypes.c_uint8 * 16), ("dst", ctypes.c_uint8 * 16), ("proto", ctypes.c_uint8), ("ecn", ctypes.c_uint8),
        ("version", ctypes.c_uint8),
    ]


class _Where(ctypes.Structure):
    _fields_ = [
        ("transport", ctypes.c_uint64), ("flow_label", ctypes.c_uint32), ("verdict", ctypes.c_int32),
        ("fragment", ctypes.c_uint8), ("ports", ctypes.c_uint8), ("dscp", ctypes.c_uint8), ("ecn", ctypes.c_uint8),
    ]


class _Found(ctypes.Structure):
    _fields_ = [("offset", ctypes.c_uint64), ("tags", ctypes.c_uint64), ("ethertype", ctypes.c_uint16)]


class _Admitted(ctypes.Structure):
    _fields_ = [("id", ctypes.c_uint64), ("drops", ctypes.c_uint64), ("flow", ctypes.c_uint32)]


class _Sent(ctypes.Structure):
    _fields_ = [
        ("tag", ctypes.c_uint64), ("id", ctypes.c_uint64), ("drops", ctypes.c_uint64), ("len", ctypes.c_uint32),
        ("ecn", ctypes.c_uint8), ("mark", ctypes.c_uint8),
    ]


class _Dropped(ctypes.Structure):
    _fields_ = [("tag", ctypes.c_uint64), ("id", ctypes.c_uint64), ("cause", ctypes.c_uint8)]


class _Flushed(ctypes.Structure):
    _fields_ = [("tag", ctypes.c_uint64), ("id", ctypes.c_uint64)]


class Totals(NamedTuple):
    """What became of all packets so far."""

    accepted: int
    accepted_bytes: int
    sent: int
    sent_bytes: int
    dropped_codel: int
    dropped_overflow: int
    dropped_bytes: int
    flushed: int
    flushed_bytes: int
    marked: int
    threshold_marked: int
    queued: int
    queued_bytes: int
    closed: bool


class _Totals(ctypes.Structure):
    # C has the same fields in the same order: all are numbers of 64 bits but the last.
    _fields_ = [(name, ctypes.c_uint64) for name in Totals._fields[:-1]] + [(Totals._fields[-1], ctypes.c_bool)]


class _Flow(ctypes.Structure):
    _fields_ = [
        ("queued", ctypes.c_uint64), ("queued_bytes", ctypes.c_uint64), ("credits", ctypes.c_int64),
        ("first_above", ctypes.c_uint64), ("drop_next", ctypes.c_uint64), ("count", ctypes.c_uint64),
        ("last_count", ctypes.c_uint64), ("has_first_above", ctypes.c_bool), ("dropping", ctypes.c_bool),
    ]


class _Params(ctypes.Structure):
    _fields_ = [
        ("target", ctypes.c_uint64), ("interval", ctypes.c_uint64), ("ce_threshold", ctypes.c_uint64),
        ("memory_limit", ctypes.c_uint64), ("limit", ctypes.c_uint32), ("flows", ctypes.c_uint32),
        ("quantum", ctypes.c_uint32), ("mtu", ctypes.c_uint32), ("drop_batch", ctypes.c_uint32),
        ("has_ce_threshold", ctypes.c_bool), ("has_memory_limit", ctypes.c_bool), ("ecn", ctypes.c_bool),
        ("hash", ctypes.c_bool),
    ]


# The sizes that the library has for them.
_SIZES = {
    _Maltcove: 16, _Fault: 32, _Packet: 56, _Admitted: 24, _Sent: 32, _Dropped: 24, _Flushed: 16, _Totals: 112,
    _Flow: 64, _Params: 56, _Where: 24, _Found: 24,
}


def _load() -> ctypes.CDLL:
    """The shared library, with the types of its calls. Each has its types: without them a struct would go by value."""
    above = pathlib.Path(__file__).resolve().parent.parent
    beside = [folder / "libmaltcove.so" for folder in (above / "c" / "build", above / "lib")]
    named = os.environ.get("MALTCOVE_LIBRARY") or next((str(path) for path in beside if path.exists()), None)
    if not named:
        named = ctypes.util.find_library("maltcove")
    if not named:
        raise ImportError("no libmaltcove.so: run make -C c, or name one by MALTCOVE_LIBRARY")
    for struct, size in _SIZES.items():
        if ctypes.sizeof(struct) != size:
            raise ImportError(f"{struct.__name__} has {ctypes.sizeof(struct)} bytes here, and {size} in the library")
    library = ctypes.CDLL(named)
    u8, u16, u32, u64 = ctypes.c_uint8, ctypes.c_uint16, ctypes.c_uint32, ctypes.c_uint64
    size_t, to, data = ctypes.c_size_t, ctypes.POINTER, ctypes.c_char_p
    of_int, of_count, of_text = ctypes.c_int, ctypes.c_int64, ctypes.c_char_p
    m = to(_Maltcove)
    calls = {
        "open": (of_int, [m, ctypes.c_char_p, size_t, ctypes.c_char_p, size_t, to(_Fault)]),
        "free": (None, [m]),
        "enqueue": (of_int, [m, u64, to(_Packet), to(_Admitted)]),
        "enqueue_flow": (of_int, [m, u64, u32, u32, u8, u64, to(_Admitted)]),
        "dequeue": (of_int, [m, u64, to(_Sent)]),
        "dequeue_burst": (of_count, [m, u64, to(_Sent), size_t]),
        "drops": (of_count, [m, to(_Dropped), size_t]),
        "flush": (of_count, [m, to(_Flushed), size_t]),
        "close": (of_int, [m, u64]),
        "is_closed": (of_int, [m]),
        "queued": (of_count, [m]),
        "totals": (of_int, [m, to(_Totals)]),
        "flow": (of_int, [m, u32, to(_Flow)]),
        "params": (of_int, [m, to(_Params)]),
        "find": (of_int, [data, size_t, u32, to(_Found)]),
        "parse_as": (of_int, [data, size_t, size_t, u16, u32, to(_Packet), to(_Where)]),
        "mark": (of_int, [to(u8), size_t, to(_Where)]),
        "strerror": (of_text, [of_int]),
        "version": (of_text, []),
    }
    for name, (result, arguments) in calls.items():
        call = getattr(library, "maltcove_" + name)
        call.restype, call.argtypes = result, arguments
    return library


_library = _load()


class Error(Exception):
    """A call was refused, and nothing has changed."""

    def __init__(self, status: Status) -> None:
        super().__init__(_library.maltcove_strerror(status).decode())
        self.status = status


class WordError(Error):
    """A parameter word is wrong: its place, from 1, in what way, and the word itself."""

    def __init__(self, place: int, fault: WordFault, word: str) -> None:
        super().__init__(Status.BAD_WORDS)
        self.args = (f"parameter word {place}, {word!r}: {fault.name}",)
        self.place, self.fault, self.word = place, fault, word


def _made(answer: int) -> int:
    """An answer that is no refusal."""
    if answer < 0:
        raise Error(Status(answer))
    return answer


def _in_range(name: str, value: int, below: int) -> int:
    """A number that C's type has. ctypes would cut it off."""
    try:
        number = operator.index(value)
    except TypeError:
        raise TypeError(f"{name} is a {type(value).__name__}, and has to be an int") from None
    if not 0 <= number < below:
        raise ValueError(f"{name} is {number}, and has to be from 0 to {below - 1}")
    return number


def _moment(now_us: int) -> int:
    """A moment as C's type has it. Which moments are accepted, the library decides."""
    return _in_range("now_us", now_us, 1 << 64)


def _seed(seed: Optional[bytes]) -> bytes:
    """The bytes of a seed: random ones where none is given."""
    if seed is None:
        return os.urandom(16)
    if not isinstance(seed, (bytes, bytearray, memoryview)):
        raise TypeError(f"seed is a {type(seed).__name__}, and has to be bytes")
    if len(bytes(seed)) != 16:
        raise ValueError(f"seed has {len(bytes(seed))} bytes, and has to have 16")
    return bytes(seed)


Address = Union[str, ipaddress.IPv4Address, ipaddress.IPv6Address]


@dataclass(frozen=True)
class Packet:
    """A packet that comes. Both addresses are of one version of IP."""

    tag: int
    len: int
    src: Address = "0.0.0.0"
    dst: Address = "0.0.0.0"
    sport: int = 0
    dport: int = 0
    proto: int = 17
    ecn: int = 0

    def _record(self) -> _Packet:
        src, dst = ipaddress.ip_address(self.src), ipaddress.ip_address(self.dst)
        record = _Packet(
            tag=_in_range("tag", self.tag, 1 << 64), len=_in_range("len", self.len, 1 << 32),
            sport=_in_range("sport", self.sport, 1 << 16), dport=_in_range("dport", self.dport, 1 << 16),
            proto=_in_range("proto", self.proto, 256), ecn=_in_range("ecn", self.ecn, 256),
            version=src.version if src.version == dst.version else 0,
        )
        record.src[: len(src.packed)] = src.packed
        record.dst[: len(dst.packed)] = dst.packed
        return record


class Admitted(NamedTuple):
    """What is said of a packet that was accepted. So many packets were dropped for it."""

    id: int
    flow: int
    drops: int


class Sent(NamedTuple):
    """A packet that is sent, with its ECN field as it has to be written. So many were dropped before it."""

    tag: int
    id: int
    len: int
    ecn: int
    mark: Mark
    drops: int


class Dropped(NamedTuple):
    """A packet that was dropped."""

    tag: int
    id: int
    cause: Cause


class Flushed(NamedTuple):
    """A packet that was flushed."""

    tag: int
    id: int


@dataclass(frozen=True)
class Flow:
    """What is kept of a flow. ``first_above`` is None where the last packet wasn't late."""

    queued: int
    queued_bytes: int
    credits: int
    first_above: Optional[int]
    drop_next: int
    count: int
    last_count: int
    dropping: bool


class Params(NamedTuple):
    """The parameters, in packets, flows, bytes and microseconds. None where one is off."""

    limit: int
    flows: int
    quantum: int
    mtu: int
    target: int
    interval: int
    ce_threshold: Optional[int]
    memory_limit: Optional[int]
    drop_batch: int
    ecn: bool
    hash: bool


def _sent(record: _Sent) -> Sent:
    return Sent(record.tag, record.id, record.len, record.ecn, Mark(record.mark), record.drops)


class Scheduler:
    """A scheduler with the parameters that words say, those of tc-fq_codel(8), and a seed of 16 bytes for the hash that
    chooses flows: random bytes where none is given. ``free`` or the end of a ``with`` block gives its memory back; what
    waits then is forgotten. It can't be copied. Threads that share it need a lock around each call.

    Raises ``WordError`` where a word is wrong, and ``Error`` where there is no memory."""

    def __init__(self, words: str = "", seed: Optional[bytes] = None) -> None:
        if not isinstance(words, str):
            raise TypeError(f"words is a {type(words).__name__}, and has to be a str")
        text, bytes_of_seed, fault = words.encode(), _seed(seed), _Fault()
        self._m = _Maltcove()
        answer = _library.maltcove_open(self._m, text, len(text), bytes_of_seed, len(bytes_of_seed), fault)
        if answer == Status.BAD_WORDS:
            word = text[fault.offset:fault.offset + fault.len].decode()
            raise WordError(fault.place, WordFault(fault.kind), word)
        _made(answer)

    def __enter__(self) -> Scheduler:
        return self

    def __exit__(self, *_: object) -> None:
        self.free()

    def __del__(self) -> None:
        # Where the constructor raised an error there may be nothing to free.
        if hasattr(self, "_m"):
            self.free()

    def __copy__(self) -> NoReturn:
        # Two handles of one scheduler would both free it.
        raise TypeError("a Scheduler can't be copied")

    def __deepcopy__(self, _: object) -> NoReturn:
        raise TypeError("a Scheduler can't be copied")

    def __reduce__(self) -> NoReturn:
        raise TypeError("a Scheduler can't be pickled")

    def free(self) -> None:
        """Gives all memory back. A later call but this one is refused."""
        _library.maltcove_free(self._m)

    def enqueue(self, now_us: int, packet: Packet) -> Admitted:
        """Accepts a packet. Read ``drops`` before the next one, where there are any."""
        if not isinstance(packet, Packet):
            raise TypeError(f"packet is a {type(packet).__name__}, and has to be a Packet")
        admitted = _Admitted()
        _made(_library.maltcove_enqueue(self._m, _moment(now_us), packet._record(), admitted))
        return Admitted(admitted.id, admitted.flow, admitted.drops)

    def enqueue_flow(self, now_us: int, flow: int, length: int, ecn: int = 0, tag: int = 0) -> Admitted:
        """Accepts a packet into a flow, modulo their number, where the words say ``classify dport``."""
        admitted = _Admitted()
        _made(_library.maltcove_enqueue_flow(
            self._m, _moment(now_us), _in_range("flow", flow, 1 << 32), _in_range("length", length, 1 << 32),
            _in_range("ecn", ecn, 256), _in_range("tag", tag, 1 << 64), admitted,
        ))
        return Admitted(admitted.id, admitted.flow, admitted.drops)

    def dequeue(self, now_us: int) -> Optional[Sent]:
        """Gives the next packet, or None where none waits."""
        record = _Sent()
        answer = _made(_library.maltcove_dequeue(self._m, _moment(now_us), record))
        return None if answer == Status.IDLE else _sent(record)

    def dequeue_burst(self, now_us: int, most: int) -> list[Sent]:
        """Gives up to so many packets at one moment."""
        # No more can come than wait. The one record more lets the last dequeue find nothing, as a greater number does.
        records = (_Sent * min(_in_range("most", most, 1 << 64), self.queued() + 1))()
        given = _made(_library.maltcove_dequeue_burst(self._m, _moment(now_us), records, len(records)))
        return [_sent(record) for record in records[:given]]

    def drops(self) -> list[Dropped]:
        """The drops that weren't read yet, in their order. All are read by this call."""
        record, dropped = _Dropped(), []
        while _made(_library.maltcove_drops(self._m, record, 1)):
            dropped.append(Dropped(record.tag, record.id, Cause(record.cause)))
        return dropped

    def flush(self) -> list[Flushed]:
        """Takes out all that waits, as dequeues at the last moment do. What CoDel drops on the way is there to be read,
        by ``drops``."""
        record, flushed = _Flushed(), []
        while _made(_library.maltcove_flush(self._m, record, 1)):
            flushed.append(Flushed(record.tag, record.id))
        return flushed

    def close(self, now_us: int) -> None:
        """From here on no packet is accepted; dequeues go on."""
        _made(_library.maltcove_close(self._m, _moment(now_us)))

    def is_closed(self) -> bool:
        """Whether there was a close."""
        return _made(_library.maltcove_is_closed(self._m)) == 1

    def queued(self) -> int:
        """How many packets wait."""
        return _made(_library.maltcove_queued(self._m))

    def totals(self) -> Totals:
        """The statistics of all packets so far."""
        record = _Totals()
        _made(_library.maltcove_totals(self._m, record))
        return Totals(*(getattr(record, name) for name in Totals._fields))

    def flow(self, flow: int) -> Flow:
        """What is kept of a flow, from 0."""
        f = _Flow()
        _made(_library.maltcove_flow(self._m, _in_range("flow", flow, 1 << 32), f))
        return Flow(
            f.queued, f.queued_bytes, f.credits, f.first_above if f.has_first_above else None, f.drop_next, f.count,
            f.last_count, f.dropping,
        )

    def params(self) -> Params:
        """The parameters."""
        p = _Params()
        _made(_library.maltcove_params(self._m, p))
        return Params(
            p.limit, p.flows, p.quantum, p.mtu, p.target, p.interval, p.ce_threshold if p.has_ce_threshold else None,
            p.memory_limit if p.has_memory_limit else None, p.drop_batch, p.ecn, p.hash,
        )


Bytes = Union[bytes, bytearray, memoryview]


def _bytes(name: str, value: Bytes) -> bytes:
    """The bytes of a buffer."""
    if not isinstance(value, (bytes, bytearray, memoryview)):
        raise TypeError(f"{name} is a {type(value).__name__}, and has to be bytes")
    return bytes(value)


class Found(NamedTuple):
    """The packet in what a link delivered: where it begins, behind how many VLAN tags, and its ethertype, which is None
    where the link has none. The verdict is FINE, NOT_IP, CUT or UNKNOWN_LINK."""

    verdict: Verdict
    offset: int
    tags: int
    ethertype: Optional[int]


@dataclass(frozen=True)
class Parsed:
    """What the headers of a packet say. ``packet`` is ready for ``Scheduler.enqueue``. It is None unless the verdict is
    FINE or BAD_CHAIN, or CUT behind the fixed header. ``transport`` is where the transport's header begins."""

    verdict: Verdict
    packet: Optional[Packet]
    transport: int
    flow_label: int
    fragment: Fragment
    ports: Ports
    dscp: int


def find(frame: Bytes, link_type: int) -> Found:
    """Finds the packet in what a link delivered, by the number that captures have for the link's type: 1 for Ethernet,
    101, 12 and 14 for raw IP, 228 and 229 for raw IPv4 and IPv6, 113 and 276 for Linux's cooked headers, 0 and 108 for
    BSD's loopback."""
    data, record = _bytes("frame", frame), _Found()
    answer = _library.maltcove_find(data, len(data), _in_range("link_type", link_type, 1 << 32), record)
    return Found(Verdict(answer), record.offset, record.tags, record.ethertype or None)


def parse(
    packet: Bytes, wire: Optional[int] = None, ethertype: Optional[int] = None, *, tag: int = 0, esp_spi: bool = False,
    flow_label: bool = False,
) -> Parsed:
    """Reads the headers of a packet, from the header of IP on. ``wire`` is how many bytes the link delivered: as many as
    there are, where it isn't said. ``esp_spi`` and ``flow_label`` take these in place of the ports."""
    data, record, where = _bytes("packet", packet), _Packet(), _Where()
    record.tag = _in_range("tag", tag, 1 << 64)
    answer = _library.maltcove_parse_as(
        data, len(data), _in_range("wire", len(data) if wire is None else wire, 1 << 64),
        _in_range("ethertype", ethertype or 0, 1 << 16), bool(esp_spi) + 2 * bool(flow_label), record, where,
    )
    return Parsed(
        Verdict(answer), _packet(record), where.transport, where.flow_label, Fragment(where.fragment),
        Ports(where.ports), where.dscp,
    )


def _packet(record: _Packet) -> Optional[Packet]:
    """The packet of a record, if its version is known."""
    if record.version == 0:
        return None
    length = 4 if record.version == 4 else 16
    return Packet(
        record.tag, record.len, ipaddress.ip_address(bytes(record.src[:length])),
        ipaddress.ip_address(bytes(record.dst[:length])), record.sport, record.dport, record.proto, record.ecn,
    )


def mark(packet: bytearray) -> bool:
    """Writes CE into the packet whose header of IP begins there, where its ECN field is ECT(0) or ECT(1), and mends the
    checksum of IPv4 (RFC 1624). Says whether it did."""
    if not isinstance(packet, bytearray):
        raise TypeError(f"packet is a {type(packet).__name__}, and has to be a bytearray")
    data = (ctypes.c_uint8 * len(packet)).from_buffer(packet)
    return bool(_library.maltcove_mark(data, len(packet), _Where()) == 1)


def version() -> str:
    """The version of the library, as 0.1.0."""
    text: bytes = _library.maltcove_version()
    return text.decode()
