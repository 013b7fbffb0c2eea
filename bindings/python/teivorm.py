"""One end of an AMQP 1.0 connection, by ctypes over libteivorm.so, whose connection is proved.

`Connection` runs over a socket that blocks, and is what most programs want:

    with teivorm.connect("localhost", 5672, "my-id") as connection:
        link = connection.attach_sender("my-link", "queue")
        connection.send(link, b"1", teivorm.data_message(b"hello"))
        assert connection.outcome(link).state is State.ACCEPTED

`Endpoint` does no input and no output: bytes go in, bytes come out, and nothing blocks, so it fits any event loop. An endpoint is used by one thread at a
time. SASL and TLS are layers of the program's own: `Connection` takes any object with `sendall` and `recv`.

From the command line: `python -m teivorm send|receive --help`.
"""

from __future__ import annotations

import argparse
import collections
import ctypes
import ctypes.util
import enum
import os
import socket
import sys
from ctypes import POINTER, Structure, byref, c_bool, c_char_p, c_size_t, c_uint8, c_uint32, c_uint64, c_void_p, create_string_buffer
from dataclasses import dataclass
from types import TracebackType
from typing import Callable, Deque, Iterator, Optional, Protocol, Type, TypeVar, Union

T = TypeVar("T")
# A frame that carries a part of a message has at most so many bytes beside it.
FRAME_HEAD = 100


# ---- What include/teivorm.h declares ----


class _Conn(Structure):
    _fields_ = [("at", c_void_p), ("live", c_bool)]


class _Settings(Structure):
    _fields_ = [(name, c_uint32) for name in ("max_frame", "window", "journal_limit", "first_id", "idle_time_out")]


class _LinkSettings(Structure):
    _fields_ = [("snd", c_uint8), ("rcv", c_uint8), ("count", c_uint32), ("max_message", c_uint64)]


class _Outcome(Structure):
    _fields_ = [
        ("state", c_uint32), ("section_number", c_uint32), ("section_offset", c_uint64), ("delivery_failed", c_bool), ("undeliverable_here", c_bool),
    ]


class _Event(Structure):
    _fields_ = [
        *[(name, c_uint32) for name in ("kind", "link", "id", "state", "violation", "frame", "phase", "handle", "format", "verdict", "tag_len")],
        ("payload_len", c_uint64), ("tag_room", c_uint8 * 32), ("settled", c_bool), ("second", c_bool), ("stepped", c_bool),
    ]

    @property
    def tag(self) -> bytes:
        return bytes(self.tag_room[: self.tag_len])


class _ConnStatus(Structure):
    _fields_ = [
        *[(name, c_uint32) for name in ("phase", "steps_left", "next_in", "incoming", "next_out", "remote_in", "next_delivery")],
        *[(name, c_uint32) for name in ("peer_max_frame", "peer_idle_time_out")],
        *[(name, c_uint64) for name in ("units", "octets", "unwritten", "sent_unsettled", "received_unsettled")],
        ("begun", c_bool),
    ]


class _LinkStatus(Structure):
    _fields_ = [
        *[(name, c_uint32) for name in ("role", "phase", "count", "credit", "peer_handle")],
        *[(name, c_uint64) for name in ("ready", "peer_max_message", "max_message")],
        ("snd", c_uint8), ("rcv", c_uint8), ("drain", c_bool), ("mid", c_bool),
    ]


_SIZES = ((_Conn, 16), (_Settings, 20), (_LinkSettings, 16), (_Outcome, 24), (_Event, 96), (_ConnStatus, 88), (_LinkStatus, 56))
for _struct, _size in _SIZES:
    assert ctypes.sizeof(_struct) == _size, _struct

_CONN, _EVENT, _BYTES = POINTER(_Conn), POINTER(_Event), (c_char_p, c_size_t)
# Each function's result, and its arguments behind the connection.
_FUNCTIONS = {
    "new": (c_uint32, *_BYTES, *_BYTES, POINTER(_Settings)),
    "free": (None,),
    "feed": (c_uint32, c_void_p, c_size_t, POINTER(c_size_t), _EVENT),
    "write": (c_size_t, c_void_p, c_size_t),
    "unit": (c_size_t, POINTER(c_void_p)),
    "wrote": (c_uint32, c_size_t),
    "lost": (c_uint32,),
    "close": (c_uint32, *_BYTES, *_BYTES),
    "forget": (c_uint32,),
    "phase": (c_uint32,),
    "begin": (c_uint32, _EVENT),
    "attach": (c_uint32, *_BYTES, c_uint32, *_BYTES, *_BYTES, POINTER(_LinkSettings), _EVENT),
    "start": (c_uint32, c_uint32, *_BYTES, *_BYTES, c_bool, c_bool, _EVENT),
    "carry": (c_uint32, c_uint32, *_BYTES, c_bool, _EVENT),
    "abort": (c_uint32, c_uint32, _EVENT),
    "learn": (c_uint32, c_uint32, _EVENT),
    "offer": (c_uint32, c_uint32, c_uint32, _EVENT),
    "drained": (c_uint32, c_uint32, _EVENT),
    "grant": (c_uint32, c_uint32, c_uint32, c_bool, c_bool, _EVENT),
    "take": (c_uint32, c_uint32, _EVENT),
    "payload": (c_size_t, c_uint64, c_void_p, c_size_t),
    "payload_at": (c_size_t, c_uint64, POINTER(c_void_p)),
    "dispose": (c_uint32, c_uint32, c_uint32, c_uint32, c_bool, POINTER(_Outcome), *_BYTES, *_BYTES, _EVENT),
    "detach": (c_uint32, c_uint32, *_BYTES, *_BYTES, _EVENT),
    "end": (c_uint32, *_BYTES, *_BYTES, _EVENT),
    "suspend": (c_uint32, c_uint32, _EVENT),
    "rejoin": (c_uint32, _CONN, c_uint32, c_uint32, *_BYTES, *_BYTES, POINTER(_LinkSettings), _EVENT),
    "waiting": (c_uint32, c_uint32, c_uint32, _EVENT),
    "resume": (c_uint32, c_uint32, *_BYTES, c_bool, _EVENT),
    "left": (c_uint32, _EVENT),
    "refresh": (c_uint32, c_bool, _EVENT),
    "beat": (c_uint32, _EVENT),
    "status": (c_uint32, POINTER(_ConnStatus)),
    "link": (c_uint32, c_uint32, POINTER(_LinkStatus)),
    "text": (c_size_t, c_uint32, c_uint32, c_void_p, c_size_t),
}


def _library() -> ctypes.CDLL:
    """Loads the library: that of TEIVORM_LIBRARY, one beside this file, in `../lib` (a release), in `../c/out` (the repository), or the system's."""
    here = os.path.dirname(os.path.abspath(__file__))
    near = [os.path.join(here, *folder, "libteivorm.so") for folder in ((), ("..", "lib"), ("..", "c", "out"))]
    named = os.environ.get("TEIVORM_LIBRARY") or next(filter(os.path.exists, near), None) or ctypes.util.find_library("teivorm")
    library = ctypes.CDLL(named or "libteivorm.so")
    for name, (result, *arguments) in _FUNCTIONS.items():
        function = getattr(library, f"teivorm_raw_{name}")
        function.restype, function.argtypes = result, [_CONN, *arguments]
    return library


_lib = _library()


# ---- Values ----


class Role(enum.IntEnum):
    SENDER = 0
    RECEIVER = 1


class Phase(enum.IntEnum):
    NONE = 0
    AWAIT_HEADER = 1
    AWAIT_OPEN = 2
    RUNNING = 3
    CLOSING = 4
    CLOSED = 5


class State(enum.IntEnum):
    """The state of a delivery (part 3, 3.4)."""

    NONE = 0
    RECEIVED = 1
    ACCEPTED = 2
    REJECTED = 3
    RELEASED = 4
    MODIFIED = 5
    OTHER = 6


class Verdict(enum.IntEnum):
    """What the peer has of a delivery that waits to be resumed (part 2, 2.6.13)."""

    UNCLEAR = 0
    ABSENT = 1
    PARTIAL = 2
    HELD = 3
    DECIDED = 4


class EventKind(enum.Enum):
    """What the peer's newest frame brought."""

    OPENED = enum.auto()
    BEGUN = enum.auto()
    OFFERED = enum.auto()
    ATTACHED = enum.auto()
    DETACHED = enum.auto()
    READY = enum.auto()
    FLOW = enum.auto()
    OUTCOMES = enum.auto()
    ENDED = enum.auto()
    VIOLATION = enum.auto()
    CLOSED = enum.auto()


@dataclass(frozen=True)
class Event:
    """An event; `link` is the link's number for OFFERED, ATTACHED, DETACHED and READY, `violation` the number for VIOLATION (docs/protocol.md)."""

    kind: EventKind
    link: int = 0
    violation: int = 0


@dataclass(frozen=True)
class Delivery:
    """A message that was taken; `payload` is the encoded message, of which `body_of` returns the body."""

    link: int
    id: int
    tag: bytes
    payload: bytes
    settled: bool


@dataclass(frozen=True)
class Outcome:
    """What the peer reported of a message that we sent."""

    link: int
    id: int
    tag: bytes
    state: State
    settled: bool


@dataclass(frozen=True)
class Condition:
    """An error with its description (part 2, 2.8.14)."""

    name: str
    description: str = ""


@dataclass(frozen=True)
class LinkSettings:
    """Settings of a link, in the standard's numbers (part 2, 2.8.2 and 2.8.3); the longest message that we accept, 0 for no limit."""

    sender_settle_mode: int = 2
    receiver_settle_mode: int = 0
    initial_delivery_count: int = 0
    max_message_size: int = 0


@dataclass(frozen=True)
class Status:
    """How a connection stands; lengths in bytes, the time-out in milliseconds (0 for none)."""

    has_begun: bool
    steps_left: int
    peer_max_frame: int
    peer_idle_time_out: int
    unwritten: int
    sent_unsettled: int
    received_unsettled: int


@dataclass(frozen=True)
class LinkStatus:
    """How a link stands: `credit` and `ready` in messages, `peer_max_message` in bytes (0 for no limit)."""

    role: Role
    is_attached: bool
    credit: int
    ready: int
    is_draining: bool
    peer_max_message: int


# ---- Errors ----

REFUSALS = {
    1: "the connection is not running",
    2: "the connection has made as many steps as it may",
    3: "the session has begun",
    4: "the session has not begun at both ends, or has ended",
    5: "there is no such link",
    6: "the link is not attached",
    7: "the link has the other role",
    8: "a link of this role and name exists",
    9: "the peer allows no more links",
    10: "a message is unfinished on the link",
    11: "no message is unfinished on the link",
    12: "an unsettled delivery of the link has this tag",
    13: "the link's settle mode does not allow it",
    14: "the link has no credit",
    15: "the peer's window is used up",
    16: "the message is longer than the peer accepts",
    17: "the credit is more than 2^31-1",
    18: "the credit is less than the peer has now",
    19: "the link is being drained",
    20: "the peer does not drain the link",
    21: "the range of ids runs backwards",
    22: "no unsettled delivery has such an id",
    23: "the sender settles first on this link",
    24: "the delivery has another outcome already",
    25: "there is nothing to take or to learn",
    26: "no frame can say this",
    27: "the frame is longer than the peer accepts",
    28: "out of memory",
    29: "no delivery with this tag waits to be resumed",
    30: "it is not known yet what the peer has of the delivery",
    31: "a tag occurs twice",
}
FAULTS = {
    1: "the peer does not speak AMQP 1.0",
    2: "the bytes are no frame",
    3: "a frame is not allowed now",
    4: "a frame is on a channel without a session",
    5: "the connection has made as many steps as it may",
    6: "the connection is closed",
    7: "out of memory: the same bytes can be fed again",
}
_NOTHING = 25
# Refusals that the peer's next frames may end: not running, not mapped, not attached, no credit, no window, nothing, unclear.
_EARLY = frozenset((1, 4, 6, 14, 15, _NOTHING, 30))


class Error(Exception):
    """A call was not done, and has changed nothing, except for `Fault` and `Lost`."""


class Refused(Error):
    """The session does not allow the call now; `number` is that of docs/protocol.md."""

    def __init__(self, number: int) -> None:
        super().__init__(REFUSALS.get(number, f"refused: {number}"))
        self.number = number

    @property
    def would_block(self) -> bool:
        """Whether the peer's next frames may allow the same call."""
        return self.number in _EARLY


class Fault(Error):
    """The peer's bytes are wrong, and the connection is closed; `number` is that of docs/protocol.md."""

    def __init__(self, number: int) -> None:
        super().__init__(FAULTS.get(number, f"fault {number}"))
        self.number = number


class Closed(Error):
    """The peer closed the connection, with this error if it gave one."""

    what = "the peer closed the connection"

    def __init__(self, condition: Optional[Condition]) -> None:
        super().__init__(": ".join(filter(None, (self.what, *(condition and (condition.name, condition.description) or ())))))
        self.condition = condition


class Detached(Closed):
    """The peer detached the link, with this error if it gave one."""

    what = "the peer detached the link"


class Lost(Error):
    """The socket ended before the connection was closed."""


def _check(result: int) -> None:
    kind, number = result >> 8, result & 255
    if result == 3:
        raise MemoryError
    if kind == 1:
        raise Refused(number)
    if kind == 2:
        raise Fault(number)
    if result:
        raise Error({3: "a setting is out of its limits", 4: "the close cannot be sent"}.get(kind, "an argument is out of its range"))


def _parts(error: Optional[Condition]) -> tuple[bytes, int, bytes, int]:
    name, text = (error.name.encode(), error.description.encode()) if error else (b"", b"")
    return name, len(name), text, len(text)


# ---- Connections ----


class Endpoint:
    """One end of a connection: bytes go in by `feed`, and come out by `output`. No call blocks. `with` frees it at the end."""

    def __init__(self, container_id: str, host: str = "", *, max_frame: int = 0, window: int = 0, journal_limit: int = 0, first_id: int = 0,
                 idle_time_out: int = 0) -> None:
        """Starts a connection with this container id, which wants this host of the peer; 0 stands for a default (include/teivorm.h)."""
        self._conn = _Conn()
        settings = _Settings(max_frame, window, journal_limit, first_id, idle_time_out)
        name, wanted = container_id.encode(), host.encode()
        _check(_lib.teivorm_raw_new(byref(self._conn), name, len(name), wanted, len(wanted), byref(settings)))

    def free(self) -> None:
        """Frees the connection; it is closed then."""
        _lib.teivorm_raw_free(byref(self._conn))

    def __enter__(self) -> Endpoint:
        return self

    def __exit__(self, kind: Optional[Type[BaseException]], error: Optional[BaseException], trace: Optional[TracebackType]) -> None:
        self.free()

    def __del__(self) -> None:
        if hasattr(self, "_conn"):
            self.free()

    def _call(self, name: str, *arguments: object) -> _Event:
        event = _Event()
        _check(getattr(_lib, f"teivorm_raw_{name}")(byref(self._conn), *arguments, byref(event)))
        return event

    @property
    def phase(self) -> Phase:
        number = _lib.teivorm_raw_phase(byref(self._conn))
        return Phase(number) if number else Phase.CLOSED

    def output(self) -> bytes:
        """Returns all bytes that go to the peer next."""
        parts, at = [], c_void_p()
        while count := _lib.teivorm_raw_unit(byref(self._conn), byref(at)):
            parts.append(ctypes.string_at(at.value, count))
            _lib.teivorm_raw_wrote(byref(self._conn), count)
        return b"".join(parts)

    def feed(self, data: bytes) -> Iterator[Event]:
        """Processes bytes of the peer, and yields what each frame brought. Use all events: bytes behind the last one that was taken are not processed."""
        room, at, used = create_string_buffer(data, len(data)), 0, c_size_t()
        while at < len(data) and self.phase is not Phase.CLOSED:
            before = self.phase
            event = self._call("feed", ctypes.addressof(room) + at, len(data) - at, byref(used))
            at += used.value
            found = _event_of(event, before)
            if found:
                yield found

    def lost(self) -> None:
        """Says that no more bytes will come. The phase is CLOSED then."""
        _lib.teivorm_raw_lost(byref(self._conn))

    def forget(self) -> None:
        """Frees the memory of the steps so far: otherwise each message stays in memory."""
        _lib.teivorm_raw_forget(byref(self._conn))

    def close(self, error: Optional[Condition] = None) -> None:
        _check(_lib.teivorm_raw_close(byref(self._conn), *_parts(error)))

    def begin(self) -> None:
        """Begins the session, or answers the peer's begin."""
        self._call("begin")

    def end(self, error: Optional[Condition] = None) -> None:
        """Ends the session and all links."""
        self._call("end", *_parts(error))

    def beat(self) -> None:
        """Sends an empty frame, so that the peer's idle time-out does not expire."""
        self._call("beat")

    def refresh(self, echo: bool = False) -> None:
        """Sends the session window anew; with `echo` the peer is asked for a flow."""
        self._call("refresh", echo)

    def attach(self, name: str, role: Role, source: str = "", target: str = "", settings: LinkSettings = LinkSettings()) -> int:
        """Attaches a link, or answers the peer's attach of this name. Returns the link's number."""
        raw = _raw_settings(settings)
        texts = [it.encode() for it in (name, source, target)]
        return self._call("attach", texts[0], len(texts[0]), role, texts[1], len(texts[1]), texts[2], len(texts[2]), byref(raw)).link

    def answer(self, link: int, source: str = "", target: str = "", settings: LinkSettings = LinkSettings()) -> Role:
        """Answers a link that the peer offers, and returns the role that is ours then."""
        status = self.link(link)
        if not status:
            raise Error(f"there is no link {link}")
        self.attach(self.link_name(link), status.role, source, target, settings)
        return status.role

    def detach(self, link: int, error: Optional[Condition] = None) -> None:
        """Detaches a link for good."""
        self._call("detach", link, *_parts(error))

    def suspend(self, link: int) -> None:
        """Puts a link aside: it is detached, but not for good (part 2, 2.6.4)."""
        self._call("suspend", link)

    def rejoin(self, lost: Endpoint, role: Role, place: int, source: str = "", target: str = "", settings: LinkSettings = LinkSettings()) -> int:
        """Attaches a link of a connection that was lost on this one (part 2, 2.6.13), and returns its number.

        It is the link at this place, from 0, of those on which we had this role, in the order in which they were made. What was unsettled on it waits to be
        resumed.
        """
        if lost is self:
            raise Error("a link is rejoined on another connection")
        texts = [it.encode() for it in (source, target)]
        arguments = (texts[0], len(texts[0]), texts[1], len(texts[1]), byref(_raw_settings(settings)))
        return self._call("rejoin", byref(lost._conn), role, place, *arguments).link

    def waiting(self, link: int) -> list[tuple[bytes, Verdict]]:
        """Returns the tags of the deliveries that wait on the link to be resumed, with what the peer has of each."""
        found: list[tuple[bytes, Verdict]] = []
        event = _Event()
        while not _lib.teivorm_raw_waiting(byref(self._conn), link, len(found), byref(event)):
            found.append((event.tag, Verdict(event.verdict)))
        return found

    def resume(self, link: int, tag: bytes, *, settled: bool = False) -> Verdict:
        """Resumes the delivery with this tag, and returns what the peer had of it; `settled` ends it if the peer has an outcome."""
        return Verdict(self._call("resume", link, tag, len(tag), settled).verdict)

    def left(self) -> Union[Delivery, Outcome, None]:
        """Takes the next of what links left when they ended: a message that was not taken, or an outcome that was not learned."""
        event = self._call("left")
        if event.kind == 7:
            return self._delivery_of(event)
        return _outcome_of(event) if event.kind == 8 else None

    def start(self, link: int, tag: bytes, payload: bytes, *, settled: bool = False, more: bool = False) -> int:
        """Sends a message, or its first part if there are more, and returns the delivery's id."""
        return self._call("start", link, tag, len(tag), payload, len(payload), settled, more).id

    def carry(self, link: int, payload: bytes, *, more: bool = False) -> None:
        """Sends the next part of the message that is unfinished on the link."""
        self._call("carry", link, payload, len(payload), more)

    def abort(self, link: int) -> None:
        """Gives up the message that is unfinished on the link."""
        self._call("abort", link)

    def offer(self, link: int, available: int) -> None:
        """Announces how many messages we have for the link."""
        self._call("offer", link, available)

    def drained(self, link: int) -> None:
        """Gives up the credit that is left, as a peer wants that drains the link."""
        self._call("drained", link)

    def learn(self, link: int) -> Optional[Outcome]:
        """Returns the next outcome of a message that we sent on the link, if the peer reported one."""
        try:
            event = self._call("learn", link)
        except Refused as refusal:
            if refusal.number == _NOTHING:
                return None
            raise
        return _outcome_of(event)

    def grant(self, link: int, credit: int, *, drain: bool = False, echo: bool = False) -> None:
        """Sets the link's credit: how many more messages the peer may send."""
        self._call("grant", link, credit, drain, echo)

    def take(self, link: int) -> Optional[Delivery]:
        """Takes the first whole message of the link, if there is one."""
        try:
            event = self._call("take", link)
        except Refused as refusal:
            if refusal.number == _NOTHING:
                return None
            raise
        return self._delivery_of(event)

    def _delivery_of(self, event: _Event) -> Delivery:
        return Delivery(event.link, event.id, event.tag, self._payload(), event.settled)

    def _payload(self) -> bytes:
        parts, done, at = [], 0, c_void_p()
        while count := _lib.teivorm_raw_payload_at(byref(self._conn), done, byref(at)):
            parts.append(ctypes.string_at(at.value, count))
            done += count
        return b"".join(parts)

    def dispose(self, role: Role, first: int, last: int, state: State = State.NONE, *, settled: bool, error: Optional[Condition] = None) -> None:
        """Gives a state to the unsettled deliveries `first` to `last`, of links on which we have this role."""
        self._call("dispose", role, first, last, settled, byref(_Outcome(state=state)), *_parts(error))

    def accept(self, delivery_id: int) -> None:
        """Accepts and settles a message that we received."""
        self.dispose(Role.RECEIVER, delivery_id, delivery_id, State.ACCEPTED, settled=True)

    def status(self) -> Status:
        """Returns how the connection stands."""
        raw = _ConnStatus()
        _check(_lib.teivorm_raw_status(byref(self._conn), byref(raw)))
        waits = raw.octets + raw.unwritten
        return Status(raw.begun, raw.steps_left, raw.peer_max_frame, raw.peer_idle_time_out, waits, raw.sent_unsettled, raw.received_unsettled)

    def link(self, link: int) -> Optional[LinkStatus]:
        """Returns how a link stands, if there is one of this number."""
        raw = _LinkStatus()
        if _lib.teivorm_raw_link(byref(self._conn), link, byref(raw)):
            return None
        return LinkStatus(Role(raw.role), raw.phase == 3, raw.credit, raw.ready, raw.drain, raw.peer_max_message)

    def _text(self, what: int, link: int = 0) -> str:
        size = _lib.teivorm_raw_text(byref(self._conn), what, link, create_string_buffer(1), 0)
        room = create_string_buffer(size + 1)
        _lib.teivorm_raw_text(byref(self._conn), what, link, room, size)
        return room[:size].decode()

    def link_name(self, link: int) -> str:
        return self._text(0, link)

    @property
    def peer_container_id(self) -> str:
        return self._text(1)

    @property
    def peer_host(self) -> str:
        """The host that the peer wants of us."""
        return self._text(2)

    def close_error(self) -> Optional[Condition]:
        """Returns the error with which the peer closed the connection."""
        return Condition(self._text(5), self._text(6)) if self._text(5) else None

    def link_error(self, link: int) -> Optional[Condition]:
        """Returns the error with which the peer detached the link, until `forget`."""
        return Condition(self._text(7, link), self._text(8, link)) if self._text(7, link) else None


def _raw_settings(settings: LinkSettings) -> _LinkSettings:
    return _LinkSettings(settings.sender_settle_mode, settings.receiver_settle_mode, settings.initial_delivery_count, settings.max_message_size)


def _outcome_of(event: _Event) -> Outcome:
    return Outcome(event.link, event.id, event.tag, State(event.state), event.settled)


_OF_KIND = {2: EventKind.OFFERED, 3: EventKind.ATTACHED, 4: EventKind.DETACHED, 10: EventKind.DETACHED, 6: EventKind.READY}
_OF_FRAME = {2: EventKind.BEGUN, 4: EventKind.FLOW, 6: EventKind.OUTCOMES, 8: EventKind.ENDED}


def _event_of(event: _Event, before: Phase) -> Optional[Event]:
    if event.violation:
        return Event(EventKind.VIOLATION, violation=event.violation)
    if event.phase == Phase.CLOSED:
        return Event(EventKind.CLOSED)
    if event.phase == Phase.RUNNING and before is not Phase.RUNNING:
        return Event(EventKind.OPENED)
    kind = _OF_KIND.get(event.kind) or _OF_FRAME.get(event.frame)
    return Event(kind, event.link) if kind else None


class Stream(Protocol):
    """What a connection runs over: a socket, or a layer over one, as an `ssl.SSLSocket`."""

    def sendall(self, data: bytes, /) -> None: ...
    def recv(self, size: int, /) -> bytes: ...
    def close(self) -> None: ...


class Connection:
    """An endpoint over a stream that blocks. Iterating yields the next events; `with` closes the connection, and the stream."""

    def __init__(self, stream: Stream, endpoint: Endpoint) -> None:
        self.stream, self.endpoint = stream, endpoint
        self._events: Iterator[Event] = iter(())
        # Events that came while a call waited for another one.
        self._earlier: Deque[Event] = collections.deque()

    @classmethod
    def open(cls, stream: Stream, endpoint: Endpoint) -> Connection:
        """Opens the connection, begins a session, and waits until the peer did the same. For the end that connects."""
        made = cls(stream, endpoint)
        made._wait_for(lambda it: it.kind is EventKind.OPENED)
        endpoint.begin()
        made._wait_for(lambda it: it.kind is EventKind.BEGUN)
        return made

    @classmethod
    def accept(cls, stream: Stream, endpoint: Endpoint) -> Connection:
        """Waits until the peer has opened the connection and begun a session, and answers. For the end that is connected to."""
        made = cls(stream, endpoint)
        made._wait_for(lambda it: it.kind is EventKind.BEGUN)
        endpoint.begin()
        return made

    def __enter__(self) -> Connection:
        return self

    def __exit__(self, kind: Optional[Type[BaseException]], error: Optional[BaseException], trace: Optional[TracebackType]) -> None:
        try:
            if kind is None:
                self.close()
        finally:
            self.stream.close()
            self.endpoint.free()

    def flush(self) -> None:
        """Writes all bytes that wait."""
        if data := self.endpoint.output():
            self.stream.sendall(data)

    def _newest(self) -> Optional[Event]:
        while True:
            try:
                event = next(self._events, None)
            except Fault:
                self.flush()
                raise
            if event:
                return event
            if self.endpoint.phase is Phase.CLOSED:
                self.flush()
                return None
            self._read()

    def _read(self) -> None:
        self.endpoint.forget()
        self.flush()
        data = self.stream.recv(65536)
        if not data:
            self.endpoint.lost()
            raise Lost("the socket ended before the connection was closed")
        self._events = self.endpoint.feed(data)

    def next_event(self) -> Optional[Event]:
        """Blocks until the next event; None once the connection is closed."""
        return self._earlier.popleft() if self._earlier else self._newest()

    def __iter__(self) -> Iterator[Event]:
        return iter(self.next_event, None)

    def _wait_for(self, is_wanted: Callable[[Event], bool]) -> Event:
        while (event := self._newest()) and event.kind is not EventKind.CLOSED:
            if is_wanted(event):
                return event
            self._earlier.append(event)
        raise Closed(self.endpoint.close_error())

    def _wait_for_more(self) -> None:
        event = self._wait_for(lambda _: True)
        if event.kind not in (EventKind.FLOW, EventKind.OUTCOMES):
            self._earlier.append(event)

    def _retry(self, call: Callable[[], T]) -> T:
        while True:
            try:
                return call()
            except Refused as refusal:
                if not refusal.would_block:
                    raise
            self._wait_for_more()

    def attach_sender(self, name: str, address: str) -> int:
        """Attaches a link on which we send to an address, and waits until the peer answered. Returns the link's number."""
        return self._attach(name, Role.SENDER, "", address)

    def attach_receiver(self, name: str, address: str, credit: int = 100) -> int:
        """Attaches a link on which we receive from an address, waits until the peer answered, and grants credit."""
        link = self._attach(name, Role.RECEIVER, address, "")
        self.endpoint.grant(link, credit)
        return link

    def _attach(self, name: str, role: Role, source: str, target: str) -> int:
        link = self.endpoint.attach(name, role, source, target)
        event = self._wait_for(lambda it: it.kind in (EventKind.ATTACHED, EventKind.DETACHED) and it.link == link)
        if event.kind is EventKind.DETACHED:
            raise Detached(self.endpoint.link_error(link))
        return link

    def offered(self, address: str) -> tuple[int, Role]:
        """Waits until the peer offers a link, and answers. Returns the link's number, and our role."""
        link = self._wait_for(lambda it: it.kind is EventKind.OFFERED).link
        return link, self.endpoint.answer(link, address, address)

    def send(self, link: int, tag: bytes, payload: bytes, *, settled: bool = False) -> int:
        """Sends a message, in as many frames as it takes, as soon as the peer allows it. Returns the delivery's id."""
        room = max(self.endpoint.status().peer_max_frame - FRAME_HEAD, 1)
        first, at = payload[:room], room
        made = self._retry(lambda: self.endpoint.start(link, tag, first, settled=settled, more=at < len(payload)))
        while at < len(payload):
            part, at = payload[at : at + room], at + room
            self._retry(lambda: self.endpoint.carry(link, part, more=at < len(payload)))
        return made

    def outcome(self, link: int) -> Outcome:
        """Waits for the next outcome of a message that we sent on the link."""
        while not (found := self.endpoint.learn(link)):
            self._wait_for_more()
        return found

    def receive(self, link: int) -> Delivery:
        """Waits for the next message of the link. The program accepts it, or disposes of it otherwise."""
        while not (found := self.endpoint.take(link)):
            self._wait_for_more()
        return found

    def close(self, error: Optional[Condition] = None) -> None:
        """Closes the connection, and waits for the peer's close."""
        if self.endpoint.phase is Phase.RUNNING:
            self.endpoint.close(error)
        while self._newest():
            pass


def connect(host: str, port: int, container_id: str, time_out: Optional[float] = None) -> Connection:
    """Connects to a peer over TCP, opens the connection and begins a session."""
    stream = socket.create_connection((host, port), time_out)
    stream.setsockopt(socket.IPPROTO_TCP, socket.TCP_NODELAY, 1)
    return Connection.open(stream, Endpoint(container_id, host))


# ---- Messages (part 3, 3.2) ----


def data_message(body: bytes) -> bytes:
    """Returns an encoded message of one data section."""
    return b"\0Su" + (bytes((0xA0, len(body))) if len(body) < 256 else b"\xb0" + len(body).to_bytes(4, "big")) + body


def _end_of(message: bytes, at: int) -> int:
    """Where the value ends that begins at this offset (part 1, 1.2)."""
    code = message[at]
    if code == 0:
        return _end_of(message, _end_of(message, at + 1))
    fixed = {4: 0, 5: 1, 6: 2, 7: 4, 8: 8, 9: 16}
    if code >> 4 in fixed:
        return at + 1 + fixed[code >> 4]
    width = 1 if code >> 4 in (0xA, 0xC, 0xE) else 4
    return at + 1 + width + int.from_bytes(message[at + 1 : at + 1 + width], "big")


def body_of(message: bytes) -> bytes:
    """Returns the bytes of a message's data sections, or of an amqp-value that is a binary or a string; none of any other body."""
    parts, at = [], 0
    while at < len(message):
        value = _end_of(message, at + 1)
        descriptor, at = message[at + 1 : value], _end_of(message, value)
        if descriptor[-1] in (0x75, 0x77) and message[value] >> 4 in (0xA, 0xB):
            parts.append(message[value + (2 if message[value] >> 4 == 0xA else 5) : at])
    return b"".join(parts)


# ---- The command line ----


def _stream(asked: argparse.Namespace) -> tuple[Connection, bool]:
    if not asked.listen:
        return connect(asked.host, asked.port, f"python-{asked.command}", asked.time_out), True
    with socket.create_server((asked.host, asked.port)) as server:
        stream, _ = server.accept()
    stream.settimeout(asked.time_out)
    stream.setsockopt(socket.IPPROTO_TCP, socket.TCP_NODELAY, 1)
    return Connection.accept(stream, Endpoint(f"python-{asked.command}")), False


def _send(asked: argparse.Namespace) -> int:
    bodies = [b"x" * asked.size] * asked.count if asked.count else (line.rstrip(b"\n") for line in sys.stdin.buffer)
    sent = learned = accepted = 0
    connection, is_ours = _stream(asked)
    with connection:
        link = connection.attach_sender("python", asked.address) if is_ours else connection.offered(asked.address)[0]
        for body in bodies:
            connection.send(link, sent.to_bytes(4, "big"), data_message(body), settled=asked.settled)
            sent += 1
        while learned < sent and not asked.settled:
            accepted += connection.outcome(link).state is State.ACCEPTED
            learned += 1
    print(f"sent {sent} accepted {accepted}")
    return 0 if accepted == sent or asked.settled else 1


def _receive(asked: argparse.Namespace) -> int:
    received, credit = 0, 100
    connection, is_ours = _stream(asked)
    with connection:
        link = connection.attach_receiver("python", asked.address, credit) if is_ours else connection.offered(asked.address)[0]
        if not is_ours:
            connection.endpoint.grant(link, credit)
        while received < asked.count:
            delivery = connection.receive(link)
            received += 1
            if not delivery.settled:
                connection.endpoint.accept(delivery.id)
            if received % (credit // 2) == 0:
                connection.endpoint.grant(link, credit)
            if not asked.quiet:
                sys.stdout.buffer.write(body_of(delivery.payload) + b"\n")
        if not is_ours:
            for _ in connection:
                pass
    sys.stdout.flush()
    print(f"received {received}", file=sys.stderr if not asked.quiet else sys.stdout)
    return 0


def main() -> int:
    parser = argparse.ArgumentParser(prog="python -m teivorm", description="Sends or receives messages over one AMQP 1.0 connection.")
    commands = parser.add_subparsers(dest="command", required=True)
    send = commands.add_parser("send", help="sends lines of standard input, or COUNT messages of SIZE bytes, and waits until each is accepted")
    receive = commands.add_parser("receive", help="prints the bodies of COUNT messages, and accepts each")
    for it in (send, receive):
        it.add_argument("--host", default="localhost")
        it.add_argument("--port", type=int, default=5672)
        it.add_argument("--address", default="q")
        it.add_argument("--listen", action="store_true", help="wait for a peer that connects")
        it.add_argument("--time-out", type=float, help="seconds without a byte of the peer")
    send.add_argument("--count", type=int, default=0)
    send.add_argument("--size", type=int, default=16)
    send.add_argument("--settled", action="store_true")
    receive.add_argument("--count", type=int, default=1)
    receive.add_argument("--quiet", action="store_true", help="print their number alone")
    asked = parser.parse_args()
    try:
        return _send(asked) if asked.command == "send" else _receive(asked)
    except (Error, OSError) as error:
        print(f"teivorm: {error}", file=sys.stderr)
        return 1


if __name__ == "__main__":
    sys.exit(main())
