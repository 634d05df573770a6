"""Roles of Alice-and-Bob narrations, over libanb by ctypes.

    role = anb.compile(narration, "A")           # a role file, as bytes
    with anb.Session(role, values, seed=os.urandom(32)) as session:
        for turn in session:
            if isinstance(turn, anb.Message):
                send(turn.bytes)
            else:                                # anb.Waiting
                session.arrive(receive())
    # here the role is played; a check that fails raises anb.Stopped

The library is looked for as $ANB_LIBRARY, beside this file, and where the system looks.
"""
import ctypes
import os
from typing import Iterator, NamedTuple, Union

DONE, LONG, BAD_NARRATION, NO_ROLE, CANNOT_SEND, BAD_VALUES, NO_SEED = 0, 3, 4, 5, 6, 7, 8
STOPPED, WAITING, TOO_LARGE, BAD_ROLE_FILE, BAD_RECORD = 10, 11, 13, 16, 30
NO_MEMORY, MESSAGE, SHORT, MISUSED = 99, 100, 101, 102

ARRIVAL_MAX = 262144
VERSION = 1


def _load() -> ctypes.CDLL:
    beside = os.path.join(os.path.dirname(os.path.abspath(__file__)), "libanb.so.0")
    for path in (os.environ.get("ANB_LIBRARY"), beside):
        if path and os.path.exists(path):
            return ctypes.CDLL(path)
    return ctypes.CDLL("libanb.so.0")


class _Handle(ctypes.Structure):
    _fields_ = [("live", ctypes.c_bool), ("state", ctypes.c_void_p)]


_size, _u32, _i32 = ctypes.c_size_t, ctypes.c_uint32, ctypes.c_int32
_bytes, _handle = ctypes.c_char_p, ctypes.POINTER(_Handle)
_size_out, _u32_out = ctypes.POINTER(_size), ctypes.POINTER(_u32)
_lib = _load()


def _declare(name, result, *arguments):
    call = getattr(_lib, name)
    call.restype, call.argtypes = result, arguments
    return call


_version = _declare("anb_version", _u32)
_status_text = _declare("anb_status_text", _i32, _i32, _bytes, _size, _size_out)
_compile = _declare("anb_compile", _i32, _bytes, _size, _bytes, _size, _bytes, _size, _size_out, _u32_out)
_open = _declare("anb_open", _i32, _handle, _bytes, _size, _bytes, _size, _bytes, _size)
_next = _declare("anb_next", _i32, _handle, _bytes, _size, _size_out, _u32_out, _u32_out)
_arrive = _declare("anb_arrive", _i32, _handle, _bytes, _size)
_park = _declare("anb_park", _i32, _handle, _bytes, _size, _bytes, _size, _size_out)
_resume = _declare("anb_resume", _i32, _handle, _bytes, _size, _bytes, _size, _bytes, _size)
_close = _declare("anb_close", None, _handle)

if _version() != VERSION:
    raise ImportError("libanb has version %d of the interface, not %d" % (_version(), VERSION))


def status_text(status: int) -> str:
    """What a status says."""
    return _filled(lambda out, size, written: _status_text(status, out, size, written)).decode()


class Error(Exception):
    """A call that didn't do what it is for, with its status."""

    def __init__(self, status: int, where: int = 0):
        super().__init__(status_text(status) + (" (at %d)" % where if where else ""))
        self.status = status
        self.where = where


class Stopped(Error):
    """A check failed: the event, and the instruction of the role file."""

    def __init__(self, event: int, instruction: int):
        super().__init__(STOPPED)
        self.event = event
        self.instruction = instruction


class Message(NamedTuple):
    """A message to send."""
    bytes: bytes


class Waiting(NamedTuple):
    """The arrival of this event is wanted."""
    event: int


Turn = Union[Message, Waiting]


def _filled(call, where=None, size: int = 4096) -> bytes:
    """What a call writes into a buffer that is long enough."""
    while True:
        out, written = ctypes.create_string_buffer(size), _size()
        status = call(out, size, ctypes.byref(written))
        if status == DONE:
            return out.raw[:written.value]
        if status != SHORT:
            raise Error(status, where.value if where is not None else 0)
        size = written.value


def compile(narration: bytes, role: str) -> bytes:
    """The role file of a role of a narration."""
    where, name = _u32(), role.encode()
    return _filled(lambda out, size, written: _compile(
        narration, len(narration), name, len(name), out, size, written, ctypes.byref(where)), where)


class Session:
    """A role under way. Iterating over it gives its turns, up to the end of the role."""

    def __init__(self, role_file: bytes, values: bytes, seed: bytes = b""):
        self._begin()
        self._check(_open(self._s, role_file, len(role_file), values, len(values), seed, len(seed)))

    @classmethod
    def resume(cls, role_file: bytes, key: bytes, record: bytes) -> "Session":
        """Goes on from a record of park, where the session waits."""
        session = cls.__new__(cls)
        session._begin()
        session._check(_resume(session._s, role_file, len(role_file), key, len(key), record, len(record)))
        return session

    def _begin(self) -> None:
        self._handle = _Handle()
        self._s = ctypes.byref(self._handle)
        self._out = ctypes.create_string_buffer(4096)

    @staticmethod
    def _check(status: int) -> None:
        if status != DONE:
            raise Error(status)

    def next(self) -> Union[Turn, None]:
        """What comes next, or None where the role is played."""
        written, event, instruction = _size(), _u32(), _u32()
        while True:
            status = _next(self._s, self._out, len(self._out), ctypes.byref(written),
                           ctypes.byref(event), ctypes.byref(instruction))
            if status != SHORT:
                break
            self._out = ctypes.create_string_buffer(written.value)
        if status == MESSAGE:
            return Message(ctypes.string_at(self._out, written.value))
        if status == WAITING:
            return Waiting(event.value)
        if status == STOPPED:
            raise Stopped(event.value, instruction.value)
        self._check(status)
        return None

    def __iter__(self) -> Iterator[Turn]:
        while (turn := self.next()) is not None:
            yield turn

    def arrive(self, arrival: bytes) -> None:
        """Hands in the arrival that the role waits for."""
        self._check(_arrive(self._s, arrival, len(arrival)))

    def park(self, key: bytes) -> bytes:
        """The sealed record of a session that waits."""
        return _filled(lambda out, size, written: _park(self._s, key, len(key), out, size, written))

    def close(self) -> None:
        _close(self._s)

    def __enter__(self) -> "Session":
        return self

    def __exit__(self, *_exception) -> None:
        self.close()

    def __del__(self) -> None:
        if hasattr(self, "_s"):
            _close(self._s)
