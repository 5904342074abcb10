"""The shared library, its structures and the types of its calls."""

import ctypes
import ctypes.util
import os
import threading
from types import TracebackType
from typing import Any, Dict, Optional, Tuple, Type, Union

# A text: any bytes-like object.
Text = Union[bytes, bytearray, memoryview]


class Options(ctypes.Structure):
    """The options of a call: include/pb.h explains each member."""

    longest: int
    key0: int
    key1: int
    bits: int
    _fields_ = [
        ("longest", ctypes.c_uint64),
        ("key0", ctypes.c_uint64),
        ("key1", ctypes.c_uint64),
        ("bits", ctypes.c_uint32),
    ]


class Handle(ctypes.Structure):
    """A checker, an instance or a reader of the library, or NULL if it is closed."""

    inner: Optional[int]
    _fields_ = [("inner", ctypes.c_void_p)]


class Sizes(ctypes.Structure):
    """How many rows, terms and names an instance has, and the bytes of all names."""

    rows: int
    terms: int
    names: int
    name_bytes: int
    _fields_ = [(it, ctypes.c_size_t) for it in ("rows", "terms", "names", "name_bytes")]


class Position(ctypes.Structure):
    """A position as the library gives it."""

    line: int
    column: int
    offset: int
    _fields_ = [("line", ctypes.c_uint64), ("column", ctypes.c_uint64), ("offset", ctypes.c_uint64)]


class Report(ctypes.Structure):
    """What a call reports: a position, and the reason of a fault with its arguments."""

    line: int
    column: int
    offset: int
    number: int
    id: int
    reason: int
    input: int
    _fields_ = [
        ("line", ctypes.c_uint64),
        ("column", ctypes.c_uint64),
        ("offset", ctypes.c_uint64),
        ("number", ctypes.c_uint64),
        ("id", ctypes.c_int64),
        ("reason", ctypes.c_uint32),
        ("input", ctypes.c_uint32),
    ]


class Claim(ctypes.Structure):
    """What a proof claims."""

    lower_low: int
    lower_high: int
    upper_low: int
    upper_high: int
    kind: int
    lower_finite: bool
    upper_finite: bool
    _fields_ = [
        ("lower_low", ctypes.c_uint64),
        ("lower_high", ctypes.c_int64),
        ("upper_low", ctypes.c_uint64),
        ("upper_high", ctypes.c_int64),
        ("kind", ctypes.c_uint32),
        ("lower_finite", ctypes.c_bool),
        ("upper_finite", ctypes.c_bool),
    ]


class Count(ctypes.Structure):
    """What a checker has accepted."""

    accepted: int
    newest: int
    visits: int
    _fields_ = [("accepted", ctypes.c_uint64), ("newest", ctypes.c_uint64), ("visits", ctypes.c_uint64)]


class Number(ctypes.Structure):
    """A number in two words."""

    low: int
    high: int
    _fields_ = [("low", ctypes.c_uint64), ("high", ctypes.c_int64)]


class Event(ctypes.Structure):
    """A statement that a reader has read."""

    line: int
    column: int
    offset: int
    past: int
    tokens: int
    bytes: int
    kind: int
    _fields_ = [
        ("line", ctypes.c_uint64),
        ("column", ctypes.c_uint64),
        ("offset", ctypes.c_uint64),
        ("past", ctypes.c_uint64),
        ("tokens", ctypes.c_size_t),
        ("bytes", ctypes.c_size_t),
        ("kind", ctypes.c_uint32),
    ]


_SIZE, _BYTES, _ADDRESS, _REPORT = ctypes.c_size_t, ctypes.c_char_p, ctypes.c_void_p, ctypes.POINTER(Report)
_LENGTH, _OPTIONS, _HANDLE = ctypes.POINTER(_SIZE), ctypes.POINTER(Options), ctypes.POINTER(Handle)
# A buffer that a call writes to: its address, its size, and where the length of the whole text goes.
_ROOM = [_ADDRESS, _SIZE, _LENGTH]
_FOUR_ARRAYS = [_ADDRESS, _SIZE] * 4

# The parameters of each call that returns a status.
_CALLS = {
    "pb_tidy": [_BYTES, _SIZE, ctypes.c_bool, _OPTIONS, *_ROOM],
    "pb_show": [_BYTES, _SIZE, _OPTIONS, *_ROOM],
    "pb_check": [_BYTES, _SIZE, _BYTES, _SIZE, _OPTIONS, *_ROOM],
    "pb_checker_open": [_BYTES, _SIZE, _OPTIONS, _HANDLE, _REPORT],
    "pb_checker_feed": [_HANDLE, _BYTES, _SIZE, _LENGTH, _REPORT],
    "pb_checker_finish": [_HANDLE, ctypes.POINTER(Claim), _REPORT],
    "pb_checker_place": [_HANDLE, ctypes.POINTER(Position)],
    "pb_checker_held": [_HANDLE, _LENGTH],
    "pb_checker_name": [_HANDLE, _SIZE, *_ROOM],
    "pb_checker_step": [_HANDLE, _ADDRESS, _SIZE, _LENGTH, ctypes.POINTER(ctypes.c_bool), _REPORT],
    "pb_checker_state": [_HANDLE, ctypes.POINTER(Count)],
    "pb_checker_terms": [_HANDLE, ctypes.c_uint64, _LENGTH],
    "pb_checker_constraint": [_HANDLE, ctypes.c_uint64, *_FOUR_ARRAYS, ctypes.POINTER(Number)],
    "pb_instance_read": [_BYTES, _SIZE, _OPTIONS, _HANDLE, _REPORT],
    "pb_instance_sizes": [_HANDLE, ctypes.POINTER(Sizes)],
    "pb_instance_terms": [_HANDLE, *_FOUR_ARRAYS],
    "pb_instance_rows": [_HANDLE, *_FOUR_ARRAYS],
    "pb_instance_places": [_HANDLE, *_FOUR_ARRAYS],
    "pb_instance_names": [_HANDLE, _ADDRESS, _SIZE, _ADDRESS, _SIZE],
    "pb_reader_open": [ctypes.c_uint32, _OPTIONS, _HANDLE, _REPORT],
    "pb_reader_feed": [_HANDLE, _ADDRESS, _SIZE, _LENGTH, ctypes.POINTER(Event), _REPORT],
    "pb_reader_finish": [_HANDLE, _REPORT],
    "pb_reader_tokens": [_HANDLE, *_FOUR_ARRAYS],
    "pb_reader_bytes": [_HANDLE, *_ROOM],
    "pb_reader_name": [_HANDLE, _SIZE, *_ROOM],
    "pb_write_statement": [ctypes.c_uint32, *_FOUR_ARRAYS, _BYTES, _SIZE, *[_ADDRESS, _SIZE] * 2, _OPTIONS, _LENGTH, *_ROOM],
}
_CLOSES = ("pb_checker_close", "pb_instance_close", "pb_reader_close")


def _path() -> str:
    """The file that PB_LIBRARY names, or libpb.so beside this one, or what the system finds."""
    beside = os.path.join(os.path.dirname(os.path.abspath(__file__)), "libpb.so")
    named = os.environ.get("PB_LIBRARY") or (beside if os.path.exists(beside) else ctypes.util.find_library("pb"))
    if not named:
        raise OSError(f"{beside} was not found: bindings/python/backend.py makes it, or PB_LIBRARY names another")
    return named


def _load() -> ctypes.CDLL:
    from . import __version__

    named = _path()
    # A CDLL releases the lock of the interpreter while a call runs.
    library = ctypes.CDLL(named)
    for name, parameters in _CALLS.items():
        call = getattr(library, name)
        call.argtypes, call.restype = parameters, ctypes.c_uint8
    for name in _CLOSES:
        call = getattr(library, name)
        call.argtypes, call.restype = [_HANDLE], None
    library.pb_version.argtypes, library.pb_version.restype = [], ctypes.c_uint32
    first, second, third = map(int, __version__.split("."))
    if library.pb_version() != (first * 1000 + second) * 1000 + third:
        raise OSError(f"{named} has the version number {library.pb_version()}, and this module is version {__version__}")
    return library


_library: Optional[ctypes.CDLL] = None
_lock = threading.Lock()


def loaded() -> ctypes.CDLL:
    """The library, which is loaded by the first call."""
    global _library
    if _library is None:
        with _lock:
            _library = _library or _load()
    return _library


def bytes_of(text: Text) -> Tuple[bytes, int]:
    """The bytes of a text, and their number. What is no `bytes` is copied, as another thread could change it during a call."""
    content = text if type(text) is bytes else bytes(memoryview(text))
    return content, len(content)


def options(longest: int = 0, bits: int = 127, keys: Optional[Tuple[int, int]] = None) -> Options:
    """Options with these keys, or with random ones."""
    if keys is None:
        drawn = os.urandom(16)
        keys = int.from_bytes(drawn[:8], "little"), int.from_bytes(drawn[8:], "little")
    return Options(longest, keys[0], keys[1], bits)


def given(opts: Optional[Options]) -> Any:
    """The options of a call by reference, random ones if there are none."""
    return ctypes.byref(options() if opts is None else opts)


def address_of(content: bytes) -> int:
    """Where the bytes are, which is never 0. They stay there as long as somebody has the object."""
    return ctypes.cast(ctypes.c_char_p(content), ctypes.c_void_p).value or 0


def first_of(room: Any) -> int:
    """The address of the first element of an array or a bytearray, which is never 0."""
    return ctypes.addressof((ctypes.c_char * 0).from_buffer(room))


def name_of(call: Any, handle: Handle, number: int) -> str:
    """The name with a number, of a checker or of a reader."""
    room = 64
    while True:
        text, length = ctypes.create_string_buffer(room), ctypes.c_size_t()
        call(ctypes.byref(handle), number, text, room, ctypes.byref(length))
        if length.value <= room:
            return ctypes.string_at(text, length.value).decode("utf-8", "replace")
        room = length.value


class Names:
    """The names of a checker or of a reader by their numbers. Each is asked for once."""

    def __init__(self, call: str, handle: Handle) -> None:
        self._call, self._handle = getattr(loaded(), call), handle
        self._known: Dict[int, str] = {}

    def __getitem__(self, number: int) -> str:
        name = self._known.get(number)
        if name is None:
            name = self._known[number] = name_of(self._call, self._handle, number)
        return name


class Owned:
    """Owns a handle of the library until it is closed. It belongs to the thread that made it: a call in another thread raises
    RuntimeError, and what is dropped there is never freed."""

    _kind: str

    def __init__(self) -> None:
        self._handle, self._thread = Handle(None), threading.get_ident()

    def close(self) -> None:
        """Frees what it owns. Later calls raise Fault."""
        getattr(loaded(), f"pb_{self._kind}_close")(self._own())

    def _own(self) -> Any:
        if threading.get_ident() != self._thread:
            raise RuntimeError(f"a {self._kind} belongs to the thread that made it")
        return ctypes.byref(self._handle)

    def __exit__(self, kind: Optional[Type[BaseException]], error: Optional[BaseException], trace: Optional[TracebackType]) -> None:
        self.close()

    def __del__(self) -> None:
        if self._handle.inner and threading.get_ident() == self._thread:
            self.close()
