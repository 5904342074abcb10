"""The statements of an instance or a proof, one at a time."""

import ctypes
import enum
from array import array
from typing import Any, BinaryIO, Iterator, List, NamedTuple, Optional, Union

from ._faults import Fault
from ._library import Event, Names, Options, Owned, Report, Text, address_of, bytes_of, first_of, given, loaded

_PIECE = 1 << 16


class Format(enum.IntEnum):
    """What a text is read as."""

    INSTANCE = 1
    PROOF = 2


class EventKind(enum.IntEnum):
    """What a statement is."""

    HEADER = 1
    COMMENT = 2
    OBJECTIVE = 3
    CONSTRAINT = 4
    PROOF = 16
    F = 17
    POL = 18
    RUP = 19
    SOLI = 20
    SOLX = 21
    DELETE = 22
    OUTPUT = 23
    NO_CLAIM = 24
    UNSAT = 25
    SAT = 26
    BOUNDS = 27
    END = 28


class TokenKind(enum.IntEnum):
    """What a token is. include/pb.h says which tokens a statement has."""

    TERM = 1
    NEGATED_TERM = 2
    LITERAL = 3
    NEGATED_LITERAL = 4
    AT_LEAST = 5
    EQUAL = 6
    COUNT = 7
    ID = 8
    ADD = 9
    MULTIPLY = 10
    DIVIDE = 11
    SATURATE = 12
    WEAKEN = 13
    BOUND = 14
    INFINITE = 15
    SOLUTION = 16


_TOKEN_KINDS = {int(it): it for it in TokenKind}
NAMED = frozenset((TokenKind.TERM, TokenKind.NEGATED_TERM, TokenKind.LITERAL, TokenKind.NEGATED_LITERAL, TokenKind.WEAKEN))


class Token(NamedTuple):
    """A part of a statement. `number` is its coefficient, degree, count, id, factor, divisor or bound, or 0. `name` is its name, or empty."""

    kind: TokenKind
    number: int
    name: str


class Statement(NamedTuple):
    """A statement: `line`, `column` and `offset` are the position of its first byte, and `past` is the offset past its last. `text` is what
    follows the counts in a header, or the text of a comment."""

    kind: EventKind
    line: int
    column: int
    offset: int
    past: int
    tokens: List[Token]
    text: bytes


class Reader(Owned):
    """Reads an instance or a proof in pieces, cut anywhere. It checks the text and not the proof. Each call raises Fault once the text is
    rejected. A reader belongs to the thread that made it: a call in another thread raises RuntimeError."""

    _kind = "reader"

    def __init__(self, text_format: Format, opts: Optional[Options] = None) -> None:
        super().__init__()
        self._names, self._report = Names("pb_reader_name", self._handle), Report()
        self._used, self._event = ctypes.c_size_t(), Event()
        self._arrays: List[Any] = []
        self._firsts: List[int] = []
        self._grow(16)
        self._answer(loaded().pb_reader_open(text_format, given(opts), self._own(), ctypes.byref(self._report)))

    def feed(self, piece: Text) -> Iterator[Statement]:
        """Takes a piece, and gives each statement that ends in it. The next one is read when it is asked for."""
        content, size = bytes_of(piece)
        at, event, feed = address_of(content), self._event, loaded().pb_reader_feed
        while True:
            self._answer(feed(self._own(), at, size, ctypes.byref(self._used), ctypes.byref(event), ctypes.byref(self._report)))
            at, size = at + self._used.value, size - self._used.value
            if event.kind == 0:
                return
            yield Statement(EventKind(event.kind), event.line, event.column, event.offset, event.past, self._tokens(event.tokens), self._text(event.bytes))

    def finish(self) -> None:
        """Raises Fault if the text may not end here. What follows its last statement is not part of it."""
        self._answer(loaded().pb_reader_finish(self._own(), ctypes.byref(self._report)))

    def _grow(self, count: int) -> None:
        """Makes arrays for that many tokens. Their length never changes, so their elements stay where they are."""
        self._arrays = [array(it, (0,)) * count for it in "BQQq"]
        self._firsts = [first_of(it) for it in self._arrays]

    def _tokens(self, count: int) -> List[Token]:
        """The tokens of the last statement."""
        if count == 0:
            return []
        if len(self._arrays[0]) < count:
            self._grow(2 * count)
        codes, names, lows, highs = self._firsts
        loaded().pb_reader_tokens(self._own(), codes, count, names, count, lows, count, highs, count)
        parts = zip(*(it[:count] for it in self._arrays))
        return [Token(_TOKEN_KINDS[code], (high << 64) + low, self._names[name] if code in NAMED else "") for code, name, low, high in parts]

    def _text(self, size: int) -> bytes:
        """The free text of the last statement."""
        if size == 0:
            return b""
        room, length = ctypes.create_string_buffer(size), ctypes.c_size_t()
        loaded().pb_reader_bytes(self._own(), room, size, ctypes.byref(length))
        return ctypes.string_at(room, min(size, length.value))

    def _answer(self, code: int) -> None:
        if code != 0:
            raise Fault(code, self._report, "")

    def __enter__(self) -> "Reader":
        return self


def _pieces(source: Union[Text, BinaryIO]) -> Iterator[Text]:
    """The pieces of a text or of a file, at least one."""
    if isinstance(source, (bytes, bytearray, memoryview)):
        yield source
        return
    piece = source.read(_PIECE)
    yield piece
    while piece:
        piece = source.read(_PIECE)
        yield piece


def statements(source: Union[Text, BinaryIO], opts: Optional[Options] = None, text_format: Optional[Format] = None) -> Iterator[Statement]:
    """The statements of a text, or of a file that was opened for bytes, one after another. Only a piece of the file is in memory at a time.
    Without a format it is a proof if its first byte is `p`, and else an instance, as for tidy(). Raises Fault where the text is rejected.
    What follows its last statement is not looked at."""
    pieces = _pieces(source)
    first = next(pieces)
    if text_format is None:
        text_format = Format.PROOF if bytes(memoryview(first)[:1]) == b"p" else Format.INSTANCE
    with Reader(text_format, opts) as reader:
        yield from reader.feed(first)
        for piece in pieces:
            yield from reader.feed(piece)
        reader.finish()
