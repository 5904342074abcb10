"""The text of statements, from their tokens."""

import ctypes
from array import array
from typing import Any, Dict, Iterable, List, Optional

from ._faults import FAILED, MISUSE
from ._library import Options, Text, bytes_of, first_of, given, loaded
from ._reader import NAMED, EventKind, Token

_LOW = (1 << 64) - 1


class WriteFault(Exception):
    """No statement was written. `code` is REFUSED, MISUSE or FAILED. With REFUSED, `token` is the index of the token that breaks a rule. The
    number of tokens stands for one that is missing, or for the free text."""

    def __init__(self, code: int, token: int) -> None:
        words = {MISUSE: "options that are not allowed", FAILED: "out of memory"}
        super().__init__(words.get(code, f"token {token}: no statement has it there"))
        self.code = code
        self.token = token


def write_statement(kind: EventKind, tokens: Iterable[Token], text: Text = b"", opts: Optional[Options] = None) -> bytes:
    """The canonical text of a statement, without a line feed. `text` is the free text of a header or a comment, and empty for other kinds.
    Raises WriteFault, and OverflowError for a number of more than 128 bits. Of the options only `bits` matters."""
    codes, names, lows, highs = (array(it) for it in "BQQq")
    numbers: Dict[str, int] = {}
    for token in tokens:
        codes.append(token.kind)
        names.append(numbers.setdefault(token.name, len(numbers)) if token.kind in NAMED else 0)
        lows.append(token.number & _LOW)
        highs.append(token.number >> 64)
    count = len(codes)
    table, starts = bytearray(), array("Q")
    for name in numbers:
        starts.append(len(table))
        table += name.encode("utf-8", "surrogatepass")
    content, size = bytes_of(text)
    arrays = [codes, names, lows, highs]
    # One element more than there are, so that each array has an address.
    for it in (*arrays, starts):
        it.append(0)
    table.append(0)
    words: List[Any] = [word for it in arrays for word in (first_of(it), count)]
    words += [content, size, first_of(table), len(table) - 1, first_of(starts), len(starts) - 1]
    length, wrong, room = ctypes.c_size_t(), ctypes.c_size_t(), size + 32 * count + 64
    while True:
        out = ctypes.create_string_buffer(room)
        code = loaded().pb_write_statement(kind, *words, given(opts), ctypes.byref(wrong), out, room, ctypes.byref(length))
        if code != 0:
            raise WriteFault(code, wrong.value)
        if length.value <= room:
            return ctypes.string_at(out, length.value)
        room = length.value
