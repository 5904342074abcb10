"""The calls that read one text and write another."""

import ctypes
import mmap
from typing import Any, Optional

from ._faults import refusal_of
from ._library import Options, Text, bytes_of, given, loaded


def tidy(text: Text, normal: bool = False, opts: Optional[Options] = None) -> bytes:
    """The canonical text of an instance or a proof, or with `normal` the normal form of an instance. Raises Refusal."""
    content, size = bytes_of(text)
    return _written("pb_tidy", content, size * (6 if normal else 2), content, size, normal, given(opts))


def show(text: Text, opts: Optional[Options] = None) -> bytes:
    """The statements of a text, each after its line and column. Raises Refusal, whose text has the statements before the fault."""
    content, size = bytes_of(text)
    return _written("pb_show", content, size * 6, content, size, given(opts))


def _written(name: str, text: bytes, guess: int, *words: Any) -> bytes:
    """What a call writes. It gets so much room that a second call with the length of the first is hardly ever needed. The pages of room that
    it does not write to take no memory."""
    call, length, room = getattr(loaded(), name), ctypes.c_size_t(), guess + 4096
    while True:
        pages = _pages(room)
        room = len(pages)
        first = ctypes.c_char.from_buffer(pages)
        code = call(*words, ctypes.addressof(first), room, ctypes.byref(length))
        if length.value <= room:
            written = pages[: length.value]
            break
        room = length.value
    if code != 0:
        raise refusal_of(code, written, text)
    return written


def _pages(size: int) -> mmap.mmap:
    """Room of this size, or of one page if so much may not be asked for: the call then gives the length."""
    flags = mmap.MAP_PRIVATE | mmap.MAP_ANONYMOUS
    try:
        return mmap.mmap(-1, size, flags=flags)
    except OSError:
        return mmap.mmap(-1, mmap.PAGESIZE, flags=flags)
