"""Why a call failed, and what a proof has shown."""

import enum
import re
from typing import NamedTuple, Optional, Tuple

from ._library import Report

REFUSED, MISUSE, FAILED = 1, 2, 3


class Place(NamedTuple):
    """A position in a text: `line` and `column` count from 1, `column` and `offset` are in bytes."""

    line: int
    column: int
    offset: int


class Reason(enum.IntEnum):
    """Why a text is rejected. include/pb.h explains each number."""

    BYTE = 1
    TOO_LARGE = 2
    ENDED = 3
    TOO_LONG = 4
    MEMORY = 6
    OVERFLOW = 10
    FORMULA_COUNT = 11
    NO_SUCH_ID = 12
    NOT_IMPLIED = 13
    CONFLICT = 14
    NOT_TOTAL = 15
    VIOLATES = 16
    NO_OBJECTIVE = 17
    NO_CONTRADICTION = 18
    SOLUTION_LOGGED = 19
    NO_SOLUTION = 20
    NOT_BOUND = 21
    IDS_SPENT = 22
    ORDER = 23
    MISUSED = 32


# The words of a reason in the line of a fault.
_WORDS = {
    Reason.BYTE: "byte 0x{0.number:02x}",
    Reason.TOO_LARGE: "number too large",
    Reason.ENDED: "input ended",
    Reason.TOO_LONG: "input too long",
    Reason.MEMORY: "out of memory",
    Reason.OVERFLOW: "overflow",
    Reason.FORMULA_COUNT: "formula has {0.number} constraints",
    Reason.NO_SUCH_ID: "no such id {0.id}",
    Reason.NOT_IMPLIED: "not implied",
    Reason.CONFLICT: "conflict",
    Reason.NOT_TOTAL: "no value for {0.name}",
    Reason.VIOLATES: "violates constraint {0.number}",
    Reason.NO_OBJECTIVE: "no objective",
    Reason.NO_CONTRADICTION: "not a contradiction",
    Reason.SOLUTION_LOGGED: "a solution was logged",
    Reason.NO_SOLUTION: "no solution",
    Reason.NOT_BOUND: "not a bound",
    Reason.IDS_SPENT: "ids spent",
    Reason.ORDER: "out of order",
    Reason.MISUSED: "options that are not allowed, or a checker that is closed",
}
_INPUTS = (None, "instance", "proof")


class Refusal(Exception):
    """A call failed. `code` is its status: REFUSED, MISUSE or FAILED. `text` is what it wrote, and ends in the line of the fault.

    `line`, `column` and `offset` are the position of the fault, or 0 if it has none. `reason` is a Reason, or None if the text could not
    be written. `number` is the byte of Reason.BYTE, the count, the number of the name or the id that the reason is about, or else 0."""

    def __init__(self, code: int, text: bytes, place: Place = Place(0, 0, 0), reason: Optional[Reason] = None, number: int = 0) -> None:
        super().__init__(text.decode("utf-8", "replace").rstrip("\n"))
        self.code = code
        self.text = text
        self.line, self.column, self.offset = place
        self.reason = reason
        self.number = number

    @property
    def status(self) -> int:
        """The same as `code`."""
        return self.code


class Fault(Refusal):
    """A check, or the reading of an instance, failed. `input` is "instance" or "proof", the text in which it is. `id` is that of
    Reason.NO_SUCH_ID, as written, and `name` that of Reason.NOT_TOTAL; else they are 0 and empty."""

    reason: Reason

    def __init__(self, code: int, report: Report, name: str) -> None:
        reason = Reason(report.reason)
        self.input = _INPUTS[report.input]
        self.id, self.name = report.id, name
        self.number = report.number
        before = f"{self.input}: " if self.input else ""
        before += f"line {report.line} column {report.column}: " if report.line else ""
        text = f"{before}{_WORDS[reason].format(self)}\n".encode()
        super().__init__(code, text, Place(report.line, report.column, report.offset), reason, report.number)


def refusal_of(code: int, written: bytes, text: bytes) -> Refusal:
    """The Refusal of a call that read a text and ended its output with the line of the fault."""
    last = written[written.rstrip(b"\n").rfind(b"\n") + 1 :].decode("utf-8", "replace")
    found = re.fullmatch(r"file: line (\d+) column (\d+): (?:byte 0x(..)|(.*))\n", last)
    if not found:
        return Refusal(code, written, reason=Reason.MISUSED if code == MISUSE else Reason.MEMORY if "out of memory" in last else None)
    line, column = int(found[1]), int(found[2])
    place = Place(line, column, _start_of(text, line) + column - 1)
    if found[3]:
        return Refusal(code, written, place, Reason.BYTE, int(found[3], 16))
    return Refusal(code, written, place, next((reason for reason, words in _WORDS.items() if words == found[4]), None))


def _start_of(text: bytes, line: int) -> int:
    """The offset of the first byte of a line."""
    at = 0
    for _ in range(line - 1):
        at = text.index(b"\n", at) + 1
    return at


class Verdict(str):
    """The line of a verdict, as `pb check` prints it. `verdict` is "UNSAT", "SAT", "BOUNDS" or "NONE". `bounds` is the lower and the upper
    bound, each a number or None for INF, or None if the verdict is not BOUNDS."""

    @property
    def verdict(self) -> str:
        return self.split()[1]

    @property
    def bounds(self) -> Optional[Tuple[Optional[int], Optional[int]]]:
        ends = [None if it == "INF" else int(it) for it in self.split()[2:]]
        return (ends[0], ends[1]) if ends else None
