"""Checks of proofs, whole and in pieces."""

import ctypes
from array import array
from typing import Iterator, List, NamedTuple, Optional

from ._faults import MISUSE, Fault, Place, Reason, Verdict
from ._instance import Term
from ._library import Claim, Count, Names, Number, Options, Owned, Position, Report, Text, address_of, bytes_of, first_of, given, loaded


class State(NamedTuple):
    """What a checker has accepted: how many statements, the newest id of a constraint, or 0 if there is none, and the visits of the last
    `rup`, or 0 if there was none. The ids that a statement gave are those after the newest id before it."""

    accepted: int
    newest: int
    visits: int


class Live(NamedTuple):
    """A live constraint in normal form: the sum of its terms is at least the degree."""

    terms: List[Term]
    degree: int


class Checker(Owned):
    """Checks the proof of an instance while it is written. Each call raises Fault once the proof is rejected. A checker belongs to the thread
    that made it: a call in another thread raises RuntimeError.

    >>> with pb.Checker(instance) as checker:
    ...     for piece in pieces:
    ...         checker.feed(piece)
    ...     print(checker.finish().verdict)
    """

    _kind = "checker"

    def __init__(self, instance: Text, opts: Optional[Options] = None) -> None:
        super().__init__()
        self._used, self._report = ctypes.c_size_t(), Report()
        self._names = Names("pb_checker_name", self._handle)
        library = loaded()
        self._answer(library.pb_checker_open(*bytes_of(instance), given(opts), self._own(), ctypes.byref(self._report)))
        self._feed = library.pb_checker_feed

    def feed(self, piece: Text) -> int:
        """Takes a piece of the proof, cut anywhere. Returns how many of its bytes belong to the proof: none after its end."""
        self._answer(self._feed(self._own(), *bytes_of(piece), ctypes.byref(self._used), ctypes.byref(self._report)))
        return self._used.value

    def steps(self, piece: Text) -> Iterator[State]:
        """Takes a piece of the proof as feed() does, and gives the State after each statement that is accepted. What follows that statement is
        taken when the next State is asked for."""
        content, size = bytes_of(piece)
        at, ended, step = address_of(content), ctypes.c_bool(True), loaded().pb_checker_step
        while ended.value:
            words = ctypes.byref(self._used), ctypes.byref(ended), ctypes.byref(self._report)
            self._answer(step(self._own(), at, size, *words))
            at, size = at + self._used.value, size - self._used.value
            if ended.value:
                yield self.state

    @property
    def state(self) -> State:
        """What was accepted so far. After a fault only the number of statements has a meaning."""
        count = Count()
        self._open(loaded().pb_checker_state(self._own(), ctypes.byref(count)))
        return State(count.accepted, count.newest, count.visits)

    def constraint(self, number: int) -> Live:
        """The live constraint with an id. Raises KeyError if none has it. It has no meaning after a fault."""
        library, size, degree = loaded(), ctypes.c_size_t(), Number()
        code = library.pb_checker_terms(self._own(), number, ctypes.byref(size))
        if code == MISUSE and self._handle.inner:
            raise KeyError(number)
        self._open(code)
        count = size.value
        arrays = [array(it, (0,)) * count for it in "QBQq"]
        words = (word for it in arrays for word in (first_of(it), count))
        self._open(library.pb_checker_constraint(self._own(), number, *words, ctypes.byref(degree)))
        terms = [Term((high << 64) + low, self._names[name], negated != 0) for name, negated, low, high in zip(*arrays)]
        return Live(terms, (degree.high << 64) + degree.low)

    def finish(self) -> Verdict:
        """The Verdict, if the proof ends here."""
        claim = Claim()
        self._answer(loaded().pb_checker_finish(self._own(), ctypes.byref(claim), ctypes.byref(self._report)))
        if claim.kind != 3:
            return Verdict(f"verified {('NONE', 'UNSAT', 'SAT')[claim.kind]}\n")
        lower = (claim.lower_high << 64) + claim.lower_low if claim.lower_finite else "INF"
        upper = (claim.upper_high << 64) + claim.upper_low if claim.upper_finite else "INF"
        return Verdict(f"verified BOUNDS {lower} {upper}\n")

    @property
    def place(self) -> Place:
        """The position of the next byte of the proof. After its last statement it stays."""
        place = Position()
        self._open(loaded().pb_checker_place(self._own(), ctypes.byref(place)))
        return Place(place.line, place.column, place.offset)

    @property
    def held(self) -> int:
        """How much of the current statement is stored, at most the number of its bytes so far."""
        held = ctypes.c_size_t()
        self._open(loaded().pb_checker_held(self._own(), ctypes.byref(held)))
        return held.value

    def _answer(self, code: int) -> None:
        """Raises the fault that the last call reported, if there was one."""
        if code != 0:
            report = self._report
            name = self._names[report.number] if report.reason == Reason.NOT_TOTAL else ""
            raise Fault(code, report, name)

    def _open(self, code: int) -> None:
        """Raises the fault of a call with a closed checker."""
        if code != 0:
            raise Fault(code, Report(reason=Reason.MISUSED), "")

    def __enter__(self) -> "Checker":
        return self


def check(instance: Text, proof: Text, opts: Optional[Options] = None) -> Verdict:
    """Checks a proof of an instance, and returns the Verdict, which is the line of `pb check`. Raises Fault."""
    with Checker(instance, opts) as checker:
        checker.feed(proof)
        return checker.finish()
