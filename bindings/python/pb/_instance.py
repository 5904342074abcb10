"""Instances as arrays."""

import ctypes
from array import array
from typing import TYPE_CHECKING, Any, Iterator, List, NamedTuple, Optional, Sequence, Tuple, Union, overload

from ._faults import Fault
from ._library import Handle, Options, Report, Sizes, Text, bytes_of, first_of, given, loaded

if TYPE_CHECKING:
    Numbers = array[int]


class Term(NamedTuple):
    """A coefficient times a literal: a name, or its negation."""

    coefficient: int
    name: str
    negated: bool


class Constraint(NamedTuple):
    """A constraint with the position of its first byte. `relation` is ">=" or "="."""

    terms: List[Term]
    relation: str
    degree: int
    line: int
    column: int


class NameList(Sequence[str]):
    """The names of an instance by their numbers. They are in one buffer: name k is the text from `starts[k]` to `starts[k + 1]` of `content`,
    in UTF-8. A name becomes a `str` when it is asked for."""

    def __init__(self, content: bytes, starts: "Numbers") -> None:
        self.content, self.starts = content, starts

    def __len__(self) -> int:
        return len(self.starts) - 1

    @overload
    def __getitem__(self, number: int) -> str: ...

    @overload
    def __getitem__(self, number: slice) -> List[str]: ...

    def __getitem__(self, number: Union[int, slice]) -> Union[str, List[str]]:
        if isinstance(number, slice):
            return [self[it] for it in range(*number.indices(len(self)))]
        count = len(self)
        if not -count <= number < count:
            raise IndexError(f"there is no name {number}")
        at = number % count
        return self.content[self.starts[at] : self.starts[at + 1]].decode("utf-8", "replace")

    def __iter__(self) -> Iterator[str]:
        content, starts = self.content, self.starts
        return (content[begin:end].decode("utf-8", "replace") for begin, end in zip(starts, starts[1:]))

    def __eq__(self, other: object) -> bool:
        return isinstance(other, Sequence) and not isinstance(other, str) and [*self] == [*other]

    def __repr__(self) -> str:
        return repr([*self])


class Instance:
    """An instance as arrays of the module `array`, which numpy.asarray() takes without a copy. `names` has the names by their numbers.

    For each term, in the order of the text: `numbers` has the number of its name, `negated` 1 or 0, and its coefficient is 2**64 times
    `highs` plus `lows`. A row is the objective, if there is one, or a constraint. For each row: `kinds` has OBJECTIVE, AT_LEAST or EQUAL,
    `ends` the number of all terms up to its end, and its degree is 2**64 times `degree_highs` plus `degree_lows`. `lines`, `columns` and
    `firsts` have the position of its first byte, and `pasts` the offset past its last."""

    OBJECTIVE, AT_LEAST, EQUAL = range(3)

    def __init__(self, handle: Handle) -> None:
        """Copies the arrays of the library."""
        library, sizes, own = loaded(), Sizes(), ctypes.byref(handle)
        library.pb_instance_sizes(own, ctypes.byref(sizes))
        terms, rows = sizes.terms, sizes.rows
        content, starts = bytearray(sizes.name_bytes), array("Q", (0,)) * sizes.names
        library.pb_instance_names(own, first_of(content), sizes.name_bytes, first_of(starts), sizes.names)
        starts.append(sizes.name_bytes)
        self.names = NameList(bytes(content), starts)
        self.numbers, self.negated, self.lows, self.highs = _copied(library.pb_instance_terms, own, "QBQq", terms)
        self.kinds, self.ends, self.degree_lows, self.degree_highs = _copied(library.pb_instance_rows, own, "BQQq", rows)
        self.lines, self.columns, self.firsts, self.pasts = _copied(library.pb_instance_places, own, "QQQQ", rows)

    def terms(self, row: int) -> List[Term]:
        """The terms of a row."""
        return self._terms(row, self.names)

    def _terms(self, row: int, names: Sequence[str]) -> List[Term]:
        begin, end = self.ends[row - 1] if row else 0, self.ends[row]
        parts = zip(self.highs[begin:end], self.lows[begin:end], self.numbers[begin:end], self.negated[begin:end])
        return [Term((high << 64) + low, names[number], negated != 0) for high, low, number, negated in parts]

    @property
    def objective(self) -> Optional[List[Term]]:
        """The terms of the objective, or None if there is none."""
        row = next((row for row, kind in enumerate(self.kinds) if kind == self.OBJECTIVE), None)
        return None if row is None else self.terms(row)

    @property
    def constraints(self) -> Iterator[Constraint]:
        """The constraints, one after another."""
        names = [*self.names]
        for row, kind in enumerate(self.kinds):
            if kind != self.OBJECTIVE:
                degree = (self.degree_highs[row] << 64) + self.degree_lows[row]
                relation = "=" if kind == self.EQUAL else ">="
                yield Constraint(self._terms(row, names), relation, degree, self.lines[row], self.columns[row])


def _copied(call: Any, handle: Any, codes: str, count: int) -> "Tuple[Numbers, ...]":
    """The arrays that a call fills, one for each type code, all with that many elements."""
    arrays = tuple(array(code, (0,)) * count for code in codes)
    call(handle, *(word for it in arrays for word in (first_of(it), count)))
    return arrays


def read_instance(text: Text, opts: Optional[Options] = None) -> Instance:
    """The Instance that is this text. Raises Fault."""
    library, handle, report = loaded(), Handle(None), Report()
    code = library.pb_instance_read(*bytes_of(text), given(opts), ctypes.byref(handle), ctypes.byref(report))
    if code != 0:
        raise Fault(code, report, "")
    try:
        return Instance(handle)
    finally:
        library.pb_instance_close(ctypes.byref(handle))
