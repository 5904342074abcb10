"""The verified checker pb, from Python: check(), tidy() and show() do for bytes what the commands of these names do for files.
A Checker checks a proof in the pieces in which it is written. read_instance() has an instance as arrays, and statements() gives one
statement at a time. write_statement() writes one.

It needs the standard library and the shared library libpb.so. That is the file which the variable PB_LIBRARY names, or else libpb.so in
the folder of this file, or else what the system finds under the name pb. `pip install` builds it, and for use in place
`python3 bindings/python/backend.py` does.

While a call of the library runs, the lock of the interpreter is released, so that other threads go on.

    >>> import pb
    >>> pb.check(open("p.opb", "rb").read(), open("p.pbp", "rb").read())
    'verified UNSAT\\n'
"""

__version__ = "0.1.0"

from ._checker import Checker, Live, State, check
from ._faults import FAILED, MISUSE, REFUSED, Fault, Place, Reason, Refusal, Verdict
from ._instance import Constraint, Instance, NameList, Term, read_instance
from ._library import Options, loaded, options
from ._reader import EventKind, Format, Reader, Statement, Token, TokenKind, statements
from ._texts import show, tidy
from ._write import WriteFault, write_statement

__all__ = [
    "FAILED",
    "MISUSE",
    "REFUSED",
    "Checker",
    "Constraint",
    "EventKind",
    "Fault",
    "Format",
    "Instance",
    "Live",
    "NameList",
    "Options",
    "Place",
    "Reader",
    "Reason",
    "Refusal",
    "State",
    "Statement",
    "Term",
    "Token",
    "TokenKind",
    "Verdict",
    "WriteFault",
    "check",
    "options",
    "read_instance",
    "show",
    "statements",
    "tidy",
    "version",
    "write_statement",
]


def version() -> int:
    """The version of the library as one number, 1002003 for 1.2.3."""
    return int(loaded().pb_version())
