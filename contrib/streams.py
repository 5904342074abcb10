"""What the scripts of this folder share: inputs, outputs, and how a run ends. Copy it with any of them."""
import gzip
import importlib.machinery
import importlib.util
import io
import lzma
import os
import sys
import tempfile
import zlib

# Bytes that are read or written at once.
CHUNK = 1 << 18
PACKED = [(b"\x1f\x8b", gzip.open), (b"\xfd7zXZ\0", lzma.open)]


class Rejected(Exception):
    """The input has another form; the text says where and which."""


class Refused(Exception):
    """A file could not be read or written; the text says which and why."""


class Source:
    """The bytes of a file, of standard input for `-`, or of either unpacked if they begin as gzip or xz do."""

    def __init__(self, name):
        self.name = "standard input" if name == "-" else name
        self.file = self.tried(lambda: open(0 if name == "-" else name, "rb", buffering=CHUNK, closefd=name != "-"))
        begin = self.tried(lambda: self.file.peek(6))
        for magic, packed in PACKED:
            if begin.startswith(magic):
                self.file = self.tried(lambda: packed(self.file))

    def tried(self, call):
        try:
            return call()
        except OSError as fault:
            raise Refused(f"{self.name}: {fault.strerror or fault}") from None
        except (EOFError, zlib.error, lzma.LZMAError) as fault:
            raise Refused(f"{self.name}: packed wrongly: {fault}") from None

    def peek(self, count):
        """At most this many of the first bytes, which are read again: before `read` and `lines`."""
        if not isinstance(self.file, io.BufferedReader):
            self.file = io.BufferedReader(self.file, CHUNK)
        return self.tried(lambda: self.file.peek(count))[:count]

    def read(self):
        """Some bytes, none at the end."""
        return self.tried(lambda: self.file.read(CHUNK))

    def lines(self):
        """The lines one after another, with their line feeds."""
        while True:
            some = self.tried(lambda: self.file.readlines(CHUNK))
            if not some:
                return
            yield from some


class Out:
    """Standard output. What is written comes out in chunks, and the last one only by `end`: a run that fails leaves no whole text."""

    def __init__(self):
        self.held, self.size = [], 0

    def write(self, text):
        if self.size > CHUNK:
            self.flush()
        self.held.append(text)
        self.size += len(text)

    def flush(self):
        try:
            view = memoryview(b"".join(self.held))
            while view:
                view = view[os.write(1, view):]
        except BrokenPipeError:
            raise
        except OSError as fault:
            raise Refused(f"standard output: {fault.strerror}") from None
        self.held, self.size = [], 0

    end = flush


class Spool:
    """What is written in full before any of it comes out: in memory, or in a file if it is long."""

    def __init__(self):
        self.file = tempfile.SpooledTemporaryFile(max_size=1 << 26)
        self.write = self.file.write

    def end(self):
        pass

    def copy(self, out):
        self.file.seek(0)
        for piece in iter(lambda: self.file.read(CHUNK), b""):
            out.write(piece)
        out.end()


def note(line):
    """Writes a line about the run on standard error, at once: another program may write there too."""
    sys.stderr.write(f"{os.path.basename(sys.argv[0])}: {line}\n")
    sys.stderr.flush()


# What is said of a proof of a CNF file that stops early.
NO_END = "the proof ends without the empty clause, so this was added; the solver may have been stopped, or found a solution"


def missing_noted(count):
    if count:
        note(f"ignored {count} deletions of clauses that are not there")


def sibling(name):
    """Another script of this folder, as a module."""
    path = os.path.join(os.path.dirname(os.path.realpath(__file__)), name)
    if not os.path.isfile(path):
        raise Refused(f"the file {name} of contrib/ has to be beside this script")
    loader = importlib.machinery.SourceFileLoader(name, path)
    module = importlib.util.module_from_spec(importlib.util.spec_from_loader(name, loader))
    loader.exec_module(module)
    return module


def shown(text):
    """Bytes of an input, short, as a message shows them."""
    text = text.decode("ascii", "backslashreplace").strip()
    return text if len(text) <= 40 else f"{text[:40]}.."


def ended(work):
    """Runs the work, and ends with its status, or with 1 and a line that says why it failed."""
    try:
        sys.exit(work())
    except (Rejected, Refused) as fault:
        note(fault)
    except BrokenPipeError:
        pass
    except OSError as fault:
        note(fault)
    except MemoryError:
        note("out of memory")
    except KeyboardInterrupt:
        note("interrupted")
    sys.exit(1)
