"""The texts of the rows of crates/pb_rows/data that check a proof. docs/TESTING.md has the form of a row."""
import re
import typing

from running import TOP

# The words of a call that the program and the bindings can follow: no call of theirs fails, and there is no option for `top`.
OPTIONS = ("bits", "longest")
LETTERS = {b"t": b"\t", b"r": b"\r", b"n": b"\n", b"s": b"\\"}


class Row(typing.NamedTuple):
    """An instance and a proof with the options of their check. The name is that of the first row that has them."""

    name: str
    instance: bytes
    proof: bytes
    options: dict


def spelled(text):
    """The bytes of a text without groups and turns."""
    return re.sub(rb"\\([0-9a-fA-F]{2}|.)", lambda it: LETTERS.get(it[1]) or bytes.fromhex(it[1].decode()), text)


def repeated(group, count):
    """The bytes of a group: `\\#` is the number of the turn, counted from 0, and `\\+` the next number."""
    first, *parts = re.split(rb"\\([#+])", group)
    form = spelled(first).replace(b"%", b"%%")
    for code, text in zip(parts[::2], parts[1::2]):
        form += (b"%(this)d" if code == b"#" else b"%(next)d") + spelled(text).replace(b"%", b"%%")
    return b"".join(form % {b"this": turn, b"next": turn + 1} for turn in range(count))


def text_of(line):
    """The bytes of a line of a row."""
    line = line[1:] if line.startswith(b" ") else line
    line = line[:-1] if line.endswith(b"\\") else line + b"\n"
    parts = re.split(rb"\\\[(\d+):(.*?)\\\]", line, flags=re.S)
    texts = [spelled(parts[0])]
    for count, group, after in zip(parts[1::3], parts[2::3], parts[3::3]):
        texts += [repeated(group, int(count)), spelled(after)]
    return b"".join(texts)


def calls_of(lines):
    """The calls of a file: the number of the line, its words, and the lines of its input."""
    calls = []
    for number, line in enumerate(lines, 1):
        if line[:1] == b"|":
            calls[-1][2].append(line[1:])
        elif line and line[:1] not in (b"#", b">", b"="):
            call, *parts = line.split(b" | ")
            calls.append((number, call.split(), parts[:1]))
    return calls


def rows():
    """The rows whose check the program and the bindings can make, each input once."""
    found = {}
    for path in sorted((TOP / "crates/pb_rows/data").glob("*.rows")):
        given = []
        for number, words, lines in calls_of(path.read_bytes().split(b"\n")):
            given = given if b"same" in words else lines
            settings = [it.decode().split("=") for it in words[1:] if it not in (b"same", b"once")]
            if words[0] not in (b"check", b"checker") or any(it[0] not in OPTIONS for it in settings):
                continue
            instance, _, proof = b"".join(map(text_of, given)).partition(b"&\n")
            row = Row(f"{path.name}:{number}", instance, proof, {name: int(value) for name, value in settings})
            found.setdefault((instance, proof, *map(tuple, settings)), row)
    return [*found.values()]
