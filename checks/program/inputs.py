"""The texts that the checks run on, and what docs/FORMAT.md says of each. No answer here was taken from a run."""

LARGEST = b"170141183460469231731687303715884105727"


def place(text, offset):
    """The line and the column of an offset, as a fault shows them."""
    prefix = text[:offset]
    line = prefix.count(b"\n") + 1
    column = offset - (prefix.rfind(b"\n") + 1) + 1
    return b"line %d column %d: " % (line, column)


class Text:
    """An accepted text, as a list of parts. A part is its bytes and the line that `pb show` writes of it, or None where it is no
    statement; the statements before the last of them are the spelling. `free` are parts of comments and of the
    header's tail, where any byte may stand."""

    def __init__(self, name, *parts, free=()):
        self.name = name
        self.parts = parts
        self.bytes = b"".join(text for text, _ in parts)
        self.free = set()
        for part in free:
            first = self.bytes.index(part)
            self.free.update(range(first, first + len(part)))

    def end(self):
        """The offset after the last statement: the rest is blank."""
        at, end = 0, 0
        for text, line in self.parts:
            at += len(text)
            end = at if line is not None else end
        return end

    def shown(self, offset=None):
        """The lines of the statements that end within so many bytes, or of all."""
        at, lines = 0, []
        for text, line in self.parts:
            at += len(text)
            if line is not None and (offset is None or at <= offset):
                lines.append(line + b"\n")
        return b"".join(lines)


def header(variables, constraints, tail=b""):
    text = b"* #variable= %d #constraint= %d%s" % (variables, constraints, tail)
    return text + b"\n", b"1:1 " + text


def lines(*texts):
    """Parts for canonical lines, the first of them line 2; each has its line feed after it."""
    parts = []
    for number, text in enumerate(texts, 2):
        parts += [(text, b"%d:1 %s" % (number, text)), (b"\n", None)]
    return parts


def proof(*texts):
    """The parts of a canonical proof with these lines between its header and its closing."""
    head, end = b"pseudo-Boolean proof version 2.0", b"end pseudo-Boolean proof"
    parts = [(head + b"\n", b"1:1 " + head)]
    for number, text in enumerate(texts, 2):
        parts.append((text + b"\n", b"%d:1 %s" % (number, text)))
    return parts + [(end, b"%d:1 %s" % (len(texts) + 2, end)), (b"\n", None)]


ONE = Text("one constraint", header(1, 1), *lines(b"+1 x1 >= 1 ;"))

CLOSE = Text("no space but where it has to be", header(1, 1), (b"1 x1>=1;", b"2:1 +1 x1 >= 1 ;"))

APART = Text(
    "a constraint over many lines",
    header(1, 1),
    (b"+1\n\tx1\n>=\r\n01 ;", b"2:1 +1 x1 >= 1 ;"),
    (b"\n", None),
)

TAIL = Text(
    "a header with a tail",
    header(1, 1, b" #equal= 0 intsize= 20"),
    *lines(b"+1 x1 >= 1 ;"),
    free=[b"#equal= 0 intsize= 20\n"],
)

COMMENTS = Text(
    "an instance with comments",
    header(1, 1),
    (b"* a\n", b"2:1 * a"),
    (b"min: ;", b"3:1 min: ;"),
    (b"\n\n", None),
    (b"*b\n", b"5:1 *b"),
    (b"* c\n", b"6:1 * c"),
    (b"+1 x1 >= 1 ;", b"7:1 +1 x1 >= 1 ;"),
    (b"\n* d\n", None),
    free=[b" a\n", b"b\n", b" c\n", b" d\n"],
)

EQUALITY = Text("an equality", header(2, 1), *lines(b"-2 x1 +3 x2 -1 x1 = 1 ;"))

CLASH = Text("two constraints that clash", header(1, 2), *lines(b"+1 x1 >= 1 ;", b"+1 ~x1 >= 1 ;"))

REFUTATION = Text("a refutation", *proof(b"f 2", b"pol 1 2 +", b"output NONE", b"conclusion UNSAT : 3"))

PAIR = Text("one of two", header(2, 1), *lines(b"+1 x1 +1 x2 >= 1 ;"))

SOLUTIONS = Text("a solution", *proof(b"f 1", b"solx x1 x2", b"output NONE", b"conclusion SAT"))

LEAST = Text("an objective", header(2, 1), *lines(b"min: +1 x1 +1 x2 ;", b"+1 x1 +1 x2 >= 1 ;"))

BOUND = Text(
    "a bound", *proof(b"f 1", b"soli x1 ~x2", b"pol 1 2 +", b"output NONE", b"conclusion BOUNDS 1 1")
)

SPREAD = Text(
    "a proof in another spelling",
    (b"pseudo-Boolean  proof version 2.0\n", b"1:1 pseudo-Boolean proof version 2.0"),
    (b"* note\n\n ", None),
    (b"f 02 ;\n", b"4:2 f 2"),
    (b"pol  1 2 + ;\n", b"5:1 pol 1 2 +"),
    (b"rup >=+1;\n", b"6:1 rup >= 1 ;"),
    (b"del id 03\n", b"7:1 del id 3"),
    (b"output NONE\n", b"8:1 output NONE"),
    (b"conclusion UNSAT:4\n", b"9:1 conclusion UNSAT : 4"),
    (b"end  pseudo-Boolean proof", b"10:1 end pseudo-Boolean proof"),
    (b"\n", None),
    free=[b" note\n"],
)

# What `pb tidy --normal` writes, where that is not what `pb tidy` does.
NORMAL = {
    TAIL: ONE.bytes,
    COMMENTS: b"* #variable= 1 #constraint= 1\nmin: ;\n+1 x1 >= 1 ;\n",
    EQUALITY: b"* #variable= 2 #constraint= 2\n+3 ~x1 +3 x2 >= 4 ;\n+3 x1 +3 ~x2 >= 2 ;\n",
}

INSTANCES = [ONE, CLOSE, APART, TAIL, COMMENTS, EQUALITY, CLASH, PAIR, LEAST]

# Each proof, the instance that it is of, and what is verified.
PROOFS = [
    (REFUTATION, CLASH, b"verified UNSAT\n"),
    (SPREAD, CLASH, b"verified UNSAT\n"),
    (SOLUTIONS, PAIR, b"verified SAT\n"),
    (BOUND, LEAST, b"verified BOUNDS 1 1\n"),
]
