"""Reads the items of a source file in Rattle, in the layout of `rt fmt`: what an item contains has four more blanks before it."""
import re
import typing

# Comments, strings and characters: brackets in them are none of the code.
APART = re.compile(r"""//[^\n]*|"(?:\\.|[^"\\])*"|'(?:\\[^\n']{1,8}|\\'|[^\\\n'])'""", re.S)
KINDS = "fn|struct|enum|trait|type|const|static|mod|use|impl|ghost"
HEAD = re.compile(rf"(pub(?:\([^)]*\))? )?(?:const |unsafe |extern \"C\" )*({KINDS})\b\s*(\w*)")


class Line(typing.NamedTuple):
    """A line, and the same with blanks in place of comments, strings and characters."""

    text: str
    code: str

    def without(self, count):
        """The line without its first characters."""
        return Line(self.text[count:], self.code[count:])


class Item(typing.NamedTuple):
    """An item: its kind and name, whether everyone may use it, the lines of its `///` comment, its other comments, its attributes, and
    its own lines."""

    kind: str
    name: str
    is_public: bool
    docs: list
    notes: list
    attributes: list
    lines: list

    def head(self):
        """The lines up to the bracket that opens its body, or all of them."""
        for count, line in enumerate(self.lines, 1):
            if line.code.rstrip().endswith(("{", "{}")):
                return self.lines[:count]
        return self.lines

    def inner(self):
        """The items in its body."""
        return items([line.without(4) for line in self.lines[len(self.head()) : -1]])


def lines_of(text):
    """The lines of a text."""
    code = APART.sub(lambda found: re.sub(r"[^\n]", " ", found[0]), text)
    return [Line(*both) for both in zip(text.split("\n"), code.split("\n"))]


def depth_after(depth, line):
    """How many brackets are open after a line."""
    return depth + sum(line.code.count(it) for it in "([{") - sum(line.code.count(it) for it in ")]}")


def end_of(lines, begin):
    """The position after the item that begins there. It ends with `;`, or with a line that is not indented and ends with `}`. A field ends
    with a comma, and an attribute with its bracket."""
    depth, is_attribute = 0, lines[begin].code.startswith("#")
    last = ";" if HEAD.match(lines[begin].text) else (";", ",")
    for at in range(begin, len(lines)):
        depth, code = depth_after(depth, lines[at]), lines[at].code.rstrip()
        if depth == 0 and (is_attribute or code.endswith(last) or (code.endswith("}") and not code.startswith(" "))):
            return at + 1
    return len(lines)


def items(lines):
    """The items of a file or of a body, in order."""
    found, at = [], 0
    docs, notes, attributes = [], [], []
    while at < len(lines):
        text, end = lines[at].text, at + 1
        if text.startswith("///"):
            docs.append(text[4:])
        elif text.startswith("//"):
            notes.append(text)
        elif text.startswith("#"):
            end = end_of(lines, at)
            attributes += [line.text for line in lines[at:end]]
        elif text.strip():
            end = end_of(lines, at)
            head = HEAD.match(text)
            kind, name = (head[2], head[3]) if head else ("field", re.sub(r"^pub ", "", text).partition(":")[0])
            is_public = (head[1] == "pub ") if head else text.startswith("pub ")
            found.append(Item(kind, name, is_public, docs, notes, attributes, lines[at:end]))
        if not text.startswith(("//", "#")) or text.startswith("//!"):
            docs, notes, attributes = [], [], []
        at = end
    return found


def contract_of(function):
    """The lines of the signature of a function and of its clauses, without its body."""
    taken, depth = [], 0
    for line in function.lines:
        if not line.code.startswith(" "):
            for at, char in enumerate(line.code):
                if char == "{" and depth == 0:
                    return taken + ([line.text[:at].rstrip()] if line.text[:at].strip() else [])
                depth += (char in "([{") - (char in ")]}")
        else:
            depth = depth_after(depth, line)
        taken.append(line.text)
    return taken[:-1] + [taken[-1].rstrip(";")]


def members(item):
    """The fields of a struct: those that everyone may use, whether there are others, and what it assumes of the first. A ghost line that
    names another field is none of them."""
    inner = item.inner()
    public = [it for it in inner if it.kind == "field" and it.is_public]
    private = [it.name.split(" ")[-1] for it in inner if it.kind == "field" and not it.is_public]
    names = re.compile(r"(?<!\w)(?:%s)(?!\w)" % "|".join(private or ["-"]))
    ghosts = [it for it in inner if it.kind == "ghost" and not names.search("\n".join(line.code for line in it.lines))]
    return public, bool(private), ghosts
