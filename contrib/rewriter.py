"""A VeriPB proof of version 1.x or 2.0 that is rewritten line by line: what pbp2profile does for each rule."""
import re

from constraints import LITERAL, UNITS, implication, is_id, normal, value_of_text, written
from database import Database, Postfix
from streams import Rejected, shown
from subproofs import Subproofs

VERSION = re.compile(rb"pseudo-Boolean\s+proof\s+version\s+(\S+?)\s*;?\s*")
# Rules that the profile has nothing for.
OUTSIDE = {
    b"dom": "dominance", b"pre_order": "an order", b"def_order": "an order", b"load_order": "an order", b"obju": "a change of the objective",
    b"a": "an assumption", b"pbc": "a proof by contradiction", b"scope": "a scope",
}


class Rewriter(Subproofs):
    """The proof as it is written, and what is known of the old one. `note` says what a user should know."""

    def __init__(self, instance, out, note, with_values, options):
        self.instance, self.out, self.note, self.options = instance, out, note, options
        self.ids = Database(with_values)
        self.line, self.old, self.concluded, self.closed, self.skips = 0, False, False, False, False
        self.logged, self.best, self.contradiction = False, None, None
        self.rules = {
            b"rup": self.rup, b"u": self.rup, b"pol": self.pol, b"p": self.pol, b"del": self.delete, b"d": self.delete_ids,
            b"delc": self.delete_ids, b"deld": self.delete_ids, b"f": self.formula, b"e": self.equals, b"ea": self.equals_add,
            b"i": self.implies, b"ia": self.implies_add, b"j": self.implies_add, b"sol": self.solution, b"solx": self.solution_out,
            b"v": self.solution_out, b"soli": self.improvement, b"o": self.improvement, b"red": self.red, b"c": self.contradictory,
            b"core": self.dropped, b"strengthening_to_core": self.dropped, b"setlvl": self.set_level, b"#": self.set_level,
            b"wiplvl": self.wipe, b"w": self.wipe, b"output": self.output, b"conclusion": self.conclusion, b"end": self.end,
        }

    # The lines.

    def run(self, lines):
        for self.line, line in enumerate(lines, 1):
            try:
                if self.line == 1:
                    self.header(line)
                else:
                    self.statement(line)
            except Rejected as fault:
                raise Rejected(f"line {self.line}: {fault}") from None
            except ValueError:
                raise Rejected(f"line {self.line}: a number is too long, or none") from None
            if self.closed:
                break
        self.finish()

    def statement(self, line):
        words = line.split(None, 1)
        if not words or words[0][:1] == b"*":
            return
        word, rest = words[0], words[1] if len(words) > 1 else b""
        if word[:1] == b"@":
            self.ids.label, (word, _, rest) = word, rest.partition(b" ")
        if self.subproof:
            self.within(word, rest)
            return
        if self.skips and word != b"conclusion":
            return
        if word[:1] == b"#" and len(word) > 1:
            word, rest = b"#", word[1:]
        rule = self.rules.get(word)
        if rule is None:
            raise Rejected(f"`{shown(word)}` ({OUTSIDE[word]}) is outside the profile" if word in OUTSIDE
                           else f"`{shown(word)}` is no rule that is known here")
        rule(rest)
        self.ids.label = None

    def header(self, line):
        found = VERSION.fullmatch(line)
        if not found:
            raise Rejected("a proof begins with `pseudo-Boolean proof version`")
        if found[1] not in (b"1.0", b"1.1", b"1.2", b"2.0"):
            raise Rejected(f"version {shown(found[1])} of the format; 1.0 to 2.0 are read")
        self.old = found[1] != b"2.0"
        self.out.write(b"pseudo-Boolean proof version 2.0\n")

    def finish(self):
        if self.subproof:
            raise Rejected("the proof ends within a subproof")
        if not self.concluded:
            if not self.old:
                raise Rejected("the proof ends without a conclusion")
            self.conclude_old()
        self.out.write(b"end pseudo-Boolean proof\n")
        self.out.end()

    def conclude_old(self):
        """The conclusion of a proof of version 1.x, which has none: what was logged and derived."""
        if not self.logged:
            text = b"NONE" if self.contradiction is None else b"UNSAT : %s" % self.contradiction
        elif self.instance.objective is None:
            text = b"SAT"
        elif self.best is None:
            text = b"NONE"
            self.note("a solution leaves out names of the objective: its value is not known here, so the conclusion is NONE")
        elif self.contradiction is None:
            text = b"BOUNDS %d %d" % (self.instance.lowest(), self.best)
        else:
            text = b"BOUNDS %d : %s %d" % (self.best, self.contradiction, self.best)
        self.out.write(b"output NONE\nconclusion %s\n" % text)

    # Rules that add a constraint.

    def formula(self, rest):
        words = ended_words(rest)
        self.out.write(b"f %s\n" % words[0] if words else b"f\n")
        values = self.instance.values
        for number in range(self.instance.loaded):
            self.ids.add(values and values[number])
        self.ids.labels, self.instance.values = self.instance.labels, None

    def rup(self, rest):
        body = rest.partition(b";")[0].strip()
        if b">=" not in body:
            if b"<=" not in body:
                raise Rejected("an equality in `rup`" if b"=" in body else f"`{shown(body)}` is no linear constraint")
            body = written(*value_of_text(body))
        self.out.write(b"rup %s ;\n" % body)
        self.ids.add(body)

    def pol(self, rest):
        text = rest.strip()
        if text[-1:] == b";":
            text = text[:-1].rstrip()
        if text[-2:] == b" 0":
            text = text[:-2].rstrip()
        ids = self.ids
        if b"-" in text or b"@" in text:
            pairs = zip(text.split(), [*text.split()[1:], b""])
            text = b" ".join([b"%d" % ids.id_of(word) if is_id(word, after) else word for word, after in pairs])
        self.out.write(b"pol %s\n" % (text if ids.same else self.mapped(text)))
        ids.add(None if ids.values is None else Postfix(text))

    def mapped(self, text):
        """A postfix expression with the new ids."""
        words, new = text.split(), self.ids.new
        pairs = zip(words, [*words[1:], b""])
        try:
            return b" ".join([new[int(word)] if word.isdigit() and after != b"*" and after != b"d" else word for word, after in pairs])
        except KeyError as fault:
            raise Rejected(f"no constraint {fault} is live") from None

    def test(self, rest):
        """The text of a constraint, and the old id beside it: `ID C ;`, `ID : C ;`, `C ; ID`, `C : ID ;`, or without an id."""
        head, _, tail = rest.partition(b";")
        words, tail = head.split(), tail.replace(b";", b" ").split()
        is_first = words and (words[0][:1] == b"@" or re.fullmatch(b"-?[0-9]+", words[0]))
        if is_first and len(words) > 1 and not LITERAL.fullmatch(words[1]):
            tail, words = [words[0]], words[1:]
        if b":" in words:
            at = words.index(b":")
            tail, words = tail or words[at + 1:], words[:at] or words[at + 1:]
        text = b" ".join(words)
        return text, value_of_text(text), self.ids.id_of(tail[0]) if tail else None

    def equals(self, rest):
        text, value, number = self.test(rest)
        if number is None:
            number = self.ids.find(value)
            if number is None:
                raise Rejected(f"no live constraint is `{shown(text)}`")
        found = self.ids.value(number)
        if found is None:
            self.note(f"line {self.line}: `e` is dropped untested: the value of constraint {number} is not known here")
        elif found != value:
            raise Rejected(f"constraint {number} is `{written(*found).decode()}`, not `{shown(text)}`")
        return number, value

    def equals_add(self, rest):
        number, value = self.equals(rest)
        if not self.options.ea_adds_nothing:
            self.out.write(b"pol %s\n" % self.ids.new[number])
            self.ids.add(value)

    def way(self, rest):
        """The words that make the constraint of `i` or `ia`, or None, with its text and its value."""
        text, value, number = self.test(rest)
        given = None if number is None else self.ids.value(number)
        words = None if given is None else implication(given, value)
        return text, value, None if words is None else [self.ids.new[number], *words]

    def implies(self, rest):
        text, value, words = self.way(rest)
        if words is None and value[1]:
            self.note(f"line {self.line}: `i` is dropped untested: no way to `{shown(text)}` was found")

    def implies_add(self, rest):
        text, value, words = self.way(rest)
        if words is None:
            # A degree of 0 needs no way.
            if value[1]:
                self.note(f"line {self.line}: no way to `{shown(text)}` was found: it is written as `rup`")
            self.out.write(b"rup %s ;\n" % written(*value))
        else:
            self.out.write(b"pol %s\n" % b" ".join(words))
        self.ids.add(value)

    def red(self, rest):
        """With a witness, the constraint has to follow by unit propagation, as pb has no rule for another one."""
        body, _, rest = rest.partition(b";")
        witness, _, begin = rest.partition(b";")
        body, has_subproof = body.strip(), b"begin" in rest.split()
        value = value_of_text(body)
        if [word for word in witness.split() if word != b"begin"]:
            if not self.options.red_as_rup and not self.ids.implies(value):
                raise Rejected(f"`red` with a witness is outside the profile: `{shown(body)}` does not follow by unit propagation")
        if not has_subproof:
            self.rup(body)
            return
        self.note(f"line {self.line}: the subproof is not written as such: `rup` has to do")
        terms, degree = value
        self.begin_subproof(terms if degree == 1 and terms else None, lambda: self.rup(body))

    # Solutions.

    def log(self, words):
        """Notes a solution, and its value if it gives every name of the objective one."""
        self.logged, given, value = True, dict(UNITS[word] for word in words), 0
        for coefficient, literal in self.instance.objective or []:
            name, sign = UNITS[literal]
            if name not in given:
                return None
            value += coefficient * (given[name] == sign)
        self.best = value if self.best is None else min(self.best, value)
        return value

    def solution_out(self, rest):
        words = literals_of(rest)
        self.log(words)
        self.out.write(b"solx %s\n" % b" ".join(words) if words else b"solx\n")
        self.ids.add(({name: -sign for name, sign in (UNITS[word] for word in words)}, 1))

    def improvement(self, rest):
        words = literals_of(rest)
        value = self.log(words)
        self.out.write(b"soli %s\n" % b" ".join(words) if words else b"soli\n")
        objective = [(-coefficient, literal) for coefficient, literal in self.instance.objective or []]
        self.ids.add(None if value is None else normal(objective, 1 - value))

    def solution(self, rest):
        words = literals_of(rest)
        self.log(words)
        self.ids.written += 1
        self.out.write(b"solx%s\ndel id %d\n" % (b"".join(b" " + word for word in words), self.ids.written))
        self.ids.same = False

    # Deletions, and what has no effect.

    def delete_all(self, numbers):
        if numbers:
            self.out.write(b"del id %s\n" % b" ".join(self.ids.remove(numbers)))

    def delete(self, rest):
        kind, _, rest = rest.strip().partition(b" ")
        if kind == b"id":
            self.delete_ids(rest)
        elif kind in (b"spec", b"find"):
            text = rest.partition(b";")[0]
            number = self.ids.find(value_of_text(text))
            if number is None:
                raise Rejected(f"no live constraint is `{shown(text)}`")
            self.delete_all([number])
            self.skip_subproof(rest)
        elif kind == b"range":
            self.delete_range(rest.replace(b";", b" ").split())
        else:
            raise Rejected(f"`del {shown(kind)}` is no rule that is known here")

    def delete_ids(self, rest):
        self.delete_all([self.ids.id_of(word) for word in ended_words(rest.partition(b";")[0])])
        self.skip_subproof(rest)

    def delete_range(self, words):
        """From the first id, and up to the second without that one."""
        if len(words) != 2 or not all(re.fullmatch(b"-?[0-9]+", word) for word in words):
            raise Rejected("`del range` takes two ids")
        ids = self.ids
        begin, end = (number if number > 0 else ids.newest + 1 + number for number in map(int, words))
        numbers = range(begin, end) if end - begin < len(ids.new) else sorted(ids.new)
        self.delete_all([number for number in numbers if begin <= number < end and number in ids.new])

    def skip_subproof(self, rest):
        """A deletion may have a subproof, which pb does not need."""
        if b"begin" in rest.partition(b";")[2].replace(b";", b" ").split():
            self.begin_subproof(None, lambda: None)

    def set_level(self, rest):
        self.ids.level = count_of(rest)

    def wipe(self, rest):
        level = count_of(rest)
        if not level:
            raise Rejected("level 0 is not wiped")
        levels = self.ids.levels
        numbers = [number for at in sorted(levels) if at >= level for number in levels.pop(at)]
        self.delete_all([number for number in numbers if number in self.ids.new])

    def dropped(self, rest):
        pass

    # The end.

    def contradictory(self, rest):
        words = ended_words(rest)
        if words:
            self.contradiction = self.ids.new[self.ids.id_of(words[0])]

    def output(self, rest):
        words = ended_words(rest)
        if words != [b"NONE"]:
            self.note(f"line {self.line}: the claim `output {shown(b' '.join(words))}` is dropped")
            self.skips = True
        self.out.write(b"output NONE\n")

    def conclusion(self, rest):
        self.skips, self.concluded = False, True
        words = rest.replace(b":", b" : ").replace(b";", b" ").split()
        kind = (words or [b""])[0]
        if kind not in (b"NONE", b"UNSAT", b"SAT", b"BOUNDS"):
            raise Rejected(f"`conclusion {shown(kind)}` is outside the profile")
        if kind == b"BOUNDS" and words[1:2] == [b"-INF"]:
            words[1] = b"%d" % self.instance.lowest()
            self.note(f"line {self.line}: the lower bound -INF is {shown(words[1])}, the sum of the negative coefficients")
        at = 2 if kind == b"BOUNDS" else 1
        if kind in (b"UNSAT", b"BOUNDS") and words[at:at + 1] == [b":"] and len(words) > at + 1:
            words[at + 1] = self.ids.new[self.ids.id_of(words[at + 1])]
        words = [b"INF" if word == b"+INF" else word for word in words]
        self.out.write(b"conclusion %s\n" % b" ".join(words))

    def end(self, rest):
        self.closed = True


def ended_words(rest):
    """The words of a line without the `;` or the `0` that may end it."""
    words = rest.replace(b";", b" ").split()
    return words[:-1] if words[-1:] == [b"0"] else words


def literals_of(rest):
    return ended_words(rest.partition(b":")[0])


def count_of(rest):
    words = rest.replace(b";", b" ").split()
    if len(words) != 1 or not words[0].isdigit():
        raise Rejected("a level is a number")
    return int(words[0])
