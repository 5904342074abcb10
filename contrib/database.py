"""The constraints of a proof that pbp2profile rewrites: their ids in both proofs, and what they are."""
import re

from constraints import computed, is_id, linear, normal, value_of_text
from propagation import Propagator
from streams import Rejected, shown

# How many postfix expressions may wait to be computed, and how many deleted constraints may stay for them: some 200 bytes and the text for each.
WAITING = 500000


class Instance:
    """What is needed of an instance: how many constraints are loaded, their values if asked for, their labels, and the objective."""

    def __init__(self, source, stores):
        self.loaded, self.values, self.objective, self.labels, open_part = 0, [] if stores else None, None, {}, b""
        for line in source.lines():
            if line.lstrip()[:1] == b"*" and not open_part.strip():
                continue
            *statements, open_part = (open_part + line).split(b";")
            for text in statements:
                self.enter(text.strip())

    def enter(self, text):
        if text.startswith(b"min:"):
            self.objective = linear(text[4:] + b">= 0")[0]
            return
        is_equality = b">=" not in text and b"<=" not in text
        if text[:1] == b"@":
            label, _, text = text.partition(b" ")
            if not is_equality:
                self.labels[label] = self.loaded + 1
        self.loaded += 1 + is_equality
        if self.values is None:
            return
        if is_equality:
            pairs, _, degree = linear(text)
            self.values += [normal(pairs, degree), normal([(-it, literal) for it, literal in pairs], -degree)]
        else:
            self.values.append(text)

    def lowest(self):
        """A lower bound of the objective that needs no proof: the sum of its negative coefficients."""
        return sum(min(0, coefficient) for coefficient, _ in self.objective or [])


class Postfix:
    """A postfix expression that is not computed yet. Its ids are those of the old proof, and none of them counts back."""

    __slots__ = ("text", "parts")

    def __init__(self, text):
        self.text, self.parts = text, None


class Values:
    """What constraints are, by their old id: a normal form, its text, a `Postfix`, or None if it is not known. A text or a postfix expression
    is computed when it is needed. While some wait, what is deleted stays here, as they may be made of it."""

    def __init__(self):
        self.live, self.deleted, self.waiting = {}, {}, 0

    def enter(self, number, value):
        self.live[number] = value
        if value.__class__ is Postfix:
            self.waiting += 1
            if self.waiting > WAITING:
                self.settle()

    def delete(self, number):
        value = self.live.pop(number)
        if self.waiting:
            self.deleted[number] = value
            if len(self.deleted) > WAITING:
                self.settle()

    def settle(self):
        """Computes the postfix expressions that are live, so that nothing that is deleted has to stay."""
        for number, value in self.live.items():
            if value.__class__ is Postfix:
                self.normal(number)
        self.waiting = 0
        self.deleted.clear()

    def normal(self, number):
        """The normal form of a constraint, or None. It is computed here at the first time, with all that it is made of."""
        todo = [number]
        while todo:
            at = todo[-1]
            where = self.live if at in self.live else self.deleted
            value = where.get(at)
            if isinstance(value, bytes):
                where[at] = value_of_text(value)
            elif isinstance(value, Postfix):
                words = value.text.split()
                if value.parts is None:
                    value.parts = self.parts(words, at)
                    todo += value.parts
                    continue
                where[at] = computed(words, self.known)
            todo.pop()
        return self.live[number]

    def parts(self, words, number):
        """The constraints that a postfix expression for this one is made of."""
        try:
            parts = [int(word) for word, after in zip(words, [*words[1:], b""]) if is_id(word, after)]
        except ValueError:
            raise Rejected(f"no postfix expression: `{shown(b' '.join(words))}`") from None
        for part in parts:
            if part >= number or part not in self.live and part not in self.deleted:
                raise Rejected(f"no constraint {part} is live in `{shown(b' '.join(words))}`")
        return parts

    def known(self, number):
        return self.live[number] if number in self.live else self.deleted[number]


def key_of(value):
    return hash((value[1], frozenset(value[0].items())))


class Database:
    """The live constraints: `new` has their ids in the new proof by those in the old one, `values` what they are, if that is asked for.
    `same` says that no id differs so far."""

    def __init__(self, with_values):
        self.newest, self.written, self.new, self.same = 0, 0, {}, True
        self.values = Values() if with_values else None
        self.index, self.propagator = None, None
        self.level, self.levels, self.labels, self.label = 0, {}, {}, None

    def add(self, value):
        """Counts a constraint of the old proof that the new one has too."""
        self.newest += 1
        self.written += 1
        number = self.newest
        self.new[number] = b"%d" % self.written
        if self.values is not None:
            self.values.enter(number, value)
            if self.index is not None:
                self.index.setdefault(self.key(number), set()).add(number)
            if self.propagator is not None:
                self.propagate(number)
        if self.level:
            self.levels.setdefault(self.level, []).append(number)
        if self.label is not None:
            self.labels[self.label], self.label = number, None

    def take(self):
        """Counts a constraint of the old proof that the new one has not."""
        self.newest += 1
        self.same = False
        return self.newest

    def id_of(self, word):
        """The id of the old proof that a word means; it is live."""
        if word[:1] == b"@" and word in self.labels:
            number = self.labels[word]
        elif not re.fullmatch(b"-?[0-9]{1,18}", word):
            raise Rejected(f"`{shown(word)}` is no id")
        else:
            number = int(word)
            number = number if number > 0 else self.newest + 1 + number
        if number not in self.new:
            raise Rejected(f"no constraint {shown(word)} is live")
        return number

    def value(self, number):
        """The normal form of a live constraint, or None if it is not known."""
        return self.values.normal(number)

    def remove(self, numbers):
        """Deletes live constraints; returns their new ids."""
        removed = []
        for number in numbers:
            if number not in self.new:
                raise Rejected(f"constraint {number} is deleted twice")
            if self.index is not None:
                self.index[self.key(number)].discard(number)
            if self.propagator is not None and self.value(number) is not None:
                self.propagator.remove(number)
            removed.append(self.new.pop(number))
            if self.values is not None:
                self.values.delete(number)
        return removed

    def key(self, number):
        value = self.value(number)
        return None if value is None else key_of(value)

    def find(self, value):
        """The newest live constraint of this normal form."""
        if self.index is None:
            self.index = {}
            for number in self.new:
                self.index.setdefault(self.key(number), set()).add(number)
        return max((it for it in self.index.get(key_of(value), ()) if self.value(it) == value), default=None)

    def implies(self, value):
        """Whether a constraint follows from the live ones by unit propagation."""
        if self.propagator is None:
            self.propagator = Propagator()
            for number in self.new:
                self.propagate(number)
        return self.propagator.implies(*value)

    def propagate(self, number):
        value = self.value(number)
        if value is not None:
            self.propagator.add(number, *value)
