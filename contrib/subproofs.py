"""Subproofs of a proof that pbp2profile rewrites. The profile has none, so what their steps show is written before the constraint."""
from constraints import add, ids_of, value_of_text, written
from streams import Rejected

# Rules that add a constraint, within a subproof.
ADDS = {b"rup", b"u", b"pol", b"p", b"ia", b"j", b"ea", b"red", b"dom", b"proofgoal", b"a"}


class Subproof:
    """A subproof that is being read. `then` is called at its end; `clause` is the constraint if that is a clause whose negation the steps
    use, `negation` the id of that negation, `label` the label of the constraint, `depth` how many blocks are open, and `made` what was written
    for its steps."""

    def __init__(self, clause, negation, label, then):
        self.depth, self.clause, self.negation, self.label, self.then, self.made = 1, clause, negation, label, then, []


class Subproofs:
    """The part of a rewriter that reads subproofs. It has `ids`, `options`, `rup`, `pol` and `delete_all`."""

    subproof = None

    def begin_subproof(self, clause, then):
        """The negation of the constraint has an id of its own."""
        label, self.ids.label = self.ids.label, None
        self.subproof = Subproof(clause, self.ids.take(), label, then)

    def within(self, word, rest):
        """A line of a subproof. Under the negation of a clause, a step of the old proof is written with each literal of the clause added,
        and so often that it holds if one of them is true: then it needs no negation. What is made is deleted after the subproof."""
        subproof, inner = self.subproof, rest.replace(b";", b" ").split()
        if word == b"proofgoal":
            subproof.clause = None
            subproof.depth += 1
        elif word in (b"end", b"qed"):
            subproof.depth -= 1
        if not subproof.depth:
            self.leave()
        elif word in (b"rup", b"u") and subproof.clause:
            self.guarded_rup(rest.partition(b";")[0])
        elif word in (b"pol", b"p") and subproof.clause:
            self.guarded_pol(inner[:-1] if inner[-1:] == [b"0"] else inner)
        elif word in ADDS:
            self.ids.take()
            self.ids.label = None
            if word in (b"red", b"dom") and b"begin" in inner:
                subproof.depth += 1
                subproof.clause = None
                self.ids.take()

    def guarded_rup(self, body):
        terms, degree = value_of_text(body)
        terms = dict(terms)
        for name, sign in self.subproof.clause.items():
            degree = add(terms, degree, {name: sign * degree}, 0) if degree else 0
        self.rup(written(terms, degree))
        self.subproof.made.append(self.ids.newest)

    def guarded_pol(self, words):
        """The negation, with the literals of the clause added until it holds always, is a sum of axioms."""
        axioms = []
        for name, sign in self.subproof.clause.items():
            axioms += [name if sign > 0 else b"~" + name] + [b"+"] * bool(axioms)
        whole, ids = [], ids_of(words)
        for at, word in enumerate(words):
            if at not in ids:
                whole.append(word)
            elif self.is_negation(word):
                whole += axioms
            else:
                whole.append(b"%d" % self.ids.id_of(word))
        self.pol(b" ".join(whole))
        self.subproof.made.append(self.ids.newest)

    def is_negation(self, word):
        if word[:1] == b"@":
            return False
        try:
            number = int(word)
        except ValueError:
            raise Rejected("a wrong id in `pol`") from None
        return (number if number > 0 else self.ids.newest + 1 + number) == self.subproof.negation

    def leave(self):
        subproof, self.subproof = self.subproof, None
        if self.options.scoped_ids:
            self.ids.newest = subproof.negation - 1
        self.ids.label = subproof.label
        subproof.then()
        self.ids.label = None
        self.delete_all(subproof.made)
