#!/usr/bin/env python3
"""Writes an instance of clauses and a proof like those of a solver:

    bench/search.py KIND COUNT FOLDER

writes FOLDER/KIND.opb and FOLDER/KIND.pbp. A search assigns literals one after another and propagates. For each branch that fails, the
proof has a `rup` of the clause that forbids its decisions. Once both branches of a decision have failed, the proof has the clause of
both, and deletes those of the two. It ends after COUNT such steps, with `conclusion NONE`. The kinds:

    random   3-SAT, with 1,000 clauses over 200 variables
    pigeons  12 pigeons in 11 holes
    parity   84 sums modulo 2, of three of 80 variables each

The same kind and count give the same bytes: what is random comes from a fixed seed."""
import itertools
import os
import random
import sys

from propagation import clause, write


class Enough(Exception):
    """The proof has all its steps."""


class Search:
    """Literals are numbers, and negative if they are negated."""

    def __init__(self, variables, clauses, count):
        self.order = range(1, variables + 1)
        self.lists = {literal: [] for variable in self.order for literal in (variable, -variable)}
        for one in clauses:
            for literal in one:
                self.lists[literal].append(one)
        self.newest, self.count = len(clauses), count
        self.trail, self.true, self.steps = [], set(), []

    def propagates(self, literal):
        """Assigns a literal and what follows; whether no clause is falsified."""
        waiting = [literal]
        while waiting:
            literal = waiting.pop()
            if literal in self.true:
                continue
            if -literal in self.true:
                return False
            self.true.add(literal)
            self.trail.append(literal)
            for one in self.lists[-literal]:
                open_ones = [other for other in one if -other not in self.true]
                if not open_ones:
                    return False
                if len(open_ones) == 1:
                    waiting.append(open_ones[0])
        return True

    def step(self, decisions, deleted):
        """Adds the clause that forbids the decisions, and deletes others; its id."""
        if len(self.steps) >= self.count:
            raise Enough
        names = [f"~x{literal}" if literal > 0 else f"x{-literal}" for literal in decisions]
        gone = f"del id {' '.join(map(str, deleted))}\n" if deleted else ""
        self.steps.append("rup " + (clause(*names) if names else ">= 1 ;\n") + gone)
        self.newest += 1
        return self.newest

    def refute(self, decisions):
        """Adds the clause that forbids the decisions, once everything beneath them has failed; its id."""
        chosen = next((variable for variable in self.order if variable not in self.true and -variable not in self.true), None)
        if chosen is None:
            raise Enough
        return self.step(decisions, [self.branch(decisions + [literal]) for literal in (chosen, -chosen)])

    def branch(self, decisions):
        """The id of the clause that forbids the decisions, the last of which is new."""
        length = len(self.trail)
        failed = not self.propagates(decisions[-1])
        number = self.step(decisions, []) if failed else self.refute(decisions)
        self.true.difference_update(self.trail[length:])
        del self.trail[length:]
        return number


def random_ones(rng):
    variables = 200
    clauses = [rng.sample(range(1, variables + 1), 3) for _ in range(1000)]
    return variables, [[rng.choice((one, -one)) for one in some] for some in clauses]


def pigeons(rng):
    holes = 11
    at = [[pigeon * holes + hole + 1 for hole in range(holes)] for pigeon in range(holes + 1)]
    pairs = [[-one, -other] for column in zip(*at) for one, other in itertools.combinations(column, 2)]
    return holes * (holes + 1), at + pairs


def parity(rng):
    clauses = []
    for _ in range(84):
        one, two, three = rng.sample(range(1, 81), 3)
        odd = rng.choice((1, -1))
        clauses += [[odd * one * a, two * b, three * a * b] for a in (1, -1) for b in (1, -1)]
    return 80, clauses


def main():
    kind, count, folder = sys.argv[1], int(sys.argv[2]), sys.argv[3]
    kinds = {"random": random_ones, "pigeons": pigeons, "parity": parity}
    variables, clauses = kinds[kind](random.Random(2012))
    search = Search(variables, clauses, count)
    try:
        search.refute([])
    except Enough:
        pass
    lines = [clause(*(f"~x{-one}" if one < 0 else f"x{one}" for one in some)) for some in clauses]
    write(folder, f"{kind}.opb", f"* #variable= {variables} #constraint= {len(clauses)}\n", lines)
    end = ["output NONE\n", "conclusion NONE\n", "end pseudo-Boolean proof\n"]
    write(folder, f"{kind}.pbp", f"pseudo-Boolean proof version 2.0\nf {len(clauses)}\n", search.steps + end)


if __name__ == "__main__":
    main()
