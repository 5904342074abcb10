#!/usr/bin/env python3
"""Writes an instance of clauses and the proof of a solver that learns clauses:

    bench/learn.py KIND COUNT FOLDER

writes FOLDER/KIND.opb and FOLDER/KIND.pbp. Each conflict gives a `rup` of the clause up to the first unique implication point. The solver
restarts now and then. Every few thousand conflicts it deletes the longer half of the clauses that it learned. The proof ends with the empty clause and
`conclusion UNSAT : ID`, or after COUNT conflicts with `conclusion NONE`. The kinds:

    random   3-SAT, with 900 clauses over 200 variables
    pigeons  9 pigeons in 8 holes
    parity   40 sums modulo 2, of three of 30 variables each

The same kind and count give the same bytes: what is random comes from a fixed seed."""
import heapq
import itertools
import random
import sys

from propagation import clause, write

FIRST_RESTART, GROWTH, DECAY = 100, 1.1, 1.05
FIRST_REDUCTION, LATER = 2_000, 300


class Solver:
    """Literals are numbers, and negative if they are negated. The first two literals of a clause are watched."""

    def __init__(self, variables, clauses):
        self.watches = {literal: [] for v in range(1, variables + 1) for literal in (v, -v)}
        self.values, self.levels, self.reasons = {}, {}, {}
        self.trail, self.starts, self.walked = [], [], 0
        self.scores, self.step = [0.0] * (variables + 1), 1.0
        self.heap = [(0.0, v) for v in range(1, variables + 1)]
        self.phases = {}
        self.newest, self.learned, self.steps = len(clauses), {}, []
        self.units = [one[0] for one in clauses if len(one) == 1]
        for one in clauses:
            if len(one) > 1:
                self.watch(list(one))

    def watch(self, one):
        self.watches[one[0]].append(one)
        self.watches[one[1]].append(one)

    def assign(self, literal, reason):
        self.values[literal], self.values[-literal] = True, False
        self.levels[abs(literal)], self.reasons[abs(literal)] = len(self.starts), reason
        self.trail.append(literal)

    def propagate(self):
        """The clause that is falsified, if there is one."""
        while self.walked < len(self.trail):
            literal = -self.trail[self.walked]
            self.walked += 1
            left, self.watches[literal] = self.watches[literal], []
            for i, one in enumerate(left):
                if one[0] == literal:
                    one[0], one[1] = one[1], one[0]
                if self.values.get(one[0]):
                    self.watches[literal].append(one)
                    continue
                for k in range(2, len(one)):
                    if self.values.get(one[k]) is not False:
                        one[1], one[k] = one[k], one[1]
                        self.watches[one[1]].append(one)
                        break
                else:
                    self.watches[literal].append(one)
                    if self.values.get(one[0]) is False:
                        self.watches[literal] += left[i + 1 :]
                        return one
                    self.assign(one[0], one)
        return None

    def analyse(self, conflict):
        """The clause to learn, its one literal of this level first."""
        seen, low, open_, at, literal = set(), [], 0, len(self.trail), None
        while True:
            for other in conflict:
                v = abs(other)
                if other == literal or v in seen or self.levels[v] == 0:
                    continue
                seen.add(v)
                self.bump(v)
                if self.levels[v] == len(self.starts):
                    open_ += 1
                else:
                    low.append(other)
            while True:
                at -= 1
                if abs(self.trail[at]) in seen:
                    break
            literal = self.trail[at]
            open_ -= 1
            if open_ == 0:
                return [-literal] + low
            conflict = self.reasons[abs(literal)]

    def bump(self, v):
        self.scores[v] += self.step
        heapq.heappush(self.heap, (-self.scores[v], v))

    def back(self, level):
        while len(self.starts) > level:
            start = self.starts.pop()
            for literal in self.trail[start:]:
                self.phases[abs(literal)] = literal > 0
                del self.values[literal], self.values[-literal]
                heapq.heappush(self.heap, (-self.scores[abs(literal)], abs(literal)))
            del self.trail[start:]
        self.walked = min(self.walked, len(self.trail))

    def learn(self, one):
        self.newest += 1
        self.steps.append("rup " + clause(*map(text, one)))
        one[1:] = sorted(one[1:], key=lambda other: -self.levels[abs(other)])
        self.back(self.levels[abs(one[1])] if len(one) > 1 else 0)
        if len(one) > 1:
            self.watch(one)
            self.learned[self.newest] = one
        self.assign(one[0], one if len(one) > 1 else None)
        self.step *= DECAY
        if self.step > 1e100:
            self.scores, self.step = [score * 1e-100 for score in self.scores], self.step * 1e-100
            self.heap = [(-score, v) for v, score in enumerate(self.scores) if v]
            heapq.heapify(self.heap)

    def reduce(self):
        """Deletes the longer half of the clauses that were learned. None is the reason of a literal."""
        order = sorted(self.learned, key=lambda number: (-len(self.learned[number]), number))
        for number in order[: len(order) // 2]:
            one = self.learned[number]
            if len(one) > 2 and not any(self.reasons.get(abs(other)) is one for other in one[:1] if self.values.get(other)):
                for other in one[:2]:
                    self.watches[other] = [kept for kept in self.watches[other] if kept is not one]
                del self.learned[number]
                self.steps.append(f"del id {number}\n")

    def decide(self):
        """Whether a variable was left to assign."""
        while self.heap:
            _, v = heapq.heappop(self.heap)
            if v not in self.values:
                self.starts.append(len(self.trail))
                self.assign(v if self.phases.get(v) else -v, None)
                return True
        return False

    def run(self, count):
        """Whether the empty clause was derived."""
        for literal in self.units:
            self.assign(literal, None)
        limit, conflicts = FIRST_RESTART, 0
        room, since = FIRST_REDUCTION, 0
        for _ in range(count):
            while (falsified := self.propagate()) is None:
                if conflicts >= limit:
                    self.back(0)
                    limit, conflicts = limit * GROWTH, 0
                    if since >= room:
                        self.reduce()
                        room, since = room + LATER, 0
                elif not self.decide():
                    sys.exit("the instance has a solution")
            if not self.starts:
                self.steps.append("rup >= 1 ;\n")
                self.newest += 1
                return True
            conflicts, since = conflicts + 1, since + 1
            self.learn(self.analyse(falsified))
        return False


def text(literal):
    return f"x{literal}" if literal > 0 else f"~x{-literal}"


def random_clauses(rng):
    clauses = [[v * rng.choice((1, -1)) for v in rng.sample(range(1, 201), 3)] for _ in range(900)]
    return 200, clauses


def pigeon_clauses(rng):
    pigeons, holes = 9, 8
    at = {(p, h): p * holes + h + 1 for p in range(pigeons) for h in range(holes)}
    clauses = [[at[p, h] for h in range(holes)] for p in range(pigeons)]
    for h in range(holes):
        clauses += [[-at[p, h], -at[q, h]] for p, q in itertools.combinations(range(pigeons), 2)]
    return pigeons * holes, clauses


def parity_clauses(rng):
    clauses = []
    for _ in range(40):
        three, odd = rng.sample(range(1, 31), 3), rng.choice((0, 1))
        for signs in itertools.product((1, -1), repeat=3):
            if (signs.count(-1) + odd) % 2 == 0:
                clauses.append([sign * v for sign, v in zip(signs, three)])
    return 30, clauses


KINDS = {"random": random_clauses, "pigeons": pigeon_clauses, "parity": parity_clauses}


def main():
    if len(sys.argv) != 4 or sys.argv[1] not in KINDS:
        sys.exit(print(__doc__))
    kind, count, folder = sys.argv[1], int(sys.argv[2]), sys.argv[3]
    variables, clauses = KINDS[kind](random.Random(kind))
    solver = Solver(variables, clauses)
    refuted = solver.run(count)
    verdict = f"conclusion UNSAT : {solver.newest}\n" if refuted else "conclusion NONE\n"
    lines = [clause(*map(text, one)) for one in clauses]
    write(folder, f"{kind}.opb", f"* #variable= {variables} #constraint= {len(lines)}\n", lines)
    end = ["output NONE\n", verdict, "end pseudo-Boolean proof\n"]
    write(folder, f"{kind}.pbp", f"pseudo-Boolean proof version 2.0\nf {len(lines)}\n", solver.steps + end)


if __name__ == "__main__":
    main()
