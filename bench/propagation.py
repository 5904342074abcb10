#!/usr/bin/env python3
"""Writes an instance and a proof whose steps are tests by unit propagation, or deletions:

    bench/propagation.py KIND COUNT FOLDER

writes FOLDER/KIND.opb and FOLDER/KIND.pbp. The kinds:

    chain   COUNT clauses ~x(i) or x(i+1), and one step that follows through all of them
    units   such a chain with its first variable, and COUNT steps, each a unit that follows from the one before
    common  COUNT clauses with one common literal, which are deleted one by one in any order
    long    2,000 clauses of 20 literals, and COUNT steps, each of them one of the clauses with a literal more
    dead    the same, but each step is deleted after it, so that 2,000 clauses stay
    live    one clause of 20 literals, and COUNT steps that each add it once more
    wide    100 constraints of 200 terms with coefficients from 1 to 50, and COUNT steps, each the clause of the literals without
            which one of the constraints cannot hold; each step is deleted after it

The same kind and count give the same bytes: what is random comes from a fixed seed. Every step is accepted.
"""
import os
import random
import sys

LONG_CLAUSES = 2_000
LONG_VARIABLES = 1_000
LONG_LITERALS = 20
WIDE_SUMS, WIDE_TERMS, WIDE_VARIABLES = 100, 200, 1_000


def clause(*literals):
    return " ".join(f"+1 {literal}" for literal in literals) + " >= 1 ;\n"


def links(count):
    return [clause(f"~x{i}", f"x{i + 1}") for i in range(1, count + 1)]


def chain(count, rng):
    return count + 1, links(count), ["rup " + clause("~x1", f"x{count + 1}")]


def units(count, rng):
    steps = ["rup " + clause(f"x{i}") for i in range(2, count + 2)]
    return count + 1, [clause("x1")] + links(count), steps


def common(count, rng):
    order = list(range(1, count + 1))
    rng.shuffle(order)
    clauses = [clause("x1", f"x{i + 1}") for i in range(1, count + 1)]
    return count + 1, clauses, [f"del id {number}\n" for number in order]


def long(count, rng):
    clauses = [literals(rng) for _ in range(LONG_CLAUSES)]
    fresh = f"x{LONG_VARIABLES + 1}"
    steps = ["rup " + clause(*rng.choice(clauses), fresh) for _ in range(count)]
    return LONG_VARIABLES + 1, [clause(*one) for one in clauses], steps


def dead(count, rng):
    variables, clauses, steps = long(count, rng)
    first = len(clauses) + 1
    return variables, clauses, [f"{step}del id {first + i}\n" for i, step in enumerate(steps)]


def live(count, rng):
    literals = [f"x{i}" for i in range(1, LONG_LITERALS + 1)]
    return LONG_LITERALS, [clause(*literals)], ["pol 1\n"] * count


def wide(count, rng):
    names = [f"x{i}" for i in range(1, WIDE_VARIABLES + 1)]
    sums = [[(rng.randint(1, 50), name) for name in rng.sample(names, WIDE_TERMS)] for _ in range(WIDE_SUMS)]
    lines = [" ".join(f"+{factor} {name}" for factor, name in one) + f" >= {degree_of(one)} ;\n" for one in sums]
    steps = [f"rup {clause(*without(rng.choice(sums), rng))}del id {WIDE_SUMS + 1 + i}\n" for i in range(count)]
    return WIDE_VARIABLES, lines, steps


def degree_of(terms):
    """Three quarters of the sum of the coefficients."""
    return sum(factor for factor, _ in terms) * 3 // 4


def without(terms, rng):
    """Some names, without which the other terms are below the degree."""
    names, left = [], sum(factor for factor, _ in terms)
    for factor, name in rng.sample(terms, len(terms)):
        if left < degree_of(terms):
            break
        names.append(name)
        left -= factor
    return names


def literals(rng):
    variables = rng.sample(range(1, LONG_VARIABLES + 1), LONG_LITERALS)
    return [("~" if rng.random() < 0.5 else "") + f"x{variable}" for variable in variables]


def write(folder, name, head, lines):
    with open(os.path.join(folder, name), "w", encoding="ascii") as file:
        file.write(head)
        file.writelines(lines)


def main():
    kind, count, folder = sys.argv[1], int(sys.argv[2]), sys.argv[3]
    kinds = {"chain": chain, "units": units, "common": common, "long": long, "dead": dead, "live": live, "wide": wide}
    variables, constraints, steps = kinds[kind](count, random.Random(2012))
    write(folder, f"{kind}.opb", f"* #variable= {variables} #constraint= {len(constraints)}\n", constraints)
    end = ["output NONE\n", "conclusion NONE\n", "end pseudo-Boolean proof\n"]
    write(folder, f"{kind}.pbp", f"pseudo-Boolean proof version 2.0\nf {len(constraints)}\n", steps + end)


if __name__ == "__main__":
    main()
