#!/usr/bin/env python3
"""Writes an instance or a proof of about so many megabytes:

    bench/generate.py KIND MEGABYTES > FILE

The kinds:

    usual      an instance of covering and knapsack constraints of 3 to 30 terms over names x1, x2, ...
    short      an instance of constraints of two terms
    commented  an instance half of which is comments
    rups       a proof of short rup lines
    pols       a proof of pol lines

A proof is to be read alone: its steps do not follow from any instance. The same kind and size give the same bytes: the numbers
come from a fixed seed.
"""
import random
import sys

VARIABLES = 100_000


def covering(rng):
    """At least one of some literals is true."""
    terms = " ".join(f"+1 {literal(rng)}" for _ in range(rng.randint(3, 30)))
    return f"{terms} >= 1 ;\n"


def knapsack(rng):
    """The weights of what is chosen stay within a capacity: negative coefficients, and a negative degree."""
    weights = [rng.randint(1, 100_000) for _ in range(rng.randint(3, 30))]
    terms = " ".join(f"-{weight} {literal(rng)}" for weight in weights)
    return f"{terms} >= -{sum(weights) // 2} ;\n"


def literal(rng):
    sign = "~" if rng.random() < 0.2 else ""
    return f"{sign}x{rng.randint(1, VARIABLES)}"


def usual(rng):
    return covering(rng) if rng.random() < 0.5 else knapsack(rng)


def short(rng):
    return f"+{rng.randint(1, 99)} {literal(rng)} +{rng.randint(1, 99)} {literal(rng)} >= {rng.randint(1, 99)} ;\n"


def commented(rng):
    """A constraint, and a comment of about its length before it."""
    line = usual(rng)
    words = " ".join("word" * rng.randint(1, 3) for _ in range(len(line) // 10))
    return f"* {words}\n{line}"


def rups(rng):
    return f"rup +1 {literal(rng)} +1 {literal(rng)} >= 1 ;\n"


def pols(rng):
    return f"pol {rng.randint(1, 9999)} {rng.randint(1, 9999)} + {rng.randint(2, 9)} d s\n"


KINDS = {"usual": usual, "short": short, "commented": commented, "rups": rups, "pols": pols}
PROOFS = ["rups", "pols"]


def lines_of(kind, size):
    """Lines of a kind, of so many bytes or a few more."""
    rng = random.Random(2012)
    lines, written = [], 0
    while written < size:
        line = KINDS[kind](rng)
        lines.append(line)
        written += len(line)
    return lines


def main():
    kind, size = sys.argv[1], int(sys.argv[2]) * 1_000_000
    lines = lines_of(kind, size)
    if kind in PROOFS:
        sys.stdout.write("pseudo-Boolean proof version 2.0\nf 9999\n")
        sys.stdout.writelines(lines)
        sys.stdout.write("output NONE\nconclusion NONE\nend pseudo-Boolean proof\n")
    else:
        sys.stdout.write(f"* #variable= {VARIABLES} #constraint= {len(lines)}\n")
        sys.stdout.writelines(lines)


if __name__ == "__main__":
    main()
