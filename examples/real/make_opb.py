#!/usr/bin/env python3
"""Generates the OPB file of this folder: make_opb VARIABLES CONSTRAINTS SEED, a covering problem with weights."""
import random
import sys


def main():
    variables, constraints, seed = map(int, sys.argv[1:])
    draw = random.Random(seed)
    print(f"* #variable= {variables} #constraint= {constraints}")
    print("min:", *(f"+{draw.randint(1, 9)} x{it}" for it in range(1, variables + 1)), ";")
    for _ in range(constraints):
        chosen = sorted(draw.sample(range(1, variables + 1), 4))
        print(*(f"+{draw.randint(1, 3)} x{it}" for it in chosen), ">= 3 ;")


main()
