#!/usr/bin/env python3
"""Generates the CNF files of this folder: make_cnf pigeons N | random VARIABLES CLAUSES SEED | parity VERTICES SEED."""
import random
import sys


def pigeons(holes):
    """N + 1 pigeons do not fit into N holes."""
    at = lambda pigeon, hole: pigeon * holes + hole + 1
    clauses = [[at(pigeon, hole) for hole in range(holes)] for pigeon in range(holes + 1)]
    for hole in range(holes):
        for second in range(holes + 1):
            clauses += [[-at(first, hole), -at(second, hole)] for first in range(second)]
    return clauses


def random_3sat(variables, clauses, seed):
    """Clauses of three different variables each."""
    draw = random.Random(seed)
    return [[it * draw.choice((1, -1)) for it in draw.sample(range(1, variables + 1), 3)] for _ in range(clauses)]


def parity(vertices, seed):
    """A variable for each edge of a random cubic graph; the edges of a vertex have an odd sum at one vertex, an even one elsewhere."""
    draw = random.Random(seed)
    while True:
        ends = [vertex for vertex in range(vertices) for _ in range(3)]
        draw.shuffle(ends)
        edges = sorted(tuple(sorted(pair)) for pair in zip(ends[::2], ends[1::2]))
        if len(set(edges)) == len(edges) and all(first != second for first, second in edges):
            break
    clauses = []
    for vertex in range(vertices):
        around = [number for number, edge in enumerate(edges, 1) if vertex in edge]
        for signs in range(8):
            if bin(signs).count("1") % 2 != (vertex == 0):
                clauses.append([-it if signs >> at & 1 else it for at, it in enumerate(around)])
    return clauses


def main():
    kind, *numbers = sys.argv[1:]
    clauses = {"pigeons": pigeons, "random": random_3sat, "parity": parity}[kind](*map(int, numbers))
    print("p cnf", max(abs(it) for clause in clauses for it in clause), len(clauses))
    for clause in clauses:
        print(*clause, 0)


main()
