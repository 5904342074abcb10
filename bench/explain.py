#!/usr/bin/env python3
"""Counts instructions of `pb check --explain` by valgrind:

    bench/explain.py PROGRAM

For n = 1000, 2000 and 4000 the instance is a chain of n clauses from x10 on, and a step propagates along it. In the first proof the step is
accepted: the line has the instructions of `check` and of `check --explain`. In the second it is rejected at the end of the chain: the line
has those of its check, those of its explanation without the second check, and how many times as many these are. The explanation is what
runs in the functions whose names have `Explaining` and `rejected`."""
import os
import re
import subprocess
import sys
import tempfile

from propagation import clause, write

HEAD, END = "pseudo-Boolean proof version 2.0\nf %d\n", ["output NONE\n", "conclusion NONE\n", "end pseudo-Boolean proof\n"]


def counted(program, words, folder, *options):
    """The instructions of a run, or of the functions that an option selects."""
    command = ["valgrind", "--tool=callgrind", "--callgrind-out-file=/dev/null", *options, program, *words]
    run = subprocess.run(command, cwd=folder, stdout=subprocess.DEVNULL, stderr=subprocess.PIPE, check=False)
    return int(re.search(rb"Collected : (\d+)", run.stderr)[1])


def chain(count, end):
    """A chain of clauses, whose last one is given."""
    links = [f"x{i}" for i in range(10, count + 10)]
    return [clause(f"~{one}", other) for one, other in zip(links, links[1:])] + [clause(*(end.format(links[-1])).split())]


def main():
    if len(sys.argv) != 2 or sys.argv[1] == "--help":
        sys.exit(print(__doc__))
    program = os.path.abspath(sys.argv[1])
    with tempfile.TemporaryDirectory() as folder:
        for count in (1000, 2000, 4000):
            for name, end in (("whole", "~{}"), ("broken", "~{} yy")):
                write(folder, f"{name}.opb", f"* #variable= 1 #constraint= {count}\n", chain(count, end))
            write(folder, "with.pbp", HEAD % count, ["rup " + clause("~x10"), *END])
            write(folder, "without.pbp", HEAD % count, END)
            plain, explained = (counted(program, ["check", *words, "whole.opb", "with.pbp"], folder) for words in ([], ["--explain"]))
            print(f"{count}, accepted: check {plain}, with --explain {explained}, {explained / plain:.3f} times")
            step = counted(program, ["check", "broken.opb", "with.pbp"], folder) - counted(program, ["check", "broken.opb", "without.pbp"], folder)
            reasons = counted(program, ["check", "--explain", "broken.opb", "with.pbp"], folder, "--toggle-collect=*Explaining*rejected*")
            print(f"{count}, rejected: check of the step {step}, explanation {reasons}, {reasons / step:.1f} times", flush=True)


if __name__ == "__main__":
    main()
