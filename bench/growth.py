#!/usr/bin/env python3
"""Times `pb check` at n, 2n and 4n on inputs whose time should grow like n:

    bench/growth.py PROGRAM [NAME..]

It prints a line for each of the families below, or for those that are named: the user time at each size, and how it grows from 2n to
4n. Time that grows like n is doubled. The same name and size give the same bytes, and each proof is accepted."""
import os
import resource
import subprocess
import sys
import tempfile

from propagation import clause, write


def rups(clauses):
    return ["rup " + one for one in clauses]


def names(letter, count):
    return [f"{letter}{i}" for i in range(10, count + 10)]


def implied(units, ends):
    """Clauses in which two neighbouring units force an end."""
    return [clause(f"~{one}", f"~{other}", end) for one, other, end in zip(units, units[1:], ends)]


def facts(count):
    """Units u, clauses ~u ~u a, and each a as a step."""
    units, ends = names("u", count), names("a", count)
    return [clause(one) for one in units] + implied(units, ends), rups(clause(end) for end in ends[: count - 1])


def chain(count):
    """A chain from a unit, and its end as many times as a step."""
    links = names("x", count)
    return [clause(links[0])] + [clause(f"~{one}", other) for one, other in zip(links, links[1:])], rups([clause(links[-1])] * count)


def again(count):
    """A unit, and as many times the same unit as a step."""
    return [clause("x1")], rups([clause("x1")] * count)


def satisfied(count):
    """A unit, clauses with its literal, and some of them as steps."""
    clauses = [clause("x1", end) for end in names("y", count)]
    return [clause("x1")] + clauses, rups(clauses[: count // 10])


def copies(count):
    """As many copies of a unit by `pol`, and then the unit as a step."""
    return [clause("x1")], ["pol 1\n"] * count + rups([clause("x1")] * (count // 10))


def sums(count):
    """One sum of as many disjoint clauses."""
    clauses = [clause(*names(f"x{i}_", 3)) for i in range(count)]
    return clauses, [f"pol 1 {' '.join(f'{i} +' for i in range(2, count + 1))}\n"]


def weakened(count):
    """One constraint, weakened by each of its variables."""
    terms = names("x", count)
    return [clause(*terms)], [f"pol 1 {' '.join(f'{name} w' for name in terms[:-1])}\n"]


def axioms(count):
    """One constraint and the opposite of each of its literals."""
    terms = names("x", count)
    return [clause(*terms)], [f"pol 1 {' '.join(f'~{name} +' for name in terms[:-1])}\n"]


def divided(count):
    """One constraint, to which a literal is added and which is divided by 1, as many times."""
    terms = names("x", count)
    return [clause(*terms)], [f"pol 1 {f'{terms[0]} + 1 d ' * count}\n".replace(" \n", "\n")]


def multiplied(count):
    """The same, multiplied by 1."""
    terms = names("x", count)
    return [clause(*terms)], [f"pol 1 {f'{terms[0]} + 1 * ' * count}\n".replace(" \n", "\n")]


def deleted(count):
    """Clauses with a common literal, and a step with that literal that is deleted each time."""
    clauses = [clause("x1", "zz")] + [clause("x1", end) for end in names("y", count)]
    first = len(clauses) + 1
    return clauses, [f"rup {clause('x1', 'zz')}del id {first + i}\n" for i in range(count // 10)]


def dropped(count):
    """Units u, clauses ~u ~u a b, and each a b as a step, which is deleted after it."""
    units, ends, others = names("u", count), names("a", count), names("b", count)
    clauses = [clause(f"~{one}", f"~{after}", end, other) for one, after, end, other in zip(units, units[1:], ends, others)]
    first = len(units) + len(clauses) + 1
    steps = [f"rup {clause(end, other)}del id {first + i}\n" for i, (end, other) in enumerate(zip(ends[: count - 1], others))]
    return [clause(one) for one in units] + clauses, steps


def reasons(count):
    """A chain from a unit. Each of its literals is a step, the clause that forced it is deleted, and a step needs both units."""
    links, ends = names("x", count), names("a", count)
    chained = [clause(links[0])] + [clause(f"~{one}", other) for one, other in zip(links, links[1:])]
    steps = [f"rup {clause(link)}del id {i}\nrup {clause(end)}" for i, (link, end) in enumerate(zip(links[1:], ends), 2)]
    return chained + implied(links, ends), steps


def pairs(count):
    """Units, and clauses with two of their literals, which are deleted one by one, and a step that needs both units."""
    units, ends = names("u", count), names("a", count)
    clauses = [clause(one, other) for one, other in zip(units, units[1:])]
    steps = [f"del id {count + i}\nrup {clause(end)}" for i, end in enumerate(ends[: count - 1], 1)]
    return [clause(one) for one in units] + clauses + implied(units, ends), steps


def news(count):
    """A chain from a unit, and its end with a new name as a step, as many times."""
    links = names("x", count)
    chained = [clause(links[0])] + [clause(f"~{one}", other) for one, other in zip(links, links[1:])]
    return chained, rups(clause(links[-1], new) for new in names("n", count))


def heavy(count):
    """The same as `reasons`, with links of coefficient 2, which are no clauses."""
    links, ends = names("x", count), names("a", count)
    chained = [clause(links[0])] + [f"+2 ~{one} +2 {other} >= 2 ;\n" for one, other in zip(links, links[1:])]
    steps = [f"rup {clause(link)}del id {i}\nrup {clause(end)}" for i, (link, end) in enumerate(zip(links[1:], ends), 2)]
    return chained + implied(links, ends), steps


def late(count):
    """A chain from a unit, and steps with its first literal negated, each of which needs the end of the chain."""
    links, ends, others = names("x", count), names("a", count), names("b", count)
    chained = [clause(links[0])] + [clause(f"~{one}", other) for one, other in zip(links, links[1:])]
    needs = [clause(f"~{links[-1]}", end, other) for end, other in zip(ends, others)]
    return chained + needs, rups(clause(f"~{links[0]}", end, other) for end, other in zip(ends, others))


def fallen(count):
    """A chain from a unit, whose end is a unit that is negated, and as many steps."""
    links = names("x", count)
    chained = [clause(links[0])] + [clause(f"~{one}", other) for one, other in zip(links, links[1:])]
    return chained + [clause(f"~{links[-1]}")], rups(clause(end) for end in names("a", count))


def shortened(count):
    """A chain from a unit. Its last clause is deleted, and a step needs the literal before it, until none is left."""
    links = names("x", count)
    chained = [clause(links[0])] + [clause(f"~{one}", other) for one, other in zip(links, links[1:])]
    return chained, [f"del id {i + 1}\nrup {clause(links[i - 1], 'zz')}" for i in range(count - 1, 0, -1)]


def withdrawn(count):
    """Units, each of which forces an end. The last one is deleted, and a step needs the end before it, until none is left."""
    units, ends = names("u", count), names("a", count)
    forced = [clause(f"~{one}", end) for one, end in zip(units, ends)]
    steps = [f"del id {i + 1}\nrup {clause(ends[i - 1], 'zz')}" for i in range(count - 1, 0, -1)]
    return [clause(one) for one in units] + forced, steps


def lent(count):
    """A chain from a unit, and a unit that is a step, is used by another one, and is deleted, as many times."""
    links = names("x", count)
    chained = [clause(links[0])] + [clause(f"~{one}", other) for one, other in zip(links, links[1:])]
    lending = [clause("y1", f"~{links[-1]}", "y2"), clause("y1", "~y2"), clause("~y1", "y3")]
    first = len(chained) + len(lending) + 1
    steps = [f"rup {clause('y1')}rup {clause('y3', 'zz')}del id {first + 2 * i}\n" for i in range(count)]
    return chained + lending, steps


# The families, each with its smallest size.
FAMILIES = {
    facts: 2_500, chain: 2_500, again: 4_000, satisfied: 20_000, copies: 10_000, sums: 8_000, weakened: 10_000, axioms: 10_000,
    divided: 10_000, multiplied: 10_000, deleted: 10_000, dropped: 2_500, reasons: 2_500, pairs: 2_500, news: 2_500,
    heavy: 2_500, late: 2_500, fallen: 2_500, shortened: 1_000, withdrawn: 1_000, lent: 2_500,
}


def seconds_of(program, family, size, folder):
    """The user time of a check."""
    constraints, steps = family(size)
    end = ["output NONE\n", "conclusion NONE\n", "end pseudo-Boolean proof\n"]
    write(folder, "a.opb", f"* #variable= 1 #constraint= {len(constraints)}\n", constraints)
    write(folder, "a.pbp", f"pseudo-Boolean proof version 2.0\nf {len(constraints)}\n", steps + end)
    before = resource.getrusage(resource.RUSAGE_CHILDREN).ru_utime
    words = [program, "check"] + [os.path.join(folder, name) for name in ("a.opb", "a.pbp")]
    if subprocess.run(words, stdout=subprocess.DEVNULL).returncode != 0:
        sys.exit(f"{family.__name__} {size}: the proof is rejected")
    return resource.getrusage(resource.RUSAGE_CHILDREN).ru_utime - before


def main():
    if len(sys.argv) < 2 or sys.argv[1] == "--help":
        sys.exit(print(__doc__))
    with tempfile.TemporaryDirectory() as folder:
        for family, least in FAMILIES.items():
            if sys.argv[2:] and family.__name__ not in sys.argv[2:]:
                continue
            times = [seconds_of(sys.argv[1], family, least * factor, folder) for factor in (1, 2, 4)]
            shown = " ".join(f"{time:.2f}" for time in times)
            print(f"{family.__name__} {least}: {shown} s, {times[2] / max(times[1], 0.01):.1f} times from 2n to 4n", flush=True)


if __name__ == "__main__":
    main()
