#!/usr/bin/env python3
"""Shows how large the constraints of an instance are, or how much slack they have:

    sizes.py [--slack] [--svg FILE] INSTANCE

It prints a histogram of the numbers of terms, a line for each range. With --slack it takes the slack in place of the size: what the left
side of a constraint can be at most, less its degree. A negative slack means that no assignment meets the constraint. For an equality it is
the lesser slack of its two sides. --svg also writes the histogram as a picture. It needs the module pb and nothing else."""

import argparse
import sys

import pb

WIDTH = 50


def sizes_of(instance):
    """How many terms each constraint has."""
    ends = [0, *instance.ends]
    rows = zip(instance.kinds, ends, ends[1:])
    return [end - begin for kind, begin, end in rows if kind != pb.Instance.OBJECTIVE]


def slacks_of(instance):
    """The slack of each constraint."""
    found = []
    for constraint in instance.constraints:
        # A literal and its negation are 1 and 0, or 0 and 1, so the terms of a name count together.
        values = {}
        for coefficient, name, negated in constraint.terms:
            before = values.get(name, (0, 0))
            values[name] = (before[0] + coefficient, before[1]) if negated else (before[0], before[1] + coefficient)
        most = sum(max(it) for it in values.values())
        least = sum(min(it) for it in values.values())
        slack = most - constraint.degree
        found.append(min(slack, constraint.degree - least) if constraint.relation == "=" else slack)
    return found


def ranges_of(numbers, most=20):
    """The numbers in at most that many ranges of the same width: for each its first and last number, and how many are in it."""
    if not numbers:
        return []
    least = min(numbers)
    width = (max(numbers) - least) // most + 1
    counts = [0] * ((max(numbers) - least) // width + 1)
    for number in numbers:
        counts[(number - least) // width] += 1
    return [(least + at * width, least + (at + 1) * width - 1, count) for at, count in enumerate(counts)]


def label(first, last):
    return str(first) if first == last else f"{first} to {last}"


def text_of(ranges):
    """The histogram as lines. A range that is not empty has at least one mark."""
    wide = max((len(label(first, last)) for first, last, _ in ranges), default=0)
    most = max((count for _, _, count in ranges), default=1)
    lines = (f"{label(first, last):>{wide}} {'#' * -(-count * WIDTH // most):{WIDTH}} {count}" for first, last, count in ranges)
    return "".join(f"{line}\n" for line in lines)


def svg_of(ranges, title):
    """The histogram as a picture."""
    most = max((count for _, _, count in ranges), default=1)
    rows = []
    for at, (first, last, count) in enumerate(ranges):
        y = 40 + 20 * at
        rows.append(f'<text x="150" y="{y + 13}" text-anchor="end">{label(first, last)}</text>')
        rows.append(f'<rect x="160" y="{y}" width="{400 * count / most:.1f}" height="16" fill="steelblue"/>')
        rows.append(f'<text x="{165 + 400 * count / most:.1f}" y="{y + 13}">{count}</text>')
    head = f'<svg xmlns="http://www.w3.org/2000/svg" width="640" height="{60 + 20 * len(ranges)}" font-family="sans-serif" font-size="12">'
    return "\n".join([head, f'<text x="10" y="20">{title}</text>', *rows, "</svg>\n"])


def main():
    parser = argparse.ArgumentParser(description=__doc__, formatter_class=argparse.RawDescriptionHelpFormatter)
    parser.add_argument("instance", metavar="INSTANCE")
    parser.add_argument("--slack", action="store_true", help="the slack in place of the size")
    parser.add_argument("--svg", metavar="FILE", help="write a picture too")
    words = parser.parse_args()
    try:
        with open(words.instance, "rb") as file:
            instance = pb.read_instance(file.read())
    except OSError as error:
        sys.exit(f"{words.instance}: {error.strerror}")
    except pb.Fault as fault:
        print(fault, file=sys.stderr)
        return fault.code
    ranges = ranges_of(slacks_of(instance) if words.slack else sizes_of(instance))
    sys.stdout.write(text_of(ranges))
    if words.svg:
        with open(words.svg, "w", encoding="utf-8") as file:
            file.write(svg_of(ranges, "Constraints by their slack" if words.slack else "Constraints by their number of terms"))
    return 0


if __name__ == "__main__":
    sys.exit(main())
