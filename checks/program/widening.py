"""Proofs of the profile made at random, and a way to write them with rules outside of it."""
import random
import re

from dialect import END


def traced(text):
    """What `pb trace` prints: for each line of a proof that adds constraints, these by id."""
    made, here = {}, {}
    for line in text.decode().splitlines():
        found = re.match(r"(\d+):\d+ ", line)
        if found:
            here = made[int(found[1])] = {}
        # The constraints of the instance have a line each, below that of `f`.
        here.update((int(number), body) for number, body in re.findall(r" -> (\d+): ([^;]*);", line))
    return made


class Wider:
    """Writes a proof of the profile with rules outside of it: the same steps, and others that are true, by a seed. `options` are those of
    pbp2profile that read it so."""

    def __init__(self, trace, seed):
        self.draw, self.trace, self.out = random.Random(seed), traced(trace), []
        self.newest, self.ids, self.live, self.labels = 0, {}, {}, {}
        self.is_old = self.draw.random() < 0.2
        self.options = {"ea_adds_nothing": self.draw.random() < 0.2, "scoped_ids": self.draw.random() < 0.2, "red_as_rup": False}

    def add(self, body, old=None):
        self.newest += 1
        self.live[self.newest] = body.strip()
        if old:
            self.ids[old] = self.newest
        if self.out and not self.is_old and self.draw.random() < 0.1 and re.match("(rup|pol|red|ia|soli|solx) ", self.out[-1]):
            # A label may be given again, and means the newest.
            label = f"@c{self.draw.randrange(3)}"
            self.labels = {number: it for number, it in self.labels.items() if it != label}
            self.labels[self.newest] = label
            self.out[-1] = f"{label} {self.out[-1]}"

    def named(self, number):
        """An id, or the negative one or the label that means the same."""
        if number in self.labels and self.draw.random() < 0.7:
            return self.labels[number]
        return str(number if self.draw.random() < 0.6 else number - self.newest - 1)

    def shuffled(self, body):
        """Another text of the same constraint: terms in another order, some literals negated."""
        left, _, degree = body.partition(">=")
        words, degree = left.split(), int(degree)
        terms = list(zip(map(int, words[::2]), words[1::2]))
        self.draw.shuffle(terms)
        out = []
        for coefficient, literal in terms:
            if self.draw.random() < 0.2:
                degree -= coefficient
                coefficient, literal = -coefficient, literal[1:] if literal[0] == "~" else "~" + literal
            out.append(f"{coefficient:+d} {literal} ")
        return f"{''.join(out)}>= {degree}"

    def weaker(self, body):
        """A constraint that follows from one by weakening: some terms dropped or lowered, others raised, and a lower degree."""
        left, _, degree = body.partition(">=")
        words, degree = left.split(), int(degree)
        out = []
        for coefficient, literal in zip(map(int, words[::2]), words[1::2]):
            choice = self.draw.random()
            less = coefficient if choice < 0.15 else self.draw.randint(0, coefficient) if choice < 0.3 else 0
            more = self.draw.randint(0, 3) if choice > 0.8 else 0
            degree -= less
            if coefficient - less + more:
                out.append(f"+{coefficient - less + more} {literal} ")
        degree = max(0, degree - (self.draw.randint(0, 2) if self.draw.random() < 0.4 else 0))
        return f"{''.join(out)}>= {degree}"

    def extra(self):
        """A step that the proof has not."""
        number = self.draw.choice(sorted(self.live))
        body, choice = self.live[number], self.draw.randrange(7)
        if choice == 0:
            form = self.draw.choice(["e {1} {0} ;", "e {1} : {0} ;", "e {0} ; {1}", "e {0} ;"])
            self.out.append(form.format(self.shuffled(body), self.named(number)))
        elif choice == 1:
            self.out.append(f"ea {self.shuffled(body)} ; {self.named(number)}")
            if not self.options["ea_adds_nothing"]:
                self.add(body)
        elif choice in (2, 3):
            weaker = self.weaker(body)
            self.out.append(self.draw.choice(["ia {0} ; {1}", "ia {1} {0} ;", "j {1} {0} ;"]).format(weaker, self.named(number)))
            self.add(weaker)
        elif choice == 4:
            self.out.append(f"i {self.weaker(body)} ; {self.named(number)}")
        elif choice == 5:
            self.out.append(self.draw.choice([f"core id {self.named(number)}", "core range 1 2", f"core spec {body} ;"]))
        elif choice == 6 and " " in body.partition(">=")[0].strip():
            # A copy is implied by unit propagation if it is a clause.
            literals = body.split(">=")[0].split()[1::2]
            clause = f"{''.join(f'+1 {it} ' for it in literals)}>= 1"
            if int(body.split()[-1]) > 0:
                self.out.append(f"red {clause} ; {literals[0].lstrip('~')} -> {int(literals[0][0] != '~')} ;")
                self.add(clause)
        else:
            self.out.append(f"* {body}\n")

    def line(self, number, line):
        word, _, rest = line.partition(" ")
        made = self.trace.get(number, {})
        if word in ("rup", "pol", "solx", "soli", "del") and self.draw.random() < 0.5:
            self.extra()
        if word == "del":
            for old in map(int, rest.split()[1:]):
                self.delete(self.ids[old if old > 0 else max(self.ids) + 1 + old])
            return
        if word == "rup":
            self.rup(rest.rstrip(" ;\n"))
        elif word == "pol":
            self.out.append(f"pol {' '.join(self.postfix(rest.split()))} ;")
        elif word == "conclusion":
            named = lambda found: f"{found[1]} : {self.named(self.ids[int(found[2])])}"
            self.out.append(re.sub(r"(UNSAT|BOUNDS \S+) : (\d+)", named, line))
        else:
            self.out.append(line)
        for old, body in made.items():
            self.add(body, old)

    def postfix(self, words):
        for at, it in enumerate(words):
            if re.fullmatch("-?[0-9]+", it) and words[at + 1:at + 2] not in (["*"], ["d"]):
                old = int(it)
                words[at] = self.named(self.ids[old if old > 0 else max(self.ids) + 1 + old])
        return words

    def rup(self, body):
        choice = self.draw.random()
        hints = " ".join(self.draw.choice("1 2 ~ -1 3".split()) for _ in range(self.draw.randrange(4)))
        if choice < 0.7:
            self.out.append(f"rup {body} ; {hints}")
        elif choice < 0.85:
            self.out.append(f"red {body} ; ;")
        else:
            self.out.append(f"red {body} ; ; begin\n\trup {body} ; {hints}\nend")
            self.newest += 0 if self.options["scoped_ids"] else 2

    def delete(self, number):
        body, choice = self.live.pop(number), self.draw.random()
        if choice < 0.3:
            self.out.append(f"del range {number} {number + 1}")
        elif choice < 0.6 and not any(same(body, it) for it in self.live.values()):
            self.out.append(f"del spec {self.shuffled(body)} ;")
        else:
            self.out.append(f"del id {self.named(number)}")

    def written(self, proof):
        for number, line in enumerate(proof.decode().split("\n"), 1):
            self.line(number, line)
        return "\n".join(self.out).encode()


OLDER = [(r"pseudo-Boolean proof version 2\.0", "pseudo-Boolean proof version 1.2"), (r"f (\d+)", r"f \1 0"), (r"rup (.*?;).*", r"u \1"),
         (r"pol (.*?) ?;?", r"p \1 0"), (r"del id (.*)", r"d \1 0"), (r"soli (.*)", r"o \1"), (r"solx (.*)", r"v \1"),
         (r"conclusion (?:UNSAT|BOUNDS \S+) : (\S+).*", r"c \1 0"), (r"conclusion .*|output .*|end pseudo-Boolean proof", "")]


def older(wide):
    """The proof in the words of version 1.2."""
    lines = []
    for line in wide.decode().split("\n"):
        for pattern, new in OLDER:
            if re.fullmatch(pattern, line):
                line = re.sub(pattern + "$", new, line)
                break
        lines.append(line)
    return "\n".join(lines).encode()


def same(first, second):
    """Whether two constraints in normal form are the same."""
    return sorted(zip(first.split()[::2], first.split()[1::2])) == sorted(zip(second.split()[::2], second.split()[1::2]))


NAMES = [f"y{number}" for number in range(5)]


class Drawn:
    """An instance over a few names and a proof of it, drawn by a seed: of its verdict, if it concludes one."""

    def __init__(self, seed):
        self.draw = random.Random(seed)
        self.constraints = [self.constraint() for _ in range(self.draw.choice((4, 12)))]
        self.objective = [(self.draw.randint(-3, 4), name) for name in NAMES] if self.draw.random() < 0.5 else None
        self.lines, self.newest, self.live, self.spare = [f"f {len(self.constraints)}"], len(self.constraints), [], []
        self.live = list(range(1, self.newest + 1))
        self.conclude()

    def constraint(self):
        terms = [(self.draw.randint(-4, 5) or 1, self.draw.choice(("", "~")) + name) for name in self.draw.sample(NAMES, self.draw.choice((2, 3, 4)))]
        return terms, self.draw.randint(-2, 3)

    def instance(self):
        lines = [f"{written(terms)}>= {degree} ;\n" for terms, degree in self.constraints]
        goal = f"min: {written(self.objective)};\n" if self.objective else ""
        return f"* #variable= {len(NAMES)} #constraint= {len(lines)}\n{goal}{''.join(lines)}".encode()

    def proof(self):
        return "\n".join(["pseudo-Boolean proof version 2.0", *self.lines, END]).encode()

    def step(self, line):
        """A line that adds a constraint, and some others around it."""
        self.lines.append(line)
        self.newest += 1
        self.live.append(self.newest)
        for _ in range(self.draw.choice((0, 0, 1, 2))):
            self.pol()
        if self.spare and self.draw.random() < 0.3:
            gone = self.spare.pop(self.draw.randrange(len(self.spare)))
            self.live.remove(gone)
            self.lines.append(f"del id {gone}")

    def pol(self):
        draw, words = self.draw, [str(self.draw.choice(self.live))]
        for _ in range(draw.randrange(1, 6)):
            literal = draw.choice(("", "~")) + draw.choice(NAMES)
            words += draw.choice([[str(draw.choice(self.live)), "+"], [literal, "+"], [str(draw.randint(1, 3)), "*"], [str(draw.randint(2, 4)), "d"],
                                  ["s"], [draw.choice(NAMES), "w"], [str(draw.choice(self.live)), literal, "+", "+"]])
        self.newest += 1
        self.live.append(self.newest)
        self.spare.append(self.newest)
        self.lines.append(f"pol {' '.join([*words, '5', 'd', 's'])}")

    def conclude(self):
        """The steps, and the conclusion: of an instance with solutions, the least value, or that there are some."""
        solutions = [it for it in assignments() if all(holds(constraint, it) for constraint in self.constraints)]
        if not solutions:
            self.refute([], self.constraints)
            self.end(f"UNSAT : {self.last}")
        elif self.objective:
            value = lambda given: sum(coefficient * given[name] for coefficient, name in self.objective)
            best = min(solutions, key=value)
            self.step(f"soli {shown(best)}")
            self.refute([], [*self.constraints, ([(-coefficient, name) for coefficient, name in self.objective], 1 - value(best))])
            self.end(f"BOUNDS {value(best)} : {self.last} {value(best)}")
        else:
            self.step(f"solx {shown(self.draw.choice(solutions))}")
            self.pol()
            self.end("SAT")

    def end(self, text):
        self.lines += ["output NONE", f"conclusion {text}"]

    def refute(self, given, constraints):
        """Clauses that exclude what was given, from the leaves of a tree of decisions up."""
        if all(possible(constraint, dict(given)) for constraint in constraints):
            for value in (0, 1):
                self.refute([*given, (NAMES[len(given)], value)], constraints)
        self.last = self.newest + 1
        self.step(f"rup {''.join(f'+1 {chr(126) * value}{name} ' for name, value in given)}>= 1 ;")


def written(terms):
    return "".join(f"{coefficient:+d} {literal} " for coefficient, literal in terms)


def shown(given):
    return " ".join(name if value else f"~{name}" for name, value in given.items())


def assignments():
    return [{name: number >> at & 1 for at, name in enumerate(NAMES)} for number in range(1 << len(NAMES))]


def holds(constraint, given):
    terms, degree = constraint
    return sum(coefficient * (given[literal.lstrip("~")] ^ (literal[0] == "~")) for coefficient, literal in terms) >= degree


def possible(constraint, given):
    """Whether some values of the other names make a constraint hold."""
    terms, degree = constraint
    most = 0
    for coefficient, literal in terms:
        value = given.get(literal.lstrip("~"))
        most += max(0, coefficient) if value is None else coefficient * (value ^ (literal[0] == "~"))
    return most >= degree
