"""Linear constraints of bytes, for pbp2profile: their normal form, the operations of `pol`, and implications as words of `pol`.

A constraint in normal form is a pair: a dictionary from names to coefficients, negative for the negated literal, and the degree."""
import re

from streams import Rejected, shown

NUMBER = re.compile(rb"[+-]?[0-9]+")
LITERAL = re.compile(rb"~?[A-Za-z][A-Za-z0-9_\[\]{}^]*")


class Units(dict):
    """From a literal to its name and 1, or -1 if it is negated."""

    def __missing__(self, literal):
        if not LITERAL.fullmatch(literal):
            raise Rejected(f"`{shown(literal)}` is no literal")
        self[literal] = (literal[1:], -1) if literal[:1] == b"~" else (literal, 1)
        return self[literal]


UNITS = Units()


def add(terms, degree, other, more):
    """Adds another constraint to the terms; returns the degree."""
    degree += more
    for name, coefficient in other.items():
        if name not in terms:
            terms[name] = coefficient
            continue
        old = terms[name]
        new = terms[name] = old + coefficient
        # What a literal and its negation have in common is taken from the degree.
        if coefficient > 0 > old:
            degree -= coefficient if new <= 0 else -old
        elif coefficient < 0 < old:
            degree -= -coefficient if new >= 0 else old
        if not new:
            del terms[name]
    return degree if degree > 0 else 0


def saturated(terms, degree):
    """The terms with coefficients of at most the degree: themselves, if they have only such."""
    if not degree or not terms:
        return {}
    if max(terms.values()) <= degree and min(terms.values()) >= -degree:
        return terms
    return {name: it if -degree <= it <= degree else degree if it > 0 else -degree for name, it in terms.items()}


def normal(pairs, degree):
    """The normal form of pairs of a coefficient and a literal, at least the degree."""
    units = [(UNITS[literal], coefficient) for coefficient, literal in pairs]
    terms = {name: coefficient * sign for (name, sign), coefficient in units}
    degree -= sum(coefficient for _, coefficient in units if coefficient < 0)
    if len(terms) < len(units):
        terms = {}
        for (name, sign), coefficient in units:
            old, more = terms.get(name, 0), coefficient * sign
            if (old < 0) != (more < 0):
                degree -= min(abs(old), abs(more))
            terms[name] = old + more
    if 0 in terms.values():
        terms = {name: it for name, it in terms.items() if it}
    return terms, max(0, degree)


def linear(text):
    """The pairs, the relation and the degree of a constraint that is written without its `;`."""
    for relation in (b">=", b"<=", b"="):
        left, found, right = text.partition(relation)
        if found:
            break
    words, right = left.split(), right.strip()
    numbers = words[::2]
    if not found or len(words) % 2 or not NUMBER.fullmatch(right) or b"".join(numbers).translate(None, b"+-0123456789"):
        raise Rejected(f"`{shown(text)}` is no linear constraint")
    try:
        return list(zip(map(int, numbers), words[1::2])), relation, int(right)
    except ValueError:
        raise Rejected(f"`{shown(text)}` is no linear constraint") from None


def value_of_text(text):
    """The normal form of a constraint with `>=` or `<=` that is written without its `;`."""
    left, found, right = text.partition(b">=")
    words = left.split()
    # A clause, or another sum of different names with coefficients 1.
    if found and {*words[::2]} <= {b"+1", b"1"} and right.strip().isdigit():
        terms = dict(map(UNITS.__getitem__, words[1::2]))
        if 2 * len(terms) == len(words):
            return terms, int(right)
    pairs, relation, degree = linear(text)
    if relation == b"=":
        raise Rejected("an equality, where one side is needed")
    return normal(pairs, degree) if relation == b">=" else normal([(-it, literal) for it, literal in pairs], -degree)


def written(terms, degree):
    return b"".join(b"+%d %s%s " % (abs(it), b"~" if it < 0 else b"", name) for name, it in terms.items()) + b">= %d" % degree


def implication(given, wanted):
    """The words that make a constraint of one that implies it, after the id of that; nothing if no way is found."""
    for start in ([], [b"s"]):
        words = weakening(saturated(*given) if start else given[0], given[1], *wanted)
        if words is not None:
            return start + words
    return None


def weakening(terms, degree, goal, least):
    """Lowers what is too much, then the degree, saturates if a greater coefficient is left, and adds what is missing. A coefficient of at
    least the degree of the goal may be greater, as saturation brings it down."""
    terms, words, names = dict(terms), [], list(terms or goal)
    for name, it in list(terms.items()):
        aim = goal.get(name, 0)
        if aim * it <= 0:
            words += [name, b"w"]
            degree = max(0, degree - abs(it))
            del terms[name]
        elif abs(aim) < abs(it) and abs(aim) < least:
            degree = axiom(words, terms, degree, name, aim - it)
    if degree < least:
        return None
    if degree > least:
        # The axioms of x and of ~x together lower the degree by one.
        if not names:
            return None
        count = degree - least
        degree = axiom(words, terms, degree, names[0], count)
        degree = axiom(words, terms, degree, names[0], -count)
    if any(abs(it) > abs(goal[name]) for name, it in terms.items()):
        words.append(b"s")
        terms = saturated(terms, degree)
    for name, aim in goal.items():
        if aim != terms.get(name, 0):
            degree = axiom(words, terms, degree, name, aim - terms.get(name, 0))
    return words if (terms, degree) == (goal, least) else None


def axiom(words, terms, degree, name, count):
    """Adds the axiom of a name some times, or that of its negation."""
    words += [b"~" + name if count < 0 else name, *([b"%d" % abs(count), b"*"] if abs(count) > 1 else []), b"+"]
    return add(terms, degree, {name: count}, 0)


# What `*`, `d` and `s` make of terms and degree with a factor.
OPERATIONS = {
    b"*": lambda terms, degree, factor: ({name: it * factor for name, it in terms.items()}, degree * factor),
    b"d": lambda terms, degree, factor: ({name: -(-it // factor) if it > 0 else it // factor for name, it in terms.items()},
                                         -(-degree // factor)),
    b"s": lambda terms, degree, _: (saturated(terms, degree), degree),
}


def is_id(word, after):
    """Whether a word of a postfix expression is an id: a number that is no factor of the word after it, or a label."""
    return (word[:1].isdigit() or word[:1] in (b"-", b"@")) and after not in (b"*", b"d")


def ids_of(words):
    """Where ids stand in a postfix expression."""
    return {at for at, (word, after) in enumerate(zip(words, [*words[1:], b""])) if is_id(word, after)}


def computed(words, value_of):
    """The value of a postfix expression; `value_of` gives that of an id. If one is not known, nothing is."""
    stack = []
    try:
        for word, after in zip(words, [*words[1:], b""]):
            if word == b"+":
                other, more, _ = stack.pop()
                terms, degree, is_own = stack.pop()
                terms = terms if is_own else dict(terms)
                stack.append((terms, add(terms, degree, other, more), True))
            elif word.isdigit():
                if after == b"*" or after == b"d":
                    stack.append(int(word))
                    continue
                value = value_of(int(word))
                if value is None:
                    return None
                stack.append((*value, False))
            elif word in OPERATIONS:
                factor = None if word == b"s" else stack.pop()
                terms, degree, is_own = stack.pop()
                made, degree = OPERATIONS[word](terms, degree, factor)
                stack.append((made, degree, is_own or made is not terms))
            elif word == b"w":
                name = stack.pop()
                terms, degree, is_own = stack.pop()
                terms = terms if is_own else dict(terms)
                stack.append((terms, max(0, degree - abs(terms.pop(name, 0))), True))
            elif after == b"w":
                stack.append(word)
            else:
                name, sign = UNITS[word]
                stack.append(({name: sign}, 0, False))
        (terms, degree, _), = stack
    except (IndexError, TypeError, ValueError, ZeroDivisionError, AttributeError):
        raise Rejected(f"no postfix expression: `{shown(b' '.join(words))}`") from None
    return terms, degree
