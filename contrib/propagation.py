"""Unit propagation over constraints in normal form: simple, and slow."""


class Propagator:
    """Constraints by a key, each a pair of a dictionary from names to coefficients, negative for the negated literal, and a degree."""

    def __init__(self):
        self.constraints, self.occurs, self.eager = {}, {}, set()

    def add(self, key, terms, degree):
        self.constraints[key] = terms, degree
        for name, coefficient in terms.items():
            self.occurs.setdefault(name if coefficient > 0 else b"~" + name, set()).add(key)
        if is_eager(terms, degree):
            self.eager.add(key)

    def remove(self, key):
        terms, _ = self.constraints.pop(key)
        for name, coefficient in terms.items():
            self.occurs[name if coefficient > 0 else b"~" + name].discard(key)
        self.eager.discard(key)

    def implies(self, terms, degree):
        """Whether a constraint follows: its negation and the others propagate to a conflict."""
        if degree <= 0:
            return True
        negation = {name: -coefficient for name, coefficient in terms.items()}, sum(map(abs, terms.values())) - degree + 1
        values, todo = {}, []
        for constraint in (negation, *map(self.constraints.__getitem__, self.eager)):
            if self.propagates(*constraint, values, todo):
                return True
        while todo:
            for key in self.occurs.get(todo.pop(), ()):
                if self.propagates(*self.constraints[key], values, todo):
                    return True
            # The negation has no key: it is looked at after each literal.
            if self.propagates(*negation, values, todo):
                return True
        return False

    @staticmethod
    def propagates(terms, degree, values, todo):
        """Assigns what a constraint forces, and adds the literals that this falsifies. Whether it has a conflict."""
        slack = -degree
        for name, coefficient in terms.items():
            if values.get(name, coefficient) * coefficient > 0:
                slack += abs(coefficient)
        if slack < 0:
            return True
        for name, coefficient in terms.items():
            if abs(coefficient) > slack and name not in values:
                values[name] = 1 if coefficient > 0 else -1
                todo.append(b"~" + name if coefficient > 0 else name)
        return False


def is_eager(terms, degree):
    """Whether a constraint forces a literal or has a conflict with nothing assigned."""
    sizes = [abs(it) for it in terms.values()]
    return sum(sizes) - degree < max(sizes, default=0) or sum(sizes) < degree
