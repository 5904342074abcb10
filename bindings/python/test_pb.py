"""The calls on the repository's examples: python3 -m unittest. checks/program/bindings compares many more files."""

import importlib.util
import io
import os
import threading
import unittest
from unittest import mock

import pb
from pb import _library

HERE = os.path.dirname(os.path.abspath(__file__))
# An sdist has the examples beside this file.
EXAMPLES = next(filter(os.path.isdir, (os.path.join(HERE, it) for it in ("examples", "../../examples"))))


def example(name):
    with open(os.path.join(EXAMPLES, name), "rb") as it:
        return it.read()


class Calls(unittest.TestCase):
    def test_version(self):
        first, second, third = map(int, pb.__version__.split("."))
        self.assertEqual(pb.version(), first * 1000000 + second * 1000 + third)

    def test_verdicts(self):
        self.assertEqual(pb.check(example("refutation.opb"), example("refutation.pbp")), "verified UNSAT\n")
        self.assertEqual(pb.check(example("optimum.opb"), example("optimum.pbp")), "verified BOUNDS 1 1\n")

    def test_refusals(self):
        with self.assertRaises(pb.Refusal) as it:
            pb.check(example("refutation.opb"), b"")
        self.assertEqual(it.exception.status, pb.REFUSED)
        self.assertEqual(str(it.exception), "proof: line 1 column 1: input ended")

    def test_a_refusal_has_its_parts(self):
        with self.assertRaises(pb.Fault) as it:
            pb.check(example("refutation.opb"), b"pseudo-Boolean proof version 2.0\nf 3\n")
        fault = it.exception
        self.assertEqual((fault.code, fault.input, fault.line, fault.column, fault.offset), (pb.REFUSED, "proof", 2, 1, 33))
        self.assertEqual((fault.reason, fault.number), (pb.Reason.FORMULA_COUNT, 2))
        self.assertEqual(fault.text, b"proof: line 2 column 1: formula has 2 constraints\n")
        text = b"* #variable= 1 #constraint= 2\n+1 x1 >= 1 ;\n+1x1 >= 1 ;\n"
        for call in (pb.tidy, pb.show):
            with self.assertRaises(pb.Refusal) as it:
                call(text)
            found = it.exception
            self.assertEqual((found.code, found.line, found.column, found.offset), (pb.REFUSED, 3, 3, text.index(b"x1 >= 1 ;\n", 40)))
            self.assertEqual((found.reason, found.number), (pb.Reason.BYTE, ord("x")))
        self.assertEqual(found.text, b"1:1 * #variable= 1 #constraint= 2\n2:1 +1 x1 >= 1 ;\nfile: line 3 column 3: byte 0x78\n")
        with self.assertRaises(pb.Refusal) as it:
            pb.tidy(b"* #variable= 1 #constraint= 1\n+1 x1 >= 1\n")
        self.assertEqual((it.exception.reason, it.exception.line, it.exception.offset), (pb.Reason.ENDED, 3, 41))

    def test_misuse(self):
        for bits in (1, 30, 128, 2**32 - 1):
            with self.assertRaises(pb.Refusal) as it:
                pb.check(b"", b"", pb.options(bits=bits))
            self.assertEqual(it.exception.status, pb.MISUSE)

    def test_no_bits_are_127(self):
        text = b"* #variable= 1 #constraint= 1\n+%d x1 >= 1 ;\n"
        self.assertEqual(pb.tidy(text % (2**127 - 1), opts=pb.options(bits=0)), text % (2**127 - 1))
        with self.assertRaises(pb.Refusal) as it:
            pb.tidy(text % 2**127, opts=pb.options(bits=0))
        self.assertEqual(it.exception.status, pb.REFUSED)

    def test_long_text(self):
        instance = b"* #variable= 1 #constraint= 1000\n" + b"+1 x1 >= 1 ;\n" * 1000
        self.assertEqual(pb.tidy(instance), instance)
        self.assertTrue(pb.show(instance).endswith(b"1001:1 +1 x1 >= 1 ;\n"))

    def test_a_text_is_written_by_one_call(self):
        texts = [b"* #variable= 1 #constraint= 9999\n" + b"1 x1 >=1;" * 9999]
        texts += [b"* #variable= 1 #constraint= 9999\n" + b"=1;" * 9999, b""]
        library = _library.loaded()
        for name, call in (("pb_tidy", pb.tidy), ("pb_tidy", lambda text: pb.tidy(text, True)), ("pb_show", pb.show)):
            for text in texts:
                with mock.patch.object(library, name, side_effect=getattr(library, name)) as counted:
                    try:
                        call(text)
                    except pb.Refusal:
                        pass
                self.assertEqual(counted.call_count, 1)

    def test_a_text_longer_than_its_room(self):
        text = b"* #variable= 1 #constraint= 9999\n" + b"1 x1 >=1;" * 9999
        whole = pb.show(text)
        from pb import _texts

        with mock.patch.object(_texts, "_pages", side_effect=lambda size: _texts.mmap.mmap(-1, size if size == len(whole) else 1)):
            self.assertEqual(pb.show(text), whole)

    def test_all_bytes_of_a_text_count(self):
        instance = b"* #variable= 1 #constraint= 1\n+1 x10 >= 1 ;\n"
        for text in (bytearray(instance), memoryview(instance), memoryview(instance).cast("H")):
            self.assertEqual(pb.tidy(text), instance)
        with self.assertRaises(TypeError):
            pb.tidy(instance.decode())

    def test_a_zero_byte(self):
        with self.assertRaises(pb.Refusal) as it:
            pb.tidy(b"\0")
        self.assertEqual(it.exception.text, b"file: line 1 column 1: byte 0x00\n")

    def test_the_parts_of_a_verdict(self):
        verdict = pb.check(example("refutation.opb"), example("refutation.pbp"))
        self.assertEqual((verdict.verdict, verdict.bounds), ("UNSAT", None))
        verdict = pb.check(example("optimum.opb"), example("optimum.pbp"))
        self.assertEqual((verdict.verdict, verdict.bounds), ("BOUNDS", (1, 1)))


class Pieces(unittest.TestCase):
    def checked(self, instance, proof, size):
        with pb.Checker(instance) as checker:
            for first in range(0, len(proof), size):
                checker.feed(proof[first : first + size])
            return checker.finish()

    def test_any_size(self):
        for name, line in (("refutation", "verified UNSAT\n"), ("optimum", "verified BOUNDS 1 1\n"), ("solution", "verified SAT\n")):
            for size in (1, 7, 4096):
                self.assertEqual(self.checked(example(f"{name}.opb"), example(f"{name}.pbp"), size), line)

    def test_a_fault_has_its_parts(self):
        proof = b"pseudo-Boolean proof version 2.0\nf 2\nrup +1 x1 >= 1 ;\ndel id 9 ;\n"
        instance = b"* #variable= 1 #constraint= 2\n+1 x1 >= 1 ;\n-1 x1 >= 0 ;\n"
        with pb.Checker(instance) as checker:
            for _ in range(2):
                with self.assertRaises(pb.Fault) as it:
                    checker.feed(proof)
                fault = it.exception
                self.assertEqual((fault.status, fault.input, fault.line, fault.column, fault.offset), (pb.REFUSED, "proof", 4, 1, 54))
                self.assertEqual((fault.reason, fault.id, fault.number, fault.name), (pb.Reason.NO_SUCH_ID, 9, 0, ""))
                self.assertEqual(str(fault), "proof: line 4 column 1: no such id 9")

    def test_a_name_without_a_value(self):
        instance = b"* #variable= 2 #constraint= 1\n+1 x1 +1 second >= 1 ;\n"
        proof = b"pseudo-Boolean proof version 2.0\nf 1\nsolx x1\n"
        with pb.Checker(instance) as checker, self.assertRaises(pb.Fault) as it:
            checker.feed(proof)
        self.assertEqual((it.exception.reason, it.exception.name), (pb.Reason.NOT_TOTAL, "second"))

    def test_a_rejected_instance(self):
        with self.assertRaises(pb.Fault) as it:
            pb.Checker(b"1x1 >= 1 ;\n")
        self.assertEqual((it.exception.input, it.exception.reason, it.exception.number), ("instance", pb.Reason.BYTE, ord("1")))

    def test_position_and_what_is_held(self):
        header = b"pseudo-Boolean proof version 2.0\n"
        with pb.Checker(example("refutation.opb")) as checker:
            self.assertEqual(checker.feed(header), len(header))
            self.assertEqual((checker.place.line, checker.place.column, checker.place.offset), (2, 1, 33))
            self.assertEqual(checker.held, 0)

    def test_bytes_after_the_end_are_not_used(self):
        proof = example("refutation.pbp").rstrip(b"\n")
        with pb.Checker(example("refutation.opb")) as checker:
            self.assertEqual(checker.feed(proof), len(proof))
            self.assertEqual(checker.feed(b"\n* the end\n"), 0)
            self.assertEqual(checker.finish().verdict, "UNSAT")

    def test_a_closed_checker(self):
        checker = pb.Checker(example("refutation.opb"))
        checker.close()
        checker.close()
        for call in (lambda: checker.feed(b""), checker.finish, lambda: checker.place, lambda: checker.held):
            with self.assertRaises(pb.Fault) as it:
                call()
            self.assertEqual((it.exception.status, it.exception.reason), (pb.MISUSE, pb.Reason.MISUSED))

    def test_another_thread(self):
        checker, found = pb.Checker(example("refutation.opb")), []
        def call():
            try:
                checker.feed(b"")
            except RuntimeError as it:
                found.append(str(it))
        thread = threading.Thread(target=call)
        thread.start()
        thread.join()
        self.assertEqual(found, ["a checker belongs to the thread that made it"])


    def test_eight_threads(self):
        texts = [(example(f"{name}.opb"), example(f"{name}.pbp")) for name in ("refutation", "optimum", "solution")]
        wanted, found = ["verified UNSAT\n", "verified BOUNDS 1 1\n", "verified SAT\n"] * 8, [[] for _ in range(8)]

        def call(to):
            for _ in range(8):
                for instance, proof in texts:
                    to.append(self.checked(instance, proof, 5))
                    pb.show(proof), pb.read_instance(instance)

        threads = [threading.Thread(target=call, args=[to]) for to in found]
        for thread in threads:
            thread.start()
        for thread in threads:
            thread.join()
        self.assertEqual(found, [wanted] * 8)

    def test_other_threads_run_during_a_call(self):
        """A call that takes long and a thread that counts: with the lock held it could not count."""
        instance = b"* #variable= 1 #constraint= 1\n+1 x1 >= 1 ;\n"
        proof = b"pseudo-Boolean proof version 2.0\nf 1\n" + b"rup +1 x1 >= 1 ;\n" * 50000
        found, ended, begun = [], threading.Event(), threading.Event()

        def count():
            begun.set()
            while not ended.is_set():
                found.append(ended.wait(0.001))

        thread = threading.Thread(target=count)
        thread.start()
        begun.wait()
        with pb.Checker(instance) as checker:
            before = len(found)
            checker.feed(proof)
            during = len(found) - before
        ended.set()
        thread.join()
        self.assertGreater(during, 2)


class Steps(unittest.TestCase):
    INSTANCE = b"* #variable= 2 #constraint= 2\n+2 x1 +1 ~x2 >= 2 ;\n-1 x1 >= 0 ;\n"
    PROOF = b"""pseudo-Boolean proof version 2.0
f 2
pol 1 2 2 * +
del id 2
rup >= 1 ;
output NONE
conclusion NONE
end pseudo-Boolean proof
"""

    def test_states(self):
        with pb.Checker(self.INSTANCE) as checker:
            states = [*checker.steps(self.PROOF)]
            self.assertEqual(checker.finish().verdict, "NONE")
        self.assertEqual([it.accepted for it in states], [1, 2, 3, 4, 5, 6, 7, 8])
        self.assertEqual([it.newest for it in states], [0, 2, 3, 3, 4, 4, 4, 4])
        self.assertEqual([it.visits > 0 for it in states], [False] * 4 + [True] * 4)

    def test_live_constraints(self):
        with pb.Checker(self.INSTANCE) as checker:
            for state in checker.steps(self.PROOF):
                if state.accepted == 3:
                    self.assertEqual(checker.constraint(1), ([(2, "x1", False), (1, "x2", True)], 2))
                    self.assertEqual(checker.constraint(2), ([(1, "x1", True)], 1))
                    self.assertEqual(checker.constraint(3), ([(1, "x2", True)], 2))
            self.assertEqual(checker.constraint(4), ([], 1))
            for absent in (0, 2, 5):
                with self.assertRaises(KeyError):
                    checker.constraint(absent)
        with self.assertRaises(pb.Fault):
            checker.constraint(1)

    def test_any_cut(self):
        for size in (1, 3, 37, 4096):
            with pb.Checker(self.INSTANCE) as checker:
                pieces = (self.PROOF[at : at + size] for at in range(0, len(self.PROOF), size))
                self.assertEqual(sum(1 for piece in pieces for _ in checker.steps(piece)), 8)


class Statements(unittest.TestCase):
    def test_an_instance(self):
        text = b"* #variable= 2 #constraint= 1 more\n* a note\nmin: -2 x1 ;\n+1 x1 -%d ~x2 >= -1 ;\n" % (2**100)
        found = [*pb.statements(text)]
        self.assertEqual([it.kind for it in found], [pb.EventKind.HEADER, pb.EventKind.COMMENT, pb.EventKind.OBJECTIVE, pb.EventKind.CONSTRAINT])
        self.assertEqual([(it.line, it.column) for it in found], [(1, 1), (2, 1), (3, 1), (4, 1)])
        header, comment, objective, constraint = (it.tokens for it in found)
        self.assertEqual(header, [(pb.TokenKind.COUNT, 2, ""), (pb.TokenKind.COUNT, 1, "")])
        self.assertEqual(comment, [])
        self.assertEqual(objective, [(pb.TokenKind.TERM, -2, "x1")])
        terms = [(pb.TokenKind.TERM, 1, "x1"), (pb.TokenKind.NEGATED_TERM, -(2**100), "x2"), (pb.TokenKind.AT_LEAST, -1, "")]
        self.assertEqual(constraint, terms)
        self.assertEqual(text[found[3].offset : found[3].past], b"+1 x1 -%d ~x2 >= -1 ;" % (2**100))

    def test_a_proof_from_a_file(self):
        lines = {
            b"f 2": (pb.EventKind.F, [(pb.TokenKind.COUNT, 2, "")]),
            b"pol 1 ~x1 + 3 d s x2 w": (
                pb.EventKind.POL,
                [(pb.TokenKind.ID, 1, ""), (pb.TokenKind.NEGATED_LITERAL, 0, "x1"), (pb.TokenKind.ADD, 0, ""), (pb.TokenKind.DIVIDE, 3, ""), (pb.TokenKind.SATURATE, 0, ""),
                 (pb.TokenKind.WEAKEN, 0, "x2")],
            ),
            b"rup +1 x1 >= 1 ;": (pb.EventKind.RUP, [(pb.TokenKind.TERM, 1, "x1"), (pb.TokenKind.AT_LEAST, 1, "")]),
            b"soli x1 ~x2": (pb.EventKind.SOLI, [(pb.TokenKind.LITERAL, 0, "x1"), (pb.TokenKind.NEGATED_LITERAL, 0, "x2")]),
            b"del id 3 -1": (pb.EventKind.DELETE, [(pb.TokenKind.ID, 3, ""), (pb.TokenKind.ID, -1, "")]),
            b"output NONE": (pb.EventKind.OUTPUT, []),
            b"conclusion BOUNDS 1 : 4 INF": (pb.EventKind.BOUNDS, [(pb.TokenKind.BOUND, 1, ""), (pb.TokenKind.ID, 4, ""), (pb.TokenKind.INFINITE, 0, "")]),
            b"end pseudo-Boolean proof": (pb.EventKind.END, []),
        }
        text = b"\n".join([b"pseudo-Boolean proof version 2.0", *lines, b""])
        with io.BytesIO(text) as file:
            found = [*pb.statements(file)]
        self.assertEqual(found[0].kind, pb.EventKind.PROOF)
        self.assertEqual([(it.kind, it.tokens) for it in found[1:]], [*lines.values()])
        # A statement goes through its line feed, but the last one has none.
        *begun, end = lines
        self.assertEqual([text[it.offset : it.past] for it in found[1:]], [*(line + b"\n" for line in begun), end])

    def test_the_examples(self):
        for name in ("refutation", "optimum", "solution"):
            for suffix in (".opb", ".pbp"):
                text = example(name + suffix)
                shown = pb.show(text).splitlines()
                self.assertEqual([f"{it.line}:{it.column}" for it in pb.statements(text)], [it.split()[0].decode() for it in shown])

    def test_a_fault(self):
        found, reader = [], pb.statements(b"* #variable= 1 #constraint= 1\n1x1 >= 1 ;\n")
        with self.assertRaises(pb.Fault) as it:
            for statement in reader:
                found.append(statement.kind)
        self.assertEqual(found, [pb.EventKind.HEADER])
        self.assertEqual((it.exception.line, it.exception.column, it.exception.number), (2, 2, ord("x")))
        for text in (b"", b"* #variable= 1 #constraint= 1\n"):
            with self.assertRaises(pb.Fault) as it:
                [*pb.statements(text)]
            self.assertEqual(it.exception.reason, pb.Reason.ENDED)

    def test_any_cut(self):
        text = example("optimum.pbp")
        wanted = [*pb.statements(text)]
        for size in (1, 3, 37):
            with pb.Reader(pb.Format.PROOF) as reader:
                found = [it for at in range(0, len(text), size) for it in reader.feed(text[at : at + size])]
                reader.finish()
            self.assertEqual(found, wanted)

    def test_what_follows_the_text(self):
        text = b"* #variable= 1 #constraint= 1\n+1 x1 >= 1 ;\n"
        self.assertEqual([*pb.statements(text + b"more")], [*pb.statements(text)])

    def test_a_closed_reader(self):
        reader = pb.Reader(pb.Format.INSTANCE)
        reader.close()
        for call in (lambda: [*reader.feed(b"")], reader.finish):
            with self.assertRaises(pb.Fault) as it:
                call()
            self.assertEqual(it.exception.code, pb.MISUSE)


class Writing(unittest.TestCase):
    def test_the_statements_of_a_text_make_it_again(self):
        for name in ("covering.opb", "optimum.opb", "consequence.pbp", "optimum.pbp", "solution.pbp"):
            lines = [pb.write_statement(it.kind, it.tokens, it.text) for it in pb.statements(example(name))]
            self.assertEqual(b"\n".join(lines), pb.tidy(example(name)).rstrip(b"\n"))

    def test_a_constraint(self):
        tokens = [
            pb.Token(pb.TokenKind.TERM, 2**100, "x1"),
            pb.Token(pb.TokenKind.NEGATED_TERM, -1, "x2"),
            pb.Token(pb.TokenKind.TERM, 3, "x1"),
            pb.Token(pb.TokenKind.EQUAL, -4, ""),
        ]
        found = pb.write_statement(pb.EventKind.CONSTRAINT, tokens)
        self.assertEqual(found, b"+%d x1 -1 ~x2 +3 x1 = -4 ;" % 2**100)

    def test_a_free_text(self):
        counts = [pb.Token(pb.TokenKind.COUNT, it, "") for it in (3, 1)]
        self.assertEqual(pb.write_statement(pb.EventKind.HEADER, counts, b" more"), b"* #variable= 3 #constraint= 1 more")
        self.assertEqual(pb.write_statement(pb.EventKind.COMMENT, [], bytearray(b"\xff \0")), b"*\xff \0")

    def test_a_long_name(self):
        name = "n" * 5000
        found = pb.write_statement(pb.EventKind.SOLI, [pb.Token(pb.TokenKind.NEGATED_LITERAL, 0, name)])
        self.assertEqual(found, b"soli ~" + name.encode())

    def test_what_no_statement_has(self):
        term, degree = pb.Token(pb.TokenKind.TERM, 1, "x1"), pb.Token(pb.TokenKind.AT_LEAST, 1, "")
        rows = (
            ([term], b"", 1),
            ([degree, term], b"", 0),
            ([term, degree, degree], b"", 2),
            ([term._replace(name="1"), degree], b"", 0),
            ([term._replace(name="\ud800"), degree], b"", 0),
            ([term, degree._replace(number=2**127 - 1)], b"", None),
            ([term, degree._replace(number=-(2**127))], b"", 1),
            ([term, degree], b"text", 2),
        )
        for tokens, text, index in rows:
            try:
                found = pb.write_statement(pb.EventKind.CONSTRAINT, tokens, text) and None
            except pb.WriteFault as it:
                self.assertEqual(it.code, pb.REFUSED)
                found = it.token
            self.assertEqual(found, index, tokens)
        with self.assertRaises(OverflowError):
            pb.write_statement(pb.EventKind.CONSTRAINT, [degree._replace(number=2**127)])

    def test_options(self):
        tokens = [pb.Token(pb.TokenKind.AT_LEAST, 2**31, "")]
        with self.assertRaises(pb.WriteFault) as it:
            pb.write_statement(pb.EventKind.CONSTRAINT, tokens, b"", pb.options(bits=31))
        self.assertEqual((it.exception.code, it.exception.token), (pb.REFUSED, 0))
        with self.assertRaises(pb.WriteFault) as it:
            pb.write_statement(pb.EventKind.CONSTRAINT, tokens, b"", pb.options(bits=30))
        self.assertEqual(it.exception.code, pb.MISUSE)


class Arrays(unittest.TestCase):
    def test_an_instance(self):
        text = b"* #variable= 2 #constraint= 2\nmin: -2 x1 ;\n* between\n+1 x1 -%d ~x2 >= -1 ;\n+3 x2 = 3 ;\n" % (2**100)
        found = pb.read_instance(text)
        self.assertEqual(found.names, ["x1", "x2"])
        self.assertEqual(found.objective, [(-2, "x1", False)])
        first, second = found.constraints
        self.assertEqual(first, ([(1, "x1", False), (-(2**100), "x2", True)], ">=", -1, 4, 1))
        self.assertEqual(second, ([(3, "x2", False)], "=", 3, 5, 1))
        self.assertEqual([*found.numbers], [0, 0, 1, 1])
        self.assertEqual([*found.ends], [1, 3, 4])
        self.assertEqual(memoryview(found.kinds).tobytes(), bytes([pb.Instance.OBJECTIVE, pb.Instance.AT_LEAST, pb.Instance.EQUAL]))
        self.assertEqual(text[found.firsts[2] : found.pasts[2]], b"+3 x2 = 3 ;")

    def test_the_arrays_are_shared(self):
        found = pb.read_instance(b"* #variable= 2 #constraint= 1\n+1 x1 -2 ~x2 >= -1 ;\n")
        codes = {"numbers": "Q", "negated": "B", "lows": "Q", "highs": "q", "kinds": "B", "ends": "Q", "degree_lows": "Q", "degree_highs": "q"}
        codes.update({it: "Q" for it in ("lines", "columns", "firsts", "pasts")})
        for name, code in codes.items():
            view = memoryview(getattr(found, name))
            self.assertEqual((view.format, view.contiguous, view.nbytes), (code, True, len(view) * view.itemsize))
        view = memoryview(found.numbers)
        view[0] = 7
        self.assertEqual(found.numbers[0], 7)

    @unittest.skipUnless(importlib.util.find_spec("numpy"), "there is no numpy")
    def test_numpy_takes_the_arrays_without_a_copy(self):
        import numpy

        found = pb.read_instance(b"* #variable= 2 #constraint= 1\n+1 x1 -2 ~x2 >= -1 ;\n")
        for array, kind in ((found.numbers, "uint64"), (found.highs, "int64"), (found.kinds, "uint8"), (found.names.starts, "uint64")):
            seen = numpy.asarray(array)
            self.assertEqual(seen.dtype, kind)
            seen[0] = 5
            self.assertEqual(array[0], 5)

    def test_long_names(self):
        names = [("n" * size).encode() + b"%d" % size for size in (2, 62, 63, 64, 65, 5000, 3)]
        text = b"* #variable= 7 #constraint= 1\n" + b" ".join(b"+1 " + name for name in names) + b" >= 1 ;\n"
        found, names = pb.read_instance(text).names, [name.decode() for name in names]
        self.assertEqual([*found], names)
        self.assertEqual((found[0], found[-1], found[1:3], len(found), found == names), (names[0], "nnn3", names[1:3], 7, True))
        for absent in (7, -8):
            with self.assertRaises(IndexError):
                found[absent]

    def test_no_rows(self):
        found = pb.read_instance(b"* #variable= 0 #constraint= 0\n")
        self.assertEqual((found.names, found.objective, [*found.constraints]), ([], None, []))

    def test_a_rejected_instance(self):
        with self.assertRaises(pb.Fault) as it:
            pb.read_instance(b"* #variable= 1 #constraint= 1\n1x1 >= 1 ;\n")
        self.assertEqual((it.exception.line, it.exception.column, it.exception.number), (2, 2, ord("x")))
        with self.assertRaises(pb.Fault) as it:
            pb.read_instance(b"", pb.options(bits=30))
        self.assertEqual(it.exception.status, pb.MISUSE)


if __name__ == "__main__":
    unittest.main()
