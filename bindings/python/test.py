#!/usr/bin/env python3
"""Tests of the Python binding: the module's functions on document 01's examples, and the library's functions on the calls of crates/examples, whose
expected replies are in the repository. Prints how many calls were compared."""

import ctypes
import os
import re
import unittest

import quadrensolo
from quadrensolo import Refusal, _library

FACT = b"(atoms 1)\n(rule 1 () ())\n"
FACT_FILE = (b"p cnf 7 16\n2 0\n1 -2 0\n-1 2 0\n1 -4 0\n1 -5 0\n-6 -4 0\n6 4 0\n4 -7 5 0\n4 7 -5 0\n-4 -7 -5 0\n-4 7 5 0\n-3 2 0\n3 -2 0\n"
             b"-2 4 0\n-2 -5 0\n-1 3 0\n")
ANSWER = b"s SATISFIABLE\nv 1 2 3 4 -5 -6 7 0\n"


class Module(unittest.TestCase):
    def refused(self, number, spot, function, *arguments):
        with self.assertRaises(Refusal) as caught:
            function(*arguments)
        self.assertEqual((caught.exception.number, caught.exception.spot), (number, spot))

    def test_read(self):
        self.assertEqual(quadrensolo.read(FACT), (7, 16))
        self.assertEqual(quadrensolo.read(b"(atoms 0)\n"), (0, 0))
        self.refused(3, 7, quadrensolo.read, b"(atoms 127)\n")
        self.refused(2, 0, quadrensolo.read, b"")

    def test_lines(self):
        lines = FACT_FILE.splitlines(keepends=True)
        self.assertEqual([quadrensolo.line(FACT, j) for j in range(17)], lines)
        self.refused(9, 16, quadrensolo.line, FACT, 17)
        for j in (-1, 1 << 64):
            self.assertRaises(ValueError, quadrensolo.line, FACT, j)
        for size in (11, 20, 1 << 20):
            self.assertEqual(b"".join(quadrensolo.runs(FACT, size)), FACT_FILE)
        self.refused(8, 11, list, quadrensolo.runs(FACT, 10))
        self.assertEqual(quadrensolo.clause_file(b"(atoms 0)\n"), b"p cnf 0 0\n")

    def test_models(self):
        model = quadrensolo.Model(1, 1, 0, bytes([1, 1, 1, 1, 0, 0, 1]), bytes([1]))
        self.assertEqual(quadrensolo.check(FACT, ANSWER), model)
        self.assertEqual(quadrensolo.fill_out(FACT, bytes([1])), model)
        self.assertEqual(quadrensolo.fill_out(b"(atoms 0)\n", b""), (0, 0, 0, b"", b""))
        self.refused(18, 1, quadrensolo.fill_out, FACT, bytes([0]))
        self.refused(12, 0, quadrensolo.check, FACT, b"s UNSATISFIABLE\n")
        self.refused(4, 16, quadrensolo.check, b"(atoms 1)\n(rule 2 () ())\n", ANSWER)

    def test_left_out(self):
        """5 and 6 are false in the fact's model, the others true: without 7 clause 11 is false, and clause 1 without any."""
        model = quadrensolo.fill_out(FACT, bytes([1]))
        self.assertEqual(quadrensolo.check(FACT, b"s SATISFIABLE\nv 1 2 3 4 7 0\n"), model._replace(assumed=2))
        self.assertEqual(quadrensolo.check(FACT, b"s SATISFIABLE\nv 1 2 3 4 -5 7 0\n"), model._replace(assumed=1))
        self.assertEqual(quadrensolo.check(b"(atoms 0)\n", b"s SATISFIABLE\nv 0\n"), (0, 0, 0, b"", b""))
        self.refused(16, 11, quadrensolo.check, FACT, b"s SATISFIABLE\nv 1 2 3 4 -5 -6 0\n")
        self.refused(16, 1, quadrensolo.check, FACT, b"s SATISFIABLE\nv 0\n")
        self.refused(14, 18, quadrensolo.check, FACT, b"s SATISFIABLE\nv 1 -1 0\n")
        self.refused(13, 16, quadrensolo.check, FACT, b"s SATISFIABLE\nv 8 0\n")


def field(word):
    """Bytes of a field: `-` for none, two hexadecimal digits for a byte, or (HH)N; for that byte N times."""
    item = re.sub(r"\(([0-9a-f]{2})\)(\d+);", lambda found: found[1] * int(found[2]), word)
    return b"" if word == "-" else bytes.fromhex(item)


def shown(data):
    return data.hex() or "-"


def calls():
    """The calls of crates/examples, each with the line that is expected of it, by the ending of the file's name. A line that is no call is left out."""
    folder = os.path.join(quadrensolo.ROOT, "crates", "examples")
    with open(os.path.join(folder, "stdout")) as file:
        expected = iter(file.read().splitlines())
    with open(os.path.join(folder, "args")) as file:
        names = file.read().splitlines()
    found = {}
    for name in names:
        kind = name.split(".")[1]
        if kind == "lp":
            # A program text has three lines, or that of its refusal.
            if not next(expected).startswith("refused "):
                next(expected), next(expected)
            continue
        with open(os.path.join(folder, "data", name)) as file:
            pairs = [(line, next(expected)) for line in file.read().splitlines()]
        found.setdefault(kind, []).extend((line, reply) for line, reply in pairs if reply != "bad case")
    if next(expected, None) is not None:
        raise ValueError("crates/examples/stdout has lines that belong to no call")
    return found


class Calls(unittest.TestCase):
    """Each call's reply, and every byte of its buffers, against the line that crates/examples prints for it."""

    compared = 0
    given = calls()

    def compare(self, expected, reply, values, *buffers, used=None):
        """`used` says how many values the call has, if `values` are not all of them; the others are 0, and all are if it is refused."""
        used = 0 if reply.number else len(values) if used is None else used
        self.assertFalse(any((reply.a, reply.b, reply.c, reply.d)[used:]))
        words = [f"refused {reply.number} {reply.spot}"] if reply.number else [" ".join(map(str, ["ok", *values]))]
        self.assertEqual(" ".join(words + [shown(buffer.raw) for buffer in buffers]), expected)
        Calls.compared += 1

    def test_read(self):
        for line, expected in self.given["read"]:
            text = field(line)
            self.compare(expected, _library.qs_read(text, len(text)), (), used=2)

    def test_line(self):
        for line, expected in self.given["line"]:
            words = line.split(" ")
            text, buf = field(words[0]), field(words[3])
            buffer = ctypes.create_string_buffer(buf, len(buf))
            reply = _library.qs_line(text, len(text), int(words[1]), int(words[2]), buffer, len(buf))
            self.compare(expected, reply, (reply.a,), buffer)

    def test_run(self):
        for line, expected in self.given["run"]:
            words = line.split(" ")
            text, buf = field(words[0]), field(words[2])
            buffer = ctypes.create_string_buffer(buf, len(buf))
            reply = _library.qs_run(text, len(text), int(words[1]), buffer, len(buf))
            self.compare(expected, reply, (reply.a, reply.b), buffer)

    def models(self, kind, function, values):
        for line, expected in self.given[kind]:
            text, given, assignment, levels = map(field, line.split(" "))
            buffers = [ctypes.create_string_buffer(data, len(data)) for data in (assignment, levels)]
            reply = function(text, len(text), given, len(given), buffers[0], len(assignment), buffers[1], len(levels))
            self.compare(expected, reply, values(reply), *buffers)

    def test_check(self):
        self.models("check", _library.qs_check, lambda reply: (reply.a, reply.b, reply.c))

    def test_fill(self):
        self.models("fill", _library.qs_fill, lambda reply: (reply.a, reply.b))

    @classmethod
    def tearDownClass(cls):
        print(f"{cls.compared} calls compared")


if __name__ == "__main__":
    unittest.main()
