"""The proved library for Python: ctypes over a shared object that `bindings/python/build` makes from the archive.

The library's functions are proved; this module is not. It passes bytes and buffers on, and turns replies into values or a Refusal.
"""

import ctypes
import os
from typing import NamedTuple

ROOT = os.path.dirname(os.path.dirname(os.path.dirname(os.path.realpath(__file__))))
LIBRARY = os.environ.get("QS_LIBRARY") or os.path.join(ROOT, "target", "python", "libquadrensolo.so")

# No line has more bytes.
MAX_LINE = 3008

# The rows of document 01's table of verdicts, and what the spot counts. Row 15 does not occur (Q-3 of document 02).
ROWS = {
    1: ("overlong", "length"), 2: ("malformed", "byte"), 3: ("too many atoms", "byte"), 4: ("unknown atom", "byte"),
    5: ("unordered", "byte"), 6: ("too many rules", "byte"), 7: ("bodies full", "byte"), 8: ("short buffer", "bytes needed"),
    9: ("no such clause", "clauses"), 10: ("overlong answer", "length"), 11: ("malformed answer", "byte"),
    12: ("no model offered", None), 13: ("stray variable", "byte"), 14: ("repeated variable", "byte"),
    16: ("false clause", "clause"), 17: ("bad set", "index"), 18: ("unfounded", "atom"),
}


class Refusal(Exception):
    """A refused call: the number of the row met, and its spot."""

    def __init__(self, number, spot):
        word, unit = ROWS.get(number, ("unknown row", "spot"))
        super().__init__(f"{word} (number {number})" + (f", {unit} {spot}" if unit else ""))
        self.number, self.spot = number, spot


class Totals(NamedTuple):
    variables: int
    clauses: int


class Model(NamedTuple):
    true_atoms: int
    highest_level: int
    assumed: int  # how many variables the answer leaves out: they are read as false; 0 from fill_out
    assignment: bytes  # of each variable, 0 or 1
    levels: bytes  # of each atom, 0 for a false one


class _Reply(ctypes.Structure):
    _fields_ = [(name, ctypes.c_uint64) for name in ("number", "spot", "a", "b", "c", "d")]


def _load():
    try:
        library = ctypes.CDLL(LIBRARY)
    except OSError as fault:
        raise ImportError(f"{fault}; bindings/python/build makes the shared object") from fault
    slice_ = [ctypes.c_char_p, ctypes.c_size_t]
    buffer = [ctypes.c_void_p, ctypes.c_size_t]
    size = [ctypes.c_size_t]
    for name, arguments in (("read", slice_), ("line", slice_ + size + size + buffer), ("run", slice_ + size + buffer),
                            ("check", slice_ + slice_ + buffer + buffer), ("fill", slice_ + slice_ + buffer + buffer)):
        function = getattr(library, "qs_" + name)
        function.argtypes, function.restype = arguments, _Reply
    return library


_library = _load()


def _numbers(reply):
    if reply.number:
        raise Refusal(reply.number, reply.spot)
    return reply.a, reply.b, reply.c


def read(text: bytes) -> Totals:
    """How many variables and clauses the clause file of a program text has."""
    variables, clauses, _ = _numbers(_library.qs_read(text, len(text)))
    return Totals(variables, clauses)


def line(text: bytes, j: int) -> bytes:
    """Line j of the clause file, with its line end. Line 0 is "p cnf V C"."""
    if not 0 <= j < 1 << 64:
        raise ValueError(f"no line number: {j}")
    buf = ctypes.create_string_buffer(MAX_LINE)
    length, _, _ = _numbers(_library.qs_line(text, len(text), j, 0, buf, MAX_LINE))
    return buf.raw[:length]


def runs(text: bytes, size: int = 1 << 20):
    """The clause file in parts of whole lines, each of at most `size` bytes."""
    _, clauses = read(text)
    buf = ctypes.create_string_buffer(size)
    j = 0
    while j <= clauses:
        lines, length, _ = _numbers(_library.qs_run(text, len(text), j, buf, size))
        yield ctypes.string_at(buf, length)
        j += lines


def clause_file(text: bytes) -> bytes:
    """The whole clause file."""
    return b"".join(runs(text))


def _model(function, text, given):
    variables, _ = read(text)
    # the text was accepted: it starts with "(atoms N)"
    atoms = int(text[len(b"(atoms "):text.index(b")")])
    assignment, levels = ctypes.create_string_buffer(variables), ctypes.create_string_buffer(atoms)
    numbers = _numbers(function(text, len(text), given, len(given), assignment, variables, levels, atoms))
    return Model(*numbers, assignment.raw, levels.raw)


def check(text: bytes, answer: bytes) -> Model:
    """The stable model that a solver's answer shows. A variable that the answer leaves out is read as false."""
    return _model(_library.qs_check, text, answer)


def fill_out(text: bytes, atoms: bytes) -> Model:
    """The stable model with these atoms, one byte of 0 or 1 for each."""
    return _model(_library.qs_fill, text, atoms)
