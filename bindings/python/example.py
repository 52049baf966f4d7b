#!/usr/bin/env python3
"""Writes the clause file of a ring with a way in, fills out its stable model, and checks that model as a solver would print it, whole and without the false
variables."""

import quadrensolo

program = b"(atoms 3)\n(rule 1 (2) ())\n(rule 2 (1) ())\n(rule 1 () (3))\n"
totals = quadrensolo.read(program)
print(f"{totals.variables} variables, {totals.clauses} clauses")
print(quadrensolo.clause_file(program).decode().splitlines()[0])

model = quadrensolo.fill_out(program, bytes([1, 1, 0]))
print(f"levels {list(model.levels)}")

values = " ".join(str(v if value else -v) for v, value in enumerate(model.assignment, 1))
answer = f"s SATISFIABLE\nv {values} 0\n".encode()
print("checked:", quadrensolo.check(program, answer) == model)

true = " ".join(str(v) for v, value in enumerate(model.assignment, 1) if value)
short = quadrensolo.check(program, f"s SATISFIABLE\nv {true} 0\n".encode())
print(f"checked: {short.assignment == model.assignment}, with {short.assumed} variables left out and read as false")

try:
    quadrensolo.fill_out(program, bytes([1, 1, 1]))
except quadrensolo.Refusal as refusal:
    print("refused:", refusal)
