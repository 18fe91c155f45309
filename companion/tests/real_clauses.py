"""Random loops whose scalars get OpenMP's clauses by the facts alone, run by gfortran with and without threads."""

import os
import random
import shutil
import subprocess
import tempfile
import unittest
from pathlib import Path
from typing import List, Optional, Tuple

from .real_programs import Program

#: Scalars whose values are needed after each loop, and scalars that are local.
NEEDED = ("S", "T", "K")
LOCAL = ("U", "V", "M")
SCALARS = (*NEEDED, *LOCAL)
HEAD = "SUBROUTINE {}(A, B, S, T, K, N)\nINTEGER A(N), B(N), S, T, K, N, U, V, M, I, J\nU = 3; V = 5; M = 2"


class _Body:
    """Writes the body of a loop whose iterations share nothing but scalars."""

    def __init__(self, numbers: random.Random, label: int) -> None:
        self.numbers = numbers
        self.label = label
        self.lines: List[str] = []

    def write(self) -> List[str]:
        """The lines, with a label at the end of the iteration."""
        for _ in range(self.numbers.randint(2, 5)):
            self.statement(0)
        return [*self.lines, f"{self.label} CONTINUE"]

    def value(self) -> str:
        return self.numbers.choice((*SCALARS, "A(I)", "A(I)", "B(I)", "7", "I"))

    def assignment(self) -> str:
        name = self.numbers.choice(SCALARS)
        form = self.numbers.choice(("gather", "gather", "grow", "plain", "plain", "array", "array"))
        if form == "gather":
            value = self.numbers.choice(("A(I)", "B(I)", "I", "A(I)*B(I)"))
            return self.numbers.choice((f"{name} = {name} + {value}", f"{name} = {name} - {value}",
                                        f"{name} = MAX({name}, {value})", f"IF ({value} < {name}) {name} = {value}"))
        if form == "grow":
            return f"{name} = {name} + {self.numbers.choice(('2', 'N'))}"
        if form == "plain":
            return f"{name} = {self.value()} + {self.value()}"
        return f"{self.numbers.choice(('A', 'B'))}(I) = {self.value()} - {self.value()}"

    def statement(self, depth: int) -> None:
        kind = self.numbers.choice(("=", "=", "=", "if", "block", "jump", "loop"))
        condition = f"MOD({self.numbers.choice(('A(I)', 'B(I)', 'I'))}, 3) == {self.numbers.randint(0, 2)}"
        if kind == "jump":
            self.lines.append(f"IF ({condition}) {self.numbers.choice((f'GO TO {self.label}', 'CYCLE'))}" if not depth
                              else f"IF ({condition}) GO TO {self.label}")
        elif kind == "block" and depth < 2:
            self.lines.append(f"IF ({condition}) THEN")
            self.statement(depth + 1)
            self.lines.append("ELSE")
            self.statement(depth + 1)
            self.lines.append("END IF")
        elif kind == "loop" and depth < 1:
            self.lines.append("DO J = 1, MOD(I, 3)")
            self.lines.append(self.assignment())
            self.lines.append("END DO")
        else:
            assignment = self.assignment()
            is_plain = kind != "if" or "IF" in assignment
            self.lines.append(assignment if is_plain else f"IF ({condition}) {assignment}")


def clauses(made: Program) -> Optional[str]:
    """The clauses of the first loop, none where a scalar is carried."""
    block, facts = made.loops[0], made.facts
    if facts.body(block).faults:
        return None
    iteration, live = facts.liveness.iteration(block), facts.liveness.live_after(block)
    reductions = {one.name: one for one in facts.reductions(block)}
    inductions = {one.name: one for one in facts.inductions(block)}
    found = ["PRIVATE(J)"]
    for name in sorted(iteration.assigned & set(SCALARS)):
        if name in reductions:
            found.append(f"REDUCTION({reductions[name].operator}:{name})")
        elif name in inductions:
            found.append(f"LINEAR({name}:{'-' if inductions[name].falls else ''}{inductions[name].step})")
        elif name in iteration.exposed or name in live and name not in iteration.always:
            return None
        else:
            found.append(f"FIRSTPRIVATE({name}) LASTPRIVATE({name})" if name in live else f"PRIVATE({name})")
    return " ".join(found)


def random_subroutine(numbers: random.Random, number: int) -> Optional[Tuple[str, str]]:
    """A subroutine with clauses, and its clauses."""
    body = _Body(numbers, 10).write()
    after = [f"{numbers.choice(NEEDED)} = {numbers.choice(LOCAL)}" for _ in range(numbers.randint(0, 2))]
    head = HEAD.format(f"W{number}")
    made = Program("\n".join([head, "DO I = 1, N", *body, "END DO", *after, "END", ""]))
    found = clauses(made)
    if found is None:
        return None
    text = [head, "!$OMP PARALLEL DO &", *(f"!$OMP {clause} &" for clause in found.split()), "!$OMP SCHEDULE(RUNTIME)",
            "DO I = 1, N", *body, "END DO", *after, "END", ""]
    return "\n".join(text), found


def driver(count: int) -> str:
    """The main program: each subroutine once with no iteration, with one, and with many."""
    calls = [
        f"DO L = 0, 2\nCALL FILL\nCALL W{number}(A, B, S, T, K, SIZES(L))\n"
        f"PRINT *, {number}, S, T, K, SUM(A), SUM(B)\nEND DO"
        for number in range(count)
    ]
    return "\n".join([
        "PROGRAM P", "INTEGER A(97), B(97), S, T, K, L, SIZES(0:2)", "SIZES = [0, 1, 97]", *calls, "CONTAINS",
        "SUBROUTINE FILL", "INTEGER I", "A = [(MOD(I*37, 101), I = 1, 97)]; B = [(MOD(I*53, 89), I = 1, 97)]",
        "S = 11; T = 13; K = 17", "END SUBROUTINE", "END", "",
    ])


class Clauses(unittest.TestCase):
    def test_random_loops(self) -> None:
        self.assertIsNotNone(shutil.which("gfortran"), "gfortran is missing")
        numbers = random.Random(711)
        texts: List[str] = []
        kinds = ""
        while len(texts) < 60:
            found = random_subroutine(numbers, len(texts))
            if found is not None and len(found[1].split()) > 1:
                texts.append(found[0])
                kinds += found[1]
        for kind in ("REDUCTION(+", "REDUCTION(MAX", "REDUCTION(MIN", "LINEAR", "LASTPRIVATE", "PRIVATE(U"):
            self.assertIn(kind, kinds)
        with tempfile.TemporaryDirectory() as folder:
            path = Path(folder) / "loops.f90"
            path.write_text("\n".join([*texts, driver(len(texts))]))
            wanted = self.run_with(path)
            for schedule in ("static", "static,1", "dynamic"):
                self.assertEqual(self.run_with(path, schedule), wanted, schedule)

    def run_with(self, path: Path, schedule: str = "") -> List[str]:
        """What a program prints, with four threads where a schedule is given."""
        built = path.with_suffix(".parallel" if schedule else ".serial")
        if not built.exists():
            options = ["-fopenmp"] if schedule else []
            subprocess.run(["gfortran", "-w", *options, "-o", str(built), str(path)], check=True)
        environment = {**os.environ, "OMP_NUM_THREADS": "4", "OMP_SCHEDULE": schedule or "static"}
        ran = subprocess.run([str(built)], check=True, stdout=subprocess.PIPE, env=environment, universal_newlines=True)
        return ran.stdout.splitlines()
