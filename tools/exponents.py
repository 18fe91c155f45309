#!/usr/bin/env python3
"""Says how the cost of each command grows: runs it on programs of three sizes, counts instructions, and prints a table of exponents.

    tools/exponents.py [--program PROGRAM] [ROW ..]

A row has a command, the work that its cost should be in proportion to, and programs of three sizes. The exponent is that of the
instructions against the work, from the second size to the third, less what the same program takes on an empty one. 1.00 is growth in
proportion. Where the work itself is a square, as the pairs of references are, the exponent is still 1.00 if the cost is in proportion
to it. Instructions are counted by `valgrind --tool=callgrind`, so other work on the machine doesn't matter. The program is the proved
one of the present sources, or the one that is named. It is run by hand; docs/PERFORMANCE.md has its table.
"""
import argparse
import math
import pathlib
import re
import subprocess
import sys
import tempfile
from typing import Callable, List, NamedTuple, Optional

TOP = pathlib.Path(__file__).resolve().parent.parent
COUNTED = re.compile(r"Collected : (\d+)")
MOST = 1.15
EMPTY = "      END\n"


class Input(NamedTuple):
    """A program, the script of a session on it or none for `show`, and the work that the cost should be in proportion to."""

    program: str
    script: Optional[str]
    work: int


class Row(NamedTuple):
    """A row of the table. What the script does before the lines that count is in `before`, and its cost is taken away."""

    name: str
    work: str
    sizes: List[int]
    make: Callable[[int], Input]
    before: Callable[[int], Optional[Input]] = lambda size: None


def lines(statements: List[str]) -> str:
    return "".join(f"      {one}\n" for one in statements)


def nest(size: int) -> str:
    """Two loops around statements that read and write one array: 5 pairs for each two statements."""
    body = ["A(I,J)=A(I-1,J)+A(I,J-1)"] * size
    return lines(["INTEGER A(9,9)", "DO I=2,9", "DO J=2,9", *body, "END DO", "END DO", "END"])


def deep_nest(size: int) -> str:
    """Six loops around statements with two indices in each subscript."""
    body = ["A(I+J,I+K)=A(I+J-1,K+I)+A(L+M,N)"] * size
    heads = [f"DO {name}=1,9" for name in "IJKLMN"]
    return lines(["INTEGER A(99,99)", *heads, *body, *["END DO"] * 6, "END"])


def loops(size: int, body: str = "A(I)=I", declared: str = "INTEGER A(9)") -> str:
    """Loops of one statement, one after the other. Each has an array of its own name where the body has an @."""
    made = []
    names = []
    for number in range(size):
        name = f"X{number}"
        names.append(name)
        made += ["DO I=1,9", body.replace("@", name), "END DO"]
    declarations = [f"INTEGER {name}(9)" for name in names] if "@" in body else [declared]
    return lines([*declarations, *made, "END"])


def free_loops(size: int) -> str:
    return loops(size, "@(I)=I")


def scalar_loop(size: int) -> str:
    return lines(["DO I=1,9", *(f"K{number}=I" for number in range(size)), "END DO", "END"])


def iterating(size: int, head: str = "DO") -> str:
    return lines([f"INTEGER A({size})", f"{head} I=1,{size}", "A(I)=I", "END DO", "END"])


def sessions(make: Callable[[int], str], script: Callable[[int], str], work: Callable[[int], int]) -> Callable[[int], Input]:
    return lambda size: Input(make(size), script(size), work(size))


def opened(make: Callable[[int], str], script: Callable[[int], str] = lambda size: "") -> Callable[[int], Optional[Input]]:
    return lambda size: Input(make(size), script(size), 0)


def step_row(name: str, make: Callable[[int], str], step: str, sizes: List[int]) -> Row:
    """A step on a program of loops; the work is the program's statements."""
    return Row(name, "statements", sizes, sessions(make, lambda size: step + "\n", lambda size: 2 * size), opened(make))


def of_pairs(size: int) -> int:
    return 5 * size * size


LOOPS = [100, 200, 400]
ROWS = [
    Row("show, two loops", "pairs", [20, 40, 80], lambda size: Input(nest(size), None, of_pairs(size))),
    Row("show, six loops", "pairs", [2, 4, 8], lambda size: Input(deep_nest(size), None, of_pairs(size))),
    Row("show, free loops", "statements", LOOPS, lambda size: Input(free_loops(size), None, size)),
    Row("show, scalars", "statements", LOOPS, lambda size: Input(scalar_loop(size), None, size)),
    Row("deps", "pairs", [20, 40, 80], sessions(nest, lambda size: "deps\n", of_pairs), opened(nest)),
    Row("deps 3", "statements", [20, 40, 80], sessions(nest, lambda size: "deps 3\n", lambda size: size), opened(nest)),
    Row("source", "statements", LOOPS, sessions(free_loops, lambda size: "source\n", lambda size: size), opened(free_loops)),
    Row("an edit", "statements", [20, 40, 80],
        sessions(nest, lambda size: "replace 4 4\n      A(I,J)=A(I-1,J)+A(I,J-1)\n.\n", lambda size: size), opened(nest)),
    Row("an edit of free loops", "statements", LOOPS,
        sessions(free_loops, lambda size: f"replace {size + 2} {size + 2}\n      X0(I)=I\n.\n", lambda size: size), opened(free_loops)),
    Row("undo", "pairs", [20, 40, 80],
        sessions(nest, lambda size: "replace 4 4\n      A(I,J)=A(I-1,J)+A(I,J-1)\n.\nundo\n", of_pairs),
        opened(nest, lambda size: "replace 4 4\n      A(I,J)=A(I-1,J)+A(I,J-1)\n.\n")),
    step_row("parallel", free_loops, "parallel 1", LOOPS),
    step_row("reverse", free_loops, "reverse 1", LOOPS),
    step_row("strip", free_loops, "strip 1 3", LOOPS),
    step_row("peel", free_loops, "peel 1 first", LOOPS),
    step_row("fuse", free_loops, "fuse 1", LOOPS),
    step_row("privatise, refused", scalar_loop, "privatise 1 K0", LOOPS),
    step_row("distribute", scalar_loop, "distribute 1", [50, 100, 200]),
    step_row("advise", free_loops, "advise 1", LOOPS),
    Row("auto, free loops", "statements", [20, 40, 80], sessions(free_loops, lambda size: "auto\n", lambda size: size), opened(free_loops)),
    Row("run, iterations", "iterations", [1000, 2000, 4000],
        sessions(iterating, lambda size: "run\n", lambda size: size), opened(iterating)),
    Row("run, PARALLEL DO", "iterations", [1000, 2000, 4000],
        sessions(lambda size: iterating(size, "PARALLEL DO"), lambda size: "run\n", lambda size: size),
        opened(lambda size: iterating(size, "PARALLEL DO"))),
    Row("run 0, PARALLEL DO", "iterations", [1000, 2000, 4000],
        sessions(lambda size: iterating(size, "PARALLEL DO"), lambda size: "run 0\n", lambda size: size),
        opened(lambda size: iterating(size, "PARALLEL DO"))),
    Row("races", "iterations", [1000, 2000, 4000],
        sessions(lambda size: iterating(size, "PARALLEL DO"), lambda size: "races\n", lambda size: size),
        opened(lambda size: iterating(size, "PARALLEL DO"))),
    Row("run, ELSE IF chain", "conditions", [20, 40, 80],
        sessions(lambda size: else_ifs(size), lambda size: "run\n", lambda size: size), opened(lambda size: else_ifs(size))),
    Row("CALLs", "statements", LOOPS, lambda size: Input(calls(size), None, size)),
]


def else_ifs(size: int) -> str:
    """A chain of ELSE IFs of which the last is taken."""
    chain = ["IF (K.EQ.1) THEN", "L=1"]
    for number in range(2, size):
        chain += [f"ELSE IF (K.EQ.{number}) THEN", f"L={number}"]
    return lines(["K=-1", *chain, *["END IF"], "END"])


def calls(size: int) -> str:
    return lines(["K=1", *["CALL S(K)"] * size, "END", "SUBROUTINE S(J)", "J=J+1", "END"])


def instructions(program: str, case: Input, folder: pathlib.Path) -> int:
    """Returns how many instructions a call takes."""
    (folder / "program.f").write_text(case.program)
    words = ["show", "program.f"]
    if case.script is not None:
        (folder / "script").write_text(case.script)
        words = ["session", "program.f", "script"]
    done = subprocess.run(
        ["valgrind", "--tool=callgrind", "--callgrind-out-file=/dev/null", program, *words], cwd=folder,
        stdin=subprocess.DEVNULL, stdout=subprocess.PIPE, stderr=subprocess.PIPE, check=False, text=True,
    )
    found = COUNTED.search(done.stderr)
    if done.returncode not in (0, 1) or not found:
        sys.exit(f"exponents: a call failed with status {done.returncode}: {done.stdout[:200]}{done.stderr[-500:]}")
    return int(found.group(1))


def measured(row: Row, program: str, folder: pathlib.Path) -> str:
    """Measures a row, and returns its line of the table."""
    found = []
    for size in row.sizes:
        case = row.make(size)
        before = row.before(size) or Input(EMPTY, case.script and "", 0)
        found.append((case.work, instructions(program, case, folder) - instructions(program, before, folder)))
    (work, cost), (most_work, most_cost) = found[-2:]
    exponent = math.log(max(most_cost, 1) / max(cost, 1)) / math.log(most_work / work)
    costs = " | ".join(f"{cost / work:,.0f}" for work, cost in found)
    return f"| {row.name} | {row.work} | {', '.join(str(work) for work, _ in found)} | {costs} | {exponent:.2f}{'' if exponent <= MOST else ', open'} |"


def proved_program() -> str:
    """Returns the proved program of the present sources."""
    found = subprocess.run(
        ["bash", "-c", '. "$PWD/tools/program.sh" && program_of "$(sources_sum)"'], cwd=TOP, check=True, text=True, stdout=subprocess.PIPE
    ).stdout.strip()
    if not pathlib.Path(found).is_file():
        sys.exit("exponents: the proved program is not built; .ci/run or ./prove builds it")
    return found


def main() -> int:
    parser = argparse.ArgumentParser(description=__doc__.split("\n")[0])
    parser.add_argument("--program")
    parser.add_argument("rows", nargs="*", metavar="ROW", help="rows by their names; all where none is named")
    asked = parser.parse_args()
    program = str(pathlib.Path(asked.program).resolve()) if asked.program else proved_program()
    rows = [row for row in ROWS if not asked.rows or row.name in asked.rows]
    print("| Command | Work | Sizes | Instructions for each unit of work | | | Exponent |\n|---|---|---|---|---|---|---|")
    with tempfile.TemporaryDirectory() as folder:
        for row in rows:
            print(measured(row, program, pathlib.Path(folder)), flush=True)
    return 0


if __name__ == "__main__":
    sys.exit(main())
