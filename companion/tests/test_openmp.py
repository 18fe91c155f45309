"""The translation for OpenMP: its text, what is said of it, and what the compiled programs print."""

import os
import shutil
import subprocess
import sys
import tempfile
import unittest
from concurrent.futures import ThreadPoolExecutor
from pathlib import Path
from typing import Dict, Iterator, List, NamedTuple, Optional, Sequence, Tuple

from ..editor.compiling import compile_command
from ..exports import Export, export_of
from ..lines import split_lines
from ..lists import live_sums
from ..openmp import Sums, Wishes, translate
from ..ped import ENCODING, read_file
from ..program import read_program
from ..statuses import Status
from ..views import Question, View, open_view
from .support import EXAMPLES, TOP, examples, example_view, fortran, is_wanted, ped, ped_path, view_of

#: How many lines the heading has.
_HEADING = 2


def translated(text: str, wishes: Wishes = Wishes(), sums: Optional[Sums] = None) -> List[str]:
    """A printed program, translated, without the heading."""
    lines = split_lines(text)
    return translate(lines, read_program(lines), sums or {}, wishes, {}).lines[_HEADING:]


def exported(*statements: str, data: Optional[str] = None, wishes: Wishes = Wishes()) -> Export:
    """The export of a program; comments begin with `C$`."""
    return export_of(ped(), view_of(program_of(*statements)), wishes, data)


def program_of(*statements: str) -> str:
    """A text with a statement or a comment on each line; comments begin with `C$`."""
    return "".join(f"{one}\n" if one.startswith("C$") else fortran(one) for one in statements)


def options_of(*statements: str) -> Tuple[str, ...]:
    """The options with which a program is to be compiled."""
    return exported(*statements).options


def live_lists(*statements: str) -> Sums:
    """The lists of sums of a program that are live; comments begin with `C$`."""
    lines = ped().show(program_of(*statements)).lines
    return live_sums(ped(), lines, read_program(lines))


class Text(unittest.TestCase):
    def test_private_names(self) -> None:
        """The clause names the PRIVATE list, the variables of inner loops, and their PRIVATE lists."""
        text = fortran(
            "PARALLEL DO I = 1, 9", "PRIVATE T, U", "DO J = 1, 9", "PRIVATE V", "T = J", "V = T", "END DO", "END DO",
            "END",
        )
        lines = translated(text)
        self.assertEqual(lines[:2], ["C$OMP PARALLEL DO PRIVATE(T,U,J,V)", "      DO I = 1, 9"])
        self.assertNotIn("PRIVATE V", "".join(lines))

    def test_what_stays_shared(self) -> None:
        """Where the PARALLEL DO uses a scalar outside the inner loop that has it in PRIVATE, it isn't named."""
        text = fortran(
            "PARALLEL DO I = 1, 9", "K = I", "DO J = 1, 9", "PRIVATE K", "K = J", "END DO", "END DO", "END"
        )
        self.assertEqual(translated(text)[0], "C$OMP PARALLEL DO PRIVATE(J)")

    def test_serial_loops(self) -> None:
        text = fortran("DO I = 1, 9", "PRIVATE T", "T = I", "END DO", "END")
        self.assertEqual(translated(text), split_lines(fortran("DO I = 1, 9", "T = I", "END DO", "END")))

    def test_long_clause(self) -> None:
        names = [f"LONGNAME{number}" for number in range(20)]
        # The printed list is cut behind column 72.
        listed = "      PRIVATE " + ", ".join(names)
        pieces = [listed[:72]] + [f"     &{listed[at:at + 66]}" for at in range(72, len(listed), 66)]
        text = fortran("PARALLEL DO I = 1, 9") + "\n".join(pieces) + "\n" + fortran("K = I", "END DO", "END")
        lines = translated(text)
        clause = [line for line in lines if line.startswith("C$OMP")]
        self.assertTrue(all(len(line) <= 72 for line in clause))
        self.assertEqual(clause[0][:28], "C$OMP PARALLEL DO PRIVATE(LO")
        self.assertTrue(all(line.startswith("C$OMP&") for line in clause[1:]))
        self.assertEqual("".join(line[6:] for line in clause), f"PARALLEL DO PRIVATE({','.join(names)})")
        self.assertEqual(lines[len(clause):], split_lines(fortran("DO I = 1, 9", "K = I", "END DO", "END")))

    def test_header_over_two_lines(self) -> None:
        bound = "+".join(["KLMNOP"] * 10)
        header = f"      PARALLEL DO I = 1, {bound}"
        text = header[:72] + "\n     &" + header[72:] + "\n" + fortran("K = I", "END DO", "END")
        lines = translated(text)
        joined = lines[1] + lines[2][6:]
        self.assertEqual(joined, f"      DO I = 1, {bound}")
        self.assertEqual(len(lines[1]), 72)

    def test_comments(self) -> None:
        """A blank in column 2 keeps each compiler from reading a comment as a directive."""
        for sentinel in (
            "$    X = Y +", "$OMP PARALLEL", "$omp barrier", "$ACC LOOP", "$ 10 X = Y", "GCC$ IVDEP", "gcc$ unroll 4",
            "DIR$ IVDEP",
            "dir$ ivdep", "DEC$ UNROLL", "PGI$ NODEPCHK", "IBM* INDEPENDENT", "VOCL LOOP,NOVREC", "*$* ASSERT",
            "*VDIR NODEP",
            "MIC$ DOALL", "HPF$ INDEPENDENT", "SMP$ DO", "@PROCESS", "OCL", "!$OMP FLUSH", "!DIR$ X", "\r$OMP FLUSH",
            "\0$OMP FLUSH",
            "\t$OMP FLUSH", "$PEDANTIC", "$REDUCE K", "D = 7",
        ):
            with self.subTest(sentinel):
                lines = translated(f"C{sentinel}\n" + fortran("K = 1", "END"))
                wanted = f"C{sentinel}" if sentinel == "$PEDANTIC" else f"C {sentinel}"
                self.assertEqual(lines[0], wanted)

    def test_comments_that_stay(self) -> None:
        comments = ["C", "C PLAIN", "C     FAR", "C-----", "C*****", "C$PED REJECT A"]
        text = "".join(f"{one}\n" for one in comments) + fortran("DO I = 1, 2", "A(L(I)) = 1", "END DO", "END")
        self.assertEqual(translated(text)[:len(comments)], comments)

    def test_sums(self) -> None:
        """The clause names the list, and PRIVATE what it would of a PARALLEL DO."""
        text = fortran(
            "DO I = 1, 9", "PRIVATE T", "T = I", "DO J = 1, 9", "K = K+T", "L = J+L", "END DO", "END DO", "END",
        )
        self.assertEqual(translated(text, sums={1: ["K", "L"]}), split_lines(
            "C$OMP PARALLEL DO PRIVATE(T,J) REDUCTION(+:K,L)\n" + fortran(
                "DO I = 1, 9", "T = I", "DO J = 1, 9", "K = K+T", "L = J+L", "END DO", "END DO", "END",
            )
        ))

    def test_renamed_sum(self) -> None:
        text = fortran("DO I = 1, 9", "MAX = MAX+I", "END DO", "PRINT *, MAX(2,3)", "END")
        self.assertEqual(translated(text, sums={1: ["MAX"]}), split_lines(
            "C$OMP PARALLEL DO REDUCTION(+:K0)\n" + fortran(
                "DO I = 1, 9", "K0 = K0+I", "END DO", "PRINT *, MAX(2,3)", "END",
            )
        ))

    def test_names_that_clash(self) -> None:
        text = fortran("PROGRAM N", "PARAMETER (N=10)", "MAX = N", "K = MAX(MAX,3)", "PRINT *, 'MAX', MAX", "END")
        self.assertEqual(translated(text), split_lines(fortran(
            "PARAMETER (N=10)", "K0 = N", "K = MAX(K0,3)", "PRINT *, 'MAX', K0", "END"
        )))
        text = fortran("MAX = 10", "PRINT *, MAX", "END")
        self.assertEqual(translated(text), split_lines(text))

        text = fortran("INTEGER PARAMETER(3)", "PARAMETERN = 10", "PARAMETER(1) = PARAMETERN", "END")
        self.assertEqual(translated(text), split_lines(fortran(
            "INTEGER PARAMETER(3)", "K0 = 10", "PARAMETER(1) = K0", "END"
        )))

    def test_live_variables(self) -> None:
        text = fortran("SAVE B, A", "IF (K.EQ.1) THEN", "STOP", "END IF", "END")
        self.assertEqual(translated(text, Wishes(live=True)), split_lines(fortran(
            "SAVE B, A", "IF (K.EQ.1) THEN", "PRINT *, 'live A', A", "PRINT *, 'live B', B", "STOP", "END IF",
            "PRINT *, 'live A', A", "PRINT *, 'live B', B", "END",
        )))


class Names(unittest.TestCase):
    """New names are none that the program has, and each use of the old one is replaced."""

    def test_taken_names(self) -> None:
        """K0 is the variable of a DO, K1 a constant, K2 the program, K3 private, K4 an array."""
        text = fortran(
            "PROGRAM K2", "PARAMETER (K1=2)", "INTEGER K4(3)", "SAVE MAX", "MAX = 5", "DO K0 = 1, 3", "PRIVATE K3",
            "K3 = MAX(MAX,2)", "END DO", "PRINT *, MAX", "END",
        )
        self.assertEqual(translated(text, Wishes(live=True)), split_lines(fortran(
            "PROGRAM K2", "PARAMETER (K1=2)", "INTEGER K4(3)", "SAVE K5", "K5 = 5", "DO K0 = 1, 3", "K3 = MAX(K5,2)",
            "END DO",
            "PRINT *, K5", "PRINT *, 'live MAX', K5", "END",
        )))

    def test_words_in_constants(self) -> None:
        text = fortran("MAX = 5", "PRINT *, 'MAX K0', MAX(MAX,1), 'K1''MAX'", "END")
        self.assertEqual(translated(text), split_lines(fortran(
            "K0 = 5", "PRINT *, 'MAX K0', MAX(K0,1), 'K1''MAX'", "END"
        )))

    def test_constants(self) -> None:
        text = fortran("PARAMETER (MAX=3)", "INTEGER A(MAX)", "A(MAX) = MAX(MAX,2)", "END")
        self.assertEqual(translated(text), split_lines(fortran(
            "PARAMETER (K0=3)", "INTEGER A(K0)", "A(K0) = MAX(K0,2)", "END"
        )))

    def test_program_name(self) -> None:
        """PROGRAM goes where its name is also a function's that is called anywhere, and stays else."""
        for called in ("K = MAX(K,2)", "INTEGER A(MAX(2,3))", "IF (MAX(K,2).EQ.2) THEN"):
            with self.subTest(called):
                self.assertEqual(translated(fortran("PROGRAM MAX", called, "END"))[0], fortran(called)[:-1])
        text = fortran("PROGRAM MAX", "K = MIN(K,2)", "END")
        self.assertEqual(translated(text), split_lines(text))

    def test_declared_or_listed_only(self) -> None:
        text = fortran("INTEGER MAX", "SAVE MAX", "DO MOD = 1, 3", "PRIVATE MIN", "K = MAX(K,MIN(2,MOD(K,5)))",
        "END DO", "END")
        self.assertEqual(translated(text), split_lines(fortran(
            "INTEGER K0", "SAVE K0", "DO K2 = 1, 3", "K = MAX(K,MIN(2,MOD(K,5)))", "END DO", "END"
        )))

    def test_words_of_statements(self) -> None:
        """A name isn't taken for a word of a statement, nor the other way round."""
        text = fortran(
            "INTEGER INTEGER, PARAMETERS, PARAMETERX", "PARAMETER (PARAMETERS=2)",
            "IF (PARAMETERX.EQ.PARAMETERS) THEN", "READ *, PARAMETERX",
            "END IF", "DO CONCURRENTDO = 1, 2", "PRINT *, CONCURRENTDO", "END DO", "END",
        )
        self.assertEqual(translated(text), split_lines(fortran(
            "INTEGER INTEGER, K1, K2", "PARAMETER (K1=2)", "IF (K2.EQ.K1) THEN", "READ *, K2", "END IF", "DO K0 = 1, 2",
            "PRINT *, K0", "END DO", "END",
        )))


class Headers(unittest.TestCase):
    """The header of a DO belongs to what is round it, also where the DO has a name of it in PRIVATE."""

    def test_inner_header(self) -> None:
        """KT is read outside the inner loop that has it in PRIVATE, so it is shared."""
        text = fortran(
            "PARALLEL DO I = 1, 5", "IF (I.EQ.2) THEN", "DO J = 1, KT", "PRIVATE KT", "KT = I*J", "END DO", "END IF",
            "END DO", "END"
        )
        self.assertEqual(translated(text)[0], "C$OMP PARALLEL DO PRIVATE(J)")

    def test_own_header(self) -> None:
        """What is private to a loop with a directive, and read in its header, has two names."""
        text = fortran(
            "PARALLEL DO I = I, KT+J", "PRIVATE KT", "KT = I", "DO J = 1, KT", "L = J+KT+I", "END DO", "END DO",
            "I = KT", "END"
        )
        self.assertEqual(translated(text), split_lines(
            "C$OMP PARALLEL DO PRIVATE(K2,K1)\n" + fortran(
                "DO K0 = I, KT+J", "K2 = K0", "DO K1 = 1, K2", "L = K1+K2+K0", "END DO", "END DO", "I = KT", "END"
            )
        ))

    def test_own_header_of_an_inner_directive(self) -> None:
        text = fortran(
            "PARALLEL DO I = 1, 9", "PRIVATE T", "T = I", "PARALLEL DO J = 1, T", "PRIVATE T", "T = J", "END DO",
            "END DO", "END"
        )
        self.assertEqual(translated(text, Wishes(every=True)), split_lines(
            "C$OMP PARALLEL DO PRIVATE(T,J)\n" + fortran("DO I = 1, 9", "T = I")
            + "C$OMP PARALLEL DO PRIVATE(K0)\n" + fortran("DO J = 1, T", "K0 = J", "END DO", "END DO", "END")
        ))


class Nests(unittest.TestCase):
    """The outermost loop of a nest gets a directive."""

    TEXT = program_of(
        "DO L = 1, 2", "PARALLEL DO I = 1, 9", "PARALLEL DO J = 1, 9", "PRIVATE T", "T = J", "END DO", "END DO",
        "END DO",
        "DO I = 1, 9", "PARALLEL DO J = 1, 9", "M = J", "END DO", "END DO", "END",
    )

    def directives(self, wishes: Wishes, sums: Optional[Sums] = None) -> List[str]:
        """The lines with a directive, and the lines behind them."""
        lines = translated(self.TEXT, wishes, sums)
        return [line for pair in zip(lines, lines[1:]) if pair[0].startswith("C$OMP") for line in pair]

    def test_outermost(self) -> None:
        self.assertEqual(self.directives(Wishes()), [
            "C$OMP PARALLEL DO PRIVATE(J,T)", "      DO I = 1, 9", "C$OMP PARALLEL DO", "      DO J = 1, 9",
        ])
        self.assertEqual(self.directives(Wishes(), {5: ["N"]})[2:], [
            "C$OMP PARALLEL DO PRIVATE(J) REDUCTION(+:N)", "      DO I = 1, 9",
        ])

    def test_all(self) -> None:
        self.assertEqual(self.directives(Wishes(every=True)), [
            "C$OMP PARALLEL DO PRIVATE(J,T)", "      DO I = 1, 9", "C$OMP PARALLEL DO PRIVATE(T)", "      DO J = 1, 9",
            "C$OMP PARALLEL DO", "      DO J = 1, 9",
        ])


class Declarations(unittest.TestCase):
    """What FORTRAN needs in the declarations, and ped doesn't."""

    def test_type_behind_the_value(self) -> None:
        text = fortran("PROGRAM P", "PARAMETER (SIZE=5)", "INTEGER SIZE", "K = SIZE", "END")
        self.assertEqual(translated(text)[:3], split_lines(
            fortran("PROGRAM P", "IMPLICIT INTEGER (A-Z)", "PARAMETER (SIZE=5)")
        ))
        for first in ("INTEGER SIZE", "IMPLICIT INTEGER (A-Z)"):
            text = fortran(first, "PARAMETER (SIZE=5)", "K = SIZE", "END")
            self.assertEqual(translated(text), split_lines(text))

    def test_large_arrays(self) -> None:
        """Arrays that aren't in SAVE might be put on the stack."""
        text = fortran("PARAMETER (N=300)", "INTEGER A(N,0:N), B(5), C(9)", "SAVE C", "A(1,1) = 1", "END")
        self.assertEqual(translated(text), split_lines(fortran(
            "PARAMETER (N=300)", "INTEGER A(N,0:N), B(5), C(9)", "SAVE C", "SAVE A, B", "A(1,1) = 1", "END"
        )))
        for small in (fortran("INTEGER A(300)", "A(1) = 1", "END"), fortran("INTEGER A(300,300)", "SAVE A", "END")):
            self.assertEqual(translated(small), split_lines(small))

    def test_constants_beyond_32_bits(self) -> None:
        """They have the values that ped computes, within 128 bits."""
        text = fortran(
            "PARAMETER (M=2**40/2**38)", "INTEGER A(100000*100000/1000000000), B(-2**40/2**38:5)",
            "DO I = 1, 9, 2**33/2**32",
            "K = J*(2**31-2**32+5)-M*2", "END DO", "L = -2147483647-1",
            "IF (2**31-2**32.EQ.K.OR..NOT.2**40.LT.2**39) THEN",
            "END IF", "END",
        )
        self.assertEqual(translated(text), split_lines(fortran(
            "PARAMETER (M=4)", "INTEGER A(10), B((-4):5)", "DO I = 1, 9, 2", "K = J*((-2147483643))-M*2", "END DO",
            "L = -2147483647-1", "IF ((-2147483647-1).EQ.K.OR..NOT.0.EQ.1) THEN", "END IF", "END",
        )))

    def test_constant_zeros(self) -> None:
        """gfortran refuses to divide by them, though ped does so only where it comes to it."""
        text = fortran(
            "PARAMETER (N=3)", "K = 1/0", "K = K/(N-3)+MOD(K,0)", "K = 0**(-1)+0**2", "K = 5/(1/0)",
            "K = 1/(2**40-2**40)", "END"
        )
        self.assertEqual(translated(text), split_lines(fortran(
            "PARAMETER (N=3)", "K = 1/K0", "K = K/(K0)+MOD(K,K0)", "K = K0**(-1)+0**2", "K = 5/(1/K0)", "K = 1/(K0)",
            "END"
        )))

    def test_cut_statements(self) -> None:
        """A constant, and a name, that are cut at column 72."""
        for width in range(50, 66):
            header = "K = " + "+".join(["L"] * (width // 2))
            text = fortran("MAX = 1", f"{header}+MAX+2**40/2**38*MAX(MAX,1)/J", "END")
            lines = split_lines(text)
            cut = [*lines[:1], lines[1][:72], "     &" + lines[1][72:], *lines[2:]]
            joined = "".join(line[6:] for line in translated("".join(f"{line}\n" for line in cut))[1:-1])
            self.assertEqual(joined, f"{header}+K0+4*MAX(K0,1)/J")


class Compiling(unittest.TestCase):
    """The command that compiles an export."""

    def test_heading(self) -> None:
        export = exported("DO I = 1, 9", "C$REDUCE K", "K = K+I", "END DO", "PRINT *, K", "END")
        command = compile_command(["gfortran"], export.options, "NAME.f")
        self.assertEqual(split_lines(export.text)[1], "C     " + " ".join(command))
        self.assertEqual(command, ["gfortran", "-fopenmp", "-O2", "-fwrapv", "-o", "NAME", "NAME.f"])

    def test_options(self) -> None:
        self.assertEqual(options_of("PARALLEL DO I = 1, 9", "K = I", "END DO", "END"), ("-fopenmp", "-O2"))
        self.assertEqual(options_of("K = L*(2**40)", "K = 2**40/2**38", "END"), ("-O2", "-fno-range-check"))
        self.assertEqual(options_of("K = 2**40/2**38", "END"), ("-O2",))


class Doubts(unittest.TestCase):
    """A directive that isn't sure is said to be so, at the directive and in a message."""

    def said(self, export: Export, words: str) -> List[str]:
        """The comments right before the first directive, and that a message has the same words."""
        lines = split_lines(export.text)
        directive = next(index for index, line in enumerate(lines) if line.startswith("C$OMP"))
        first = directive
        while lines[first - 1].startswith("C     "):
            first -= 1
        self.assertIn(words, " ".join(export.doubts))
        self.assertIn(words.upper(), " ".join(line[6:] for line in lines[first:directive]))
        return lines

    def test_nothing(self) -> None:
        self.assertEqual(exported("INTEGER A(9)", "PARALLEL DO I = 1, 9", "A(I) = I", "END DO", "END").doubts, ())
        self.assertEqual(exported("DO I = 1, 9", "C$REDUCE K", "K = K+I", "END DO", "PRINT *, K", "END").doubts, ())
        self.assertEqual(exported("INTEGER A(9)", "DO I = 2, 9", "A(I) = A(I-1)", "END DO", "END").doubts, ())

    def test_carried(self) -> None:
        export = exported("INTEGER A(9)", "PARALLEL DO I = 2, 9", "A(I) = A(I-1)+K", "K = I", "END DO", "END")
        self.said(export, "the iterations of this loop may race: it carries dependences of K and A")
        self.assertEqual(len(export.doubts), 1)
        self.assertTrue(export.doubts[0].startswith("p.f:2:7: warning: "))

    def test_many_names(self) -> None:
        sums = [f"N{number} = N{number}+I" for number in range(1, 11)]
        words = ", ".join(f"N{number}" for number in range(1, 9))
        self.said(exported("PARALLEL DO I = 1, 9", *sums, "END DO", "END"), f"dependences of {words} and 2 others")

    def test_rejected(self) -> None:
        loop = ["C$PED REJECT A", "PARALLEL DO I = 2, 9", "A(L(I)) = I", "END DO", "END"]
        self.said(exported("INTEGER A(9), L(9)", *loop), "this loop rests on C$PED REJECT A")

    def test_rejected_with_sums(self) -> None:
        loop = ["C$PED REJECT A", "DO I = 2, 9", "C$REDUCE K", "A(L(I)) = I", "K = K+I", "END DO", "PRINT *, K", "END"]
        export = exported("INTEGER A(9), L(9)", *loop)
        self.assertIn("REDUCTION(+:K)", export.text)
        self.said(export, "this loop rests on C$PED REJECT A")
        self.assertEqual(len(export.doubts), 1)

    def test_inner_loops(self) -> None:
        """What an inner loop carries counts where that has a directive."""
        loops = [
            "INTEGER A(9,9)", "PARALLEL DO I = 1, 9", "PARALLEL DO J = 2, 9", "A(I,J) = A(I,J-1)", "END DO", "END DO",
            "END"
        ]
        self.assertEqual(exported(*loops).doubts, ())
        self.assertEqual(len(exported(*loops, wishes=Wishes(every=True)).doubts), 1)

    def test_variable_that_leaves_32_bits(self) -> None:
        """OpenMP loops of gfortran miss iterations there."""
        for bounds, count in (
            ("1, 2147483647", 1), ("1, 2147483646", 0), ("2147483640, 2147483646, 5", 1), ("-5, -2147483647-1, -1", 1),
            ("2147483647, 1", 0), ("K, 2147483647", 0),
        ):
            with self.subTest(bounds):
                export = exported(f"PARALLEL DO I = {bounds}", "CONTINUE", "END DO", "END")
                self.assertEqual(len(export.doubts), count)

    def test_data(self) -> None:
        """Where data are given, a race on them is said, and a fault."""
        text = ["INTEGER A(20)", "READ *, K", "PARALLEL DO I = 1, 9", "A(MOD(I,K)+1) = I/K", "END DO", "END"]
        self.assertEqual(len(exported(*text, data="20\n").doubts), 1)
        export = exported(*text, data="3\n")
        self.assertEqual(len(export.doubts), 2)
        words = "a run on the given data has a race: two iterations of a PARALLEL DO use A(2), at statements 3 and 3"
        self.said(export, words)
        self.assertIn(f"p.f:4:7: error: {words}", export.doubts)
        self.assertIn("the run meets fault 3", exported(*text, data="0\n").doubts[1])


class Calls(unittest.TestCase):
    """Calls of `pedx omp`."""

    def setUp(self) -> None:
        self.folder = Path(tempfile.mkdtemp(prefix="pedx-test-"))
        self.addCleanup(shutil.rmtree, self.folder)

    def call(self, program: str, *words: str) -> "subprocess.CompletedProcess[str]":
        """A call on a program, in a folder of its own."""
        (self.folder / "p.f").write_text(program)
        return subprocess.run(
            [sys.executable, str(TOP / "pedx"), "omp", "p.f", *words], cwd=self.folder, stdout=subprocess.PIPE,
            stderr=subprocess.PIPE, universal_newlines=True, check=False, env={**os.environ, "PEDX_PED": ped_path()},
        )

    def test_strict(self) -> None:
        """Nothing is written where not all is sure, and a file that is there stays as it is."""
        racy = fortran("PARALLEL DO I = 1, 9", "K = I", "END DO", "END")
        (self.folder / "out.f").write_text("old")
        done = self.call(racy, "--all", "--strict", "-o", "out.f")
        self.assertEqual((done.returncode, done.stdout), (Status.DOUBTFUL, ""))
        self.assertEqual(split_lines(done.stderr), [
            "p.f:1:7: warning: the iterations of this loop may race: it carries dependences of K",
            "pedx: error: nothing is written, since not all is sure of it",
        ])
        self.assertEqual((self.folder / "out.f").read_text(), "old")
        free = fortran("INTEGER A(9)", "PARALLEL DO I = 1, 9", "A(I) = I", "END DO", "END")
        done = self.call(free, "--all", "--strict", "-o", "out.f")
        self.assertEqual((done.returncode, done.stderr), (Status.DONE, ""))
        self.assertIn("C$OMP PARALLEL DO", (self.folder / "out.f").read_text())

    def test_without_strict(self) -> None:
        done = self.call(fortran("PARALLEL DO I = 1, 90000", "K = I", "END DO", "END"))
        self.assertEqual(done.returncode, Status.DONE)
        self.assertIn("C$OMP PARALLEL DO", done.stdout)
        self.assertIn("may race", done.stderr)

    def test_data(self) -> None:
        (self.folder / "data").write_text("1\n")
        text = fortran("INTEGER A(9)", "READ *, K", "PARALLEL DO I = 1, 9", "A(I) = I/K", "END DO", "END")
        self.assertEqual(self.call(text, "--data", "data", "--all", "--strict").returncode, Status.DONE)
        (self.folder / "data").write_text("0\n")
        self.assertEqual(self.call(text, "--data", "data", "--all", "--strict").returncode, Status.DOUBTFUL)

    def test_all(self) -> None:
        text = fortran(
            "INTEGER A(1000,100)", "PARALLEL DO I = 1, 100", "PARALLEL DO J = 1, 1000", "A(J,I) = 1", "END DO", "END DO",
            "END",
        )
        self.assertEqual(self.call(text).stdout.count("C$OMP"), 1)
        self.assertEqual(self.call(text, "--all").stdout.count("C$OMP"), 2)


class Lists(unittest.TestCase):
    """Which lists of sums are live."""

    def test_live(self) -> None:
        self.assertEqual(live_lists(
            "DO I = 1, 9", "C$REDUCE K", "C$ reduce L", "K = K+I", "L = L-I", "END DO", "PRINT *, K, L", "END",
        ), {1: ("K", "L")})

    def test_behind_private_names(self) -> None:
        self.assertEqual(live_lists(
            "DO I = 1, 9", "PRIVATE M", "C$REDUCE K", "M = I", "K = K+M", "END DO", "PRINT *, K", "END",
        ), {1: ("K",)})

    def test_comments_alone(self) -> None:
        """A product; a sum that is wanted on the way; a name too many; a list that comes too late; and others."""
        for body in (
            ["C$REDUCE K", "K = K*I"], ["C$REDUCE K", "K = K+I", "L = K"],
            ["C$REDUCE K", "C$REDUCE M", "M = I", "K = K+I"],
            ["C$ OTHER", "C$REDUCE K", "K = K+I"], ["M = 1", "C$REDUCE K", "K = K+I"],
        ):
            with self.subTest(body):
                self.assertEqual(live_lists("DO I = 1, 9", *body, "END DO", "PRINT *, K", "END"), {})
        for first, last in (("1, N", "PRINT *, K"), ("1, 9", "PRINT *, K, I")):
            # The bounds are open; the variable is wanted after the loop.
            with self.subTest(first):
                self.assertEqual(
                    live_lists("READ *, N", f"DO I = {first}", "C$REDUCE K", "K = K+I", "END DO", last, "END"), {}
                )

    def test_inner_list(self) -> None:
        """The list of the inner loop is live where that of the outer one isn't."""
        inner = ["DO J = 1, 9", "C$REDUCE K", "K = K+J", "END DO", "END DO", "PRINT *, K", "END"]
        self.assertEqual(live_lists("DO I = 1, 9", "C$REDUCE K", *inner), {1: ("K",)})
        self.assertEqual(live_lists("DO I = 1, 9", "C$REDUCE L", *inner), {2: ("K",)})


class Sample(NamedTuple):
    """A program to be compiled and run: its name, its view, and its data."""

    name: str
    view: View
    data: str


def numbers(*values: int) -> str:
    """Data with a number on each line."""
    return "".join(f"{value}\n" for value in values)


#: Data for the examples that read some and have none of their own.
DATA: Dict[str, str] = {
    "panes/chains": numbers(*range(1, 101)),
    "panes/knapsack": "1\n300 40\n",
    "panes/prefix": numbers(*(number * number % 17 for number in range(64))),
    "panes/private": numbers(*(number % 13 - 5 for number in range(100))),
    "panes/product": "2 3 2\n" + numbers(*range(1, 13)),
}

#: Programs with what the examples don't have: nested parallel loops, names that clash, loops without iterations.
OTHERS: Dict[str, str] = {
    "nested": fortran(
        "PROGRAM NESTED", "INTEGER A(20,30)", "SAVE A", "PARALLEL DO 10 I = 1, 20", "PRIVATE IT", "IT = 2*I",
        "PARALLEL DO 10 J = 1, 30", "PRIVATE JT", "JT = IT+J", "10 A(I,J) = JT*JT", "END",
    ),
    "clash": fortran(
        "PROGRAM N", "PARAMETER (N=10)", "INTEGER A(N)", "SAVE A", "MAX = 3", "PARALLEL DO 10 I = N, 1, -1",
        "10 A(I) = MAX(I,MAX)", "PRINT *, 'MAX', MAX", "END",
    ),
    "empty": fortran(
        "INTEGER A(5)", "SAVE A", "READ *, K", "PARALLEL DO 10 I = 1, K", "10 A(I) = I", "DO 20 I = 1, 5",
        "20 A(I) = -I", "IF (K.LT.0) STOP", "PRINT *, 'NOT STOPPED'", "END",
    ),
    "triangle": fortran(
        "INTEGER A(9,9)", "SAVE A", "PARALLEL DO 10 I = 1, 9", "DO 10 J = 1, 9", "A(I,J) = 0", "DO 10 K = J, I",
        "10 A(I,J) = A(I,J)+K", "END",
    ),
    "names": fortran(
        "IMPLICIT INTEGER (A-Z)", "PARAMETER (DATABASE=9)", "INTEGER FUNCTIONF(DATABASE), PARAMETER(3)",
        "SAVE FUNCTIONF, PARAMETER", "CONTINUE = 1", "PARALLEL DO 10 I = 2", "PARAMETERS = 3",
        "PARAMETER(1) = PARAMETERS", "PARALLEL DO ITERATION = 1, DATABASE", "PRIVATE TEMPORARYOFEACHITERATIONALONE12",
        "TEMPORARYOFEACHITERATIONALONE12 = CONTINUE+PARALLELDO10I",
        "FUNCTIONF(ITERATION) = TEMPORARYOFEACHITERATIONALONE12*ITERATION", "END DO", "DO WHILE = 1, 2",
        "DOUBLEPRECISION = WHILE", "END DO", "PRINT *, DOUBLEPRECISION", "END",
    ),
    "names in use": fortran(
        "INTEGER A(5)", "SAVE A, MAX", "MAX = 5", "A(2) = 1", "DO K0 = 1, 3", "A(2) = MAX(MAX,2)+A(2)", "END DO",
        "PRINT *, MAX",
        "END",
    ),
    "inner header": fortran(
        "INTEGER A(5,9)", "SAVE A", "KT = 7", "PARALLEL DO I = 1, 5", "IF (I.EQ.2) THEN", "DO J = 1, KT",
        "PRIVATE KT", "KT = I*J",
        "A(I,J) = KT", "END DO", "END IF", "END DO", "END",
    ),
    "own header": fortran(
        "INTEGER A(9)", "SAVE A", "I = 3", "KT = 5", "J = 2", "PARALLEL DO I = I, KT+J", "PRIVATE KT", "KT = I",
        "A(I) = 0",
        "DO J = 1, KT", "A(I) = A(I)+J", "END DO", "END DO", "END",
    ),
    "program and function": fortran(
        "PROGRAM MAX", "PARAMETER (MIN=3)", "INTEGER A(MIN), ABS", "SAVE A", "A(1) = MAX(MIN,2)+MIN(MIN,2)+ABS(-MIN)",
        "PARALLEL DO MOD = 2, MIN", "PRIVATE ABS", "ABS = MOD", "A(MOD) = MOD(ABS,2)", "END DO", "END",
    ),
    "types": fortran("SAVE X", "DIMENSION X(3)", "PARAMETER (SIZE=3)", "INTEGER SIZE, X", "X(SIZE) = SIZE", "END"),
    "large": fortran(
        "INTEGER A(1048576), B(1048576), C(1048576), D(1048576)", "PARALLEL DO I = 1, 1048576", "A(I) = I",
        "B(I) = A(I)",
        "C(I) = B(I)", "D(I) = C(I)", "END DO", "PRINT *, A(5), B(1048576), C(7), D(1)", "END",
    ),
    "constants": fortran(
        "PARAMETER (M=2**40/2**38)", "INTEGER A(M)", "SAVE A", "DO I = 1, M, 2**33/2**32",
        "A(I) = I*(2**31-2**32+2147483647)",
        "A(I+1) = 100000*100000/M/100000", "END DO", "IF (2**40.GT.2**39) PRINT *, MOD(2**40+7,10)", "END",
    ),
    "zeros": fortran(
        "PARAMETER (N=3)", "SAVE K", "K = 1", "IF (K.EQ.2) THEN", "K = 1/0+MOD(K,N-3)+0**(-1)+1/MIN(0,0)", "END IF",
        "END"
    ),
    "constants in print": "".join([
        fortran(f"PRINT *, '{'8' * 56}"), "     &!$OMP PARALLEL DO', '', 'IT''S', '!DIR$'\n", fortran("END"),
    ]),
    "sums": fortran(
        "INTEGER A(99)", "SAVE K, L, J", "K = 2147483000", "L = 0", "J = 0", "DO 10 I = 1, 99", "10 A(I) = I*I-50*I",
        "DO 20 I = 99, 1, -2", "C$REDUCE K", "C$REDUCE L", "C$REDUCE J", "IF (A(I).GT.0) K = K-A(I)", "DO 30 M = 1, 3",
        "30 L = L+M*A(I)", "20 J = I+J", "PRINT *, J", "END",
    ).replace("      C$", "C$"),
}


#: Words with which statements of FORTRAN and of its dialects begin, and words in them.
WORDS = """
    ABSTRACT ALLOCATABLE ALLOCATE ASSIGN ASSOCIATE ASYNCHRONOUS AUTOMATIC BACKSPACE BIND BLOCK BLOCKDATA BYTE CALL
    CASE CHANGETEAM CHARACTER CLASS CLOSE CODIMENSION COMMON COMPLEX CONCURRENT CONTAINS CONTIGUOUS CONTINUE CRITICAL
    CYCLE DATA DEALLOCATE DEFAULT DEFERRED DIMENSION DO DOUBLECOMPLEX DOUBLEPRECISION DOWHILE DOCONCURRENT ELEMENTAL
    ELSE ELSEIF ELSEWHERE END ENDASSOCIATE ENDBLOCK ENDBLOCKDATA ENDCRITICAL ENDDO ENDENUM ENDFILE ENDFORALL
    ENDFUNCTION ENDIF ENDINTERFACE ENDMODULE ENDPROCEDURE ENDPROGRAM ENDSELECT ENDSUBMODULE ENDSUBROUTINE ENDTEAM
    ENDTYPE ENDWHERE ENTRY ENUM ENUMERATOR EQUIVALENCE ERRORSTOP EVENTPOST EVENTWAIT EXIT EXTENDS EXTERNAL FAILIMAGE
    FINAL FLUSH FORALL FORMAT FORMTEAM FUNCTION GENERIC GOTO IF IMAGE IMPLICIT IMPLICITNONE IMPORT IMPURE IN INCLUDE
    INOUT INQUIRE INTEGER INTENT INTERFACE INTRINSIC IS KIND LOCAL LOCK LOGICAL MAP MODULE MODULEPROCEDURE NAMELIST
    NONE NONINTRINSIC NONRECURSIVE NOPASS NULLIFY ONLY OPEN OPERATOR OPTIONAL OPTIONS OUT PARALLELDO PARAMETER PASS
    PAUSE POINTER PRECISION PRINT PRIVATE PROCEDURE PROGRAM PROTECTED PUBLIC PURE QUIET RANK READ REAL RECORD
    RECURSIVE RESULT RETURN REWIND SAVE SELECT SELECTCASE SELECTRANK SELECTTYPE SEQUENCE SHARED STATIC STOP STRUCTURE
    SUBMODULE SUBROUTINE SYNC SYNCALL SYNCIMAGES SYNCMEMORY SYNCTEAM TARGET TEAM THEN TO TYPE TYPEIS UNION UNLOCK USE
    VALUE VIRTUAL VOLATILE WAIT WHERE WHILE WRITE ACCEPT ENCODE DECODE DEFINEFILE DELETE FIND REWRITE ASSIGNMENT
    CONVERT ATTRIBUTES REDUCTION FIRSTPRIVATE MAIN
""".split()


def named_by_words() -> Iterator[Tuple[str, str]]:
    """Programs in which scalars, variables of loops, arrays and constants have words as their names."""
    for at in range(0, len(WORDS), 90):
        part = WORDS[at:at + 90]
        statements = ["IMPLICIT INTEGER (A-Z)", "KZ = 0"]
        for name in part:
            statements += [f"{name} = 3", f"DO {name} = {name}, 5", "KZ = MOD(KZ+1,7)", "END DO", f"PRINT *, {name}+1"]
            statements += [f"IF ({name}.EQ.6) {name} = 2*{name}", f"PRINT *, {name}"]
        yield f"scalars from {at} on", fortran(*statements, "END")
        statements = [f"INTEGER {name}(3)" for name in part] + ["SAVE"]
        for name in part:
            statements += [f"{name}(1) = 2", f"{name}({name}(1)) = {name}(1)+5", f"PRINT *, {name}(2)"]
        yield f"arrays from {at} on", fortran(*statements, "END")
        constants = [f"PARAMETER ({name}={number})" for number, name in enumerate(part)]
        uses = [f"PRINT *, {name}, MAX({name},40)" for name in part]
        yield f"constants from {at} on", fortran("IMPLICIT INTEGER (A-Z)", *constants, *uses, "END")


def samples() -> Iterator[Sample]:
    """The examples, the last programs of their sessions, and the others."""
    for name in examples():
        path = EXAMPLES / f"{name}.f"
        given = path.with_suffix(".data")
        data = read_file(str(given)) if given.exists() else DATA.get(name, "")
        yield Sample(name, example_view(name), data)
        script = path.with_suffix(".script")
        if script.exists():
            question = Question(str(path), str(script), str(given) if given.exists() else None)
            yield Sample(f"{name} behind its script", open_view(ped(), question), data)
    for name, text in OTHERS.items():
        yield Sample(name, view_of(text), "-1\n")


@unittest.skipUnless(shutil.which("gfortran"), "gfortran isn't there, so no translated program is compiled")
class Compiled(unittest.TestCase):
    """The compiled programs print what ped's `run` shows, with OpenMP and without. None of them has a race."""

    def test_samples(self) -> None:
        with ThreadPoolExecutor(max_workers=os.cpu_count()) as pool:
            for sample, complaint in pool.map(compared, list(samples())):
                with self.subTest(sample.name):
                    self.assertEqual(complaint, "")


    def test_words_as_names(self) -> None:
        for name, text in named_by_words():
            export = export_of(ped(), view_of(text), Wishes(live=True))
            run, = ped().session(text, "run\n")
            with self.subTest(name), tempfile.TemporaryDirectory(prefix="pedx-test-") as folder:
                Path(folder, "p.f").write_bytes(export.text.encode(ENCODING))
                self.assertEqual(compiled(folder, "words", ["-fopenmp", "-O0"]), "")
                self.assertTrue(is_wanted(executed(folder, "words", ""), run.rows))


def compared(sample: Sample) -> Tuple[Sample, str]:
    """What differs between the runs of a sample; of one that meets a fault, whether it is compiled."""
    export = export_of(ped(), sample.view, Wishes(live=True))
    run, = ped().session("".join(f"{line}\n" for line in sample.view.panes.lines), "run\n", sample.data)
    with tempfile.TemporaryDirectory(prefix="pedx-test-") as folder:
        Path(folder, "p.f").write_bytes(export.text.encode(ENCODING))
        options = [option for option in export.options if option != "-fopenmp"]
        complaint = compiled(folder, "serial", options) + compiled(folder, "parallel", export.options)
        if complaint or run.fault:
            return sample, complaint
        serial, parallel = executed(folder, "serial", sample.data), executed(folder, "parallel", sample.data)
    if serial != parallel:
        return sample, f"serial:\n{serial}\nparallel:\n{parallel}"
    if not is_wanted(serial, run.rows):
        return sample, f"compiled:\n{serial}\nped:\n{run.rows}"
    return sample, ""


def compiled(folder: str, name: str, options: Sequence[str]) -> str:
    """Compiles a program, and answers what the compiler says where it refuses it."""
    words = ["gfortran", *options, "-o", name, "p.f"]
    done = subprocess.run(words, cwd=folder, stdout=subprocess.PIPE, stderr=subprocess.STDOUT, check=False)
    return done.stdout.decode(ENCODING) if done.returncode != 0 else ""


def executed(folder: str, name: str, data: str) -> str:
    """What a compiled program prints."""
    environment = {**os.environ, "OMP_NUM_THREADS": "4", "OMP_WAIT_POLICY": "passive"}
    done = subprocess.run(
        [f"./{name}"], cwd=folder, input=data.encode(ENCODING), env=environment, stdout=subprocess.PIPE,
        stderr=subprocess.STDOUT, check=False,
    )
    return done.stdout.decode(ENCODING)


if __name__ == "__main__":
    unittest.main()
