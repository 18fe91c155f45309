#!/usr/bin/env python3
"""Writes cases in the form of cases/README.md for the program of crate ped_faults, to standard output: sessions of which the
program and the script are cut behind each byte, and each read fails in turn, and each write. tools/check-cuts.sh runs them.

    tools/cuts.py

The whole answer of each session is written by hand, and what is wanted of a case is computed of it by a rule:

- A program that is cut is refused. The line that is cut off in the middle is Syntax; where what stands of it is blank or is a
  statement by itself, the text ends without END, which is OpenBlock at its last line. At END alone it is whole.
- A script that is cut is answered up to the cut. What stands of the line that is cut off is no command, but for blanks and for
  the fronts that are commands by themselves.
- A read that fails is told with the name of its file. Each file is read to its end, and a call more finds that.
- A write that fails leaves what the calls before it took.

A bar stands in a line behind each front of it that is a statement or a command by itself; such a front of a command has the
answer of the whole command here.
"""

BAR = "|"
READ_AT_ONCE = (1, 16, 4096)
WRITTEN_AT_ONCE = (3,)


class Session:
    """A program in lines, and a script in lines, each with its answer."""

    def __init__(self, name, program, script):
        self.name = name
        self.lines = program.split("\n")
        self.program = text_of(self.lines)
        self.commands = script
        self.script = text_of(line for line, _ in script)
        self.answer = "".join(answer for _, answer in script)

    def cut_programs(self):
        """Each cut of the program, with the answer and the status."""
        for cut in range(len(self.program) + 1):
            text = self.program[:cut]
            refusal = self.refusal_of(text)
            if refusal:
                yield text, f"ped: refused {refusal}\n", 5
            else:
                yield text, self.answer, status_of(self.answer)

    def refusal_of(self, text):
        """The refusal of a front of the program; none where it has the last END."""
        whole, last = text.count("\n"), text.rpartition("\n")[2]
        if text.rstrip("\n") == self.program.rstrip("\n"):
            return None
        if last.strip() and last.rstrip() not in fronts(self.lines[whole]):
            return f"7 Syntax at {whole + 1}"
        return f"9 OpenBlock at {whole + 1 if last else whole}"

    def cut_scripts(self):
        """Each cut of the script, with the answer and the status."""
        stands, answered = "", ""
        for number, (line, answer) in enumerate(self.commands, 1):
            whole = line.replace(BAR, "")
            for cut in range(len(whole) + 1):
                told = answered + answer_to(number, line, answer, whole[:cut])
                yield stands + whole[:cut], told, status_of(told)
            stands += whole + "\n"
            answered += answer
        yield stands, answered, status_of(answered)

    def failing_reads(self, most):
        """For each read that fails, where each gives so many bytes: its number, the answer and the status."""
        number = 1
        for name, text in (("program.f", self.program), ("script", self.script)):
            for _ in range(-(-len(text) // most) + 1):
                yield number, f"ped: cannot read {name}\n", 3
                number += 1
        yield number, self.answer, status_of(self.answer)

    def failing_writes(self, most):
        """For each write that fails, where each takes so many bytes: its number, what was taken before, and the status."""
        count = -(-len(self.answer) // most)
        for number in range(1, count + 1):
            yield number, self.answer[: most * (number - 1)], 4
        yield count + 1, self.answer, status_of(self.answer)

    def put(self):
        """Writes the cases of the session."""
        for text, answer, status in self.cut_programs():
            self.put_case("the program is cut", answer, status, program=text)
        for text, answer, status in self.cut_scripts():
            self.put_case("the script is cut", answer, status, script=text)
        for most in READ_AT_ONCE:
            for number, answer, status in self.failing_reads(most):
                self.put_case(f"a read of {most} bytes fails", answer, status, reads=(most, number))
        for most in WRITTEN_AT_ONCE:
            for number, answer, status in self.failing_writes(most):
                self.put_case(f"a write of {most} bytes fails", answer, status, writes=(most, number))

    def put_case(self, what, answer, status, program=None, script=None, reads=(4096, 0), writes=(4096, 0)):
        """Writes a case."""
        print(f"== {self.name}: {what}")
        put_text(self.program if program is None else program)
        print("=script")
        put_text(self.script if script is None else script)
        print("=words")
        put_text(text_of(str(word) for word in (*reads, *writes, "session", "program.f", "script")))
        print(f"=> output {status}")
        put_text(answer)


def text_of(lines):
    """The text of lines, without their bars."""
    return "".join(line.replace(BAR, "") + "\n" for line in lines)


def fronts(line):
    """The fronts of a line with a bar behind them."""
    parts = line.split(BAR)
    return {"".join(parts[:count]) for count in range(1, len(parts))}


def status_of(answer):
    """The status of a session with this answer."""
    return 1 if ": refused " in answer else 0


def answer_to(number, line, answer, front):
    """The answer to a front of a command."""
    if not front.strip():
        return ""
    return answer if front.rstrip() in fronts(line) else f"{number}: refused BadCommand\n"


def put_text(text):
    """Writes a text, each line behind a mark."""
    for line in text.splitlines(keepends=True):
        ended = line.endswith("\n")
        print("=|" + line.rstrip("\n").replace("\\", "\\\\") + ("" if ended else "\\c"))


WAVEFRONT = """\
      INTEGER A|(3,3)|
      SAVE| A|
      DO 20 I=1|,3|
      DO 10 J=1|,3|
   10 A(I,J)=1|
   20 CONTINUE|
      DO 40 I=2|,3|
      DO 30 J=2|,3|
   30 A(I,J)=A|(I-1,J)|+A|(I,J-1)|
   40 CONTINUE|
      END|"""

# The same program as it is printed. A front of an END DO is an END, of which the loop is open.
PRINTED_WAVEFRONT = """\
      INTEGER A|(3,3)|
      SAVE| A|
      DO I = 1|, 3|
        DO J = 1|, 3|
          A(I,J) = 1|
        END| DO|
      END| DO|
      DO I = 2|, 3|
        DO J = 2|, 3|
          A(I,J) = A|(I-1,J)|+A|(I,J-1)|
        END| DO|
      END| DO|
      END|"""

DIAGONALS = [
    ("skew 4 1|", "1: ok\n"),
    ("interchange 4|", "2: ok\n"),
    ("parallel 5|", "3: ok\n"),
    (
        "deps| 6|",
        """\
dependences 2
6.3 6.1 A flow 1 (<,<) (*,1) pending
6.3 6.2 A flow 1 (<,=) (*,0) pending
""",
    ),
    ("run| 1| 1| 1|", "ended\nlive A 1 1 1 1 2 3 1 3 6\n"),
    (
        "print|",
        """\
      INTEGER A(3,3)
      SAVE A
      DO I = 1, 3
        DO J = 1, 3
          A(I,J) = 1
        END DO
      END DO
      DO J = 4, 6
        PARALLEL DO I = MAX(2,J-3), MIN(3,J-2)
          A(I,J-I) = A(I-1,J-I)+A(I,J-I-1)
        END DO
      END DO
      END
""",
    ),
]

REVERSAL = """\
      INTEGER A|(10)|,B|(10)|
      DO 10 I=1|,1|0|
   10 A(I)=B|(I)|+1|
      END|"""

PRINTED_REVERSAL = """\
      INTEGER A|(10)|, B|(10)|
      DO I = 1|, 1|0|
        A(I) = B|(I)|+1|
      END| DO|
      END|"""

THERE_AND_BACK = [
    ("tested|", "tested 1\n"),
    ("reverse 1|", "2: ok\n"),
    ("tested|", "tested 1\n"),
    ("undo|", "4: ok\n"),
    ("tested|", "tested 0\n"),
    ("redo|", "6: ok\n"),
    ("tested|", "tested 0\n"),
    (
        "print|",
        """\
      INTEGER A(10), B(10)
      DO I = 10, 1, -1
        A(I) = B(I)+1
      END DO
      END
""",
    ),
    ("undo|", "9: ok\n"),
    ("undo|", "10: refused NothingToUndo\n"),
]

SESSIONS = [
    Session("a wavefront", WAVEFRONT, DIAGONALS),
    Session("a wavefront in printed form", PRINTED_WAVEFRONT, DIAGONALS),
    Session("a loop that is reversed", REVERSAL, THERE_AND_BACK),
    Session("a loop that is reversed, in printed form", PRINTED_REVERSAL, THERE_AND_BACK),
]

if __name__ == "__main__":
    for session in SESSIONS:
        session.put()
