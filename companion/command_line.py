"""The command line of pedx: its words, what they call, and how a call ends."""

from __future__ import annotations

import argparse
import gc
import sys
import traceback
from contextlib import contextmanager
from typing import IO, Callable, Dict, Iterator, List, Optional, Sequence, Tuple, Union

from . import VERSION
from .commands.auto import auto
from .commands.calls import calls
from .commands.check import check, refusal_rows
from .commands.export import export
from .commands.graph import graph
from .commands.loops import loops
from .commands.omp import Work, omp
from .commands.page import page
from .commands.profile import profile
from .commands.prove import appended, prove
from .commands.serve import serve
from .commands.tune import tune
from .commands.why import Wanted, why
from .counting import Counts, counts_of
from .evidence.forbidding import STEPS
from .evidence.offers import with_evidence
from .languages import file_and_line, is_project
from .messages import ERROR
from .openmp import Wishes
from .output import tell, use_locale, write_or_close, write_to
from .panes import KINDS, MARKS
from .ped import Ped, cause, find_ped, read_file, shown
from .progress import Progress
from .readings import COMMANDS, PROJECTS, add_words, answer_project, answer_real, check_language, view_or_none
from .statuses import CompanionError, ProgramRefused, Status
from .views import Question, View, open_view

_DESCRIPTION = "The companion of ped: tables, sentences and files made from what ped prints of a program."
_STATUSES = """\
exit statuses (0 to 7 are those of ped):
  0  done; check: there is nothing to complain of, but perhaps warnings
  1  a line of the script was refused; all else is printed all the same
  2  the words are wrong
  3  a file can't be read or written
  4  standard output didn't take all
  5  the program is refused
  6  there isn't enough memory
  7  a file is too long
  8  check, or what counts or takes times: a run meets a fault
  9  check: a run has a race
 10  check --strict: there is a warning
 11  ped can't be started, or fails
 12  graph --svg: dot of graphviz can't be started, or fails
 13  ped answers what isn't understood
 14  pedx itself fails
 15  omp --strict: a loop may race, or rests on C$PED REJECT
 16  the Python library fparser isn't there, which reads real Fortran
 17  omp --check, --time: the result doesn't compile, or its runs differ from the serial one
 18  gfortran or gcov isn't there, or fails, where a run is counted or timed
 19  check: a rejected dependence occurs in a run

docs/COMPANION.md is the manual, docs/REAL.md that of real Fortran.
"""

#: Parentheses nest up to 660 deep in a statement, and the calls that read them twice as deep.
_DEPTH = 5000

_LOOPS = "the statement numbers of the wanted loops; in real Fortran lines, or further files"

#: The commands that say whether iterations of a PARALLEL DO may race.
_BELIEVING = ("loops", "omp")

#: How many objects more there may be before garbage is looked for.
_GARBAGE = 500_000

#: What a command answers: the text of standard output, none where nothing is to be written; that of standard error; and
#: the status.
Answer = Tuple[Optional[str], str, Status]


def main(words: Optional[List[str]] = None) -> int:
    """Carries out a call with these words, and answers its exit status."""
    sys.setrecursionlimit(max(_DEPTH, sys.getrecursionlimit()))
    # A program that is read is kept to the end. Looking through it for garbage again and again doubles the time.
    gc.set_threshold(_GARBAGE)
    use_locale()
    try:
        return _carried_out(_parser().parse_args(words))
    except CompanionError as error:
        return _ended(f"pedx: {ERROR}: {error.message}\n", error.status)
    except MemoryError:
        return _ended(f"pedx: {ERROR}: pedx ran out of memory\n", Status.NO_MEMORY)
    except Exception:  # pylint: disable=broad-except
        trace = traceback.format_exc().encode("ascii", "backslashreplace").decode("ascii")
        return _ended(f"{trace}pedx: {ERROR}: this is an error in pedx itself\n", Status.FAILED)


def _carried_out(options: argparse.Namespace) -> int:
    options.line = None
    if options.command == "serve":
        return serve(Ped(find_ped(options.ped)))
    if options.command in PROJECTS:
        words = [options.file, *options.loops]
        options.files = [word for word in words if isinstance(word, str)]
        options.loops = [word for word in options.loops if not isinstance(word, str)]
        if is_project(options.files):
            return _of_project(options)
    if options.command in COMMANDS:
        options.file, options.line = file_and_line(options.file)
    check_language(options.command, options.file)
    question = Question(options.file, options.script, options.data, getattr(options, "printed", False))
    if question.data is not None and question.script is None and not _runs(options):
        raise CompanionError(Status.BAD_WORDS, "--data wants --script")
    try:
        out, messages, status = _answer(options, question, Ped(find_ped(options.ped)))
    except ProgramRefused as refusal:
        rows = refusal_rows(question.name, refusal)
        return _ended("".join(row + "\n" for row in rows), refusal.status)
    if out is not None:
        _write(getattr(options, "output", None), out)
    return _ended(messages, status)


def _of_project(options: argparse.Namespace) -> int:
    """Carries out a call on several files."""
    out, messages, status = answer_project(options, Ped(find_ped(options.ped)))
    if out is not None:
        _write(None, out)
    return _ended(messages, status)


def _runs(options: argparse.Namespace) -> bool:
    """Whether a call runs the program itself, and not a script alone."""
    return options.command in ("check", "edit", "omp", "profile") or getattr(options, "counts", False)


def _answer(options: argparse.Namespace, question: Question, ped: Ped) -> Answer:
    if options.command == "check":
        runs = options.run or options.script is not None or options.data is not None
        report = check(ped, question, runs, options.strict)
        return report.text, "", report.status
    if options.command == "edit":
        return _edit(ped, question), "", Status.DONE
    if options.command in COMMANDS:
        found = view_or_none(options, question, ped)
        if found is None:
            return answer_real(options, ped)
        view = found
    else:
        view = open_view(ped, question)
    status = Status.LINE_REFUSED if view.complaints else Status.DONE
    if options.command in _BELIEVING and not getattr(options, "as_json", False):
        with _progress() as progress:
            view = with_evidence(ped, view, progress)
    if options.command == "omp":
        return _omp(options, view, ped, status)
    return _COMMANDS[options.command](options, view, ped), _rows(view.complaints), status


def _omp(options: argparse.Namespace, view: View, ped: Ped, status: Status) -> Answer:
    work = Work(options.strict, options.counts, options.time)
    wishes = Wishes(options.live, every=options.all, paying=not options.all)
    answer = omp(view, ped, wishes, work, _data(options))
    messages = _rows([*view.complaints, *answer.messages])
    if answer.table is None or answer.text is None:
        return answer.text, messages, answer.status or status
    # The times are what the call answers; the program goes to the file that is named, and nowhere else.
    if options.output is not None:
        _write(options.output, answer.text)
        options.output = None
    return answer.table, messages, answer.status or status


def _data(options: argparse.Namespace) -> Optional[str]:
    """The text of the data."""
    return read_file(options.data) if options.data is not None else None


def _counted(options: argparse.Namespace, view: View) -> Counts:
    """The counts of a run on the given data."""
    with _progress() as progress:
        progress.announce("gfortran compiles and runs the program")
        return counts_of(view, _data(options))


def _rows(rows: Sequence[str]) -> str:
    return "".join(row + "\n" for row in rows)


def _edit(ped: Ped, question: Question) -> str:
    try:
        # Some Pythons lack the library curses, which no other command wants.
        from .commands.edit import edit
    except ImportError as error:
        raise CompanionError(Status.NOT_WRITTEN, f"edit can't use the terminal: {error}") from error
    edit(ped, question.file, question.script, question.data)
    return ""


def _loops(options: argparse.Namespace, view: View, ped: Ped) -> str:
    if options.as_json:
        return export(view)
    counts = _counted(options, view) if options.counts else None
    with _progress() as progress:
        return loops(view, ped, options.loops, options.trials, progress, counts)


def _tune(options: argparse.Namespace, view: View, ped: Ped) -> str:
    with _progress() as progress:
        return tune(view, ped, options.loops, progress)


@contextmanager
def _progress() -> Iterator[Progress]:
    """Shows how far a call is, where standard error is a terminal."""
    progress = Progress(sys.stderr)
    try:
        yield progress
    finally:
        progress.clear()


def _prove(options: argparse.Namespace, view: View, ped: Ped) -> str:
    with _progress() as progress:
        answer, steps = prove(view, ped, options.loops, options.step, progress)
    _save(options, steps)
    return answer


def _auto(options: argparse.Namespace, view: View, ped: Ped) -> str:
    with _progress() as progress:
        answer, steps = auto(view, ped, options.prove, progress)
    _save(options, steps)
    return answer


def _save(options: argparse.Namespace, steps: Sequence[Sequence[str]]) -> None:
    """Writes the script that was looked at, with further steps behind it, where it is to be saved."""
    if options.save is not None and steps:
        _write(options.save, appended(options.script, options.save, steps))


def _why(options: argparse.Namespace, view: View, ped: Ped) -> str:
    return why(view, Wanted(options.loop, options.statement, options.name, options.kind, options.mark), ped)


def _page(options: argparse.Namespace, view: View, ped: Ped) -> str:
    with _progress() as progress:
        return page(view, ped, options.trials, progress)


_COMMANDS: Dict[str, Callable[[argparse.Namespace, View, Ped], str]] = {
    "loops": _loops,
    "profile": lambda options, view, ped: profile(view, _counted(options, view)),
    "tune": _tune,
    "prove": _prove,
    "auto": _auto,
    "why": _why,
    "calls": lambda options, view, ped: calls(view, ped),
    "page": _page,
    "graph": lambda options, view, ped: graph(view, options.loop, options.svg),
    "json": lambda options, view, ped: export(view),
}


class _Parser(argparse.ArgumentParser):
    """A parser whose help and messages show no control characters of the words that they quote."""

    def _print_message(self, message: str, file: Optional[IO[str]] = None) -> None:
        (_put if file is sys.stdout else tell)(shown(message))


def _parser() -> argparse.ArgumentParser:
    layout = argparse.RawDescriptionHelpFormatter
    parser = _Parser("pedx", description=_DESCRIPTION, epilog=_STATUSES, formatter_class=layout)
    parser.add_argument("--version", action="version", version=f"pedx {VERSION}")
    commands = parser.add_subparsers(dest="command", metavar="COMMAND", required=True)

    def add(name: str, purpose: str) -> argparse.ArgumentParser:
        description = purpose[0].upper() + purpose[1:] + "."
        command = commands.add_parser(
            name, help=purpose, description=description, epilog=_STATUSES, formatter_class=layout
        )
        words = "the program, or FILE:LINE in real Fortran" if name in COMMANDS else "the program"
        if name in PROJECTS:
            words += "; several files, or a folder, are read as one program of real Fortran"
        command.add_argument("file", metavar="FILE", help=words)
        _add_common(command, is_editor=name == "edit")
        if name in COMMANDS:
            add_words(command, name)
        return command

    add("edit", "edit a program and transform its loops, with both panes on a terminal")
    _add_loops(add("loops", "say which loops are parallel, what the others carry, and what to try there"))
    words = "say how often a run enters each loop, and which share of all statements it executes there"
    command = add("profile", words)
    command.add_argument("loops", metavar="FILE", nargs="*", help="further files of real Fortran")
    command = add("tune", "say what is in the way of each loop, and which single step removes it")
    command.add_argument("loops", metavar="S", type=int, nargs="*", help="the statement numbers of the wanted loops")
    _add_prove(add("prove", "look for evidence that pending dependences of elements aren't there, which ped checks"))
    command = add("auto", "make loops parallel as the command auto of ped does, and write the steps as a script")
    command.add_argument("--prove", action="store_true", help="look for evidence wherever a dependence is in the way")
    _add_save(command)
    add("calls", "say which CALLs there are, what depends on them, and which can be inlined")
    _add_filters(add("why", "say of each row of the dependence pane why it is there"))
    command = add("omp", "write the program as FORTRAN with OpenMP directives, for gfortran -fopenmp")
    words = "further files of real Fortran; -o names a new folder"
    command.add_argument("loops", metavar="FILE", nargs="*", help=words)
    _add_omp(command)
    command = add("model", "show the program that ped is asked about a loop of real Fortran")
    command.add_argument("loops", metavar="LINE", type=int, nargs="*", help="lines of the wanted loops; else all")
    command = add("check", "say what is wrong with a program, with a script, or with a run")
    command.add_argument("--run", action="store_true", help="run it, too; so do --script and --data")
    command.add_argument("--strict", action="store_true", help="end with status 10 where there is a warning")
    command = add("graph", "write the dependence graph of a loop, or of the program, for graphviz")
    command.add_argument("loop", metavar="S", type=int, nargs="?", help="the statement number of the loop")
    command.add_argument("--svg", action="store_true", help="have dot of graphviz draw it")
    _add_output(command)
    command = add("page", "write a page for a browser: the source beside its dependences, in one file")
    command.add_argument("--no-trials", dest="trials", action="store_false", help="ask for no advice, and try no steps")
    _add_output(command)
    _add_output(add("json", "write the source, the loops, the references and the dependences as JSON"))
    command = commands.add_parser("serve", help="serve an editor by the Language Server Protocol, over standard input")
    _add_ped(command)
    return parser


def _number_or_file(word: str) -> Union[int, str]:
    """The number of a loop, or the name of a further file."""
    return int(word) if word.isascii() and word.isdigit() else word


def _add_ped(command: argparse.ArgumentParser) -> None:
    command.add_argument("--ped", metavar="PATH", help="the program ped; else PEDX_PED, else ped beside pedx")


def _add_common(command: argparse.ArgumentParser, is_editor: bool) -> None:
    script = "begin with this script, if it is there, and save to it"
    data = "the data for runs"
    if not is_editor:
        script = "look at the program after this script of a session"
        data = "the data for the runs of the script, of check, of profile, or of omp"
    command.add_argument("--script", metavar="SCRIPT", help=script)
    command.add_argument("--data", metavar="DATA", help=data)
    if not is_editor:
        command.add_argument("--printed", action="store_true", help="name lines of the printed source, not of FILE")
    _add_ped(command)


def _add_filters(command: argparse.ArgumentParser) -> None:
    words = "; may be repeated"
    command.add_argument("--loop", metavar="S", type=int, action="append", default=[], help="carried by loop S" + words)
    command.add_argument(
        "--statement", metavar="S", type=int, action="append", default=[], help="from or to statement S" + words
    )
    command.add_argument("--name", metavar="NAME", action="append", default=[], help="of this variable" + words)
    command.add_argument("--kind", choices=KINDS, action="append", default=[], help="of this kind" + words)
    command.add_argument("--mark", choices=MARKS, action="append", default=[], help="with this mark" + words)


def _add_loops(command: argparse.ArgumentParser) -> None:
    command.add_argument("loops", metavar="S", type=_number_or_file, nargs="*", help=_LOOPS)
    command.add_argument("--no-trials", dest="trials", action="store_false", help="ask for no advice, and try no steps")
    _add_counts(command, "add what gcov counts of a run: entries, iterations, share of the executed statements")


def _add_prove(command: argparse.ArgumentParser) -> None:
    command.add_argument(
        "loops", metavar="S", type=int, nargs="*",
        help="the statement numbers of the wanted loops; else those that only pending rows of elements hold up",
    )
    command.add_argument("--step", choices=STEPS, default=STEPS[0], help="the step that is wanted; else parallel")
    _add_save(command)


def _add_save(command: argparse.ArgumentParser) -> None:
    command.add_argument("--save", metavar="OUT", help="append what ped accepts to the script, and write it to OUT")


def _add_omp(command: argparse.ArgumentParser) -> None:
    command.add_argument("--live", action="store_true", help="print the variables in SAVE at the end")
    command.add_argument("--all", action="store_true", help="write a directive at each parallel loop, paying or not")
    command.add_argument(
        "--strict", action="store_true", help="write nothing where a loop may race, or rests on C$PED REJECT"
    )
    _add_counts(command, "choose the loops that get a directive by the counts of a run")
    command.add_argument(
        "--time", action="store_true", help="compile it without and with OpenMP, run both, and print the times"
    )
    _add_output(command)


def _add_counts(command: argparse.ArgumentParser, purpose: str) -> None:
    command.add_argument("--counts", action="store_true", help=f"{purpose}; needs gfortran and gcov")


def _add_output(command: argparse.ArgumentParser) -> None:
    command.add_argument("-o", "--output", metavar="OUT", help="write to this file, not to standard output")


def _write(name: Optional[str], text: str) -> None:
    """Writes a text to a file, or to standard output."""
    if name is None:
        _put(text)
        return
    try:
        write_to(name, text)
    except (OSError, ValueError) as error:
        raise CompanionError(Status.NOT_READ, f"cannot write {shown(name)}: {cause(error)}") from error


def _put(text: str) -> None:
    """Writes a text to standard output, which may have been closed before the call."""
    if sys.stdout is None:
        raise CompanionError(Status.NOT_WRITTEN, "cannot write: standard output is closed")
    try:
        write_or_close(sys.stdout, text)
    except OSError as error:
        raise CompanionError(Status.NOT_WRITTEN, f"cannot write: {error.strerror}") from error


def _ended(messages: str, status: Status) -> int:
    """Writes the messages, and answers the status."""
    tell(messages)
    return int(status)
