"""Calls that read both languages: their words for real Fortran, and which of the two a file is read as.

A file whose name has a suffix of free form is real. Any other is ped's profile if ped takes it; what ped refuses is
real unless it has words of the profile. What reads real Fortran is imported only where it is needed.
"""

from __future__ import annotations

import argparse
import sys
from contextlib import contextmanager
from typing import TYPE_CHECKING, Dict, Iterator, List, Optional, Tuple

from .languages import has_profile_words, is_real_by_name
from .messages import NOTE, listed
from .output import tell
from .ped import Ped, read_file, shown
from .progress import Progress
from .statuses import CompanionError, ProgramRefused, Status
from .views import Question, View, open_view

if TYPE_CHECKING:
    from .commands.real import Reading

#: The commands that read real Fortran, too.
COMMANDS = ("loops", "profile", "why", "omp", "model", "json")
#: Those that take several files, or a folder.
PROJECTS = ("loops", "profile", "omp")

#: The words for real Fortran alone, and those for programs of the profile alone, with what they are when not given.
_REAL: Dict[str, object] = {
    "--form": None, "--columns": None, "-I": [], "--assume": [], "--deny": [], "--exact": False, "--openmp": None,
    "--at": [], "--in-place": False, "--check": False, "--with": [], "--define": [], "--undefine": [], "--each": False,
    "--jobs": None, "--in": None,
}
_PROFILE: Dict[str, object] = {
    "--script": None, "--data": None, "--printed": False, "--no-trials": True, "--statement": [], "--live": False,
    "--all": False, "--strict": False, "--counts": False, "--time": False,
}
#: Where the words are in what argparse has read, if not under their own names.
_KEYS = {"-I": "folders", "--no-trials": "trials", "--with": "others", "--in": "place"}

#: The text of standard output, none where nothing is to be written; that of standard error; the status.
Answer = Tuple[Optional[str], str, Status]


def add_words(command: argparse.ArgumentParser, name: str) -> None:
    """Adds the words for real Fortran to a command."""
    group = command.add_argument_group("real Fortran")
    kind = group.add_mutually_exclusive_group()
    kind.add_argument("--real", action="store_true", help="read FILE as Fortran, also where ped takes it")
    kind.add_argument("--profile", action="store_true", help="take FILE for a program of ped's profile")
    group.add_argument("--form", choices=("fixed", "free"), help="the form of FILE; else by its suffix")
    group.add_argument("--columns", type=int, choices=(72, 80, 132), help="the last column of fixed form; else 72")
    group.add_argument(
        "-I", dest="folders", metavar="DIR", action="append", default=[], help="look here for INCLUDEd files, too"
    )
    words = "look into the procedures and modules of SOURCE, too" + ("; --check compiles it" if name == "omp" else "")
    group.add_argument("--with", dest="others", metavar="SOURCE", action="append", default=[], help=words)
    group.add_argument(
        "--define", metavar="NAME[=VALUE]", action="append", default=[], help="a name of the preprocessor, for #if"
    )
    group.add_argument(
        "--undefine", metavar="NAME", action="append", default=[], help="a name that the preprocessor doesn't have"
    )
    group.add_argument("--assume", metavar="A", action="append", default=[], help="grant an assumption, as A8")
    group.add_argument("--deny", metavar="A", action="append", default=[], help="withdraw an assumption, as A2")
    group.add_argument("--exact", action="store_true", help="withdraw A9: REAL sums stay in their order")
    group.add_argument("--openmp", choices=("4.5", "5.0"), help="the version that directives are for; else 4.5")
    if name == "loops":
        group.add_argument("--json", dest="as_json", action="store_true", help="print the table as JSON")
        group.add_argument("--each", action="store_true", help="of several files: show each loop, too")
    if name in PROJECTS:
        group.add_argument("--jobs", metavar="N", type=int, help="so many processes at a time; else one a processor")
        group.add_argument("--in", dest="place", metavar="DIR", help="a counted run is in a copy of this folder")
    if name == "omp":
        group.add_argument(
            "--at", metavar="LINE", type=int, action="append", default=[], help="a directive for the loop at LINE alone"
        )
        group.add_argument("--in-place", action="store_true", help="write over FILE")
        group.add_argument("--check", action="store_true", help="compile and run the result, and compare runs")


def view_or_none(options: argparse.Namespace, question: Question, ped: Ped) -> Optional[View]:
    """The view of a program of the profile; none for a file that is to be read as real Fortran.

    Of a file that ped refuses a note says so.
    """
    if options.real or not options.profile and is_real_by_name(options.file):
        return None
    try:
        view = open_view(ped, question)
    except CompanionError as error:
        if options.profile or _given(options, _PROFILE) or not _may_be_real(error, options.file):
            raise
        options.refusal = error
        return None
    words = _given(options, _REAL)
    if words or options.command == "model" or options.line is not None:
        what = f"takes no {listed(words)}" if words else "has no model" if options.command == "model" else \
            "has statements, which --statement names, and not lines"
        message = f"{question.name} is a program of ped's profile, which {what}; --real reads it as Fortran"
        raise CompanionError(Status.BAD_WORDS, message)
    return view


def _may_be_real(error: CompanionError, name: str) -> bool:
    """Whether ped refuses a file that may be Fortran of another kind."""
    if isinstance(error, ProgramRefused):
        return not has_profile_words(error.source)
    return error.status is Status.TOO_LONG and not has_profile_words(read_file(name))


def _given(options: argparse.Namespace, words: Dict[str, object]) -> List[str]:
    """Those of some words that a call has."""
    found = []
    for word, absent in words.items():
        value = getattr(options, _KEYS.get(word, word.strip("-").replace("-", "_")), absent)
        if value != absent:
            found.append(word)
    return found


def answer_real(options: argparse.Namespace, ped: Ped) -> Answer:
    """Carries out a call on real Fortran."""
    if options.command == "profile" or options.command == "loops" and options.counts:
        return _counted_real(options, ped)
    words = _given(options, _PROFILE)
    if options.command == "omp" and options.check:
        words = [word for word in words if word != "--data"]
    if words:
        message = f"{shown(options.file)} is read as Fortran, which takes no {listed(words)}"
        raise CompanionError(Status.BAD_WORDS, message)
    refusal = getattr(options, "refusal", None)
    with _progress() as progress:
        try:
            text, messages, status = _answer(options, ped, progress, refusal)
        except CompanionError as error:
            if refusal is None or error.status is not Status.NO_LIBRARY:
                raise
            tell(f"pedx: {NOTE}: {error.message}\n")
            raise refusal from error
    rows = [_note(options.file, refusal)] if refusal is not None else []
    return text, "".join(row + "\n" for row in [*rows, *messages]), status


def _answer(
    options: argparse.Namespace, ped: Ped, progress: Progress, refusal: Optional[CompanionError]
) -> Tuple[Optional[str], Tuple[str, ...], Status]:
    from .commands import real

    one = real.opened(options.file, _reading(options))
    if refusal is not None and not one.is_fortran:
        raise refusal
    lines = [options.line] if options.line is not None else []
    if options.command == "loops":
        return real.loops(one, ped, [*lines, *options.loops], options.as_json, progress)
    if options.command == "why":
        wanted = real.Wanted([name.upper() for name in options.name], options.kind, options.mark)
        return real.why(one, ped, [*lines, *options.loop], wanted, progress)
    if options.command == "model":
        return real.model(one, ped, [*lines, *options.loops], progress)
    if options.command == "json":
        return real.json(one, ped, progress)
    writing = real.Writing(
        [*lines, *options.at], options.output, options.in_place, options.check, options.data
    )
    return real.omp(one, ped, writing, progress)


def _reading(options: argparse.Namespace) -> Reading:
    """How files are read."""
    from .commands import real

    return real.Reading(
        options.form, options.columns or 72, options.folders, options.assume, options.deny, options.exact,
        options.openmp or real.OPENMP, options.others, options.define, options.undefine,
    )


def _counted_real(options: argparse.Namespace, ped: Ped) -> Answer:
    """Carries out a call on one file that is run."""
    if options.line is not None:
        raise CompanionError(Status.BAD_WORDS, f"what counts a run takes {shown(options.file)} as a whole")
    options.files, options.each = [options.file], True
    text, messages, status = answer_project(options, ped)
    refusal = getattr(options, "refusal", None)
    return text, (f"{_note(options.file, refusal)}\n" if refusal is not None else "") + messages, status


def answer_project(options: argparse.Namespace, ped: Ped) -> Answer:
    """Carries out a call on several files of real Fortran, or on those in a folder."""
    words = [word for word in _given(options, _PROFILE) if word not in ("--data", "--counts")]
    words += ["--profile"] if options.profile else []
    runs = options.command == "profile" or options.counts
    if options.command == "omp":
        words += [word for word in ("--at", "--in-place", "--check") if word in _given(options, _REAL)]
    words += [] if runs else [word for word in ("--data", "--in") if word in _given(options, {**_PROFILE, **_REAL})]
    if words or options.loops:
        wrong = listed(words) if words else f"numbers of loops, as {options.loops[0]}"
        raise CompanionError(Status.BAD_WORDS, f"a call on several files, or without --counts, takes no {wrong}")
    if options.jobs is not None and options.jobs < 1:
        raise CompanionError(Status.BAD_WORDS, f"--jobs {options.jobs} leaves nobody to work")
    if options.command == "omp" and options.output is None:
        raise CompanionError(Status.BAD_WORDS, "omp on several files wants -o DIR, a new folder for them")
    from .commands import project

    with _progress() as progress:
        one = project.opened(options.files, _reading(options), progress)
        asked = project.Asked(
            options.jobs or project.default_processes(), getattr(options, "each", False),
            getattr(options, "as_json", False), runs, options.command == "profile", options.data, options.place,
        )
        if options.command == "omp":
            text, messages, status = project.omp(one, ped, options.files, options.output, asked, progress)
        else:
            text, messages, status = project.loops(one, ped, asked, progress)
    return text, "".join(row + "\n" for row in messages), status


def _note(name: str, refusal: CompanionError) -> str:
    """What is said of a file that ped refuses."""
    cause = "it is too long"
    if isinstance(refusal, ProgramRefused):
        cause = f"{refusal.number} {refusal.name} at {refusal.line}"
    return (
        f"pedx: {NOTE}: {shown(name)} is no program of ped's profile ({cause}), so it is read as Fortran; "
        "--profile tells more"
    )


def check_language(command: str, name: str) -> None:
    """Ends a call that takes programs of the profile alone, where a file's name says that it is none."""
    if command not in COMMANDS and is_real_by_name(name):
        words = f"{shown(name)} is in free form, which {listed(COMMANDS)} read"
        raise CompanionError(Status.PROGRAM_REFUSED, f"{words}; {command} takes programs of ped's profile")


@contextmanager
def _progress() -> Iterator[Progress]:
    """Shows how far a call is, where standard error is a terminal."""
    progress = Progress(sys.stderr)
    try:
        yield progress
    finally:
        progress.clear()
