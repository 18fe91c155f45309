"""`pedx loops`, `why`, `omp`, `model` and `json` on real Fortran."""

from __future__ import annotations

import os
from dataclasses import dataclass, field
from pathlib import Path
from typing import Dict, FrozenSet, Iterator, List, NamedTuple, Optional, Sequence, Tuple

from .. import files
from ..lines import split_lines
from ..messages import ERROR, NOTE, counted
from ..ped import ENCODING, Ped, cause, read_file, shown
from ..progress import Progress
from ..real import assumptions, blocks, exporting, library, preprocessing, report, tree
from ..real.compiled import CheckFails, Job, checked
from ..real.document import document
from ..real.explaining import Explainer, Wanted
from ..real.symbols import Scopes
from ..real.units import File
from ..real.verdicts import PARALLEL, REFUSED, Place, Verdict, places_of, verdicts
from ..statuses import CompanionError, Status

#: So many loops are asked about before it is shown how far the call has come.
_AT_A_TIME = 40
#: The suffixes of sources that a compiler may need, and that aren't Fortran.
_OTHER_LANGUAGES = (".c", ".cc", ".cpp", ".cxx", ".s", ".o", ".a", ".so")
#: The version of OpenMP that directives are for.
OPENMP = "4.5"


@dataclass(frozen=True)
class Reading:
    """How a file is read, and what is granted. `others` are further sources, with what it needs.

    `defines` and `undefines` are names of the preprocessor: `NAME` or `NAME=VALUE`, and `NAME`.
    """

    form: Optional[str] = None
    columns: int = 72
    folders: Sequence[str] = ()
    assume: Sequence[str] = ()
    deny: Sequence[str] = ()
    exact: bool = False
    openmp: str = OPENMP
    others: Sequence[str] = ()
    defines: Sequence[str] = ()
    undefines: Sequence[str] = ()

    @property
    def macros(self) -> preprocessing.Macros:
        """The names of the preprocessor."""
        try:
            return preprocessing.macros(self.defines, self.undefines)
        except preprocessing.BadDefinition as error:
            raise CompanionError(Status.BAD_WORDS, str(error)) from error


class Answer(NamedTuple):
    """The text of standard output, none where nothing is to be written; the messages; the status."""

    text: Optional[str]
    messages: Tuple[str, ...] = ()
    status: Status = Status.DONE


@dataclass
class Opened:
    """A file of real Fortran with all its DOs."""

    path: str
    text: str
    reading: Reading
    file: File
    scopes: Scopes
    places: List[Place]
    granted: FrozenSet[str]
    others: Tuple[File, ...] = ()
    notes: List[str] = field(default_factory=list)

    @property
    def name(self) -> str:
        """The name of the file in messages."""
        return shown(self.path)

    @property
    def is_fortran(self) -> bool:
        """Whether anything can be read of it: a DO, or a unit without a fault whose statements are all read."""
        if self.places:
            return True
        units = list(self.file.all_units())
        return bool(units) and not any(unit.faults for unit in units) and not any(
            isinstance(one.statement, tree.Unreadable) for unit in units for one in unit.statements()
        )

    def chosen(self, lines: Sequence[int]) -> List[Place]:
        """The loops on some lines, each the innermost one there; all where there is no line."""
        found: List[Place] = []
        for line in lines:
            place = self._at(line)
            if place not in found:
                found.append(place)
        return found if lines else self.places

    def _at(self, line: int) -> Place:
        here = [one for one in self.places if not one.file and one.line <= line <= one.last_line]
        if not here:
            raise CompanionError(Status.BAD_WORDS, f"line {line} of {self.name} is in no DO; {self._known(line)}")
        return max(here, key=lambda one: (one.line, one.level))

    def _known(self, line: int) -> str:
        lines = sorted({one.line for one in self.places if not one.file}, key=lambda one: (abs(one - line), one))
        if not lines:
            return "the file has none"
        return f"the nearest {'is' if len(lines) == 1 else 'are'} at {', '.join(map(str, sorted(lines[:3])))}"

    def judged(self, ped: Ped, places: Sequence[Place], progress: Progress) -> List[Verdict]:
        """The verdicts about some loops."""
        found: List[Verdict] = []
        for begin in range(0, len(places), _AT_A_TIME):
            progress.show(f"{begin} of {len(places)} loops")
            part = places[begin:begin + _AT_A_TIME]
            found += verdicts(ped, part, self.granted, self.reading.openmp >= "5.0")
        return found


def opened(path: str, reading: Reading, text: Optional[str] = None) -> Opened:
    """Reads a file."""
    text = read_file(path) if text is None else text
    try:
        granted = assumptions.granted(reading.assume, reading.deny, reading.exact)
        file = blocks.read_file(path, text, reading.form, reading.columns, reading.folders, reading.macros)
        others = tuple(_other(path, name, reading) for name in reading.others if _is_fortran(path, name))
        note = library.statement_classes().note
    except assumptions.NoAssumption as error:
        raise CompanionError(Status.BAD_WORDS, str(error)) from error
    except library.LibraryMissing as error:
        raise CompanionError(Status.NO_LIBRARY, str(error)) from error
    scopes = Scopes([unit for one in (file, *others) for unit in one.all_units()])
    notes = [] if note is None else [f"pedx: {NOTE}: {note}"]
    return Opened(path, text, reading, file, scopes, places_of(file, scopes, others), granted, others, notes)


def _other(path: str, name: str, reading: Reading) -> File:
    """A further source. It has the form that is given for the file where its name ends as the file's."""
    form = reading.form if Path(name).suffix == Path(path).suffix else None
    return blocks.read_file(name, read_file(name), form, reading.columns, reading.folders, reading.macros)


def _is_fortran(path: str, name: str) -> bool:
    """Whether a further source may be read: it's no file of another language, and not the file itself."""
    try:
        is_same = os.path.samefile(path, name)
    except OSError:
        is_same = False
    return not is_same and not is_other_language(name)


def is_other_language(name: str) -> bool:
    """Whether a source is in another language, as its name says."""
    return Path(name).suffix.lower() in _OTHER_LANGUAGES


# --- Commands --------------------------------------------------------------------------------------------------------


def loops(one: Opened, ped: Ped, lines: Sequence[int], as_json: bool, progress: Progress) -> Answer:
    """The table of the loops, or of those on some lines."""
    found = one.judged(ped, one.chosen(lines), progress)
    if as_json:
        return Answer(document(one.name, one.file, one.scopes, found), tuple(one.notes))
    return Answer(report.report(one.name, one.file, found), tuple(one.notes))


def json(one: Opened, ped: Ped, progress: Progress) -> Answer:
    """All loops with their models and rows, for other tools."""
    found = one.judged(ped, one.places, progress)
    return Answer(document(one.name, one.file, one.scopes, found, full=True), tuple(one.notes))


def why(one: Opened, ped: Ped, lines: Sequence[int], wanted: Wanted, progress: Progress) -> Answer:
    """Why loops carry what they do, or why they are parallel."""
    explainer = Explainer(one.name, one.file, one.reading.columns, _included(one.file))
    parts = [
        explainer.explained(verdict, wanted)
        for verdict in one.judged(ped, one.chosen(lines), progress)
        if wanted.is_all or verdict.carried
    ]
    text = "\n".join("".join(row.rstrip() + "\n" for row in part) for part in parts if part)
    return Answer(text or f"{one.name}: no such row\n", tuple(one.notes))


def _included(file: File) -> Dict[str, List[str]]:
    """The lines of the INCLUDEd files."""
    found: Dict[str, List[str]] = {}
    for path in file.included:
        try:
            found[path] = split_lines(files.read_bytes(path).decode(ENCODING))
        except OSError as error:
            raise CompanionError(Status.NOT_READ, f"cannot read {shown(path)}: {cause(error)}") from error
    return found


def model(one: Opened, ped: Ped, lines: Sequence[int], progress: Progress) -> Answer:
    """The programs that ped is asked about."""
    texts, messages = [], list(one.notes)
    for verdict in one.judged(ped, one.chosen(lines), progress):
        if verdict.model is not None:
            texts.append(verdict.model.text)
        elif verdict.refusal is not None:
            fault = verdict.refusal
            at = f"{verdict.place.file or one.name}:{verdict.place.line}"
            messages.append(f"{at}: {ERROR}: the loop has no model: {fault.reason}: {fault.words} (line {fault.line})")
    status = Status.DONE if texts or not one.places else Status.PROGRAM_REFUSED
    return Answer("\n".join(texts), tuple(messages), status)


# --- omp -------------------------------------------------------------------------------------------------------------


@dataclass(frozen=True)
class Writing:
    """What `omp` is to do: directives at these lines alone, where the text goes, and what is checked."""

    at: Sequence[int] = ()
    output: Optional[str] = None
    in_place: bool = False
    checks: bool = False
    data: Optional[str] = None


def omp(one: Opened, ped: Ped, writing: Writing, progress: Progress) -> Answer:
    """The user's text with directives."""
    _check_target(one, writing)
    found = one.judged(ped, one.places, progress)
    chosen = _asked_for(one, found, writing.at) if writing.at else exporting.chosen(
        one.file, found, one.reading.openmp
    )
    text = exporting.exported(one.text, one.file, chosen.verdicts)
    messages = [*one.notes, *_notes(one, chosen)]
    said = _summary(one, found, chosen, writing)
    if writing.checks:
        progress.announce("gfortran compiles and runs the result")
        try:
            said += "; " + _checked(one, chosen, text, writing)
        except CheckFails as error:
            rows = str(error).splitlines()
            messages.append(f"pedx: {ERROR}: {rows[0]}")
            return Answer(None, (*messages, *rows[1:], f"pedx: {ERROR}: nothing is written"), Status.DIFFERS)
    messages.append(f"pedx: {NOTE}: {said}")
    if writing.in_place:
        _write_over(one, text)
        return Answer(None, tuple(messages))
    return Answer(text, tuple(messages))


def _check_target(one: Opened, writing: Writing) -> None:
    """Nothing is written over the user's file unless that is asked for."""
    if writing.in_place and writing.output is not None:
        raise CompanionError(Status.BAD_WORDS, "--in-place writes over FILE; -o names another file")
    try:
        is_same = writing.output is not None and os.path.samefile(one.path, writing.output)
    except OSError:
        is_same = False
    if is_same:
        raise CompanionError(Status.BAD_WORDS, f"-o names {one.name} itself; --in-place writes over it")


def _write_over(one: Opened, text: str) -> None:
    old = one.text.encode(ENCODING)
    if text == one.text:
        return
    try:
        files.replace(one.path, text.encode(ENCODING), lambda: files.holds(one.path, old))
    except OSError as error:
        raise CompanionError(Status.NOT_READ, f"cannot write {one.name}: {cause(error)}") from error


def _asked_for(one: Opened, found: Sequence[Verdict], at: Sequence[int]) -> exporting.Chosen:
    """The loops on some lines, where each of them may have a directive."""
    taken: List[Verdict] = []
    for place in one.chosen(at):
        verdict = next(verdict for verdict in found if verdict.place is place)
        where = f"the loop of line {place.line}"
        if verdict.word != PARALLEL:
            raise CompanionError(Status.BAD_WORDS, f"{where} gets no directive: {report.said(verdict)}")
        words = exporting.hindrance(one.file, verdict, one.reading.openmp)
        if words is not None:
            raise CompanionError(Status.BAD_WORDS, f"{where} gets no directive: {words}")
        taken.append(verdict)
    for verdict in taken:
        if exporting.is_inside(verdict, taken):
            where = f"the loop of line {verdict.place.line}"
            raise CompanionError(Status.BAD_WORDS, f"{where} is inside another one that gets a directive")
    return exporting.Chosen(tuple(sorted(taken, key=lambda verdict: verdict.place.line)))


def _notes(one: Opened, chosen: exporting.Chosen) -> Iterator[str]:
    for verdict in chosen.verdicts:
        text = exporting.written_for(one.file, verdict)
        yield f"{one.name}:{verdict.place.line}: {NOTE}: {text} (assumes {', '.join(verdict.assumes)})"
    for left in chosen.left:
        at = f"{left.verdict.place.file or one.name}:{left.verdict.place.line}"
        yield f"{at}: {NOTE}: parallel, but gets no directive: {left.words}"
    cited = {name for verdict in chosen.verdicts for name in verdict.assumes}
    if cited:
        yield f"pedx: {NOTE}: assumed: {assumptions.cited(cited)} ({report.PAGE})"


def _summary(one: Opened, found: Sequence[Verdict], chosen: exporting.Chosen, writing: Writing) -> str:
    count = len(chosen.verdicts)
    target = shown(writing.output) if writing.output is not None else one.name
    directives = f"{count or 'no'} directive{'' if count == 1 else 's'}"
    refused = sum(verdict.word == REFUSED for verdict in found)
    words = f"; {refused} {'is' if refused == 1 else 'are'} refused" if refused else ""
    return f"{target}: {directives}, for {count} of {counted(len(found), 'loop')}{words}"


def _has_main(one: Opened) -> bool:
    """Whether there is a main program, which a source in another language may be as well."""
    if any(Path(name).suffix.lower() in _OTHER_LANGUAGES for name in one.reading.others):
        return True
    return any(unit.kind == "PROGRAM" for file in (one.file, *one.others) for unit in file.units)


def _checked(one: Opened, chosen: exporting.Chosen, text: str, writing: Writing) -> str:
    compiler = os.environ.get("FC") or "gfortran"
    job = Job(
        path=one.path, form=one.file.form, columns=one.reading.columns, text=one.text, written=text,
        running=exporting.exported(one.text, one.file, chosen.verdicts, exporting.RUNTIME),
        has_main=_has_main(one),
        is_exact=not any("A9" in verdict.assumes for verdict in chosen.verdicts),
        folders=one.reading.folders, others=one.reading.others, macros=one.reading.macros.flags,
        data=read_file(writing.data) if writing.data is not None else None,
    )
    try:
        return checked(job, compiler)
    except OSError as error:
        raise CompanionError(Status.DIFFERS, f"cannot start {shown(compiler)}: {cause(error)}") from error
