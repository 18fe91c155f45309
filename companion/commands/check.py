"""`pedx check`: what is wrong with a program, a script or a run, as compilers say it."""

from __future__ import annotations

from dataclasses import dataclass, field
from typing import Iterator, List, Optional, Sequence, Tuple

from ..cautions import idle_directives, parallel_loops, past_last_column, untidy_loops
from ..evidence.offers import with_evidence
from ..faults import FAULTS, NO_DATA
from ..layout import looks_free, notes
from ..lines import Place, Span, split_lines
from ..messages import ERROR, NOTE, WARNING, Mark, excerpt, located
from ..occurrences import Examined, Occurrence, examine, is_trusting
from ..panes import read_panes, read_source
from ..ped import Ped, read_file
from ..program import Program, read_program
from ..refusals import REFUSALS
from ..repairs import Refused, refusals
from ..replies import Fault, Race, Reply
from ..scripts import Command, weave
from ..statuses import ProgramRefused, Status
from ..suspects import suspect
from ..views import Question, View, complaints, idle_lines, view_of_file, view_of_panes


@dataclass
class Report:
    """What is printed, and the status of the call."""

    rows: List[str] = field(default_factory=list)
    status: Status = Status.DONE

    def add(self, rows: Sequence[str], status: Status = Status.DONE) -> None:
        """Adds rows; the gravest status counts."""
        self.rows.extend(rows)
        self.status = max(self.status, status, key=_GRAVITY.index)

    @property
    def text(self) -> str:
        """The printed text."""
        return "".join(row + "\n" for row in self.rows)


_GRAVITY = [
    Status.DONE, Status.WARNING, Status.LINE_REFUSED, Status.FAULT, Status.OCCURS, Status.RACE,
    Status.PROGRAM_REFUSED,
]


def check(ped: Ped, question: Question, runs: bool, strict: bool) -> Report:
    """Checks a program; with `runs` also that it runs without a fault and without a race."""
    report = Report()
    source = read_file(question.file)
    cautions = past_last_column(split_lines(source))
    warnings = [located(question.name, place, f"{WARNING}: {words}") for place, words in cautions]
    try:
        if question.script is None and not runs:
            view = view_of_file(ped.show(source), source, question)
        else:
            view = _session(report, ped, question, source, warnings)
    except ProgramRefused as refusal:
        report.add(warnings)
        report.add(list(_all_refusals(ped, question.name, refusal)), Status.PROGRAM_REFUSED)
        return report
    view = with_evidence(ped, view)
    found = sorted([*parallel_loops(view), *untidy_loops(view), *idle_directives(view)])
    warnings.extend(located(view.name, place, f"{WARNING}: {words}") for place, words in found)
    report.add(warnings, Status.WARNING if strict and warnings else Status.DONE)
    return report


def _all_refusals(ped: Ped, name: str, refusal: ProgramRefused) -> Iterator[str]:
    """What ped refuses of a program, and what it would refuse next; and what is to be said of the file as a whole."""
    about_file = [f"{name}: {NOTE}: {words}" for words in notes(split_lines(refusal.source))]
    if looks_free(split_lines(refusal.source)):
        # Each line would be refused.
        yield from refusal_rows(name, refusal)
        yield from about_file
        return
    found, is_whole = refusals(ped, refusal)
    for one in found:
        yield from _refusal(name, split_lines(refusal.source), one)
    yield from about_file
    if len(found) > 1:
        yield f"{name}: {NOTE}: ped names the first of these; the others come once those before are repaired"
    if not is_whole:
        yield f"{name}: {NOTE}: there may be more, which can't be told yet"


def refusal_rows(name: str, refusal: ProgramRefused) -> Iterator[str]:
    """A refusal of a program with its line, its rule and what to write instead."""
    lines = split_lines(refusal.source)
    where = suspect(lines, refusal.number, refusal.line)
    yield from _refusal(name, lines, Refused(refusal.number, refusal.name, where))


def _refusal(name: str, lines: Sequence[str], refused: Refused) -> Iterator[str]:
    known = REFUSALS.get(refused.number)
    place, about = refused.where
    rule = f": {known.rule}" if known is not None else ""
    words = f"{ERROR}: {refused.number} {refused.name}{rule}" + (f": {about}" if about else "")
    yield located(name, place, f"{words}{refused.because}")
    if place.line <= len(lines):
        yield from excerpt(lines, [Mark(Span(place, Place(place.line, place.column + len(about or "1") - 1)), "^")])
    if known is not None:
        yield located(name, place, f"{NOTE}: {known.instead}")


def _session(report: Report, ped: Ped, question: Question, source: str, warnings: List[str]) -> View:
    """Carries a script out, and reports what was refused, and faults and races of each run and of the last program.

    Lines of evidence that prove nothing are warnings.
    """
    script = read_file(question.script) if question.script is not None else ""
    data = read_file(question.data) if question.data is not None else None
    woven = weave(script, _source_behind_runs, ["races", "show"])
    replies = list(zip(woven.origins, ped.session(source, woven.text, data)))
    refused = list(complaints(question.script_name, replies))
    report.add(refused, Status.LINE_REFUSED if refused else Status.DONE)
    warnings.extend(idle_lines(question.script_name, replies))
    panes = read_panes(replies[-1][1].rows if replies[-1][0] is None else replies[-2][1].rows)
    view = view_of_panes(panes) if question.script is not None else view_of_file(panes, source, question)
    _report_runs(report, question, view, replies)
    _report_rejected(report, ped, question, source)
    return view


def _source_behind_runs(command: Command) -> List[str]:
    return ["source"] if command.word in ("run", "races") else []


def _report_runs(
    report: Report, question: Question, view: View, replies: Sequence[Tuple[Optional[Command], Reply]]
) -> None:
    """Reports the faults and races of the runs of a script, and of the run of the last program."""
    for (origin, reply), (_, shown) in zip(replies, replies[1:]):
        if origin is not None and question.script is not None:
            lines = [row.text for row in read_source(shown.rows)] if reply.fault or reply.race else []
            about = _about_run(reply, read_program(lines))
            if about is not None:
                report.add(about.rows(question.script_name, Place(origin.line, 1), lines), about.status)
        elif reply.command.word == "races":
            about = _about_run(reply, view.program)
            if about is None:
                report.add([f"{question.name}: {NOTE}: {_which(question)} runs without a fault and without a race"])
            elif reply.fault is not None and reply.fault.number == NO_DATA and question.data is None:
                report.add([f"{question.name}: {NOTE}: {_which(question)} reads data, and none are given"])
            else:
                report.add(about.rows(view.name, about.place, view.lines), about.status)


def _report_rejected(report: Report, ped: Ped, question: Question, source: str) -> None:
    """Reports rejected dependences that occur in the run of the program, or of one that a command of the script makes.

    Of the programs that one `auto` goes through, it is the last alone.
    """
    data = read_file(question.data) if question.data is not None else None
    script = read_file(question.script) if question.script is not None else ""
    if "REJECT" not in (source + script).replace(" ", "").upper():
        return
    woven = weave(script, lambda command: ["show", "run"], [])
    replies: List[Tuple[Optional[Command], Reply]] = [(None, one) for one in ped.session(source, "show\nrun\n", data)]
    replies.extend(zip(woven.origins, ped.session(source, woven.text, data)))
    examined = []
    for command, shown, ran in _passed(replies):
        panes = read_panes(shown.rows)
        if is_trusting(panes):
            view = view_of_file(panes, source, question) if command is None else view_of_panes(panes)
            examined.append(examine(view, data, ran.rows))
            report.add(*_about_rejected(question, command, view, examined[-1]))
    if examined and not any(one.found or one.doubt for one in examined):
        count = len(examined)
        which = "the run" if count == 1 else f"the runs of {count} programs"
        report.add([f"{question.name}: {NOTE}: {examined[0].words} in {which}"])


def _passed(replies: Sequence[Tuple[Optional[Command], Reply]]) -> Iterator[Tuple[Optional[Command], Reply, Reply]]:
    """The first program and each that a command makes: the command, the reply to `show`, and the reply to `run`."""
    command: Optional[Command] = None
    is_new = True
    for (origin, reply), (_, following) in zip(replies, replies[1:]):
        if origin is not None:
            command, is_new = origin, reply.accepted or bool(reply.taken)
        elif is_new and reply.command.word == "show":
            yield command, reply, following


def _about_rejected(
    question: Question, command: Optional[Command], view: View, examined: Examined
) -> Tuple[List[str], Status]:
    """What is said of the rejected dependences of one program."""
    where = "" if command is None else f", after line {command.line} of {question.script_name}"
    if examined.doubt is not None:
        return [f"{question.name}: {NOTE}: {examined.words}{where}"], Status.DONE
    rows: List[str] = []
    for loop, one in _first_of_each(view, examined.found):
        name = f"{one.row.name}({','.join(map(str, one.later.cell.subscripts))})".replace("()", "")
        words = f"a rejected dependence occurs{where}: two iterations of the loop at statement {loop} use {name}"
        marks = [
            Mark(view.program.reference(reference).span, sign, f"statement {reference[0]}")
            for reference, sign in ((one.row.source, "^"), (one.row.sink, "~"))
        ]
        rows += [located(view.name, marks[0].span.start, f"{ERROR}: {words}"), *excerpt(view.lines, marks)]
    return rows, Status.OCCURS if rows else Status.DONE


def _first_of_each(view: View, found: Sequence[Occurrence]) -> Iterator[Tuple[int, Occurrence]]:
    """For each loop and each name the first dependence that occurs, with the statement of the loop."""
    seen = set()
    for one in found:
        loop = view.carrier(one.row)
        if loop is not None and (loop.number, one.row.name) not in seen:
            seen.add((loop.number, one.row.name))
            yield loop.number, one


def _which(question: Question) -> str:
    return "the program" if question.script is None else "the last program of the script"


@dataclass(frozen=True)
class _Accident:
    """A fault or a race of a run: what is said of it, and the references that are marked."""

    words: str
    marks: List[Mark]
    status: Status

    @property
    def place(self) -> Place:
        """Where the first reference stands."""
        return self.marks[0].span.start

    def rows(self, name: str, place: Place, lines: Sequence[str]) -> List[str]:
        """The message at a place of a file, and the marked lines of the program."""
        return [located(name, place, f"{ERROR}: {self.words}"), *excerpt(lines, list(dict.fromkeys(self.marks)))]


def _about_run(reply: Reply, program: Program) -> Optional[_Accident]:
    """What came of a `run` or a `races`, where it is a fault or a race."""
    if reply.fault is not None:
        return _about_fault(reply.fault, program)
    return _about_race(reply.race, program) if reply.race is not None else None


def _about_fault(fault: Fault, program: Program) -> _Accident:
    words = f"fault {fault.number} at statement {fault.statement}: {FAULTS.get(fault.number, 'unknown')}"
    return _Accident(words, [Mark(program.statement(fault.statement).span, "^")], Status.FAULT)


def _about_race(race: Race, program: Program) -> _Accident:
    variable = race.cell if race.cell.startswith("(") else race.cell.partition("(")[0]
    marks: List[Mark] = []
    for number, sign in ((race.first, "^"), (race.second, "~")):
        statement = program.statement(number)
        spans = [reference.span for reference in statement.references if reference.name == variable]
        marks.extend(Mark(span, sign, f"statement {number}") for span in spans or [statement.span])
    words = f"race: two iterations of a PARALLEL DO use {race.cell}, at statements {race.first} and {race.second}"
    return _Accident(words, marks, Status.RACE)
