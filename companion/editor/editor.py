"""The editor: it waits for a key, does what the key says, and shows what came of it."""

from __future__ import annotations

import os
import signal
from contextlib import suppress
from typing import Any, Callable, Dict, List, Optional, Sequence, Tuple, TypeVar

from .. import files
from ..blocks import block_at, blocks_of
from ..calls import read_calls
from ..commands.why import explained
from ..compilers import compiler
from ..doubts import may_reject
from ..evidence.offers import with_evidence
from ..exports import export_of
from ..faults import FAULTS
from ..lines import split_lines
from ..messages import counted, listed
from ..openmp import Wishes
from ..panes import Dependence
from ..ped import ENCODING, argument, cause, read_file, shown
from ..refusals import refused
from ..replies import Fault, Reply
from ..statuses import CompanionError
from ..trials import carried_names, rows_by_name
from . import keys
from .advice import advice_page, advised, calls_page
from .changes import NoChange
from .compiling import compile_command, compiled, run_compiled
from .desk import Desk
from .evidence import evidence_lines, proved
from .filters import ALL, Filters
from .free_edits import TEXT, Draft, NoEditor, about_refusal, refused_line
from .keys import BLOCK_STEPS, EXPAND, PRIVATISE, REDUCE, STEPS, Asks, Step
from .lists import changes_list, loops_list, scalars_of, variables_list
from .pages import Listed, show_list, show_page
from .pictures import HINT, Painter, Row
from .prompts import ask, pick
from .rescuing import Rescue, has_text_alone, remove, rescued
from .saving import Names, What
from .session import Session
from .terminal import (
    DOWN, END, ENTER, ESCAPE, HOME, INTERRUPTED, OTHER, PAGE_DOWN, PAGE_UP, PRESSED, RESIZED, TAB, UP, WHEEL_DOWN,
    WHEEL_UP, Terminal,
)
from .working import GivenUp, Programs, Work

_ENDLESS = 10 ** 9
#: How many rows are explained at once.
_EXPLAINED = 50
#: Work that takes longer, in seconds, is shown; before that keys wait. And how often what is shown is looked at.
_SOON, _TURN = 0.3, 0.1
#: Ctrl-\, which ends the editor while it's at work, as it ends programs that have no such key.
_END = "\x1c"

_CLOSES = "another key closes the page, and is carried out"
_ON_VARIABLES = "v privatise, x expand, + reduce; Enter shows its dependences; another key closes"

T = TypeVar("T")


class Editor:
    """The editor of a session on a terminal."""

    def __init__(self, terminal: Terminal, session: Session, name: str, names: Names, rescue: Rescue) -> None:
        self._terminal = terminal
        self._session = session
        self._names = names
        self._rescue = rescue
        self._painter = Painter(name)
        self._desk = Desk(session.present)
        self._choices = ""
        self._data_name = ""
        #: What was searched last.
        self._sought = ""
        self._is_done = False
        #: What goes on, and the keys that are to be served behind it.
        self._work_now: Optional[Work[Any]] = None
        self._kept: List[str] = []
        #: What was rescued and is part of the changes now; it may go once they are saved.
        self._taken: List[str] = []
        self._moves = self._moving_keys()
        self._actions = self._other_keys()

    def run(self, greeting: str = "") -> None:
        """Does what the keys say until the user ends it."""
        if not self._offer_rescued():
            self._desk.say(greeting or "? tells the keys, n goes to the next loop, a tells what to do with it")
        while not self._is_done:
            self._read_when_wanted()
            self._draw()
            self._act(self._kept.pop(0) if self._kept else self._terminal.key())

    def _act(self, key: str) -> None:
        """Does what a key says."""
        if self._work_now is not None:
            self._act_meanwhile(self._work_now, key)
            return
        try:
            if key in self._moves:
                self._moves[key]()
            elif key in STEPS:
                self._step(STEPS[key])
            elif key in BLOCK_STEPS:
                self._step_of_block(BLOCK_STEPS[key])
            elif key in self._actions:
                self._actions[key]()
            elif key not in (RESIZED, OTHER):
                self._desk.say(f"nothing is on the key {key!r}; ? tells the keys")
        except CompanionError as error:
            self._desk.say(error.message)
        except KeyboardInterrupt:
            self._desk.say("interrupted")

    def _moving_keys(self) -> Dict[str, Callable[[], object]]:
        """The keys that are served while ped works, too."""
        desk = self._desk
        return {
            UP: lambda: desk.move(-1), DOWN: lambda: desk.move(1),
            PAGE_UP: lambda: desk.move(-self._half), PAGE_DOWN: lambda: desk.move(self._half),
            HOME: lambda: desk.move(-_ENDLESS), END: lambda: desk.move(_ENDLESS),
            keys.NEXT_LOOP: lambda: desk.go_to_loop(True), keys.PREVIOUS_LOOP: lambda: desk.go_to_loop(False),
            WHEEL_UP: lambda: desk.move(-3), WHEEL_DOWN: lambda: desk.move(3), PRESSED: self._press,
            keys.LOOPS: self._list_loops, keys.SEARCH: self._search, keys.GO: self._go,
            keys.OUTER_LOOP: desk.go_out, TAB: self._change_pane,
            keys.LEVEL: lambda: self._filter(desk.filters.with_next_level(desk.outline.depth)),
            keys.KIND: lambda: self._filter(desk.filters.with_next_kind()),
            keys.MARK: lambda: self._filter(desk.filters.with_next_mark()),
            keys.ORDER: lambda: self._filter(desk.filters.with_next_order()),
            keys.NAME: self._filter_name, keys.NO_FILTERS: lambda: self._filter(Filters()),
            keys.HELP: self._help,
        }

    def _other_keys(self) -> Dict[str, Callable[[], object]]:
        return {
            ESCAPE: self._to_source, keys.VARIABLES: self._list_variables, keys.CHANGES: self._list_changes,
            keys.ADVICE: self._advise, keys.CALLS: self._show_calls, ENTER: self._why,
            keys.PROVE: self._prove, keys.AUTO: self._automatic, keys.EDIT: self._edit,
            keys.UNDO: self._undo, keys.REDO: self._redo,
            keys.RUN: self._run, keys.RACES: self._races, keys.DATA: self._choose_data,
            keys.SAVE: self._save_script, keys.WRITE: self._write_program, keys.OPENMP: self._openmp,
            keys.QUIT: self._quit, INTERRUPTED: self._interrupt,
        }

    @property
    def _half(self) -> int:
        """How many lines a page key goes."""
        return max(1, self._terminal.size[0] // 2)

    # What takes time

    def _work(self, words: str, act: Callable[[Session], T]) -> T:
        """Has something done to the session that takes time, and takes what has come of it.

        Meanwhile the user may move, and give it up; then a GivenUp is raised, and the session is as it was.
        """
        def try_it(programs: Programs) -> Tuple[Session, T]:
            session = self._session.trial(programs.run)
            return session, act(session)

        session, result = self._followed(Work(words, try_it))
        self._session.adopt(session)
        return result

    def _followed(self, work: Work[T]) -> T:
        """Serves keys until some work is done, and answers what has come of it."""
        self._work_now = work
        try:
            work.wait(_SOON)
            while not work.is_done:
                self._draw()
                key = self._terminal.key_within(_TURN)
                if key is not None:
                    self._act_meanwhile(work, key)
            return work.result()
        finally:
            self._work_now = None
            work.give_up()

    def _act_meanwhile(self, work: Work[T], key: str) -> None:
        """Does what a key says while some work goes on; a key that isn't served then is told, or waits for a moment."""
        if key in self._moves:
            self._moves[key]()
        elif key in (ESCAPE, INTERRUPTED):
            # What was done just before is done.
            if not work.is_done:
                raise GivenUp(work.words, work.seconds)
        elif work.is_done:
            self._kept.append(key)
        elif key == _END:
            os.kill(os.getpid(), signal.SIGQUIT)
        elif key not in (RESIZED, OTHER):
            self._desk.say(f"ped is working: {work.words}; the key {key} does nothing until it's done")

    def _read_when_wanted(self) -> None:
        """Reads the program where the references of a row are to be shown."""
        if self._desk.is_unread:
            try:
                self._work("the program is read", lambda session: session.present.view)
            except CompanionError as error:
                self._desk.in_rows = False
                self._desk.say(error.message)

    # What is shown and asked

    def _picture(self) -> List[Row]:
        changes = counted(len(self._session.changes), "change")
        state = changes if self._session.is_saved else f"{changes}, not saved"
        height, width = self._terminal.size
        return self._painter.picture(self._desk, state, height, width, self._hint())

    def _hint(self) -> str:
        """What the last row says: what goes on, and for how long, or some keys."""
        work = self._work_now
        if work is None:
            return HINT
        about = f" .. {int(work.seconds)} s; Esc gives it up"
        return f"{work.words[:max(8, self._terminal.size[1] - len(about))]}{about}; keys that move are served"

    def _draw(self) -> None:
        self._terminal.draw(self._picture())

    def _background(self) -> List[Row]:
        return self._picture()[:-1]

    def _ask(self, words: str, choices: Sequence[str] = ()) -> Optional[str]:
        answer = ask(self._terminal, self._background, words, choices)
        if answer is None:
            self._desk.say("nothing was done")
        return answer

    def _pick(self, words: str, choices: str) -> str:
        return pick(self._terminal, self._background, words, choices) or ""

    def _confirm(self, words: str) -> bool:
        return self._pick(f"{words} (y, n)", "yn") == "y"

    def _page(self, title: str, lines: Sequence[str]) -> None:
        """Shows a page. The key that closes it is carried out, but for those that only close it."""
        self._press_behind(show_page(self._terminal, title, lines))

    def _press_behind(self, key: str) -> None:
        """Carries out the key that has closed a page, but for those that only close it."""
        if key not in (ENTER, ESCAPE, TAB, INTERRUPTED, keys.QUIT, keys.HELP):
            self._act(key)

    def _help(self) -> None:
        self._page("The keys of pedx edit", keys.help_lines(self._terminal.size[1]))

    # Looking

    def _change_pane(self) -> None:
        self._desk.in_rows = not self._desk.in_rows and bool(self._desk.rows)

    def _to_source(self) -> None:
        self._desk.in_rows = False

    def _filter(self, filters: Filters) -> None:
        self._desk.filters = filters
        self._desk.say(f"dependences: {filters.words}")

    def _press(self) -> None:
        """Goes to the line that the mouse is on, or chooses the row."""
        on = self._painter.at(self._desk, self._terminal.pressed)
        if on.line is not None:
            self._desk.in_rows = False
            self._desk.go(on.line)
        elif on.row is not None:
            self._desk.in_rows, self._desk.row = True, on.row

    def _search(self) -> None:
        text = self._ask("the next line that has", [self._sought] if self._sought else [])
        if text:
            self._sought = text
            self._desk.search(text)

    def _go(self) -> None:
        number = self._ask("go to line")
        if number is not None and number.isdecimal():
            self._desk.in_rows = False
            self._desk.go(int(number))
        elif number:
            self._desk.say(f"{number} is no number of a line")

    def _list_loops(self) -> None:
        found = loops_list(self._desk)
        chosen = self._choose("The loops: * carries something, o is free, = is parallel", found, "goes to a loop")
        if chosen is not None:
            self._desk.in_rows = False
            self._desk.go(int(chosen))

    def _list_variables(self) -> None:
        loop = self._desk.loop
        if loop is None:
            self._desk.say("stand on a loop for its variables; n goes to the next one")
            return
        number = loop.number
        found = self._work("the variables are looked up", lambda session: _variables(session, number))
        title = f"The variables of loop {number}, {loop.header}"
        answer = show_list(self._terminal, title, found, _ON_VARIABLES if found.chosen else _CLOSES)
        if answer.choice is None or answer.key not in (ENTER, PRIVATISE, EXPAND, REDUCE):
            self._press_behind(answer.key)
            return
        name = found.chosen[answer.choice]
        if answer.key == ENTER:
            self._filter(Filters(level=ALL, name=name, order=self._desk.filters.order))
            self._desk.in_rows = bool(self._desk.rows)
            return
        view = self._session.present.view
        scalars = scalars_of(answer.key, name, view, view.program.loops[number])
        self._carry_out(f"{STEPS[answer.key].word} {number} {scalars}", number)

    def _list_changes(self) -> None:
        chosen = self._choose("The changes", changes_list(self._session), "goes there, back or forth")
        if chosen is None:
            return
        count = int(chosen)
        before = len(self._session.changes)
        if count == before:
            self._desk.say("the program is there already")
            return
        self._work("back to a change" if count < before else "forth to a change", lambda session: session.go_to(count))
        self._desk.put(self._session.present)
        last = f" is the last one: {self._session.changes[-1].command}" if count else ": the program is as it was"
        self._desk.say(f"change {count}{last}" if count else f"no change{last}")

    def _choose(self, title: str, found: Listed, what: str) -> Optional[str]:
        """Shows a list, and answers what is chosen from it; another key that closes it is carried out."""
        hint = f"the key at the left, Enter or a click {what}; another key closes it"
        answer = show_list(self._terminal, title, found, hint if found.chosen else _CLOSES)
        if answer.choice is not None and answer.key == ENTER:
            return found.chosen[answer.choice]
        self._press_behind(answer.key)
        return None

    def _filter_name(self) -> None:
        names = list(dict.fromkeys(row.name for row in self._desk.rows))
        name = self._ask("dependences of which name? (none: all)", names)
        if name is not None:
            self._filter(self._desk.filters.with_name(name))

    def _why(self) -> None:
        rows = [self._desk.chosen] if self._desk.chosen is not None else self._desk.rows
        if not rows:
            self._desk.say("there is no dependence to be explained")
            return
        lines = self._work("the rows are explained", lambda session: _explained(session, rows[:_EXPLAINED]))
        self._page("Why these dependences are there" if len(rows) > 1 else "Why this dependence is there", lines)

    def _advise(self) -> None:
        loop = self._desk.loop
        if loop is None:
            self._desk.say("stand on a loop for advice; n goes to the next one")
            return
        number = loop.number
        found = self._work(f"advice for loop {number}", lambda session: _advice(session, number))
        chosen = self._choose(f"Advice for loop {number}, {loop.header}", found, "carries a step out")
        for step in chosen.split(", ") if chosen is not None else ():
            self._carry_out(step, number)

    def _show_calls(self) -> None:
        found = self._work("calls", lambda session: read_calls(session.answer("calls").rows))
        listed = calls_page(found, self._desk.outline)
        chosen = self._choose("The CALLs, and what depends on them", listed, "inlines a CALL")
        if chosen is not None:
            self._carry_out(chosen, int(chosen.split()[1]))

    # Changing

    def _step(self, step: Step) -> None:
        loop = self._desk.loop
        if loop is None:
            self._desk.say(f"{step.word} wants a loop, and the line is in none; n goes to the next one")
            return
        answer: Optional[str] = ""
        if step.asks is not Asks.NOTHING:
            answer = self._ask(f"{step.word} {loop.number}: {step.asks.value}", self._offered(step.asks))
        if answer is not None:
            self._carry_out(f"{step.word} {loop.number} {answer}".strip(), loop.number)

    def _step_of_block(self, step: Step) -> None:
        block = block_at(blocks_of(self._desk.present.panes.source), self._desk.line)
        if block is None:
            where = f"the line is in none; {keys.CALLS} shows them"
            self._desk.say(f"{step.word} wants the block of a CALL, and {where}")
        else:
            self._carry_out(f"{step.word} {block.number}", block.number)

    def _offered(self, asks: Asks) -> List[str]:
        """What can be meant, the likeliest first."""
        if asks is Asks.FACTOR:
            return ["1"]
        if asks is Asks.SIZE:
            return ["32"]
        if asks is Asks.ITERATION:
            return ["first", "last"]
        rows = self._desk.carried
        if asks is Asks.VARIABLE:
            view = self._work("the program is read", lambda session: session.present.view)
            return [name for name, mine in rows_by_name(rows).items() if may_reject(view.program, mine)]
        names = [name for name in carried_names(rows) if not name.startswith("(")]
        scalars = [name for name in names if name not in self._desk.outline.arrays]
        return [" ".join(scalars), *scalars] if asks is Asks.SUMS and len(scalars) > 1 else scalars

    def _carry_out(self, command: str, statement: int) -> None:
        line = self._desk.line
        refusal = self._work(command, lambda session: session.step(command))
        if refusal is None:
            # Who has gone elsewhere meanwhile stays there.
            self._desk.put(self._session.present, statement if self._desk.line == line else None)
            self._desk.say(f"{command}: ok{self._what_next(command.split()[0])}")
        else:
            cause = refused(refusal, command.split()[0])
            self._desk.say(f"{command}: {cause}; {keys.ADVICE} tells what ped accepts")
            self._desk.point(refusal)

    def _what_next(self, word: str) -> str:
        """What a step has led to; behind `reduce` the loop still carries its sums."""
        loop = self._desk.loop
        if loop is None:
            return ""
        if word == "reduce":
            return f"; the iterations of loop {loop.number} may be done in any order"
        hint = "; p makes it parallel" if self._desk.is_free else ""
        return f"; loop {loop.number} {self._desk.verdict}{hint}"

    def _prove(self) -> None:
        """Looks for evidence that the present loop may be parallel, and carries that out; else says what is left."""
        loop = self._desk.loop
        if loop is None:
            self._desk.say("evidence wants a loop, and the line is in none; n goes to the next one")
            return
        number = loop.number
        proof = self._work(f"evidence for loop {number}", lambda session: proved(session, number))
        if not proof.is_accepted:
            self._page(f"Evidence for loop {number}, {loop.header}", evidence_lines(proof))
            return
        refusal = self._work("parallel by evidence", lambda session: session.step_with_evidence(proof.script))
        if refusal is not None:
            self._desk.say(f"parallel {number}: {refused(refusal, 'parallel')}")
            return
        self._desk.put(self._session.present, number)
        lines = counted(len(proof.lines), "line")
        self._desk.say(f"{proof.step} {number} by {lines} of evidence: ok{self._what_next(proof.step)}")

    def _automatic(self) -> None:
        reply = self._work("auto", lambda session: session.automatic())
        self._desk.put(self._session.present)
        left = [str(loop.number) for loop in reply.left]
        loops = f"loop{'s' if len(left) > 1 else ''} {listed(left)}" if left else "no loop"
        self._desk.say(f"auto: {counted(len(reply.taken), 'step')}; {loops} left")

    def _edit(self) -> None:
        self._edit_draft(Draft(self._session.present.lines))

    def _edit_draft(self, draft: Draft) -> bool:
        """Has a text edited until ped takes it, or the user drops it; answers whether ped has taken it."""
        self._rescue.draft = draft
        line = self._desk.line
        while True:
            why, line = self._try_edit(draft, line)
            if not why:
                break
            self._desk.say(why)
            if draft.text == self._session.present.text or not self._goes_on(draft):
                self._rescue.draft = None
                return False
        self._rescue.draft = None
        is_changed = self._session.present is not self._desk.present
        self._desk.put(self._session.present)
        self._desk.say(f"{self._session.changes[-1].command}: ok" if is_changed else "the edit changed nothing")
        return True

    def _try_edit(self, draft: Draft, line: int) -> Tuple[str, int]:
        """Has a text edited, and asks ped to take it; answers why it doesn't, if so, and the line to be shown then."""
        try:
            with self._terminal.set_aside():
                draft.edit(line)
            refusal = self._work("the edit", lambda session: session.edit(draft.lines))
        except NoEditor as error:
            return str(error), line
        except NoChange as error:
            return str(error), error.line
        except CompanionError as error:
            return error.message, line
        except KeyboardInterrupt:
            return "interrupted", line
        return (about_refusal(refusal), refused_line(refusal) or line) if refusal is not None else ("", line)

    def _goes_on(self, draft: Draft) -> bool:
        """Whether the user goes on with a text that ped doesn't take. It's dropped only where the user says so."""
        while True:
            answer = self._pick("edit on, write the text to a file, or drop it? (e, w, d)", "ewd")
            if answer == "e":
                return True
            if answer == "d":
                self._desk.say("the edit was dropped; the program is as it was")
                return False
            try:
                if answer == "w" and self._write(What.EDIT, self._names.edited, draft.text) is not None:
                    return False
            except CompanionError as error:
                self._desk.say(error.message)

    def _undo(self) -> None:
        change = self._work("undo", lambda session: session.undo())
        self._after_move("undone", change.command if change else None, "there is nothing to undo")

    def _redo(self) -> None:
        change = self._work("redo", lambda session: session.redo())
        self._after_move("done again", change.command if change else None, "there is nothing to redo")

    def _after_move(self, what: str, command: Optional[str], otherwise: str) -> None:
        if command is None:
            self._desk.say(otherwise)
            return
        self._desk.put(self._session.present)
        self._desk.say(f"{what}: {command}")

    # Running

    def _run(self) -> None:
        choices = self._ask("run with which choices? (none: in order)", [self._choices])
        if choices is None:
            return
        self._choices = choices
        command = f"run {choices}".strip()
        reply = self._work(command, lambda session: session.answer(command))
        if reply.refusal is not None:
            self._desk.say(f"{command}: {refused(reply.refusal)}")
        elif reply.fault is not None:
            self._say_fault(command, reply, reply.fault)
        else:
            self._desk.say(f"{command}: ended")
            self._page(f"{command}{self._on_data()}", reply.rows)

    def _races(self) -> None:
        reply = self._work("races", lambda session: session.answer("races"))
        if reply.fault is not None:
            self._say_fault("races", reply, reply.fault)
            return
        about = f"two iterations of a PARALLEL DO use {reply.race.cell}" if reply.race else "on these data"
        if self._session.present.is_trusting:
            examined = self._work("races", lambda session: session.examined())
            about = f"{about}; {examined.words}"
        self._desk.say(f"races{self._on_data()}: {reply.rows[0]}; {about}")
        self._desk.point(reply.rows[0])

    def _say_fault(self, command: str, reply: Reply, fault: Fault) -> None:
        words = FAULTS.get(fault.number, "unknown")
        self._desk.say(f"{command}{self._on_data()}: {reply.rows[0]}: {words}")
        self._desk.point(reply.rows[0])

    def _on_data(self) -> str:
        return f" on {shown(self._data_name)}" if self._data_name else ""

    def _choose_data(self) -> None:
        name = self._ask("data from which file? (none: no data)", [self._data_name])
        if name is None:
            return
        file: str = name
        text = self._work(f"{shown(file)} is read", lambda _: read_file(file)) if file else None
        self.take_data(name, text)
        self._desk.say(f"data: {shown(name) or 'none'}")

    def take_data(self, name: str, text: Optional[str]) -> None:
        """Takes the data for runs, those of a file; without a text there are none."""
        self._session.data = text
        self._data_name = name

    # Saving

    def _write(self, what: What, offered: str, text: str) -> Optional[str]:
        """Writes a text to a file that the user names; answers the name."""
        name = self._ask(what.value, [offered])
        if not name:
            return None
        if not self._may_write(what, name):
            return None
        self._names.write(what, name, text)
        self._desk.say(f"{shown(name)} is written")
        return name

    def _may_write(self, what: What, name: str) -> bool:
        """Whether a file isn't others', or the user has it written over all the same."""
        if not self._names.is_others(what, name):
            return True
        if self._confirm(f"{shown(name)} is there; write over it?"):
            self._names.own(what, name)
            return True
        self._desk.say("nothing was written")
        return False

    def _save_script(self) -> bool:
        name = self._write(What.SCRIPT, self._names.script, self._session.script)
        if name is None:
            return False
        self._names.script = name
        self._session.mark_saved()
        self._drop_taken()
        try:
            is_proved = self._work("the script is replayed", lambda session: session.replays())
            proof = "replays to this program" if is_proved else "DOESN'T replay to this program"
        except CompanionError as error:
            proof = f"can't be replayed: {error.message}"
        self._desk.say(f"{shown(name)} holds {counted(len(self._session.changes), 'change')} and {proof}")
        return True

    def _write_program(self) -> None:
        name = self._write(What.PROGRAM, self._names.program, self._session.present.text)
        self._names.program = name or self._names.program

    def _openmp(self) -> None:
        live = self._pick("print the variables in SAVE at its end? (y, n)", "yn")
        if not live:
            self._desk.say("nothing was done")
            return
        export = self._work("the program is translated", lambda session: export_of(
            session.ped, with_evidence(session.ped, session.present.view), Wishes(live == "y"), session.data
        ))
        if export.doubts:
            show_page(self._terminal, "Not all is sure of the OpenMP program", export.doubts, "a key closes the page")
            if not self._confirm("not all is sure of it: write it all the same?"):
                self._desk.say("nothing was written")
                return
        name = self._write(What.OPENMP, self._names.openmp, export.text)
        if name is None:
            return
        self._names.openmp = name
        words = compiler()
        if words is None:
            self._desk.say(f"{shown(name)} is written; gfortran isn't there to compile it ($FC names another compiler)")
        else:
            self._compile(compile_command(words, export.options, argument(name)), name)

    def _compile(self, command: List[str], name: str) -> None:
        line = shown(" ".join(command))
        if not self._confirm(f"{line}: compile it?") or not self._may_write(What.COMPILED, command[-2]):
            return
        complaints = self._followed(Work(line, lambda programs: compiled(command, programs.run)))
        self._names.own(What.COMPILED, command[-2])
        if complaints:
            self._desk.say("the compiler complains")
            self._page(line, complaints)
            return
        self._desk.say(f"compiled: {line}")
        if self._confirm("run it with four threads?"):
            data = self._session.data
            rows = self._followed(Work(shown(command[-2]), lambda programs: run_compiled(name, data, programs.run)))
            self._desk.say(f"{shown(command[-2])} has run")
            self._page(f"{shown(command[-2])}{self._on_data()}", rows)

    def _interrupt(self) -> None:
        """Asks before it ends: the key may have been meant for work that was done just then."""
        if not self._session.is_saved or self._confirm("quit?"):
            self._quit()

    def _quit(self) -> None:
        if self._session.is_saved:
            self._is_done = True
            return
        answer = self._pick("the changes aren't saved: save, quit without, or stay? (w, q, n)", "wqn")
        self._is_done = answer == "q" or answer == "w" and self._save_script()

    # What was rescued

    def _offer_rescued(self) -> bool:
        """Offers what an earlier editor has rescued; answers whether something of it was taken."""
        is_taken = False
        for name in rescued(self._names.rescued_script):
            if self._offer(name, "a script that was rescued", self._take_script):
                is_taken = True
                break
        for name in rescued(self._names.rescued_edit):
            if self._offer(name, "the text of an edit that was rescued", self._take_edit):
                return True
        return is_taken

    def _offer(self, name: str, what: str, take: Callable[[str], bool]) -> bool:
        self._desk.say(f"{shown(name)} holds {what}")
        answer = self._pick("go on with it, leave it, or remove it? (y, n, r)", "ynr")
        try:
            if answer == "r":
                remove(name)
            return answer == "y" and take(name)
        except OSError as error:
            self._desk.say(f"cannot {'remove' if answer == 'r' else 'read'} {shown(name)}: {cause(error)}")
        except CompanionError as error:
            self._desk.say(error.message)
        except KeyboardInterrupt:
            self._desk.say("interrupted")
        return False

    def _take_script(self, name: str) -> bool:
        refusals = self._work(shown(name), lambda session: session.load(read_file(name), is_saved=False))
        self._desk.put(self._session.present)
        changes = counted(len(self._session.changes), "change")
        self._desk.say(f"{shown(name)}: {changes}; refused: {counted(len(refusals), 'line')}")
        if not refusals:
            self._taken.append(name)
        return True

    def _take_edit(self, name: str) -> bool:
        text = files.read_bytes(os.path.join(name, TEXT)).decode(ENCODING)
        if self._edit_draft(Draft(split_lines(text), rescued=name)):
            self._taken.append(name)
        return True

    def _drop_taken(self) -> None:
        """Removes what was rescued and is saved now."""
        for name in self._taken:
            with suppress(OSError):
                if has_text_alone(name):
                    remove(name)
        self._taken = []


def _variables(session: Session, loop: int) -> Listed:
    view = session.present.view
    return variables_list(view, view.program.loops[loop])


def _advice(session: Session, loop: int) -> Listed:
    view = session.present.view
    return advice_page(view, view.program.loops[loop], advised(session.ped, view, view.program.loops[loop]))


def _explained(session: Session, rows: Sequence[Dependence]) -> List[str]:
    return [line for row in rows for line in (*explained(session.present.view, row), "")]
