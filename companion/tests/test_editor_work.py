"""`pedx edit` while ped works: keys are served or told, work can be given up, and nothing is lost where ped fails."""

import os
import signal
import threading
import time
import unittest
from typing import List

from ..editor.session import Session
from ..editor.working import GivenUp, Programs, Work
from ..statuses import CompanionError
from .screens import COLOURED, DOWN, ENTER, ESCAPE, INTERRUPT, TAB, Player, has_terminal
from .support import fortran, ped, ped_path
from .test_editor import CHAIN, TWICE, Played

#: A program ped that says which process it is, and waits where a file is there; or it dies, or says nothing.
_PED = """\
#!/bin/sh
if [ -e {folder}/slow ]; then echo $$ >> {folder}/begun; while [ -e {folder}/slow ]; do sleep 0.05; done; fi
if [ -e {folder}/dies ]; then kill -9 $$; fi
if [ -e {folder}/silent ]; then exit 0; fi
exec {ped} "$@"
"""


def at_the_limit(count: int = 4000) -> str:
    """A program with so many statements, in loops that carry something."""
    bodies = count // 5
    lines = ["A(I) = A(I-1)+B(I)", "B(I) = C(I)*2+A(I)", "K = B(I)", "C(I) = K+1"]
    return fortran("INTEGER A(100), B(100), C(100)", "SAVE A", *["DO I = 2, 90", *lines, "END DO"] * bodies, "END")


class Meanwhile(Played):
    """An editor whose ped can be held up."""

    def begin(self, source: str = TWICE, **environment: str) -> Player:
        self.path("p.f").write_text(source)
        program = self.path("ped.sh")
        program.write_text(_PED.format(folder=self.folder, ped=os.path.abspath(ped_path())))
        program.chmod(0o755)
        variables = {"EDITOR": self._editor(), "PEDX_PED": str(program), **environment}
        player = Player(["edit", "p.f"], self.folder, environment=variables)
        self.players.append(player)
        player.wait("? keys")
        return player

    def hold(self, player: Player, *keys: str) -> int:
        """Has ped held up at a step that keys ask for; answers its process."""
        self.path("begun").write_text("")
        self.path("slow").touch()
        player.press(*keys)
        player.wait("Esc gives it up")
        return int(self.path("begun").read_text().split()[-1])

    def forget(self, player: Player) -> None:
        """Has another answer in the place of an earlier one."""
        player.press("0")
        player.wait("dependences: level=carried")

    def release(self) -> None:
        self.path("slow").unlink()

    def assert_ended(self, process: int) -> None:
        """The process isn't there any longer, or will soon be gone."""
        for _ in range(1000):
            try:
                os.kill(process, 0)
            except ProcessLookupError:
                return
            time.sleep(0.01)
        self.fail(f"process {process} goes on")


class Keys(Meanwhile):
    def test_moving(self) -> None:
        """Keys that move are served, with lists, questions and pages; who has moved isn't fetched back by the step."""
        player = self.begin()
        self.hold(player, "p")
        player.wait("parallel 1 .. ")
        player.press("n")
        player.wait("loop 3, DO I = 1, 5: carries T")
        player.press("K", TAB, DOWN)
        player.wait("1 of 4 rows, level=carried kind=flow")
        player.press("?")
        player.wait("The keys of pedx edit")
        player.press("g")
        player.wait("The loops: * carries something")
        player.press("1")
        player.wait("loop 1, DO I = 1, 5: free")
        player.press("/")
        player.wait("the next line that has")
        player.press(*"b(i)", ENTER)
        player.wait("loop 3, DO I = 1, 5: carries T")
        self.release()
        rows = player.wait("parallel 1: ok")
        self.assertIn("    1        PARALLEL DO I = 1, 5", rows)
        self.assertIn(" loop 3, DO I = 1, 5: carries T", "\n".join(rows))
        self.assertIn("    5 |        B(I) = 2*T", rows)
        player.wait("? keys")

    @unittest.skipUnless(has_terminal(COLOURED), f"the library curses knows no {COLOURED}")
    def test_mouse(self) -> None:
        """Clicks and the wheel are served, too, and lines that aren't shown are scrolled to."""
        player = self.begin(fortran(*["DO I = 1, 9", "K = I", "END DO"] * 20, "END"), TERM=COLOURED)
        self.hold(player, "p")
        player.click("    5        DO I = 1, 9")
        player.wait("loop 5, DO I = 1, 9: carries K")
        player.click("6.1  6.1  K")
        player.wait("*   6 |        K = I")
        player.press(TAB)
        for _ in range(4):
            player.turn_wheel(down=True)
        player.wait("loop 13, DO I = 1, 9: carries K")
        self.release()
        player.wait("parallel 1: refused")

    def test_other_keys_are_told(self) -> None:
        """A key that can't be served is told with what goes on; it's served once the work is done."""
        player = self.begin()
        self.hold(player, "p")
        for key in "uaVHcew":
            player.press(key)
            player.wait(f"ped is working: parallel 1; the key {key} does nothing until it's done")
        self.release()
        player.wait("parallel 1: ok")
        player.press("u")
        player.wait("undone: parallel 1")

    def test_time_goes_on(self) -> None:
        player = self.begin()
        self.hold(player, "A")
        for seconds in (1, 2):
            player.wait(f"auto .. {seconds} s; Esc gives it up; keys that move are served")

    def test_resize(self) -> None:
        player = self.begin()
        self.hold(player, "p")
        player.resize(60, 200)
        rows = player.wait("parallel 1 .. ")
        self.assertEqual(len(rows), 60)
        player.resize(12, 40)
        player.wait("s; Esc gives it up")
        self.release()
        player.wait("parallel 1: ok")

    def test_page_at_the_end_of_the_work(self) -> None:
        """A key that closes a page behind the end of the work is served then."""
        player = self.begin()
        self.hold(player, "p")
        player.press("?")
        player.wait("The keys of pedx edit")
        self.release()
        time.sleep(0.5)
        player.press("u")
        player.wait("undone: parallel 1")


class GivingUp(Meanwhile):
    def test_steps(self) -> None:
        """Esc and Ctrl-C end ped; the program, the changes and what was undone are as they were."""
        player = self.begin()
        player.press("p")
        player.wait("parallel 1: ok")
        player.press("n")
        player.wait("loop 3")
        asked = (("A", "auto"), ("r", "reverse 3"), ("u", "undo"), ("a", "advice for loop 3"), ("c", "calls"))
        for keys, words in asked:
            for key in (ESCAPE, INTERRUPT):
                self.forget(player)
                process = self.hold(player, keys)
                before = player.screen.rows[1:13]
                player.press(key)
                rows = player.wait(f"{words}: given up after")
                self.assertEqual(rows[1:13], before)
                self.assertIn("1 change, not saved", rows[0])
                self.assert_ended(process)
                self.release()
        player.press("u")
        player.wait("undone: parallel 1")
        process = self.hold(player, "y")
        player.press(ESCAPE)
        player.wait("redo: given up after")
        self.release()
        player.press("y")
        player.wait("done again: parallel 1")

    def test_saving(self) -> None:
        """The script is there before it's replayed, so only the proof is given up."""
        player = self.begin()
        player.press("p")
        player.wait("parallel 1: ok")
        player.press("w")
        player.wait("save the script as p.script")
        self.hold(player, ENTER)
        player.press(ESCAPE)
        player.wait("p.script holds 1 change and can't be replayed: the script is replayed: given up")
        self.assertEqual(self.path("p.script").read_text(), "parallel 1\n")
        self.release()
        self.quit(player)

    def test_edit(self) -> None:
        """The text of an edit isn't lost where ped's answer isn't waited for."""
        player = self.begin(CHAIN)
        self.will_edit("A(I-1)+1", "A(I-1)+7", "nowhere", "nothing")
        self.hold(player, "e")
        player.press(ESCAPE)
        player.wait("edit on, write the text to a file, or drop it?")
        self.assertIn("the edit: given up", "\n".join(player.screen.rows))
        self.release()
        player.press("e")
        self.assertIn("A(I-1)+7", "\n".join(player.wait("replace 5 5: ok")))

    def test_end(self) -> None:
        """Where the editor is ended from outside, ped is ended, too, and the changes are rescued."""
        player = self.begin()
        player.press("p")
        player.wait("parallel 1: ok")
        process = self.hold(player, "A")
        player.signal(signal.SIGTERM)
        self.assertEqual(player.wait_for_end(), 128 + signal.SIGTERM)
        self.assert_ended(process)
        self.assertEqual(self.path("p.script.rescued").read_text(), "parallel 1\n")

    def test_terminal_goes_away(self) -> None:
        player = self.begin()
        player.press("p")
        player.wait("parallel 1: ok")
        process = self.hold(player, "A")
        self.assertEqual(player.hang_up(), 128 + signal.SIGHUP)
        self.assert_ended(process)
        self.assertEqual(self.path("p.script.rescued").read_text(), "parallel 1\n")

    def test_limit(self) -> None:
        """At the limit of 4,000 statements `auto` takes long: what goes on is shown, and moving goes on."""
        player = self.begin(at_the_limit())
        player.press("A")
        player.wait("auto .. 1 s")
        for _ in range(3):
            player.press("n")
        player.wait("loop 16, DO I = 2, 90")
        player.press(ESCAPE)
        player.wait("auto: given up after")
        self.assertIn("p.f: 0 changes", player.screen.rows[0])
        player.press("r")
        player.wait("reverse 16: refused")


class Begin(Meanwhile):
    def test_told(self) -> None:
        """Before the screen is there, a long wait for ped is told; Ctrl-C ends it."""
        self.path("p.f").write_text(TWICE)
        program = self.path("ped.sh")
        program.write_text(_PED.format(folder=self.folder, ped=os.path.abspath(ped_path())))
        program.chmod(0o755)
        self.path("slow").touch()
        player = Player(["edit", "p.f"], self.folder, environment={"PEDX_PED": str(program)})
        self.players.append(player)
        player.wait("pedx: p.f is read ..")
        player.press(INTERRUPT)
        self.assertEqual(player.wait_for_end(), 130)


class Failing(Meanwhile):
    """ped dies, or answers nothing: the session goes on, and the text of an edit is still there."""

    def test_steps(self) -> None:
        for way, told in (("dies", "ended with status -9: nothing printed"), ("silent", "what is")):
            with self.subTest(way):
                player = self.begin()
                player.press("p")
                player.wait("parallel 1: ok")
                self.path(way).touch()
                for key in "uArcC":
                    player.press(key)
                    player.wait(told)
                    self.forget(player)
                self.path(way).unlink()
                player.press("u")
                player.wait("undone: parallel 1")
                self.quit(player)

    def test_edit(self) -> None:
        player = self.begin(CHAIN)
        self.will_edit("A(I-1)+1", "A(I-1)+7")
        self.path("dies").touch()
        player.press("e")
        player.wait("edit on, write the text to a file, or drop it?")
        player.signal(signal.SIGHUP)
        self.assertEqual(player.wait_for_end(), 128 + signal.SIGHUP)
        self.assertIn("A(I-1)+7", self.path("p.edit.rescued").joinpath("program.f").read_text())


class Works(unittest.TestCase):
    """Pieces of work without a terminal."""

    def test_result_and_error(self) -> None:
        work = Work("adding", lambda programs: 1+1)
        work.wait(10)
        self.assertEqual(work.result(), 2)
        failing: Work[int] = Work("failing", lambda programs: int("x"))
        failing.wait(10)
        self.assertRaises(ValueError, failing.result)

    def test_programs(self) -> None:
        """As subprocess.run does: input, output, statuses, times."""
        run = Programs().run
        self.assertEqual(run(["cat"], input=b"text", stdout=-1).stdout, b"text")
        self.assertEqual(run(["sh", "-c", "exit 3"]).returncode, 3)
        self.assertRaises(OSError, run, ["/nowhere/program"])
        begin = time.monotonic()
        with self.assertRaises(Exception):
            run(["sleep", "30"], timeout=0.2)
        self.assertLess(time.monotonic() - begin, 20)

    def test_ends_all_that_was_started(self) -> None:
        """A program that ignores the first signal is killed, with what it has started; no further one begins."""
        begun: List[str] = []

        def act(programs: Programs) -> None:
            begun.append("first")
            programs.run(["sh", "-c", "trap '' TERM; sleep 60 & wait; sleep 60"])
            begun.append("second")

        work = Work("sleeping", act)
        while not begun:
            time.sleep(0.01)
        time.sleep(0.3)
        work.give_up()
        work.wait(20)
        self.assertRaises(GivenUp, work.result)
        self.assertEqual(begun, ["first"])
        self.assertLess(work.seconds, 30)

    def test_trial(self) -> None:
        """What is done on a trial is no part of a session before it's taken."""
        session = Session(ped(), TWICE)
        session.step("parallel 1")
        programs = Programs()
        trial = session.trial(programs.run)
        self.assertIsNone(trial.step("reverse 3") and None)
        trial.undo()
        self.assertEqual((session.script, len(session.undone)), ("parallel 1\n", 0))
        session.adopt(trial)
        self.assertEqual(session.script, trial.script)
        programs.end(signal.SIGTERM)
        self.assertRaises(CompanionError, trial.step, "parallel 1")

    def test_no_thread_is_left(self) -> None:
        before = threading.active_count()
        work = Work("nothing", lambda programs: None)
        work.wait(10)
        work.give_up()
        for _ in range(100):
            if threading.active_count() == before:
                return
            time.sleep(0.02)
        self.fail("a thread goes on")


if __name__ == "__main__":
    unittest.main()
