"""`pedx edit` where it's ended from outside, and what the next start finds. Nothing that a user has made is lost."""

import os
import signal
import sys
import unittest
from pathlib import Path
from typing import List, Sequence, Tuple

from .screens import ENTER, Player
from .support import ped_path
from .test_editor import CHAIN, TWICE, Played
from .test_files import fill, mounted

SIGNALS = (signal.SIGHUP, signal.SIGTERM, signal.SIGQUIT)

#: What leads to each question once `parallel 1` is done, and what is seen of it then.
QUESTIONS: Sequence[Tuple[Tuple[str, ...], str]] = (
    (("v",), "which scalar?"), (("k",), "by which factor?"), (("t",), "how many iterations in a strip?"),
    (("l",), "first or last?"), (("j",), "whose pending dependences"), (("+",), "which scalars"),
    (("N",), "dependences of which name?"), (("R",), "run with which choices?"), (("D",), "data from which file?"),
    (("w",), "save the script as"), (("w", "x", ENTER), "x is there; write over it?"), (("W",), "write the program to"),
    (("O",), "print the variables in SAVE"), (("O", "y"), "write the OpenMP program to"),
    (("q",), "the changes aren't saved"), (("q", "w"), "save the script as"), (("?",), "The keys of pedx edit"),
    (("a",), "Advice for loop 1"), (("V",), "The variables of loop 1"), (("H",), "The changes"),
    (("e",), "edit on, write the text to a file, or drop it?"),
    (("e", "w"), "write the text to"),
)

#: A user's editor that puts a new text into the file, and says so; then it waits for a signal or the end of the test.
#: What it does at a signal is its first argument: it ends, it saves once more under another name, or it goes on.
_OPEN_EDITOR = """\
import pathlib, signal, sys, time
way, file = sys.argv[1], pathlib.Path(sys.argv[-1])
def save(number, frame):
    file.with_suffix(".f.save").write_text("what wasn't saved yet")
    sys.exit(1)
for number in (signal.SIGHUP, signal.SIGTERM):
    signal.signal(number, {"ends": signal.SIG_DFL, "saves": save, "stays": signal.SIG_IGN}[way])
file.write_text(file.read_text().replace("A(I-1)", "A(I-1)*3"))
print("the editor is open", flush=True)
end = time.monotonic() + 60
while time.monotonic() < end and pathlib.Path(__file__).exists():
    time.sleep(0.02)
"""

#: A program ped that waits where a file says so.
_SLOW_PED = """\
#!/bin/sh
if [ -e {folder}/slow ]; then exec sleep 20; fi
exec {ped} "$@"
"""


class Rescued(Played):
    def edits(self, folder: str, source: str, **environment: str) -> Player:
        """An editor in a folder of its own, that has the program p.f."""
        place = self.path(folder)
        place.mkdir()
        place.joinpath("p.f").write_text(source)
        player = Player(["edit", "p.f"], str(place), environment={"EDITOR": self._editor(), **environment})
        self.players.append(player)
        return player

    def rescued_in(self, folder: str) -> List[str]:
        """The names of what was rescued."""
        return sorted(entry for entry in os.listdir(self.path(folder)) if "rescued" in entry)

    def changed(self, folder: str, source: str = TWICE, **environment: str) -> Player:
        """An editor with a change that isn't saved."""
        player = self.edits(folder, source, **environment)
        player.wait("? keys")
        player.press("p")
        player.wait("parallel 1: ok")
        return player

    def script(self, folder: str, name: str = "p.script.rescued") -> str:
        return self.path(folder).joinpath(name).read_text()


class Signals(Rescued):
    def test_questions(self) -> None:
        """With each question, on each page, and without: one of the signals in turn, to all editors at once."""
        self.will_edit(*("END DO", "ENDE") * 2)
        cases = [(str(number), *case) for number, case in enumerate([((), "parallel 1: ok"), *QUESTIONS])]
        players = [self.edits(folder, TWICE) for folder, _, _ in cases]
        for folder, _, _ in cases:
            self.path(folder).joinpath("x").write_text("another one's")
        for player in players:
            player.wait("? keys")
            player.press("p")
        for player, (_, keys, _) in zip(players, cases):
            player.wait("parallel 1: ok")
            player.press(*keys)
        for place, (player, (_, keys, words)) in enumerate(zip(players, cases)):
            player.wait(words)
            player.signal(SIGNALS[place % 3])
        for place, (player, (folder, keys, words)) in enumerate(zip(players, cases)):
            with self.subTest(words):
                self.assertEqual(player.wait_for_end(), 128 + SIGNALS[place % 3])
                self.assertTrue(player.has_plain_modes())
                self.assertEqual(self.script(folder), "parallel 1\n")
                self.assertIn("the script is kept in p.script.rescued", "\n".join(player.screen.rows))
                edits = ["p.edit.rescued"] if "e" in keys else []
                self.assertEqual(self.rescued_in(folder), [*edits, "p.script.rescued"])
                if edits:
                    text = self.path(folder).joinpath("p.edit.rescued", "program.f").read_text()
                    self.assertIn("ENDE", text)

    def test_ped_at_work(self) -> None:
        """A signal by a key, and others, while ped works: it ends, too."""
        slow = self.path("slow.sh")
        slow.write_text(_SLOW_PED.format(folder=self.folder, ped=os.path.abspath(ped_path())))
        slow.chmod(0o755)
        players = [self.changed(str(one.value), PEDX_PED=str(slow)) for one in SIGNALS]
        self.path("slow").touch()
        for player in players:
            player.press("u")
        for player, one in zip(players, SIGNALS):
            player.wait("undo ..")
            if one is signal.SIGQUIT:
                player.press("\x1c")
            else:
                player.signal(one)
        for player, one in zip(players, SIGNALS):
            self.assertEqual(player.wait_for_end(), 128 + one)
            self.assertTrue(player.has_plain_modes())
            self.assertEqual(self.script(str(one.value)), "parallel 1\n")

    def test_terminal_goes_away(self) -> None:
        player = self.changed("a")
        self.assertEqual(player.hang_up(), 128 + signal.SIGHUP)
        self.assertEqual(self.script("a"), "parallel 1\n")

    def test_nothing_to_rescue(self) -> None:
        player = self.changed("a")
        player.press("u")
        player.wait("undone: parallel 1")
        player.signal(signal.SIGTERM)
        self.assertEqual(player.wait_for_end(), 128 + signal.SIGTERM)
        self.assertEqual(self.rescued_in("a"), [])


class OpenEditor(Rescued):
    """The user's own editor is open when the end comes."""

    def opened(self, way: str) -> Player:
        self.path("open.py").write_text(_OPEN_EDITOR)
        player = self.edits(way, CHAIN, EDITOR=f"{sys.executable} {self.path('open.py')} {way}", TMPDIR=self.folder)
        player.wait("? keys")
        player.press("e")
        player.wait("the editor is open")
        return player

    def edit(self, folder: str, name: str = "program.f") -> str:
        return self.path(folder).joinpath("p.edit.rescued", name).read_text()

    def test_hang_up(self) -> None:
        """What the editor had saved is kept, and what it saves at the end beside it."""
        for way in ("ends", "saves"):
            player = self.opened(way)
            self.assertEqual(player.hang_up(), 128 + signal.SIGHUP)
            self.assertIn("A(I-1)*3", self.edit(way))
        self.assertEqual(self.edit("saves", "program.f.save"), "what wasn't saved yet")
        self.assertEqual([entry for entry in os.listdir(self.folder) if entry.startswith("pedx-")], [])

    def test_signal_to_pedx_alone(self) -> None:
        """The editor gets the signal, too; where it goes on all the same, its own file stays."""
        for way in ("saves", "stays"):
            player = self.opened(way)
            player.signal(signal.SIGTERM)
            self.assertEqual(player.wait_for_end(), 128 + signal.SIGTERM)
            self.assertIn("A(I-1)*3", self.edit(way))
        self.assertIn("the text of the edit is kept in p.edit.rescued", "\n".join(player.screen.rows))
        self.assertEqual(self.edit("saves", "program.f.save"), "what wasn't saved yet")
        self.assertEqual(len([entry for entry in os.listdir(self.folder) if entry.startswith("pedx-")]), 1)

    def test_keys(self) -> None:
        """Ctrl-C and Ctrl-\\ are for the user's editor, and end neither it nor pedx."""
        player = self.opened("ends")
        player.press("\x1c")
        player.wait("ended with status -3")
        self.assertIsNone(player.status)
        player.press("d")
        player.wait("the edit was dropped")


class NextStart(Rescued):
    def again(self, folder: str, **environment: str) -> Player:
        """The next editor on the program of an earlier one."""
        variables = environment or {"EDITOR": self._editor()}
        player = Player(["edit", "p.f"], str(self.path(folder)), environment=variables)
        self.players.append(player)
        return player

    def rescue(self, folder: str, *scripts: str) -> None:
        """Puts rescued scripts beside a program."""
        self.path(folder).mkdir()
        self.path(folder).joinpath("p.f").write_text(TWICE)
        for number, script in enumerate(scripts, 1):
            name = "p.script.rescued" + (f".{number}" if number > 1 else "")
            self.path(folder).joinpath(name).write_text(script)

    def test_own_names(self) -> None:
        """A rescue never writes over another one, whatever has its name."""
        self.rescue("a", "parallel 3\n", "reverse 1\n")
        player = self.again("a")
        for _ in range(2):
            player.wait("go on with it, leave it, or remove it?")
            before = player.screen.rows
            player.press("n")
            player.wait_for_change(before)
        player.press("p")
        player.wait("parallel 1: ok")
        player.signal(signal.SIGTERM)
        player.wait_for_end()
        self.assertEqual(self.script("a"), "parallel 3\n")
        self.assertEqual(self.script("a", "p.script.rescued.2"), "reverse 1\n")
        self.assertEqual(self.script("a", "p.script.rescued.3"), "parallel 1\n")

    def test_two_at_once(self) -> None:
        first, second = self.changed("a"), Player(["edit", "p.f"], str(self.path("a")))
        self.players.append(second)
        second.wait("? keys")
        second.press("r")
        second.wait("reverse 1: ok")
        for player in (first, second):
            player.signal(signal.SIGTERM)
        for player in (first, second):
            player.wait_for_end()
        self.assertEqual(self.rescued_in("a"), ["p.script.rescued", "p.script.rescued.2"])
        self.assertEqual({self.script("a", name) for name in self.rescued_in("a")}, {"parallel 1\n", "reverse 1\n"})

    def test_offered(self) -> None:
        """The latest first; what is taken stays until it's saved."""
        self.rescue("a", "parallel 1\n", "reverse 1\nparallel 1\n")
        player = self.again("a")
        player.wait("p.script.rescued.2 holds a script that was rescued")
        player.press("y")
        player.wait("p.script.rescued.2: 2 changes")
        player.wait("2 changes, not saved")
        self.assertEqual(self.rescued_in("a"), ["p.script.rescued", "p.script.rescued.2"])
        player.press("w")
        player.wait("save the script as p.script")
        player.press(ENTER)
        player.wait("p.script holds 2 changes and replays to this program")
        self.assertEqual(self.script("a", "p.script"), "reverse 1\nparallel 1\n")
        self.assertEqual(self.rescued_in("a"), ["p.script.rescued"])
        self.quit(player)
        player = self.again("a")
        player.wait("p.script.rescued holds a script that was rescued")
        player.press("r")
        player.wait("? tells the keys")
        self.assertEqual(self.rescued_in("a"), [])

    def test_taken_and_lost_again(self) -> None:
        """What has been rescued already isn't rescued twice."""
        self.rescue("a", "parallel 1\n")
        player = self.again("a")
        player.wait("holds a script")
        player.press("y")
        player.wait("1 change, not saved")
        player.signal(signal.SIGHUP)
        player.wait_for_end()
        self.assertEqual(self.rescued_in("a"), ["p.script.rescued"])

    def test_text_of_an_edit(self) -> None:
        self.rescue("a", "parallel 1\n")
        self.path("a").joinpath("p.edit.rescued").mkdir()
        text = TWICE.replace("2*T", "3*T").replace("      DO I = 1, 5\n      A", "      PARALLEL DO I = 1, 5\n      A")
        self.path("a").joinpath("p.edit.rescued", "program.f").write_text(text)
        self.will_edit("3*T", "4*T")
        player = self.again("a")
        player.wait("holds a script")
        player.press("y")
        player.wait("p.edit.rescued holds the text of an edit")
        player.press("y")
        rows = player.wait(": ok")
        self.assertIn("B(I) = 4*T", "\n".join(rows))
        player.wait("2 changes, not saved")
        player.press("w")
        player.wait("save the script as p.script")
        player.press(ENTER)
        player.wait("holds 2 changes and replays")
        self.assertEqual(self.rescued_in("a"), [])

    def test_files_beside_the_text(self) -> None:
        """The user's editor finds what it has left beside a text; only the user may remove it."""
        self.rescue("a")
        folder = self.path("a").joinpath("p.edit.rescued")
        folder.mkdir()
        folder.joinpath("program.f").write_text(TWICE)
        folder.joinpath("program.f.save").write_text(TWICE.replace("2*T", "5*T"))
        self.path("editor.py").write_text("import os, sys\nos.replace(sys.argv[1] + '.save', sys.argv[1])\n")
        player = self.again("a", EDITOR=f"python3 {self.path('editor.py')}")
        player.wait("p.edit.rescued holds the text of an edit")
        player.press("y")
        self.assertIn("B(I) = 5*T", "\n".join(player.wait(": ok")))
        player.press("w")
        player.wait("save the script as p.script")
        player.press(ENTER)
        player.wait("holds 1 change and replays")
        self.assertEqual(sorted(os.listdir(folder)), ["program.f", "program.f.save"])
        self.quit(player)
        player = self.again("a")
        player.wait("p.edit.rescued holds the text of an edit")
        player.press("r")
        player.wait("? tells the keys")
        self.assertEqual(self.rescued_in("a"), [])

    def test_without_room(self) -> None:
        """A rescue that can't be written where it belongs goes elsewhere; that and a failure are told."""
        place = mounted(self)
        if place is None:
            self.skipTest("no file system may be mounted")
        program = Path(place, "p.f")
        program.write_text(TWICE)
        self.path("tmp").mkdir()
        for temporary in (str(self.path("tmp")), place):
            player = Player(["edit", str(program)], self.folder, environment={"TMPDIR": temporary}, width=120)
            self.players.append(player)
            player.wait("? keys")
            player.press("p")
            player.wait("parallel 1: ok")
            fill(place)
            player.signal(signal.SIGTERM)
            self.assertEqual(player.wait_for_end(), 128 + signal.SIGTERM)
            self.assertIn("can't be kept in " + place, "\n".join(player.screen.rows))
            Path(place, "rest").unlink()
        self.assertEqual(self.script("tmp"), "parallel 1\n")
        self.assertEqual(os.listdir(place), ["p.f"])


if __name__ == "__main__":
    unittest.main()
