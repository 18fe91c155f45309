#!/usr/bin/env python3
"""Replays what `auto` tells, for each program of the examples and of cases/sessions/.

    tools/check-auto.py [--program PROGRAM] [FILE ..]

Of each program, which is a file NAME.f or stands in a file NAME.cases: `auto` tells its steps, and the same steps in a script are
all accepted and lead to the source that it shows; each DO that it leaves is refused `parallel` there for the cause that it tells, and
no other DO of it isn't a PARALLEL DO; as many `undo` as steps lead back to the source at the opening, and no further, and as many
`redo` to the source that it shows. A program that isn't valid is passed over, and so is one that is very long, for the time that it
takes.

The program is the one that .ci/run or ./prove has proved and built from the present sources; nothing is proved or built here. The
last line counts the programs and their steps. The status is 0 only where there are some and all agree.
"""
import concurrent.futures
import os
import pathlib
import re
import subprocess
import sys
import tempfile

TOP = pathlib.Path(__file__).resolve().parent.parent
SECONDS = 120
PROVED = '. "$1/tools/program.sh" && program_of "$(sources_sum)"'
# The program is refused.
NO_PROGRAM = 5
# Longer programs are passed over.
MOST_BYTES = 20000
# A row of the source pane: the statement's number, and a DO that isn't a PARALLEL DO.
SERIAL_DO = re.compile(r" *\d+ +(\d+) +DO [A-Z][A-Z0-9]* = ")


class Differs(Exception):
    """What `auto` told and what came of it aren't the same."""


def words_of(program, folder, script):
    """The words that run a script on the program of a folder."""
    name = folder / "auto-script"
    name.write_text("".join(line + "\n" for line in script))
    return [str(program), "session", str(folder / "program.f"), str(name)]


def answer(program, folder, script):
    """What a script answers on the program of a folder, and with which status."""
    words = words_of(program, folder, script)
    done = subprocess.run(words, stdin=subprocess.DEVNULL, capture_output=True, timeout=SECONDS, check=False)
    return done.stdout.decode("latin-1"), done.returncode


def want(what, wanted, got):
    """Both are the same, or they differ."""
    if wanted != got:
        raise Differs(f"{what}:\nwanted {wanted!r}\ngot    {got!r}")


def ok_rows(line, count):
    """The answers to so many accepted lines from this one on."""
    return "".join(f"{number}: ok\n" for number in range(line, line + count))


def told(text):
    """The steps that `auto` tells, the DOs that it leaves with their causes, and the source."""
    lines = text.split("\n")
    head = re.fullmatch(r"1: auto (\d+)", lines[0])
    if not head:
        raise Differs(f"`auto` answers {lines[0]!r}")
    steps = lines[1:1 + int(head.group(1))]
    behind = lines[1 + len(steps):]
    left = [row for row in behind if row.startswith("left ")]
    for row in steps:
        if not row.startswith("+ "):
            raise Differs(f"{row!r} stands among the steps")
    causes = [tuple(row.split(" ", 2)[1:]) for row in left]
    return [row[2:] for row in steps], causes, "\n".join(behind[len(left):])


def replay(program, folder):
    """How many steps `auto` takes on the program of a folder; none where that isn't valid."""
    text, status = answer(program, folder, ["auto"])
    if status == NO_PROGRAM:
        return None
    want("the status of `auto`", 0, status)
    steps, left, source = told(text)

    ok = ok_rows(1, len(steps))
    tries = [f"parallel {number}" for number, _ in left]
    got, _ = answer(program, folder, steps + ["print", "source"] + tries)
    want("the steps in a script", ok + source, got[:len(ok + source)])
    pane = got[len(ok + source):]
    serial = [found.group(1) for found in map(SERIAL_DO.match, pane.split("\n")) if found]
    want("the DOs that aren't PARALLEL DOs", serial, [number for number, _ in left])
    refusals = "".join(f"{line}: refused {cause}\n" for line, (_, cause) in enumerate(left, len(steps) + 3))
    want("the causes", refusals, pane[len(pane) - len(refusals):])

    back = ["undo"] * len(steps) + ["print", "undo"]
    forth = ["redo"] * len(steps) + ["print", "redo"]
    got, _ = answer(program, folder, ["print", "auto"] + back + forth)
    opening = got[:got.find("2: auto")]
    wanted = opening + "2" + text[1:] + ok_rows(3, len(steps)) + opening + f"{len(steps) + 4}: refused NothingToUndo\n"
    wanted += ok_rows(len(steps) + 5, len(steps)) + source + f"{2 * len(steps) + 6}: refused NothingToRedo\n"
    want("`undo` and `redo` behind it", wanted, got)
    return len(steps)


def once(folders):
    """The folders whose programs aren't long and haven't come before: cases may have one program with many scripts."""
    seen = set()
    for folder, place in folders:
        text = (folder / "program.f").read_bytes()
        if len(text) <= MOST_BYTES and text not in seen:
            seen.add(text)
            yield folder, place


def folders_of(work, files):
    """The folders of all programs, each with where it stands."""
    cases = [str(file) for file in files if file.suffix == ".cases"]
    for number, file in enumerate(file for file in files if file.suffix != ".cases"):
        folder = work / f"file-{number}"
        folder.mkdir()
        (folder / "program.f").write_bytes(file.read_bytes())
        yield folder, str(file)
    if cases:
        laid = ["awk", "-v", f"work={work}", "-f", str(TOP / "tools/cases.awk"), "--", *cases]
        count = int(subprocess.run(laid, capture_output=True, check=True).stdout)
        for number in range(1, count + 1):
            yield work / str(number), (work / str(number) / "name").read_bytes().decode("utf-8", "replace").strip()


def check(asked):
    """The count of steps that a program tells in a folder, and what differs."""
    program, folder, place = asked
    try:
        return replay(program, folder), None
    except (Differs, subprocess.TimeoutExpired) as found:
        return None, f"{place}: {found}"


def main(words):
    """Checks the programs, and counts."""
    if words[:1] == ["--program"]:
        program, words = words[1], words[2:]
    else:
        named = subprocess.run(["bash", "-c", PROVED, "bash", str(TOP)], capture_output=True, text=True, check=True)
        program = named.stdout.strip()
    program = pathlib.Path(program).resolve()
    if not os.access(program, os.X_OK):
        print("auto: none was replayed: the proved program is not built; .ci/run or ./prove builds it")
        return 1
    files = [pathlib.Path(word).resolve() for word in words]
    files = files or sorted([*TOP.glob("examples/**/*.f"), *TOP.glob("cases/sessions/*.cases")])
    with tempfile.TemporaryDirectory() as work, concurrent.futures.ProcessPoolExecutor() as workers:
        asked = [(program, *found) for found in once(folders_of(pathlib.Path(work), files))]
        results = list(workers.map(check, asked, chunksize=20))
    counts = [steps for steps, _ in results if steps is not None]
    differ = [what for _, what in results if what is not None]
    for what in differ:
        print(f"auto: {what}")
    print(f"auto: {len(counts)} programs replayed, with {sum(counts)} steps, {len(differ)} different")
    return 0 if counts and not differ else 1


if __name__ == "__main__":
    sys.exit(main(sys.argv[1:]))
