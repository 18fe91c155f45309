#!/usr/bin/env python3
"""Runs what the documents show, and compares: the pages at the top, those of docs/ and those of the crates.

    tools/check-docs.py [--unproved] [PAGE ..]

A fenced block whose first line begins with `$ ` is commands with what they write, standard error too. A line `$ COMMAND` is run
by bash, together with its here-document, if it has one, and the lines behind that up to the next `$ ` are compared. A line
`...` stands for any lines. The commands of a block share a shell.

A comment of a line of its own says of other blocks what they are; it isn't shown where the page is rendered:

    <!-- file NAME -->              the next block is written to the file NAME
    <!-- pairs NAME: COMMAND -->    from here on of two blocks the first is written to the file NAME, and the second is what
                                    COMMAND then writes; `<tab>` in the first stands for a tab
    <!-- pairs end -->              no longer
    <!-- needs TOOL .. -->          the next block is passed over where one of these tools isn't there; `fparser` is the library

Links to files of the repository and to headings of pages are looked at, too: they have to be there.

Each page has a folder of its own, in which all that stands at the top of the repository is linked, and which is gone afterwards.
The program is the one that .ci/run or ./prove has proved and built from the present sources; with --unproved it may also be one
that ./ped has built without proof. The last line counts, and the status is 0 only where all is as shown.
"""
import functools
import pathlib
import re
import shutil
import subprocess
import sys
import tempfile

TOP = pathlib.Path(__file__).resolve().parent.parent
SECONDS = 300
IS_PROVED = '. "$PWD/tools/program.sh" && is_program "$(program_of "$(sources_sum)")"'
# Stands between the outputs of two commands of a block.
MARK = "\x01"
UNPROVED = "ped: this program isn't proved yet"
DIRECTIVE = re.compile(r"<!-- (file|pairs|needs) (.+) -->$")
LINK = re.compile(r"\]\((?!https?:)([^)#\s]*)(?:#([^)\s]+))?\)")
HERE_DOCUMENT = re.compile(r"<<-?\s*'?(\w+)'?")


class Block:
    """A fenced block of a page: the line at which it begins, and its lines."""

    def __init__(self, at):
        self.at = at
        self.lines = []

    def text(self):
        return "".join(line + "\n" for line in self.lines)


def parts_of(text):
    """The directives and the blocks of a page, in order: a directive as its two words, a block as such."""
    block = None
    for at, line in enumerate(text.split("\n"), 1):
        if line.startswith("```"):
            if block is not None:
                yield block
                block = None
            else:
                block = Block(at)
        elif block is not None:
            block.lines.append(line)
        else:
            found = DIRECTIVE.match(line)
            if found:
                yield found.group(1), found.group(2)


def commands_of(block):
    """The commands of a block, each with the lines that are wanted behind it."""
    commands = []
    ending = None
    for line in block.lines:
        if ending is not None:
            commands[-1][0].append(line)
            ending = None if line == ending else ending
        elif line.startswith("$ "):
            commands.append(([line[2:]], []))
            found = HERE_DOCUMENT.search(line)
            ending = found.group(1) if found else None
        else:
            commands[-1][1].append(line)
    return commands


def prose_of(text):
    """The lines of a page outside fenced blocks."""
    is_fenced = False
    for line in text.split("\n"):
        if line.startswith("```"):
            is_fenced = not is_fenced
        elif not is_fenced:
            yield line


def headings_of(path):
    """The names by which links lead to the headings of a page."""
    headings = [line.lstrip("#").strip() for line in prose_of(path.read_text()) if line.startswith("#")]
    return {re.sub(r"[^\w\- ]", "", heading.lower()).replace(" ", "-") for heading in headings}


def dead_links(path):
    """The links of a page that lead to no file or to no heading."""
    for line in prose_of(path.read_text()):
        for file, heading in LINK.findall(line):
            target = path.parent / file if file else path
            if not target.exists() or heading and heading not in headings_of(target):
                yield f"{file}#{heading}" if heading else file


def is_as_wanted(wanted, written):
    """Whether the lines that are written are those that are wanted, where `...` stands for any."""
    if not wanted:
        return not written
    if wanted[0] != "...":
        return bool(written) and wanted[0] == written[0] and is_as_wanted(wanted[1:], written[1:])
    return any(is_as_wanted(wanted[1:], written[at:]) for at in range(len(written) + 1))


def lines_of(text):
    """The lines of what was written, but for what the launcher says of a program that isn't proved."""
    lines = text.split("\n")
    lines = lines[:-1] if lines[-1] == "" else lines
    return [line for line in lines if not line.startswith(UNPROVED)]


@functools.lru_cache(maxsize=None)
def is_there(tool):
    """Whether a tool is on the PATH, or the library of Python that real Fortran is read by is found."""
    if tool != "fparser":
        return shutil.which(tool) is not None
    words = "from companion.real.library import statement_classes; statement_classes()"
    return subprocess.run([sys.executable, "-B", "-c", words], cwd=TOP, stderr=subprocess.DEVNULL).returncode == 0


class Page:
    """A page with its folder, and what was found in it."""

    def __init__(self, path, folder):
        self.path = path
        self.folder = folder
        self.passed = 0
        self.failed = 0
        self.passed_over = 0

    def run(self, commands):
        """What these commands write, run one behind another in one shell."""
        script = "exec 2>&1\n"
        for command in commands:
            script += f"{command}\n_status=$?; printf '{MARK}'; (exit $_status)\n"
        done = subprocess.run(["bash", "-c", script], cwd=self.folder, stdin=subprocess.DEVNULL, stdout=subprocess.PIPE,
                              timeout=SECONDS)
        written = done.stdout.decode("utf-8", "backslashreplace").split(MARK)
        return [lines_of(text) for text in written[:-1]] + [None] * (len(commands) + 1 - len(written))

    def compare(self, at, command, wanted, written):
        """Counts whether a command has written what is wanted, and says what differs."""
        if written is not None and is_as_wanted(wanted, written):
            self.passed += 1
            return
        self.failed += 1
        print(f"docs: {self.path}:{at}: {command}")
        for line in wanted:
            print(f"  wanted   {line}")
        for line in ["(it did not end)"] if written is None else written:
            print(f"  written  {line}")

    def check(self, text):
        """Takes the parts of the page one by one."""
        file_name = needs = pairs = first = None
        for part in parts_of(text):
            if isinstance(part, tuple):
                kind, words = part
                if kind == "file":
                    file_name = words
                elif kind == "needs":
                    needs = words.split()
                else:
                    pairs = None if words == "end" else words.split(": ", 1)
                    first = None
                continue
            if needs and not all(map(is_there, needs)):
                self.passed_over += 1
            elif file_name:
                (self.folder / file_name).write_text(part.text())
            elif part.lines and part.lines[0].startswith("$ "):
                commands = commands_of(part)
                outputs = self.run(["\n".join(lines) for lines, _ in commands])
                for (lines, wanted), written in zip(commands, outputs):
                    self.compare(part.at, lines[0], wanted, written)
            elif pairs and first is None:
                first = part
                (self.folder / pairs[0]).write_text(part.text().replace("<tab>", "\t"))
            elif pairs:
                self.compare(first.at, pairs[1], part.lines, self.run([pairs[1]])[0])
                first = None
            file_name = needs = None


def check_page(path):
    """Checks a page in a folder of its own."""
    with tempfile.TemporaryDirectory() as work:
        folder = pathlib.Path(work)
        for entry in TOP.iterdir():
            if entry.name != ".git":
                (folder / entry.name).symlink_to(entry)
        page = Page(path, folder)
        page.check((TOP / path).read_text())
        for link in dead_links(TOP / path):
            print(f"docs: {path}: nothing is at {link}")
            page.failed += 1
        return page


def why_not_started(takes_unproved):
    """Why the program can't be run, none where it can."""
    if not takes_unproved and subprocess.run(["bash", "-c", IS_PROVED], cwd=TOP).returncode != 0:
        return "the proved program is not built; .ci/run or ./prove builds it"
    # Without words the program answers how it is called, with status 2.
    status = subprocess.run([TOP / "ped"], stdin=subprocess.DEVNULL, stdout=subprocess.DEVNULL).returncode
    return None if status == 2 else f"the program cannot be started (status {status})"


def main(words):
    takes_unproved = words[:1] == ["--unproved"]
    patterns = ("*.md", "docs/*.md", "cases/*.md", "examples/**/*.md", "companion/*.md", "editors/*.md", "crates/*/README.md")
    pages_of_all = [str(path.relative_to(TOP)) for pattern in patterns for path in sorted(TOP.glob(pattern))]
    paths = words[takes_unproved:] or pages_of_all
    reason = why_not_started(takes_unproved)
    if reason:
        print(f"docs: nothing was run, since {reason}")
        return 1
    pages = [check_page(path) for path in paths]
    passed = sum(page.passed for page in pages)
    failed = sum(page.failed for page in pages)
    passed_over = sum(page.passed_over for page in pages)
    print(f"docs: {passed} as shown, {failed} different, {passed_over} blocks passed over for want of a tool")
    return 0 if passed and not failed else 1


if __name__ == "__main__":
    sys.exit(main(sys.argv[1:]))
