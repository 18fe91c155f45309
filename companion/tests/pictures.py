"""The pictures of docs/pictures: `pedx edit` on a terminal with colours, as SVG, and `pedx page` in a browser, as PNG.

    python3 -m companion.tests.pictures [--check] [NAME ..]

tools/screenshots calls it. A picture of the terminal is drawn anew and compared. One of a page is kept with the digest of the
page that it shows, so that it can be told without a browser whether it's stale.
"""

from __future__ import annotations

import base64
import os
import re
import struct
import subprocess
import sys
import tempfile
import zlib
from contextlib import contextmanager
from dataclasses import dataclass
from hashlib import sha256
from html import escape
from pathlib import Path
from typing import Dict, Iterator, List, NamedTuple, Sequence, Tuple, Union

from ..commands.page import page
from ..views import Question, open_view
from .browser import Browser, browser_path
from .screens import HINT, NAMED_KEYS, Player, Screen
from .support import TOP, ped

FOLDER = TOP / "docs" / "pictures"
#: A comment before a block of a page says into which file it is written, as tools/check-docs.py reads it.
_WRITTEN = re.compile(r"^<!-- file (\S+) -->\n```\n(.*?)^```$", re.MULTILINE | re.DOTALL)


@dataclass(frozen=True)
class Terminal:
    """A picture of the editor: the program, the keys that lead to it, what is shown then, and the size."""

    program: str
    keys: str
    until: str
    height: int = 24
    width: int = 80


@dataclass(frozen=True)
class Page:
    """A picture of a page: the program, what of it is chosen, and the size."""

    program: str
    mark: str
    width: int = 1180
    height: int = 620


#: The pictures by their names. A program is a file of the repository, or `PAGE:NAME`, a block of a page.
PICTURES: Dict[str, Union[Terminal, Page]] = {
    "editor.svg": Terminal("examples/panes/sieve.f", "n Tab Down", "^   6 |"),
    "advice.svg": Terminal("examples/steps/squares.f", "n a", "1  try `privatise 3 T`: ped accepts it", 16),
    "tutorial.svg": Terminal("docs/TUTORIAL.md:jacobi.f", "g", "carries LCHANG", 12),
    "page.png": Page("examples/panes/wavefront.f", "#loop=4&row=1"),
}


# --- The terminal with its colours -------------------------------------------------------------------------------------

#: The VT100 of the tests, with colours, which the real one hadn't.
_TERMINFO = r"""pedx-picture|VT100 with colours,
	colors#8, pairs#64, setaf=\E[3%p1%dm, setab=\E[4%p1%dm, op=\E[39;49m, use=vt100,
"""


class Style(NamedTuple):
    """How a character looks: the number of its colour, or -1 for that of the text, and what else."""

    colour: int = -1
    is_bold: bool = False
    is_underlined: bool = False
    is_reverse: bool = False


class Cell(str):
    """A character with its style."""

    style = Style()


class ColouredScreen(Screen):
    """What a terminal with colours shows."""

    def __init__(self, height: int, width: int) -> None:
        super().__init__(height, width)
        self._style = Style()

    @property
    def cells(self) -> List[List[str]]:
        """The rows of characters; those that were written are cells."""
        return self._cells

    def _put(self, letter: str) -> None:
        cell = Cell(letter)
        cell.style = self._style
        super()._put(cell)

    def _control(self, numbers: str, letter: str) -> None:
        if letter != "m":
            super()._control(numbers, letter)
            return
        for number in (int(word or 0) for word in numbers.split(";")):
            if number == 0:
                self._style = Style()
            elif number in (1, 4, 7):
                name = {1: "is_bold", 4: "is_underlined", 7: "is_reverse"}[number]
                self._style = self._style._replace(**{name: True})
            elif 30 <= number <= 39:
                self._style = self._style._replace(colour=-1 if number == 39 else number - 30)
            elif number != 49:
                raise AssertionError(f"no style of the terminal: {number}")


#: How long nothing may come before the screen counts as drawn whole, in seconds.
_SETTLED = 0.5
#: So often a picture is drawn before it counts as another one: on a busy machine a screen may be seen half drawn.
_TIMES = 3


class Sitter(Player):
    """A player who waits until the screen is drawn whole."""

    def settle(self) -> None:
        """Waits until nothing comes any more."""
        while self._read(_SETTLED):
            pass


@contextmanager
def _terminal_with_colours() -> Iterator[Dict[str, str]]:
    """The environment of a program on a terminal with colours."""
    with tempfile.TemporaryDirectory() as folder:
        source = Path(folder) / "picture.ti"
        source.write_text(_TERMINFO, encoding="ascii")
        subprocess.run(["tic", "-x", "-o", folder, str(source)], check=True, capture_output=True)
        yield {"TERM": "pedx-picture", "TERMINFO": folder}


def _program(name: str, folder: str) -> Tuple[str, str]:
    """The folder and the name of a program; a block of a page is written to a file first."""
    document, _, block = name.partition(":")
    if not block:
        return str(TOP), name
    blocks = dict(_WRITTEN.findall((TOP / document).read_text(encoding="utf-8")))
    (Path(folder) / block).write_text(blocks[block], encoding="ascii")
    return folder, block


def screen_of(wanted: Terminal) -> List[List[str]]:
    """What the editor shows, as cells."""
    with _terminal_with_colours() as environment, tempfile.TemporaryDirectory() as folder:
        place, name = _program(wanted.program, folder)
        player = Sitter(["edit", name], place, wanted.height, wanted.width, environment)
        screen = ColouredScreen(wanted.height, wanted.width)
        player.screen = screen
        try:
            rows = player.wait(HINT)
            for key in wanted.keys.split():
                before = rows
                player.press(NAMED_KEYS.get(key, key))
                rows = player.wait_for_change(before)
            player.wait(wanted.until)
            player.settle()
            return [list(row) for row in screen.cells]
        finally:
            player.close()


# --- SVG ---------------------------------------------------------------------------------------------------------------

#: The size of a character, and the space around the text, in units of the picture.
_ACROSS, _DOWN, _SPACE = 8.4, 18, 12
_PAPER, _INK = "#1d2025", "#d8dce2"
_COLOURS = {1: "#ff8078", 2: "#7fd88f", 3: "#e6c060", 4: "#86b4ff", 6: "#62d3dc"}


def _runs(row: Sequence[str]) -> Iterator[Tuple[int, str, Style]]:
    """The pieces of a row that have one style, without blanks that show nothing."""
    first = 0
    while first < len(row):
        style = getattr(row[first], "style", Style())
        last = first
        while last < len(row) and getattr(row[last], "style", Style()) == style:
            last += 1
        text = "".join(row[first:last])
        if style.is_reverse or style.is_underlined:
            yield first, text, style
        else:
            for piece in re.finditer(r"\S+(?: {1,2}\S+)*", text):
                yield first + piece.start(), piece.group(), style
        first = last


def _number(value: float) -> str:
    return f"{value:.1f}".rstrip("0").rstrip(".")


def _drawn(line: int, column: int, text: str, style: Style) -> str:
    x, y = _number(_SPACE + column * _ACROSS), _SPACE + line * _DOWN
    width = _number(len(text) * _ACROSS)
    box = ""
    if style.is_reverse:
        box = f'<rect x="{x}" y="{y}" width="{width}" height="{_DOWN}"/>'
        if not text.strip():
            return box
    kinds = " ".join(
        [f"c{style.colour}"] * (style.colour in _COLOURS and not style.is_reverse) + ["b"] * style.is_bold
        + ["u"] * style.is_underlined + ["r"] * style.is_reverse
    )
    kind = f' class="{kinds}"' if kinds else ""
    return f'{box}<text x="{x}" y="{y + 13}" textLength="{width}"{kind}>{escape(text, quote=False)}</text>'


def svg_of(cells: Sequence[Sequence[str]], title: str) -> str:
    """A screen as SVG."""
    width = _number(2 * _SPACE + len(cells[0]) * _ACROSS)
    height = 2 * _SPACE + len(cells) * _DOWN
    colours = "".join(f".c{number}{{fill:{colour}}}" for number, colour in sorted(_COLOURS.items()))
    parts = [
        f'<svg xmlns="http://www.w3.org/2000/svg" width="{width}" height="{height}" viewBox="0 0 {width} {height}">',
        f"<title>{escape(title, quote=False)}</title>",
        f"<style>text{{font:14px ui-monospace,Menlo,Consolas,monospace;fill:{_INK};white-space:pre}}rect{{fill:{_INK}}}"
        f"{colours}.b{{font-weight:bold}}.u{{text-decoration:underline}}text.r{{fill:{_PAPER}}}</style>",
        f'<rect width="100%" height="100%" rx="6" style="fill:{_PAPER}"/>',
    ]
    for line, row in enumerate(cells):
        pieces = [_drawn(line, column, text, style) for column, text, style in _runs(row)]
        if pieces:
            parts.append("".join(pieces))
    return "\n".join([*parts, "</svg>", ""])


# --- PNG ---------------------------------------------------------------------------------------------------------------

_SIGNATURE = b"\x89PNG\r\n\x1a\n"
_DIGEST = b"Comment\x00pedx page "


def _chunk(kind: bytes, body: bytes) -> bytes:
    return struct.pack(">I", len(body)) + kind + body + struct.pack(">I", zlib.crc32(kind + body))


def chunks_of(picture: bytes) -> Iterator[Tuple[bytes, bytes]]:
    """The kinds and the bodies of the chunks of a PNG."""
    place = len(_SIGNATURE)
    while place < len(picture):
        length, = struct.unpack(">I", picture[place:place + 4])
        yield picture[place + 4:place + 8], picture[place + 8:place + 8 + length]
        place += 12 + length


def _plain(width: int, height: int, channels: int, data: bytes) -> Iterator[bytearray]:
    """The rows of a PNG of 8 bits, after its filters (the standard's part 9)."""
    length = width * channels
    above = bytearray(length)
    for number in range(height):
        first = number * (length + 1)
        kind, row = data[first], bytearray(data[first + 1:first + 1 + length])
        if kind:
            for at in range(length):
                left = row[at - channels] if at >= channels else 0
                corner = above[at - channels] if at >= channels else 0
                row[at] = (row[at] + _guess(kind, left, above[at], corner)) & 255
        yield row
        above = row


def _guess(kind: int, left: int, up: int, corner: int) -> int:
    """What a filter takes a byte for, by those beside it."""
    if kind < 4:
        return (0, left, up, (left + up) // 2)[kind]
    whole = left + up - corner
    return min((left, up, corner), key=lambda one: abs(whole - one))


def with_digest(picture: bytes, digest: str) -> bytes:
    """A PNG that names the page that it shows, with a palette of at most 256 colours, so that it's small."""
    chunks = list(chunks_of(picture))
    width, height, depth, colours = struct.unpack(">IIBB", next(body for kind, body in chunks if kind == b"IHDR")[:10])
    assert depth == 8 and colours in (2, 6)
    channels = 3 if colours == 2 else 4
    data = zlib.decompress(b"".join(body for kind, body in chunks if kind == b"IDAT"))
    rows = list(_plain(width, height, channels, data))
    palette, packed = _with_palette(rows, channels)
    head = struct.pack(">IIBBBBB", width, height, 8, 3, 0, 0, 0)
    parts = [(b"IHDR", head), (b"tEXt", _DIGEST + digest.encode()), (b"PLTE", palette), (b"IDAT", packed), (b"IEND", b"")]
    return _SIGNATURE + b"".join(_chunk(kind, body) for kind, body in parts)


def _with_palette(rows: Sequence[bytearray], channels: int) -> Tuple[bytes, bytes]:
    """The palette and the packed rows, with colours as fine as 256 of them permit."""
    for step in (1, 8, 16, 24, 32, 48, 64):
        tone = bytes(min(255, (value + step // 2) // step * step) for value in range(256))
        numbers: Dict[bytes, int] = {}
        packed = bytearray()
        for row in rows:
            shades = row.translate(tone)
            packed.append(0)
            packed.extend(
                numbers.setdefault(bytes(shades[at:at + 3]), len(numbers)) & 255 for at in range(0, len(shades), channels)
            )
        if len(numbers) <= 256:
            return b"".join(numbers), zlib.compress(bytes(packed), 9)
    raise AssertionError("too many colours")


def digest_in(picture: bytes) -> str:
    """The digest of the page that a PNG shows; empty where it names none."""
    found = [body for kind, body in chunks_of(picture) if kind == b"tEXt" and body.startswith(_DIGEST)]
    return found[0][len(_DIGEST):].decode() if found else ""


def text_of(wanted: Page) -> str:
    """The page that is shown."""
    os.chdir(TOP)
    return page(open_view(ped(), Question(wanted.program)), ped(), True)


def digest_of(wanted: Page, text: str) -> str:
    """The digest of a page, of what of it is chosen and of the size."""
    return sha256(f"{wanted.mark} {wanted.width} {wanted.height}\n{text}".encode()).hexdigest()


def png_of(wanted: Page, text: str) -> bytes:
    """A page as PNG, by a browser."""
    with tempfile.TemporaryDirectory() as folder:
        path = Path(folder) / "page.html"
        path.write_text(text, encoding="ascii")
        with Browser(path.as_uri() + wanted.mark) as browser:
            return base64.b64decode(browser.picture(wanted.width, wanted.height))


# --- All pictures ------------------------------------------------------------------------------------------------------

def is_stale(name: str) -> bool:
    """Whether a picture isn't what it would be if it were made now."""
    path, wanted = FOLDER / name, PICTURES[name]
    if not path.exists():
        return True
    if isinstance(wanted, Page):
        return digest_in(path.read_bytes()) != digest_of(wanted, text_of(wanted))
    kept = path.read_text(encoding="utf-8")
    return all(kept != drawing_of(wanted) for _ in range(_TIMES))


def drawing_of(wanted: Terminal) -> str:
    """The picture of a terminal."""
    return svg_of(screen_of(wanted), f"pedx edit {wanted.program}")


def settled(wanted: Terminal) -> str:
    """The picture of a terminal, drawn until it's the same twice."""
    before, now = "", drawing_of(wanted)
    while now != before:
        before, now = now, drawing_of(wanted)
    return now


def make(name: str) -> None:
    """Makes a picture."""
    path, wanted = FOLDER / name, PICTURES[name]
    if isinstance(wanted, Page):
        text = text_of(wanted)
        path.write_bytes(with_digest(png_of(wanted, text), digest_of(wanted, text)))
    else:
        path.write_text(settled(wanted), encoding="utf-8")


def main(words: Sequence[str]) -> int:
    """Makes the pictures that are named, or those that are stale; with --check it only says which these are."""
    checks = words[:1] == ["--check"]
    names = list(words[checks:]) or list(PICTURES)
    unknown = [name for name in names if name not in PICTURES]
    if unknown:
        print(f"screenshots: there is no picture {unknown[0]}; there are {', '.join(PICTURES)}")
        return 2
    stale = [name for name in names if is_stale(name)]
    for name in stale:
        if checks:
            print(f"screenshots: docs/pictures/{name} is stale; tools/screenshots makes it anew")
        elif isinstance(PICTURES[name], Page) and browser_path() is None:
            print(f"screenshots: {name} is stale, and needs Debian's package chromium to be made anew")
            return 1
        else:
            make(name)
            print(f"screenshots: docs/pictures/{name} was made")
    return 1 if checks and stale else 0


if __name__ == "__main__":
    sys.exit(main(sys.argv[1:]))
