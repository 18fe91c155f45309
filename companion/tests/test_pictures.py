"""The pictures of the documents: none is stale, each is small, and each is shown."""

import re
import struct
import unittest
import zlib

from .pictures import (
    _SIGNATURE, FOLDER, PICTURES, Cell, ColouredScreen, Page, _chunk, chunks_of, digest_in, is_stale, svg_of, with_digest,
)
from .screens import has_terminal
from .support import TOP


class Kept(unittest.TestCase):
    @unittest.skipUnless(has_terminal(), "the library curses is not there, or knows no VT100")
    def test_none_is_stale(self) -> None:
        """That of a page is told by the digest of the page, without a browser."""
        for name in PICTURES:
            with self.subTest(name):
                self.assertFalse(is_stale(name), f"tools/screenshots makes docs/pictures/{name} anew")

    def test_sizes(self) -> None:
        for name, wanted in PICTURES.items():
            self.assertLess((FOLDER / name).stat().st_size, 100_000 if isinstance(wanted, Page) else 8_000, name)

    def test_each_is_shown(self) -> None:
        pages = [TOP / "README.md", *sorted((TOP / "docs").glob("*.md"))]
        shown = {name for page in pages for name in re.findall(r"!\[[^]]+\]\([a-z/]*pictures/([^)]+)\)", page.read_text())}
        self.assertEqual(shown, set(PICTURES))
        self.assertEqual({path.name for path in FOLDER.iterdir()}, set(PICTURES))


class Drawn(unittest.TestCase):
    def test_colours(self) -> None:
        screen = ColouredScreen(2, 20)
        screen.feed("a<b\x1b[31m red\x1b[m\r\n\x1b[7m bar \x1b[0;1;4mx\x1b[39m")
        self.assertEqual(screen.rows, ["a<b red", " bar x"])
        text = svg_of(screen.cells, "a & b")
        self.assertIn("<title>a &amp; b</title>", text)
        self.assertIn('>a&lt;b</text><text x="45.6" y="25" textLength="25.2" class="c1">red</text>', text)
        self.assertIn('<rect x="12" y="30" width="42" height="18"/>', text)
        self.assertIn('class="b u">x</text>', text)

    def test_cells_are_characters(self) -> None:
        self.assertEqual("".join([Cell("a"), "b"]), "ab")

    def test_digest(self) -> None:
        with_page = (FOLDER / "page.png").read_bytes()
        self.assertEqual(len(digest_in(with_page)), 64)

    def test_palette(self) -> None:
        """A picture of two rows with three colours stays what it is; filters are undone by hand."""
        red, green, blue = b"\xff\0\0", b"\0\xff\0", b"\0\0\xff"
        # The second row is told as the difference to that above: green, then what was there.
        second = bytes((a - b) & 255 for a, b in zip(green + blue, red + blue))
        data = zlib.compress(b"\0" + red + blue + b"\2" + second)
        head = struct.pack(">IIBBBBB", 2, 2, 8, 2, 0, 0, 0)
        made = with_digest(_SIGNATURE + _chunk(b"IHDR", head) + _chunk(b"IDAT", data) + _chunk(b"IEND", b""), "0" * 64)
        parts = dict(chunks_of(made))
        self.assertEqual(parts[b"PLTE"], red + blue + green)
        self.assertEqual(zlib.decompress(parts[b"IDAT"]), b"\0\0\1\0\2\1")
        self.assertEqual(digest_in(made), "0" * 64)


if __name__ == "__main__":
    unittest.main()
