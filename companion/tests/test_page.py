"""`pedx page`: what the page has as data, that nothing of a program becomes markup, and what a browser makes of it."""

import json
import re
import tempfile
import time
import unittest
from contextlib import contextmanager
from html.parser import HTMLParser
from pathlib import Path
from typing import Dict, Iterator, List, Optional, Tuple

from ..commands.page import document, page
from ..progress import Progress
from ..variables import variables_of
from ..views import Question, View, view_of_file
from .browser import PACKAGE, Browser, browser_path
from .support import example_view, examples, fortran, ped, view_of


def text_of(view: View) -> str:
    return page(view, ped(), False)


def data_of(text: str) -> Dict[str, object]:
    found = re.search(r'<script type="application/json" id="data">(.*?)</script>', text, re.DOTALL)
    assert found is not None
    data: Dict[str, object] = json.loads(found.group(1))
    return data


class _Elements(HTMLParser):
    """The elements of a page, as a browser sees them."""

    def __init__(self, text: str) -> None:
        super().__init__()
        self.found: List[Tuple[str, Dict[str, object]]] = []
        self.feed(text)

    def handle_starttag(self, tag: str, attrs: List[Tuple[str, Optional[str]]]) -> None:
        self.found.append((tag, dict(attrs)))


class Data(unittest.TestCase):
    def test_references_stand_where_they_are_marked(self) -> None:
        for name in examples():
            view = example_view(name)
            for key, reference in document(view, ped(), False, Progress())["references"].items():  # type: ignore
                shown = "".join(view.lines[line - 1][first - 1:last] for line, first, last in reference["pieces"])
                if reference["text"] not in ("PRINT", "READ"):
                    self.assertEqual("".join(shown.split()).upper(), "".join(reference["text"].split()), (name, key))

    def test_a_row(self) -> None:
        data = data_of(text_of(example_view("panes/recurrence")))
        self.assertEqual(data["rows"], [[
            "2.2", "2.1", "A", "flow", 1, 1, ["<"], "1", "proven",
            ["flow of A from 2.2 to 2.1, carried by loop 1 (DO I), proven; the sink comes 1 iteration of DO I later",
             "subscript 1 decides: I against I-1, strong SIV, distance 1 in DO I"],
        ]])
        self.assertEqual(data["source"][4], [2, "   10 A(I)=A(I-1)+1"])  # type: ignore

    def test_an_if_has_its_line(self) -> None:
        data = data_of(text_of(view_of(fortran("DO I = 1, 9", "IF (I.GT.3) K = I", "END DO", "END"))))
        self.assertEqual([row[0] for row in data["source"]], [1, 2, None, None])  # type: ignore

    def test_variables(self) -> None:
        view = view_of(fortran(
            "INTEGER A(9), B(9)", "SAVE B", "N = 1", "DO I = 2, 9", "K = A(I)+N", "M = M+K", "A(I) = A(I-1)", "B(I) = N",
            "END DO", "PRINT *, M", "END",
        ))
        found = {one.name: (one.role, one.after) for one in variables_of(view, view.program.loops[2])}
        self.assertEqual(found, {
            "K": ("carried", ""), "A": ("carried", ""), "M": ("sum", "statement 7"), "I": ("index", ""),
            "N": ("shared", ""), "B": ("shared", "SAVE"),
        })
        self.assertEqual([one.name for one in variables_of(view, view.program.loops[2])], ["A", "K", "M", "I", "N", "B"])
        view = view_of(fortran("PARALLEL DO 10 I = 1, 9", "PRIVATE K", "K = I", "10 PRINT *, K", "END"))
        self.assertEqual(
            [(one.name, one.role) for one in variables_of(view, view.program.loops[1])],
            [("(OUT)", "lines"), ("K", "private"), ("I", "index")],
        )


class Text(unittest.TestCase):
    #: What would end the data, begin a script, or load something, if it weren't data alone.
    HOSTILE = "</script><script>document.title='hit'</script><img src=x onerror=alert(1)>&lt;<!--"

    def _hostile(self) -> View:
        lines = fortran("DO I = 1, 9", "K = I", "END DO", "END").splitlines(keepends=True)
        source = "".join([lines[0], f"C {self.HOSTILE[:60]}\n", f"C {self.HOSTILE[60:]}\n", *lines[1:]])
        return view_of_file(ped().show(source), source, Question(f"{self.HOSTILE}.f"))

    def test_program_text_is_data(self) -> None:
        text = text_of(self._hostile())
        elements = _Elements(text).found
        self.assertEqual([tag for tag, _ in elements], [tag for tag, _ in _Elements(text_of(view_of("      END\n"))).found])
        self.assertEqual(data_of(text)["source"][1], [None, f"C {self.HOSTILE[:60]}"])  # type: ignore

    def test_nothing_is_loaded(self) -> None:
        text = text_of(example_view("panes/stencil"))
        for tag, words in _Elements(text).found:
            self.assertFalse({"src", "href", "action", "data"} & set(words), tag)
        policy = next(words["content"] for _, words in _Elements(text).found if "http-equiv" in words)
        self.assertTrue(str(policy).startswith("default-src 'none'; "))
        self.assertTrue(text.isascii())


@contextmanager
def opened(view: View, mark: str = "") -> Iterator[Browser]:
    """The page of a view in a browser."""
    with tempfile.TemporaryDirectory() as folder:
        path = Path(folder) / "page.html"
        path.write_text(text_of(view), encoding="ascii")
        with Browser(path.as_uri() + mark) as browser:
            end = time.monotonic() + 20
            ready = "document.readyState === 'complete' && document.querySelector('#source .line') !== null"
            while not browser.value(ready) and time.monotonic() < end:
                time.sleep(0.02)
            yield browser


@unittest.skipUnless(browser_path(), f"the package {PACKAGE} is not installed")
class Shown(unittest.TestCase):
    def test_clicks_and_keys(self) -> None:
        with opened(example_view("panes/stencil")) as browser:
            self.assertEqual(browser.value("document.querySelectorAll('.line').length"), 27)
            self.assertEqual(browser.value("document.querySelectorAll('.line.loop').length"), 7)
            browser.value("document.querySelectorAll('.line.loop')[2].click()")
            self.assertEqual(browser.value("document.getElementById('loop').textContent"), "loop 6: DO K = 1, NSTEPS")
            browser.value("document.querySelector('#rows tbody tr').click()")
            self.assertEqual(browser.value("document.querySelectorAll('#source mark').length"), 2)
            self.assertTrue(browser.value("document.querySelector('#arrow path').getTotalLength() > 20"))
            self.assertIn("carried by loop 6", str(browser.value("document.getElementById('why').textContent")))
            browser.press("ArrowDown")
            self.assertEqual(browser.value("[...document.querySelectorAll('#rows tbody tr')].findIndex("
                                           "row => row.getAttribute('aria-selected') === 'true')"), 1)
            browser.press("Escape")
            self.assertEqual(browser.value("document.getElementById('loop').textContent"), "the whole program")
            browser.press("n")
            self.assertEqual(browser.value("location.hash"), "#loop=1")
            browser.press("p")
            self.assertEqual(browser.value("location.hash"), "#loop=1")

    def test_sorting_and_graph(self) -> None:
        with opened(example_view("panes/stencil"), "#loop=6") as browser:
            names = "[...document.querySelectorAll('#rows tbody tr')].map(row => row.cells[2].textContent).join(' ')"
            before = str(browser.value(names)).split()
            browser.value("document.querySelectorAll('#rows th button')[2].click()")
            self.assertEqual(str(browser.value(names)).split(), sorted(before))
            browser.value("document.querySelectorAll('#rows th button')[2].click()")
            self.assertEqual(str(browser.value(names)).split(), sorted(before, reverse=True))
            browser.press("g")
            browser.value("new Promise(done => setTimeout(done, 100))")
            self.assertTrue(browser.value("document.querySelectorAll('#picture path').length > 3"))

    def test_kinds_and_marks_have_colours_and_shapes(self) -> None:
        with opened(example_view("panes/chains")) as browser:
            cells = "[...document.querySelectorAll('#rows tbody tr')].map(row => row.cells[{}].textContent).join(' ')"
            for place, shapes in ((3, {"flow": "\u25b6", "anti": "\u25b7", "output": "\u25c6"}),
                                  (7, {"proven": "\u2501", "pending": "\u2505", "rejected": "\u2508"})):
                words = str(browser.value(cells.format(place))).split()
                self.assertEqual({word: shape for shape, word in zip(words[::2], words[1::2])}, shapes)
            colour = "getComputedStyle(document.querySelector('#rows td.{}')).color"
            self.assertEqual(len({browser.value(colour.format(kind)) for kind in ("flow", "anti", "output")}), 3)
            heads, dashes = {}, {}
            for number, kind, mark in json.loads(str(browser.value(
                "JSON.stringify(data.rows.map((row, number) => [number, row[3], row[8]]))"
            ))):
                if kind in heads and mark in dashes:
                    continue
                browser.value(f"chooseRow({number})")
                heads[kind] = browser.value("(() => { const head = document.querySelector('#arrow polygon');"
                                            "return head.points.length + getComputedStyle(head).fill; })()")
                dashes[mark] = browser.value("getComputedStyle(document.querySelector('#arrow path')).strokeDasharray")
            self.assertEqual((len(set(heads.values())), len(set(dashes.values()))), (3, 3))

    def test_a_row_to_itself_is_a_ring(self) -> None:
        with opened(example_view("panes/recurrence"), "#loop=1&row=0") as browser:
            self.assertTrue(browser.value("document.querySelector('#arrow path').getTotalLength() > 20"))
            browser.press("g")
            browser.value("new Promise(done => setTimeout(done, 100))")
            box = "document.querySelector('#picture path').getBBox()"
            self.assertTrue(browser.value(f"{box}.width > 20 && {box}.height > 15"))
            self.assertEqual(browser.value("document.querySelectorAll('#picture text')[1].textContent"), "A flow")

    def test_light_dark_and_paper(self) -> None:
        with opened(example_view("panes/stencil"), "#loop=6") as browser:
            paper = "getComputedStyle(document.body).backgroundColor"
            light = browser.value(paper)
            browser.look("screen", "dark")
            self.assertNotEqual(browser.value(paper), light)
            browser.look("print", "light")
            self.assertEqual(browser.value("getComputedStyle(document.getElementById('help')).display"), "none")
            for pane in ("source", "side"):
                whole = f"(pane => pane.scrollHeight <= pane.clientHeight + 1)(document.getElementById('{pane}'))"
                self.assertTrue(browser.value(whole), pane)

    def test_hostile_text_does_nothing(self) -> None:
        with opened(Text()._hostile()) as browser:
            self.assertNotEqual(browser.value("document.title"), "hit")
            self.assertEqual(browser.value("document.images.length"), 0)
            self.assertIn("</script>", str(browser.value("document.getElementById('source').textContent")))

    def test_a_large_program_opens_soon(self) -> None:
        body = [line for k in range(20) for line in ("DO I = 2, 99", *["A(I) = A(I-1)+A(I-2)"] * 13, "END DO")]
        view = view_of(fortran("INTEGER A(99)", *body, *["K = 1"] * 3600, "END"))
        self.assertGreater(len(view.dependences), 7000)
        with opened(view) as browser:
            self.assertLess(browser.seconds(), 2)
            self.assertEqual(browser.value("document.querySelectorAll('#rows tbody tr').length"), 400)
            browser.value("document.getElementById('more').click()")
            self.assertGreater(int(str(browser.value("document.querySelectorAll('#rows tbody tr').length"))), 7000)


if __name__ == "__main__":
    unittest.main()
