"""The table of docs/COMPANION.md that compares pedx with other tools: what it claims of pedx is shown by tests that pass."""

import re
import unittest
from typing import Dict, List, Set, Tuple

from .support import TOP
from .test_documents import has_library

_PAGE = TOP / "docs" / "COMPANION.md"

#: Which tests show what the last column says of a point. A point without tests is one at which pedx has nothing.
TESTS: Dict[str, Tuple[str, ...]] = {
    "list of loops with verdicts": ("test_loops.Verdicts.test_words", "test_editor_parts.Lists.test_loops"),
    "dependences beside the source": ("test_editor.Steps.test_screen", "test_page.Data.test_a_row"),
    "pane of variables": ("test_editor_parts.Lists.test_variables", "test_page.Data.test_variables"),
    "references of a row highlighted": (
        "test_editor_parts.Desks.test_references_of_the_chosen_row",
        "test_page.Data.test_references_stand_where_they_are_marked",
    ),
    "search": ("test_editor_parts.Desks.test_search",),
    "sorting of rows": ("test_editor_parts.Desks.test_orders", "test_page.Shown.test_sorting_and_graph"),
    "filters": ("test_editor_parts.Desks.test_filters", "test_why.Chosen.test_filters"),
    "mouse": ("test_editor_parts.Clicks.test_places",),
    "says why a row is there": ("test_why.Sentences.test_whole", "test_why.Sentences.test_reasons"),
    "advice on steps": ("test_loops.Advice.test_accepted_steps", "test_loops.Advice.test_refused_steps"),
    "steps, tested before they are done": ("test_editor.Steps.test_refused_step", "test_editor.Steps.test_refused_fuse"),
    "unrolling, splitting, alignment, renaming of arrays": (),
    "marks": ("test_editor.Runs.test_reject_and_races", "test_why.Sentences.test_rejected"),
    "edits, with dependences anew": ("test_editor.Editing.test_edit",),
    "undo without limit": ("test_editor.Steps.test_undo_and_redo", "test_editor_parts.Sessions.test_undo_of_what_was_loaded"),
    "history as commands": ("test_editor_parts.Sessions.test_script",),
    "OpenMP export": ("test_openmp.Text.test_private_names", "test_openmp.Compiled.test_samples"),
    "profile of a run": ("test_profile.ByHand.test_rectangle",),
    "races of a run": ("test_check.Runs.test_race", "test_check.Runs.test_no_accident"),
    "page for browsers": ("test_page.Text.test_nothing_is_loaded", "test_page.Shown.test_clicks_and_keys"),
    "diagnostics while typing": ("test_serve.Answers.test_refusals_while_typing",),
    "verdicts and code actions in other editors": (
        "test_serve.Answers.test_verdicts_and_why", "test_serve.Answers.test_steps_make_the_whole_text",
        "test_vscode.Extension.test_end_to_end",
    ),
    "proved dependences": ("test_comparison.Proofs.test_clauses_that_the_page_of_the_headline_names",),
    "modules and COMMON": (
        "real_calls.Shared.test_a_variable_of_a_module", "real_calls.Shared.test_the_same_layout_with_other_names",
    ),
    "interprocedural": ("real_calls.Uses.test_calls_in_calls", "real_calls.OtherFiles.test_a_body_elsewhere"),
    "certificates of answers": ("test_prove.Proved.test_programs",),
}

_Row = Tuple[str, List[str]]


def rows() -> List[_Row]:
    """The rows of the table: the point, and what is said of the four tools."""
    text = _PAGE.read_text(encoding="utf-8")
    table = text[text.index("## Compared with other tools"):].split("\n\n")[2]
    cells = [[cell.strip() for cell in line.strip("|").split("|")] for line in table.splitlines()]
    assert cells[0] == ["Point", "PED", "Advisor", "gfortran", "pedx"]
    return [(one[0], one[1:]) for one in cells[2:]]


def result_of(name: str) -> unittest.TestResult:
    """What comes of a test of this folder that is named by its module, its class and its own name."""
    result = unittest.TestResult()
    unittest.defaultTestLoader.loadTestsFromName(f"{__package__}.{name}").run(result)
    return result


class Comparison(unittest.TestCase):
    def test_points(self) -> None:
        """Each row says something of each tool, and has its tests; where pedx has nothing, it says no."""
        found = rows()
        self.assertEqual([point for point, _ in found], list(TESTS))
        for point, said in found:
            self.assertEqual((len(said), "" in said), (4, False), point)
            self.assertEqual(said[3] == "no", not TESTS[point], point)

    def test_what_is_claimed(self) -> None:
        """Each named test is there, and passes. Where a tool is lacking it is skipped, as everywhere."""
        seen: Set[str] = set()
        for point, names in TESTS.items():
            for name in names:
                if name in seen or name.startswith("real_") and not has_library():
                    continue
                seen.add(name)
                with self.subTest(point=point, test=name):
                    result = result_of(name)
                    self.assertEqual([words for _, words in result.errors + result.failures], [])
                    self.assertEqual(result.testsRun, 1)

    def test_a_test_that_is_not_there_is_noticed(self) -> None:
        self.assertTrue(result_of("test_page.Data.test_nothing").errors)


class Proofs(unittest.TestCase):
    def test_clauses_that_the_page_of_the_headline_names(self) -> None:
        """That no dependence is missing is a clause that the gate proves; the page of the headline names the law."""
        page = (TOP / "docs" / "HEADLINE.md").read_text(encoding="utf-8")
        self.assertIn("conflicts_are_covered", page)
        laws = [path for path in (TOP / "crates").glob("*/src/**/*.rt")
                if re.search(r"^pub fn conflicts_are_covered\b", path.read_text(encoding="utf-8"), re.MULTILINE)]
        self.assertEqual(len(laws), 1)


if __name__ == "__main__":
    unittest.main()
