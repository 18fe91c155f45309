"""`pedx serve`: what the language server answers, to a client of the tests and to Neovim."""

import io
import json
import os
import shlex
import shutil
import subprocess
import sys
import tempfile
import unittest
from pathlib import Path
from typing import Dict, List, Optional

from ..lines import Place
from ..server.messages import BadMessage, read_message, write_message
from ..server.places import as_bytes, column_of, position
from .support import TOP, fortran, ped_path

Json = Dict[str, object]


def command() -> List[str]:
    return [sys.executable, str(TOP / "pedx"), "serve", "--ped", ped_path()]


class Client:
    """An editor that has a server of its own."""

    def __init__(self, capabilities: Optional[Json] = None) -> None:
        self._process = subprocess.Popen(command(), stdin=subprocess.PIPE, stdout=subprocess.PIPE, stderr=subprocess.DEVNULL)
        self._number = 0
        self.notices: List[Json] = []
        self.ask("initialize", capabilities=capabilities or {}, processId=None, rootUri=None)

    def __enter__(self) -> "Client":
        return self

    def __exit__(self, *_: object) -> None:
        self._process.kill()
        self._process.communicate()

    def tell(self, method: str, **words: object) -> None:
        assert self._process.stdin is not None
        write_message(self._process.stdin, {"method": method, "params": words})

    def ask(self, method: str, **words: object) -> object:
        """The result of a request, or its error; what comes before it is kept."""
        assert self._process.stdin is not None and self._process.stdout is not None
        self._number += 1
        write_message(self._process.stdin, {"id": self._number, "method": method, "params": words})
        while True:
            message = read_message(self._process.stdout)
            assert message is not None
            if message.get("id") == self._number:
                return message.get("result") if "result" in message else message["error"]
            self.notices.append(message)

    def open(self, text: str, uri: str = "file:///p.f") -> None:
        self.tell("textDocument/didOpen", textDocument={"uri": uri, "languageId": "fortran", "version": 1, "text": text})

    def at(self, method: str, line: int, character: int = 8, uri: str = "file:///p.f") -> object:
        place = {"line": line, "character": character}
        return self.ask(method, textDocument={"uri": uri}, position=place, range={"start": place, "end": place}, context={})

    def lenses(self, uri: str = "file:///p.f") -> List[str]:
        found = self.ask("textDocument/codeLens", textDocument={"uri": uri})
        return [f"{one['range']['start']['line']}: {one['command']['title']}" for one in found]  # type: ignore

    def diagnostics(self) -> List[Json]:
        """What was told last of what is wrong."""
        self.lenses()
        told = [one["params"] for one in self.notices if one.get("method") == "textDocument/publishDiagnostics"]
        return told[-1]["diagnostics"]  # type: ignore

    def end(self) -> Optional[int]:
        self.ask("shutdown")
        self.tell("exit")
        return self._process.wait(20)


RECURRENCE = fortran("INTEGER A(10)", "DO I = 2, 10", "A(I) = A(I-1)+1", "END DO", "DO J = 1, 9", "K = J", "END DO", "END")


class Answers(unittest.TestCase):
    def test_verdicts_and_why(self) -> None:
        with Client() as client:
            client.open(RECURRENCE)
            self.assertEqual(client.lenses(), ["1: carries A", "4: carries K"])
            told = client.at("textDocument/hover", 2, 14)
            self.assertIn("flow of A from 2.2 to 2.1, carried by loop 1 (DO I), proven", str(told))
            self.assertIn("carries A", str(client.at("textDocument/hover", 1)))
            self.assertIsNone(client.at("textDocument/hover", 0))
            self.assertEqual(client.diagnostics(), [])
            self.assertEqual(client.end(), 0)

    def test_steps_make_the_whole_text(self) -> None:
        with Client() as client:
            client.open(RECURRENCE)
            actions = client.at("textDocument/codeAction", 4)
            titles = [one["title"] for one in actions]  # type: ignore
            self.assertIn("ped: privatise 3 K", titles)
            self.assertNotIn("ped: parallel 3", titles)
            privatised = next(one for one in actions if one["title"] == "ped: privatise 3 K")  # type: ignore
            edit = privatised["edit"]["changes"]["file:///p.f"][0]
            self.assertEqual(edit["range"], {"start": {"line": 0, "character": 0}, "end": {"line": 8, "character": 0}})
            self.assertIn("        PRIVATE K\n", edit["newText"])
            self.assertEqual(client.at("textDocument/codeAction", 2), [])

    def test_refusals_while_typing(self) -> None:
        with Client() as client:
            client.open(RECURRENCE)
            self.assertEqual(client.diagnostics(), [])
            client.tell(
                "textDocument/didChange", textDocument={"uri": "file:///p.f", "version": 2},
                contentChanges=[{"text": RECURRENCE.replace("K = J", "K = (J")}],
            )
            found, = client.diagnostics()
            self.assertEqual((found["code"], found["severity"]), ("7 Syntax", 1))
            self.assertEqual(found["range"]["start"]["line"], 5)  # type: ignore
            self.assertEqual(client.lenses(), [])
            client.tell(
                "textDocument/didChange", textDocument={"uri": "file:///p.f", "version": 3},
                contentChanges=[{"text": RECURRENCE}],
            )
            self.assertEqual(client.diagnostics(), [])
            self.assertEqual(len(client.lenses()), 2)

    def test_warnings(self) -> None:
        with Client() as client:
            client.open(fortran("PARALLEL DO I = 1, 9", "K = I", "END DO", "PRINT *, K", "END"))
            found = client.diagnostics()
            self.assertEqual(found[0]["severity"], 2)
            self.assertIn("may race", str(found[0]["message"]))

    def test_openmp_makes_a_file_beside(self) -> None:
        with Client({"workspace": {"workspaceEdit": {"resourceOperations": ["create"]}}}) as client:
            client.open(fortran(
                "INTEGER A(200000)", "PARALLEL DO I = 1, 200000", "A(I) = I*3+I/7", "END DO", "PRINT *, A(9)", "END"
            ))
            text = client.ask("workspace/executeCommand", command="pedx.omp", arguments=["file:///p.f"])
            self.assertIn("C$OMP PARALLEL DO", str(text))
            edit, = [one for one in client.notices if one.get("method") == "workspace/applyEdit"]
            create, insert = edit["params"]["edit"]["documentChanges"]  # type: ignore
            self.assertEqual(create, {
                "kind": "create", "uri": "file:///p.omp.f", "options": {"overwrite": False, "ignoreIfExists": False},
            })
            self.assertEqual(insert["edits"][0]["newText"], text)

    def test_an_editor_that_makes_no_files_gets_the_text_alone(self) -> None:
        with Client() as client:
            client.open(RECURRENCE)
            text = client.ask("workspace/executeCommand", command="pedx.omp", arguments=["file:///p.f"])
            self.assertIn("WRITTEN BY PEDX OMP", str(text))
            self.assertNotIn("workspace/applyEdit", [one.get("method") for one in client.notices])

    def test_real_fortran(self) -> None:
        text = "subroutine s(a, n)\n  integer n, i\n  real a(n)\n  do i = 1, n\n    a(i) = 2*a(i)\n  end do\nend\n"
        with Client() as client:
            client.open(text, "file:///s.f90")
            self.assertEqual([one.partition(":")[0] for one in client.lenses("file:///s.f90")], ["3"])
            self.assertIsNotNone(client.at("textDocument/hover", 3, 3, "file:///s.f90"))
            self.assertEqual(client.at("textDocument/codeAction", 3, 3, "file:///s.f90"), [])
            made = client.ask("workspace/executeCommand", command="pedx.omp", arguments=["file:///s.f90"])
            self.assertEqual(str(made).replace("  !$omp parallel do\n", ""), text)
            self.assertIn("!$omp parallel do", str(made))
            told = [one["params"]["message"] for one in client.notices if one["method"] == "window/showMessage"]  # type: ignore
            self.assertIn("pedx: assumed: A1 ", told[-1])

    def test_wrong_words(self) -> None:
        with Client() as client:
            self.assertEqual(client.ask("textDocument/rename")["code"], -32601)  # type: ignore
            self.assertEqual(client.ask("textDocument/codeLens", textDocument={"uri": "x"})["code"], -32602)  # type: ignore
            self.assertEqual(client.ask("textDocument/hover")["code"], -32602)  # type: ignore
            client.tell("textDocument/didChange", nothing=1)
            client.open(RECURRENCE)
            self.assertEqual(len(client.lenses()), 2)


class Messages(unittest.TestCase):
    def test_bad_ones(self) -> None:
        for data in (b"Content-Length: x\r\n\r\n{}", b"Content-Length: 3\r\n\r\n{}", b"\r\n{}", b"Content-Length: 2\r\n\r\n[]"):
            with self.assertRaises(BadMessage):
                read_message(io.BytesIO(data))
        self.assertIsNone(read_message(io.BytesIO(b"")))

    def test_columns_are_units_of_utf_16(self) -> None:
        line = as_bytes("      PRINT *, 'é𝄞', K")
        place = Place(1, line.index("K") + 1)
        self.assertEqual(position([line], place), {"line": 0, "character": 22})
        self.assertEqual(column_of(line, 22), place.column)


@unittest.skipUnless(shutil.which("nvim"), "the package neovim is not installed")
class InNeovim(unittest.TestCase):
    def test_end_to_end(self) -> None:
        """Diagnostics, why, and a step, through the set-up file that users are given."""
        with tempfile.TemporaryDirectory() as folder:
            path = Path(folder) / "p.f"
            path.write_text(RECURRENCE, encoding="ascii")
            lua = Path(folder) / "test.lua"
            lua.write_text(_LUA, encoding="ascii")
            environment = {**os.environ, "PEDX": json.dumps(command()), "HOME": folder, "XDG_STATE_HOME": folder}
            subprocess.run(
                ["nvim", "--headless", "-u", "NONE", "--cmd", f"luafile {TOP}/editors/nvim/pedx.lua", str(path),
                 "-c", f"luafile {lua}", "-c", "qa!"], env=environment, check=True, timeout=120, capture_output=True,
            )
            told = json.loads((Path(folder) / "told.json").read_text(encoding="utf-8"))
        self.assertEqual(told["before"], 0)
        self.assertIn("flow of A", told["hover"])
        self.assertIn("PRIVATE K", told["text"])
        self.assertEqual(told["after"], ["7 Syntax"])


def has_eglot() -> bool:
    """Whether Emacs is there with eglot, which is its part since version 29."""
    if not shutil.which("emacs"):
        return False
    return subprocess.run(["emacs", "--batch", "-l", "eglot"], capture_output=True, check=False).returncode == 0


@unittest.skipUnless(has_eglot(), "the packages emacs-nox and elpa-eglot are not installed")
class InEmacs(unittest.TestCase):
    def test_end_to_end(self) -> None:
        """Diagnostics, verdicts, why, a step, and an export, through the file that users are given."""
        with tempfile.TemporaryDirectory() as folder:
            path = Path(folder) / "p.f"
            path.write_text(RECURRENCE, encoding="ascii")
            script = Path(folder) / "test.el"
            script.write_text(_LISP, encoding="ascii")
            # What a user has on the path is a program `pedx`.
            program = Path(folder) / "pedx"
            program.write_text("#!/bin/sh\nexec " + " ".join(map(shlex.quote, command()[:2])) + ' "$@"\n', encoding="utf-8")
            program.chmod(0o755)
            done = subprocess.run(
                ["emacs", "--batch", "-l", f"{TOP}/editors/emacs/pedx.el", "-l", str(script)],
                env={**os.environ, "HOME": folder, "PEDX_PED": ped_path(), "PATH": f"{folder}:{os.environ['PATH']}"},
                cwd=folder, check=False, timeout=240, capture_output=True,
            )
            self.assertEqual(done.returncode, 0, done.stderr.decode())
            told = json.loads((Path(folder) / "told.json").read_text(encoding="utf-8"))
        self.assertEqual(told["verdicts"], ["2: carries A", "5: carries K"])
        self.assertEqual(told["hidden"], 0)
        self.assertIn("flow of A", told["hover"])
        self.assertIn("ped: privatise 3 K", told["actions"])
        self.assertIn("PRIVATE K", told["text"])
        self.assertIn("WRITTEN BY PEDX OMP", told["omp"])
        self.assertEqual(told["before"], 0)
        self.assertEqual(told["after"], 1)


_LUA = """
local file = vim.api.nvim_buf_get_name(0)
local folder = vim.fn.fnamemodify(file, ':h')
vim.wait(20000, function() return #vim.lsp.buf_get_clients(0) > 0 end)
local function ask(method, line, character)
  local place = {line = line, character = character}
  local words = {textDocument = vim.lsp.util.make_text_document_params(), position = place,
    range = {start = place, ['end'] = place}, context = {diagnostics = {}}}
  for _, answer in pairs(vim.lsp.buf_request_sync(0, method, words, 60000)) do return answer.result end
end
local told = {}
told.hover = ask('textDocument/hover', 2, 14).contents.value
told.before = #vim.diagnostic.get(0)
for _, action in ipairs(ask('textDocument/codeAction', 4, 8)) do
  if action.title == 'ped: privatise 3 K' then vim.lsp.util.apply_workspace_edit(action.edit, 'utf-16') end
end
told.text = table.concat(vim.api.nvim_buf_get_lines(0, 0, -1, false), '\\n')
vim.api.nvim_buf_set_lines(0, 1, 2, false, {'      DO I = (2, 10'})
vim.wait(60000, function() return #vim.diagnostic.get(0) > 0 end)
told.after = vim.tbl_map(function(one) return one.code end, vim.diagnostic.get(0))
local out = io.open(folder .. '/told.json', 'w')
out:write(vim.json.encode(told))
out:close()
"""

_LISP = r"""
(defun until (is)
  (let ((end (+ (float-time) 60)))
    (while (and (not (funcall is)) (< (float-time) end)) (accept-process-output nil 0.1))))
(defun shown ()
  (mapcar (lambda (one) (format "%d: %s" (line-number-at-pos (overlay-start one)) (string-trim (overlay-get one 'before-string))))
          (sort (seq-filter (lambda (one) (overlay-get one 'pedx)) (overlays-in (point-min) (point-max)))
                (lambda (a b) (< (overlay-start a) (overlay-start b))))))
(defun marks ()
  (until (lambda () (not (eq (if (boundp 'eglot--diagnostics) eglot--diagnostics t) t))))
  (if (boundp 'eglot--diagnostics) eglot--diagnostics (flymake-diagnostics)))
(defun told-of (place)
  (plist-get (plist-get (pedx--ask :textDocument/hover :textDocument (list :uri (pedx--uri)) :position place) :contents) :value))
(let (told file)
  (find-file "p.f")
  (setq file (current-buffer))
  (apply #'eglot (eglot--guess-contact))
  (until #'eglot-current-server)
  (pedx-verdicts)
  (push (cons 'verdicts (vconcat (shown))) told)
  (pedx-verdicts)
  (push (cons 'hidden (length (shown))) told)
  (push (cons 'hover (told-of '(:line 2 :character 14))) told)
  (push (cons 'before (length (marks))) told)
  (goto-char (point-min))
  (forward-line 4)
  (forward-char 8)
  (let* ((place (eglot--pos-to-lsp-position))
         (actions (pedx--ask :textDocument/codeAction :textDocument (list :uri (pedx--uri))
                             :range (list :start place :end place) :context (list :diagnostics [])))
         (step (seq-find (lambda (one) (equal (plist-get one :title) "ped: privatise 3 K")) actions)))
    (push (cons 'actions (vconcat (mapcar (lambda (one) (plist-get one :title)) actions))) told)
    (eglot--apply-workspace-edit (plist-get step :edit)))
  (push (cons 'text (buffer-string)) told)
  (pedx-omp)
  (push (cons 'omp (buffer-string)) told)
  (switch-to-buffer file)
  (goto-char (point-min))
  (search-forward "DO I = ")
  (insert "(")
  (pedx--ask :textDocument/codeLens :textDocument (list :uri (pedx--uri)))
  (push (cons 'after (length (marks))) told)
  (with-temp-file "told.json" (insert (json-encode told)))
  (dolist (buffer (buffer-list)) (with-current-buffer buffer (set-buffer-modified-p nil)))
  (kill-emacs 0))
"""

if __name__ == "__main__":
    unittest.main()
