"""`pedx serve`: a language server over standard input and output.

It has the whole text of each open file from the editor, and reads nothing else of it. A text is looked at once no
message waits any more, so that typing is never behind.
"""

from __future__ import annotations

import os
import traceback
from dataclasses import dataclass
from functools import partial
from typing import BinaryIO, Callable, Dict, List, Optional, Union
from urllib.parse import unquote, urlsplit

from .. import VERSION
from ..commands.real import Reading
from ..languages import has_profile_words, is_real_by_name
from ..lines import Place
from ..ped import ENCODING, Ped
from ..statuses import CompanionError
from . import messages
from .messages import Inbox, Json, write_message
from .places import as_bytes, as_text, column_of, span, whole_line
from .programs import Program, exported, read_program, steps_at
from .reals import RealProgram, read_real

#: The command that writes a file with OpenMP directives beside the present one.
EXPORT = "pedx.omp"
#: Types of messages to the user.
_WARNING, _INFORMATION = 2, 3


class WrongWords(Exception):
    """A request that can't be answered, and why."""


@dataclass
class Document:
    """An open file: its text, with a character for each byte, and what is known of it, once it was looked at."""

    name: str
    text: str
    version: object
    known: Union[Program, RealProgram, None] = None
    is_new: bool = True
    #: Whether ped has taken the file once. A refused text of it is then no real Fortran.
    was_taken: bool = False

    @property
    def lines(self) -> List[str]:
        """The lines of the text."""
        return self.text.splitlines()


class Server:
    """A server, with the files that an editor has open in it."""

    def __init__(self, ped: Ped, stream: BinaryIO, out: BinaryIO) -> None:
        self._ped = ped
        self._inbox = Inbox(stream)
        self._out = out
        self._documents: Dict[str, Document] = {}
        self._is_ending = False
        self._number = 0
        #: Whether the editor makes new files that an edit asks for.
        self._creates = False
        self._requests: Dict[str, Callable[[Json], object]] = {
            "initialize": self._initialize,
            "shutdown": self._shutdown,
            "textDocument/codeLens": self._lenses,
            "textDocument/hover": self._hover,
            "textDocument/codeAction": self._actions,
            "workspace/executeCommand": self._execute,
        }
        self._notices: Dict[str, Callable[[Json], None]] = {
            "textDocument/didOpen": self._open,
            "textDocument/didChange": self._change,
            "textDocument/didClose": self._close,
        }

    def serve(self) -> int:
        """Answers messages up to `exit` or the end, and returns the status of the call."""
        try:
            while True:
                message = self._inbox.next()
                if message is None or message.get("method") == "exit":
                    return 0 if self._is_ending else 1
                self._take(message)
                if self._inbox.is_empty:
                    self._look()
        except messages.BadMessage as error:
            self._send({"id": None, "error": {"code": messages.PARSE_ERROR, "message": str(error)}})
            return 1

    def _send(self, message: Json) -> None:
        write_message(self._out, message)

    def _take(self, message: Json) -> None:
        method, words = message.get("method"), message.get("params")
        if not isinstance(method, str):
            return  # the answer to a request of the server
        known = words if isinstance(words, dict) else {}
        if "id" not in message:
            notice = self._notices.get(method)
            if notice is not None:
                self._try(partial(notice, known))
            return
        request = self._requests.get(method)
        if request is None:
            self._fail(message, messages.NO_METHOD, f"pedx has no {method}")
            return
        try:
            self._send({"id": message["id"], "result": request(known)})
        except (WrongWords, KeyError, TypeError, IndexError, CompanionError) as error:
            self._fail(message, messages.BAD_WORDS, f"{error}")
        except Exception:  # pylint: disable=broad-except
            self._fail(message, messages.FAILED, traceback.format_exc())

    def _fail(self, message: Json, code: int, words: str) -> None:
        self._send({"id": message["id"], "error": {"code": code, "message": words}})

    def _try(self, what: Callable[[], None]) -> None:
        """Does what has no answer. What goes wrong is told to the user, and the server goes on."""
        try:
            what()
        except CompanionError as error:
            self._tell(_WARNING, error.message)
        except Exception:  # pylint: disable=broad-except
            self._tell(_WARNING, traceback.format_exc())

    def _tell(self, kind: int, words: str) -> None:
        self._send({"method": "window/showMessage", "params": {"type": kind, "message": f"pedx: {words}"}})

    # --- Requests ----------------------------------------------------------------------------------------------------

    def _initialize(self, words: Json) -> Json:
        self._creates = "create" in str(_part(words, "capabilities", "workspace", "workspaceEdit", "resourceOperations"))
        return {
            "capabilities": {
                "textDocumentSync": {"openClose": True, "change": 1},
                "codeLensProvider": {"resolveProvider": False},
                "hoverProvider": True,
                "codeActionProvider": {"codeActionKinds": ["refactor.rewrite"]},
                "executeCommandProvider": {"commands": [EXPORT]},
            },
            "serverInfo": {"name": "pedx", "version": VERSION},
        }

    def _shutdown(self, _: Json) -> None:
        self._is_ending = True

    def _lenses(self, words: Json) -> List[Json]:
        document = self._looked_at(words)
        known = document.known
        return [
            {"range": whole_line(document.lines, one.line), "command": {"title": as_text(one.words), "command": ""}}
            for one in (known.verdicts if known is not None else [])
        ]

    def _hover(self, words: Json) -> Optional[Json]:
        document = self._looked_at(words)
        place = self._place(document, words["position"])  # type: ignore[arg-type]
        known = document.known
        told = known.told_at(place.line) if isinstance(known, RealProgram) else known.told_at(place) if known else None
        return {"contents": {"kind": "plaintext", "value": as_text(told)}} if told else None

    def _actions(self, words: Json) -> List[Json]:
        document = self._looked_at(words)
        place = self._place(document, words["range"]["start"])  # type: ignore[index]
        known = document.known
        if not isinstance(known, Program) or known.view is None:
            return []
        loop = known.loop_at(place.line)
        if loop is None:
            return []
        uri = self._uri(words)
        return [
            {"title": f"ped: {step.command}", "kind": "refactor.rewrite",
             "edit": {"changes": {uri: [{"range": _whole(document), "newText": as_text(step.text)}]}}}
            for step in steps_at(self._ped, document.text, known.view, loop)
        ]

    def _execute(self, words: Json) -> str:
        """The program with its directives. An editor that can makes a file of it beside the present one, where there is none."""
        if words.get("command") != EXPORT:
            raise WrongWords(f"pedx has no command {words.get('command')}")
        uri = words["arguments"][0]  # type: ignore[index]
        document = self._documents[uri]
        self._look_at(uri, document)
        known, (name, _, suffix) = document.known, uri.rpartition(".")
        if isinstance(known, RealProgram):
            text, doubts = known.exported()
        elif known is not None and known.view is not None:
            text, doubts = exported(self._ped, known.view)
            suffix = "f"
        else:
            raise WrongWords("the program isn't one that ped takes")
        if self._creates:
            self._make(f"{name}.omp.{suffix}", as_text(text))
        for doubt in doubts:
            self._tell(_WARNING, as_text(doubt))
        return as_text(text)

    def _make(self, uri: str, text: str) -> None:
        """Has the editor make a file with a text, where there is none."""
        start = {"line": 0, "character": 0}
        changes = [
            {"kind": "create", "uri": uri, "options": {"overwrite": False, "ignoreIfExists": False}},
            {"textDocument": {"uri": uri, "version": None},
             "edits": [{"range": {"start": start, "end": start}, "newText": text}]},
        ]
        self._number += 1
        self._send({
            "id": f"pedx-{self._number}", "method": "workspace/applyEdit",
            "params": {"label": "OpenMP", "edit": {"documentChanges": changes}},
        })

    # --- Open files --------------------------------------------------------------------------------------------------

    def _open(self, words: Json) -> None:
        item = words["textDocument"]
        assert isinstance(item, dict)
        uri = str(item["uri"])
        self._documents[uri] = Document(_name(uri), as_bytes(str(item["text"])), item.get("version"))

    def _change(self, words: Json) -> None:
        document = self._document(words)
        changes = words["contentChanges"]
        assert isinstance(changes, list)
        document.text = as_bytes(str(changes[-1]["text"]))
        document.version = words["textDocument"].get("version")  # type: ignore[attr-defined]
        document.is_new = True

    def _close(self, words: Json) -> None:
        uri = self._uri(words)
        self._documents.pop(uri, None)
        self._send({"method": "textDocument/publishDiagnostics", "params": {"uri": uri, "diagnostics": []}})

    def _look(self) -> None:
        """Looks at the texts that are new, and tells what is wrong with each."""
        for uri, document in list(self._documents.items()):
            if document.is_new and self._inbox.is_empty:
                self._try(partial(self._look_at, uri, document))

    def _look_at(self, uri: str, document: Document) -> None:
        if not document.is_new:
            return
        document.is_new, document.known = False, None
        document.known = _known(self._ped, document)
        document.was_taken |= isinstance(document.known, Program) and document.known.view is not None
        notices = document.known.notices if isinstance(document.known, Program) else []
        lines = document.lines
        self._send({"method": "textDocument/publishDiagnostics", "params": {
            "uri": uri, "version": document.version, "diagnostics": [
                {"range": span(lines, *one.span), "severity": one.severity, "source": "ped",
                 "message": as_text(one.words), **({"code": one.code} if one.code else {})}
                for one in notices
            ],
        }})

    def _document(self, words: Json) -> Document:
        uri = self._uri(words)
        document = self._documents.get(uri)
        if document is None:
            raise WrongWords(f"{uri} isn't open")
        return document

    def _looked_at(self, words: Json) -> Document:
        """The file that a request is about, after a look at its present text."""
        document = self._document(words)
        self._look_at(self._uri(words), document)
        return document

    @staticmethod
    def _uri(words: Json) -> str:
        item = words["textDocument"]
        if not isinstance(item, dict):
            raise WrongWords("textDocument is no object")
        return str(item["uri"])

    @staticmethod
    def _place(document: Document, position: Json) -> Place:
        line = int(str(position["line"]))
        text = document.lines[line] if line < len(document.lines) else ""
        return Place(line + 1, column_of(text, int(str(position["character"]))))


def _known(ped: Ped, document: Document) -> Union[Program, RealProgram]:
    """What there is to say of a text, in the language in which it is written."""
    if is_real_by_name(document.name):
        return read_real(ped, document.name, document.text, Reading())
    program = read_program(ped, document.name, document.text)
    is_taken = program.view is not None or not program.notices
    if is_taken or document.was_taken or has_profile_words(document.text):
        return program
    try:
        real = read_real(ped, document.name, document.text, Reading())
    except CompanionError:
        return program
    return real if real.opened.is_fortran else program


def _part(value: object, *keys: str) -> object:
    """A part of what an editor has sent; none where it isn't there."""
    for key in keys:
        value = value.get(key) if isinstance(value, dict) else None
    return value


def _name(uri: str) -> str:
    """The name of the file that an address names, as pedx takes names of files."""
    parts = urlsplit(uri)
    return os.fsencode(unquote(parts.path)).decode(ENCODING) if parts.scheme == "file" else uri


def _whole(document: Document) -> Json:
    """The range of the whole text."""
    return {"start": {"line": 0, "character": 0}, "end": {"line": len(document.lines), "character": 0}}
