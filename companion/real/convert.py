"""Statements as trees: which class of the library reads one, and what its nodes say.

The library reads expressions and declarations. Words, names and labels are read here: a statement of them alone is
matched, and one that holds another (a logical IF, WHERE, FORALL) is divided at its parentheses.
"""

from __future__ import annotations

import re
from dataclasses import dataclass, replace
from typing import Any, Callable, Dict, List, Optional, Tuple, cast

from . import declarations, tree
from .expressions import NotRead, expression_of, expressions_of, name_of, parsed, read_expression
from .items import Item
from .keywords import Letters, keyword_of, letters_of

_CLOSED = re.compile("[^'\"]*(?:'[^']*'[^'\"]*|\"[^\"]*\"[^'\"]*)*")
_IMAGE = re.compile(r"[A-Z0-9_$)] *\[")


@dataclass(frozen=True)
class _Text:
    """A statement that is to be read: its letters, its text with blanks in capitals, and its form."""

    letters: Letters
    spaced: str
    form: str

    def part(self, first: int, last: Optional[int] = None) -> _Text:
        """A part of it, which has no blanks in fixed form."""
        letters = self.letters.part(first, len(self.letters.masked) if last is None else last)
        return _Text(letters, letters.full, self.form)

    @property
    def bare(self) -> str:
        """The text without any blanks outside constants."""
        return letters_of(self.letters.full, "fixed").full

    def after(self, *words: str) -> _Text:
        """What follows the keywords at the beginning."""
        match = re.match(" *" + " *".join(words) + " *", self.letters.masked)
        if match is None:
            raise NotRead(f"there is no {' '.join(words)}")
        return self.part(match.end())

    def parenthesised(self) -> Tuple[_Text, _Text]:
        """What is in the first parentheses, and what follows them."""
        opening = self.letters.masked.find("(")
        closing = self.letters.closing(opening)
        if opening < 0 or closing >= len(self.letters.masked):
            raise NotRead("its parentheses aren't closed")
        return self.part(opening + 1, closing), self.part(closing + 1)

    def split(self, separator: str) -> List[_Text]:
        """The parts between separators outside parentheses."""
        begins = [0, *(index + 1 for index in self.letters.outside(separator))]
        ends = [*(begin - 1 for begin in begins[1:]), len(self.letters.masked)]
        return [self.part(begin, end) for begin, end in zip(begins, ends)]

    def expression(self) -> tree.Expression:
        """The tree of the text as an expression."""
        return read_expression(self.letters.full)


def statement_of(item: Item, word: str, form: str) -> tree.Statement:
    """What a statement says; `word` is its kind by `keywords.keyword_of`. `tree.Unreadable` where it can't be read."""
    if item.fault:
        return tree.Unreadable(item.text, item.fault)
    if item.include:
        return tree.Include(item.include)
    text = _Text(letters_of(item.text, form), letters_of(item.text, "free").full, form)
    if word not in ("FORMAT", "DATA") and _CLOSED.fullmatch(item.text) is None:
        return _unreadable(item, text, "a character constant isn't closed in it")
    try:
        return _read(text, word)
    except NotRead as error:
        return _unreadable(item, text, str(error))
    except (AttributeError, IndexError, TypeError, ValueError) as error:
        return _unreadable(item, text, f"its nodes in the library aren't as expected ({type(error).__name__})")
    except RecursionError:
        return _unreadable(item, text, "its expressions are nested too deeply")


def _unreadable(item: Item, text: _Text, words: str) -> tree.Unreadable:
    if _IMAGE.search(text.letters.masked):
        return tree.Unreadable(item.text, "there is an object of another image in it, `[..]`", "coarray")
    return tree.Unreadable(item.text, words)


def _read(text: _Text, word: str) -> tree.Statement:
    if word in declarations.READERS:
        return declarations.READERS[word](text.spaced)
    reader = READERS.get(word)
    if reader is None:
        raise NotRead("its first words are those of no statement")
    return reader(text)


# --- Assignments, and statements that hold another -----------------------------------------------------------------


def _assignment(text: _Text) -> tree.Statement:
    node = parsed("Assignment_Stmt", text.letters.full)
    return tree.Assignment(_target(expression_of(node.items[0])), expression_of(node.items[2]))


def _target(target: tree.Expression) -> tree.Expression:
    """What is assigned to: a designator."""
    if not isinstance(target, (tree.Name, tree.Component, tree.Reference)):
        raise NotRead("its left side is no variable")
    return target


def _pointer_assignment(text: _Text) -> tree.Statement:
    node = parsed("Pointer_Assignment_Stmt", text.letters.full)
    target = expression_of(node.items[0])
    if node.items[1] is not None:
        target = tree.Reference(target, expressions_of(node.items[1]))
    return tree.PointerAssignment(target, expression_of(node.items[2]))


def _inner(text: _Text) -> tree.Statement:
    """The statement that another one holds."""
    return _read(text, keyword_of(text.letters, text.form))


def _logical_if(text: _Text) -> tree.Statement:
    condition, action = text.parenthesised()
    return tree.LogicalIf(condition.expression(), _inner(action))


def _if_then(text: _Text) -> tree.Statement:
    return tree.IfThen(text.parenthesised()[0].expression())


def _else_if(text: _Text) -> tree.Statement:
    condition, rest = text.parenthesised()
    if not re.match(r"THEN *\w*$", rest.letters.full):
        raise NotRead("there is no THEN")
    return tree.ElseIf(condition.expression())


def _arithmetic_if(text: _Text) -> tree.Statement:
    value, labels = text.parenthesised()
    return tree.ArithmeticIf(value.expression(), _labels(labels))


def _where(text: _Text) -> tree.Statement:
    mask, rest = text.parenthesised()
    return tree.Where(mask.expression(), _assignment(rest) if rest.letters.full else None)


def _elsewhere(text: _Text) -> tree.Statement:
    rest = text.after("ELSE", "WHERE")
    return tree.ElseWhere(rest.parenthesised()[0].expression() if rest.letters.full.startswith("(") else None)


def _forall(text: _Text) -> tree.Statement:
    header, rest = text.parenthesised()
    ranges, mask = _header(header)
    return tree.Forall(ranges, mask, _inner(rest) if rest.letters.full else None)


def _header(text: _Text) -> Tuple[Tuple[tree.Range, ...], Optional[tree.Expression]]:
    """The ranges and the mask of FORALL and DO CONCURRENT; a type before them is left out."""
    full = text.letters.full
    full = full[full.index("::") + 2:] if re.match(r" *INTEGER[^=]*::", full) else full
    node = parsed("Forall_Header", f"({full})")
    mask = node.items[1]
    return tuple(_range(item) for item in node.items[0].items), None if mask is None else expression_of(mask)


def _range(node: Any) -> tree.Range:
    variable, first, last, step = node.items
    return tree.Range(
        name_of(variable), expression_of(first), expression_of(last), None if step is None else expression_of(step),
    )


# --- Blocks --------------------------------------------------------------------------------------------------------


def _do(text: _Text) -> tree.Statement:
    rest = text.after("DO")
    label = re.match(r"([0-9]+) *,? *", rest.letters.masked)
    number = int(label.group(1)) if label else None
    rest = rest.part(label.end()) if label else rest
    if rest.letters.masked.startswith(","):
        rest = rest.part(1)
    masked = rest.letters.masked
    if not masked:
        return tree.Do(number, None)
    if re.match(r"WHILE *\(", masked) and not rest.letters.outside("="):
        condition, after = rest.parenthesised()
        return tree.Do(number, tree.While(_nothing_after(condition, after)))
    if re.match(r"CONCURRENT *\(", masked):
        header, after = rest.parenthesised()
        if after.letters.full:
            raise NotRead("there is something after its header that isn't known here")
        ranges, mask = _header(header)
        return tree.Do(number, tree.Concurrent(ranges, mask, "::" in header.letters.masked))
    equals = rest.letters.outside("=")
    bounds = [part.expression() for part in rest.part(equals[0] + 1).split(",")] if equals else []
    if len(bounds) not in (2, 3):
        raise NotRead("it has no two or three bounds")
    step = bounds[2] if len(bounds) == 3 else None
    return tree.Do(number, tree.Counted(rest.part(0, equals[0]).expression(), bounds[0], bounds[1], step))


def _nothing_after(inside: _Text, after: _Text) -> tree.Expression:
    if after.letters.full:
        raise NotRead("there is something after its parentheses")
    return inside.expression()


def _select_case(text: _Text) -> tree.Statement:
    return tree.SelectCase(_nothing_after(*text.parenthesised()))


def _case(text: _Text) -> tree.Statement:
    if re.match(r"CASEDEFAULT", text.bare):
        return tree.Case(None)
    node = parsed("Case_Stmt", "CASE " + text.after("CASE").letters.full)
    return tree.Case(expressions_of(node.items[0].items[0]))


def _select_type(text: _Text) -> tree.Statement:
    inside, _ = text.parenthesised()
    alias, arrow, selector = inside.letters.full.partition("=>")
    return tree.SelectType(
        alias=alias.strip() if arrow else "",
        selector=read_expression(selector if arrow else alias),
        rank=text.bare.startswith("SELECTRANK"),
    )


def _associate(text: _Text) -> tree.Statement:
    node = parsed("Associate_Stmt", "ASSOCIATE " + text.after("ASSOCIATE").letters.full)
    pairs = node.items[1].items
    return tree.Construct("ASSOCIATE", tuple((name_of(pair.items[0]), expression_of(pair.items[2])) for pair in pairs))


def _end(text: _Text) -> tree.Statement:
    match = _END.fullmatch(text.bare)
    if match is None or (match.group(2) and not match.group(1)):
        raise NotRead("it isn't written as an END")
    word = match.group(1) or ""
    return tree.End("BLOCK DATA" if word == "BLOCKDATA" else word, match.group(2) or "")


_END = re.compile(
    r"END(DO|IF|SELECT|WHERE|FORALL|ASSOCIATE|BLOCKDATA|BLOCK|CRITICAL|PROGRAM|SUBROUTINE|FUNCTION|MODULE|SUBMODULE"
    r"|PROCEDURE|TYPE|INTERFACE|ENUM)?(.*)"
)


# --- Jumps and calls -----------------------------------------------------------------------------------------------


def _labels(text: _Text) -> Tuple[int, ...]:
    """Labels with commas between them."""
    if not re.fullmatch(r"[0-9]+(,[0-9]+)*", text.bare):
        raise NotRead("there is something else where labels are wanted")
    return tuple(int(label) for label in text.bare.split(","))


def _go_to(text: _Text) -> tree.Statement:
    return tree.GoTo(int(text.bare[len("GOTO"):]))


def _computed_go_to(text: _Text) -> tree.Statement:
    labels, rest = text.parenthesised()
    selector = rest.part(1) if rest.letters.full.startswith(",") else rest
    return tree.ComputedGoTo(_labels(labels), selector.expression())


def _assigned_go_to(text: _Text) -> tree.Statement:
    match = re.fullmatch(r"GOTO([A-Z]\w*)(?:,?\(([0-9,]+)\))?", text.bare)
    if match is None:
        raise NotRead("it isn't written as an assigned GO TO")
    labels = match.group(2)
    return tree.AssignedGoTo(match.group(1), tuple(map(int, labels.split(","))) if labels else ())


def _assign(text: _Text) -> tree.Statement:
    match = re.fullmatch(r"ASSIGN([0-9]+)TO([A-Z]\w*)", text.bare)
    if match is None:
        raise NotRead("it isn't written as an ASSIGN")
    return tree.AssignLabel(int(match.group(1)), match.group(2))


def _cycle(text: _Text) -> tree.Statement:
    word, name = re.match(r"(CYCLE|EXIT)(.*)", text.bare).groups()  # type: ignore[union-attr]
    return tree.Cycle(name) if word == "CYCLE" else tree.Exit(name)


def _return(text: _Text) -> tree.Statement:
    rest = text.after("RETURN")
    return tree.Return(rest.expression() if rest.letters.full else None)


def _stop(text: _Text) -> tree.Statement:
    word = "ERROR STOP" if text.bare.startswith("ERROR") else "PAUSE" if text.bare.startswith("PAUSE") else "STOP"
    rest = text.after(*word.split())
    code = rest.split(",")[0]
    return tree.Stop(word, code.expression() if code.letters.full else None)


def _call(text: _Text) -> tree.Statement:
    node = parsed("Call_Stmt", "CALL " + text.after("CALL").letters.full, r"\(\)")
    return tree.Call(expression_of(node.items[0]), expressions_of(node.items[1]))


# --- Storage and input and output ----------------------------------------------------------------------------------


def _allocate(text: _Text) -> tree.Statement:
    node = parsed("Allocate_Stmt", text.letters.full)
    objects = tuple(_allocated(item) for item in node.items[1].items)
    return tree.Allocation("ALLOCATE", objects, _options(node.items[2]))


def _allocated(node: Any) -> tree.Expression:
    """An object of ALLOCATE with its bounds."""
    if type(node).__name__ != "Allocation":
        return expression_of(node)
    bounds = tuple(_bound(item) for item in node.items[1].items)
    base = expression_of(node.items[0])
    return tree.Reference(base, bounds)


def _bound(node: Any) -> tree.Expression:
    lower, upper = node.items
    return expression_of(upper) if lower is None else tree.Section(expression_of(lower), expression_of(upper))


def _options(node: Any) -> Tuple[tree.Keyword, ...]:
    return cast(Tuple[tree.Keyword, ...], expressions_of(node))


def _deallocate(text: _Text) -> tree.Statement:
    node = parsed("Deallocate_Stmt", text.letters.full)
    return tree.Allocation("DEALLOCATE", expressions_of(node.items[0]), _options(node.items[1]))


def _nullify(text: _Text) -> tree.Statement:
    node = parsed("Nullify_Stmt", text.letters.full)
    return tree.Allocation("NULLIFY", expressions_of(node.items[1]))


def _read_statement(text: _Text) -> tree.Statement:
    rest = text.after("READ")
    if not rest.letters.full.startswith("("):
        # The library has a format's name in PRINT alone; the two are written alike.
        return replace(_print(text, "READ"), word="READ")
    node = parsed("Read_Stmt", f"READ {rest.letters.full}", "UNIT=")
    return tree.InputOutput("READ", expressions_of(node.items[0]), expressions_of(node.items[2]))


def _write(text: _Text) -> tree.Statement:
    node = parsed("Write_Stmt", text.letters.full, "UNIT=")
    return tree.InputOutput("WRITE", expressions_of(node.items[0]), expressions_of(node.items[1]))


def _print(text: _Text, word: str = "PRINT") -> tree.InputOutput:
    node = parsed("Print_Stmt", "PRINT " + text.after(word).letters.full)
    return tree.InputOutput("PRINT", expressions_of(node.items[0]), expressions_of(node.items[1]))


def _file_statement(word: str, name: str) -> Callable[[_Text], tree.Statement]:
    """A reader of a statement on a file, whose nodes are lists of controls and items."""
    def read(text: _Text) -> tree.Statement:
        rest = text.after(*word.split())
        node = parsed(name, f"{word.replace(' ', '')} {rest.letters.full}", "UNIT=")
        parts = [part for part in node.items if part is not None and not isinstance(part, str)]
        controls = expressions_of(parts[0])
        if "IOLENGTH=" in rest.bare.split(")")[0] and len(controls) == 1:
            controls = (tree.Keyword("IOLENGTH", controls[0]),)
        return tree.InputOutput(word, controls, tuple(item for part in parts[1:] for item in expressions_of(part)))
    return read


def _simple(statement: tree.Statement) -> Callable[[_Text], tree.Statement]:
    return lambda text: statement


#: The readers by the words of `keywords.keyword_of`; those of declarations are `declarations.READERS`.
READERS: Dict[str, Callable[[_Text], tree.Statement]] = {
    "=": _assignment,
    "=>": _pointer_assignment,
    "IF": _logical_if,
    "IF THEN": _if_then,
    "ELSE IF": _else_if,
    "ELSE": _simple(tree.Else()),
    "ARITHMETIC IF": _arithmetic_if,
    "WHERE": _where,
    "ELSEWHERE": _elsewhere,
    "FORALL": _forall,
    "DO": _do,
    "SELECT CASE": _select_case,
    "CASE": _case,
    "SELECT TYPE": _select_type,
    "TYPE GUARD": lambda text: tree.TypeGuard(text.bare),
    "ASSOCIATE": _associate,
    "BLOCK": lambda text: tree.Construct("BLOCK" if text.bare.startswith("BLOCK") else "CRITICAL"),
    "END": _end,
    "CONTINUE": _simple(tree.Continue()),
    "CONTAINS": _simple(tree.Word("CONTAINS")),
    "SEQUENCE": _simple(tree.Word("SEQUENCE")),
    "ENUM": _simple(tree.Word("ENUM")),
    "FORMAT": _simple(tree.Format()),
    "GO TO": _go_to,
    "COMPUTED GO TO": _computed_go_to,
    "ASSIGNED GO TO": _assigned_go_to,
    "ASSIGN": _assign,
    "CYCLE": _cycle,
    "RETURN": _return,
    "STOP": _stop,
    "CALL": _call,
    "ALLOCATE": _allocate,
    "DEALLOCATE": _deallocate,
    "NULLIFY": _nullify,
    "READ": _read_statement,
    "WRITE": _write,
    "PRINT": _print,
    "OPEN": _file_statement("OPEN", "Open_Stmt"),
    "CLOSE": _file_statement("CLOSE", "Close_Stmt"),
    "INQUIRE": _file_statement("INQUIRE", "Inquire_Stmt"),
    "WAIT": _file_statement("WAIT", "Wait_Stmt"),
    "REWIND": _file_statement("REWIND", "Rewind_Stmt"),
    "BACKSPACE": _file_statement("BACKSPACE", "Backspace_Stmt"),
    "FLUSH": _file_statement("FLUSH", "Flush_Stmt"),
    "END FILE": _file_statement("END FILE", "Endfile_Stmt"),
}
