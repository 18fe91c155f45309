"""The library's nodes of expressions, as trees of `tree`.

A node of a class that isn't known here is never guessed at: `NotRead` is raised, and its statement is unreadable.
"""

from __future__ import annotations

import re
from typing import Any, Callable, Dict, Optional, Tuple

from . import tree
from .keywords import letters_of
from .library import statement_classes
from .source import BACKSLASH

#: How relations are written otherwise.
_RELATIONS = {"==": ".EQ.", "/=": ".NE.", "<": ".LT.", "<=": ".LE.", ">": ".GT.", ">=": ".GE."}

#: A constant whose digits the library prints in capitals.
_BOZ = re.compile(r"(?<![A-Z0-9_$'\"])[BOZ]('[0-9A-Fa-f]*'|\"[0-9A-Fa-f]*\")")

#: What is printed otherwise where there is a type.
TYPE_WORDS = "::|KIND=|LEN="


class NotRead(Exception):
    """The library doesn't read a text, or reads something else from it than what is written."""


def parsed(name: str, text: str, drop: str = "") -> Any:
    """The node of a text, read as the class with this name. Raises `NotRead`.

    What the library prints for the node has to be the text again, without blanks and without what matches `drop`. So
    nothing that is written can be lost.
    """
    plain = text.replace("\\", BACKSLASH)
    wanted = statement_classes().named(name)
    try:
        node = wanted(plain)
        printed = str(node)
    except Exception as error:  # The library's classes raise what they like.
        raise NotRead(f"the library can't read it ({type(error).__name__})") from error
    if node is None or (name.endswith("_Stmt") and not isinstance(node, wanted)):
        raise NotRead("the library can't read it")
    if "::" in plain:
        drop = f"{drop}|{TYPE_WORDS}" if drop else TYPE_WORDS
    if _bare(printed, drop) != _bare(plain, drop):
        raise NotRead("the library reads something else from it than what is written")
    return node


def _bare(text: str, drop: str) -> str:
    bare = _BOZ.sub(lambda match: match.group().upper(), letters_of(text, "fixed").full)
    return re.sub(drop, "", bare) if drop else bare


def read_expression(text: str) -> tree.Expression:
    """The tree of an expression. Raises `NotRead`."""
    return expression_of(parsed("Expr", text))


def expression_of(node: Any) -> tree.Expression:
    """The tree of a node. Raises `NotRead`."""
    kind = type(node).__name__
    if kind in _READERS:
        return _READERS[kind](node)
    if kind.endswith("_Name") and isinstance(node.string, str):
        return tree.Name(_text(node))
    if isinstance(node, statement_classes().standard.BinaryOpBase):
        return tree.Operation(_operator(node.items[1]), (expression_of(node.items[0]), expression_of(node.items[2])))
    if isinstance(node, statement_classes().standard.UnaryOpBase):
        return tree.Operation(_operator(node.items[0]), (expression_of(node.items[1]),))
    raise NotRead(f"the library reads a {kind} in it, which isn't known here")


def expressions_of(nodes: Any) -> Tuple[tree.Expression, ...]:
    """The trees of a list of nodes, or of none."""
    if nodes is None:
        return ()
    if type(nodes).__name__.endswith("_List"):
        return tuple(expression_of(node) for node in nodes.items)
    return (expression_of(nodes),)


def optional(node: Any) -> Optional[tree.Expression]:
    """The tree of a node that may be missing."""
    return None if node is None else expression_of(node)


def name_of(node: Any) -> str:
    """The name that a node is."""
    expression = expression_of(node)
    if not isinstance(expression, tree.Name):
        raise NotRead("there is something else where a name is wanted")
    return expression.name


def type_of(node: Any) -> tree.TypeSpec:
    """The type that a node is, of a declaration, a function or a constructor."""
    kind = type(node).__name__
    if kind == "Declaration_Type_Spec":
        word, derived = node.items
        return tree.TypeSpec(str(word), derived=_derived_name(derived))
    if kind != "Intrinsic_Type_Spec":
        return tree.TypeSpec("TYPE", derived=_derived_name(node))
    name, selector = " ".join(str(node.items[0]).upper().split()), node.items[1]
    selected = "" if selector is None else type(selector).__name__
    if selected == "Kind_Selector" and selector.items[0] == "*":
        size = expression_of(selector.items[1])
        if not isinstance(size, tree.Literal) or size.value is None:
            raise NotRead("there is no number of bytes after the `*` of a type")
        return tree.TypeSpec(name, bytes=size.value)
    if selected == "Kind_Selector":
        return tree.TypeSpec(name, kind=expression_of(selector.items[1]))
    if selected == "Length_Selector":
        return tree.TypeSpec(name, length=length_of(selector.items[1]))
    if selected == "Char_Selector":
        length, kind_ = selector.items
        return tree.TypeSpec(name, kind=optional(kind_), length=None if length is None else length_of(length))
    if selector is not None:
        raise NotRead(f"the library reads a {selected} in it, which isn't known here")
    return tree.TypeSpec(name)


def length_of(node: Any) -> tree.Expression:
    """The length of a CHARACTER: an expression, `*` or `:`."""
    kind = type(node).__name__
    if kind == "Char_Length":
        return length_of(node.items[1])
    text = getattr(node, "string", node)
    if text == "*":
        return tree.Star()
    return tree.Section(None, None) if text == ":" else expression_of(node)


def _derived_name(node: Any) -> str:
    """The name of a derived type, with the parameters that are written after it; `*` for CLASS(*)."""
    return "*" if node == "*" else str(expression_of(node))


def _text(node: Any) -> str:
    return str(node.string if hasattr(node, "string") else node).upper().strip()


def _operator(text: str) -> str:
    operator = text.replace(" ", "").upper()
    return _RELATIONS.get(operator, operator)


def _literal(type_: str) -> Callable[[Any], tree.Expression]:
    """A reader of literals, signed ones among them."""
    def read(node: Any) -> tree.Expression:
        text, kind = node.items[0], node.items[1] if len(node.items) > 1 else None
        kind = None if kind is None else str(kind).upper()
        if type_ == "CHARACTER":
            return tree.Literal(type_, text.replace(BACKSLASH, "\\"), kind)
        text = text.upper().replace(" ", "")
        if text[:1] in "+-":
            return tree.Operation(text[0], (tree.Literal(type_, text[1:], kind),))
        return tree.Literal(type_, text, kind)
    return read


def _boz(node: Any) -> tree.Expression:
    return tree.Literal("BOZ", str(node.string).upper())


def _name(node: Any) -> tree.Expression:
    return tree.Name(_text(node))


def _reference(node: Any) -> tree.Expression:
    """`NAME(..)`, in each of the ways in which the library reads it."""
    return tree.Reference(expression_of(node.items[0]), expressions_of(node.items[1]))


def _derived_type_spec(node: Any) -> tree.Expression:
    return tree.Reference(expression_of(node.items[0]), expressions_of(node.items[1]))


def _data_reference(node: Any) -> tree.Expression:
    """`A(I)%X(J)%Y`: each part is put on what comes before it."""
    found = expression_of(node.items[0])
    for part in node.items[1:]:
        found = _joined(found, expression_of(part))
    return found


def _joined(base: tree.Expression, part: tree.Expression) -> tree.Expression:
    if isinstance(part, tree.Name):
        return tree.Component(base, part.name)
    if isinstance(part, tree.Reference):
        return tree.Reference(_joined(base, part.base), part.arguments)
    raise NotRead("there is something else than a component after a `%`")


def _component(node: Any) -> tree.Expression:
    """`base % name` as three items."""
    base, percent, part = node.items
    if percent != "%":
        raise NotRead("there is something else than `%` before a component")
    return _joined(expression_of(base), expression_of(part))


def _section(node: Any) -> tree.Expression:
    first, last, *step = node.items
    return tree.Section(optional(first), optional(last), optional(step[0]) if step else None)


def _keyword(node: Any) -> tree.Expression:
    keyword, value = node.items
    if keyword is None:
        return expression_of(value)
    return tree.Keyword(str(keyword).upper(), expression_of(value))


def _array_constructor(node: Any) -> tree.Expression:
    inner = node.items[1]
    if type(inner).__name__ == "Ac_Spec":
        type_, items = inner.items
        return tree.ArrayConstructor(None if type_ is None else type_of(type_), expressions_of(items))
    return tree.ArrayConstructor(None, expressions_of(inner))


def _implied_do(node: Any) -> tree.Expression:
    items, control = node.items
    variable, *bounds = control.items
    if len(bounds) == 1:
        bounds = bounds[0]
    step = optional(bounds[2]) if len(bounds) > 2 else None
    return tree.ImpliedDo(
        expressions_of(items), name_of(variable), expression_of(bounds[0]), expression_of(bounds[1]), step,
    )


def _star_or_text(node: Any) -> tree.Expression:
    """A node that is `*`, or an expression."""
    inner = getattr(node, "string", node)
    if inner == "*" or getattr(node, "items", None) == ("*",):
        return tree.Star()
    raise NotRead("there is something else where `*` is wanted")


def _label(node: Any) -> tree.Expression:
    return tree.Literal("INTEGER", str(node.string))


def _alternate_return(node: Any) -> tree.Expression:
    return tree.AlternateReturn(int(str(node.items[0])))


_CALLS = ("Part_Ref", "Structure_Constructor", "Function_Reference", "Array_Section", "Substring")
_COMPONENTS = ("Procedure_Designator", "Data_Pointer_Object", "Proc_Component_Ref", "Type_Param_Inquiry")
_SECTIONS = ("Subscript_Triplet", "Substring_Range", "Case_Value_Range", "Bounds_Spec", "Bounds_Remapping",
             "Allocate_Shape_Spec")
_KEYWORDS = ("Actual_Arg_Spec", "Component_Spec", "Alloc_Opt", "Dealloc_Opt", "Io_Control_Spec", "Connect_Spec",
             "Close_Spec", "Wait_Spec", "Position_Spec", "Flush_Spec", "Inquire_Spec")

_READERS: Dict[str, Callable[[Any], tree.Expression]] = {
    "Name": _name,
    "Int_Literal_Constant": _literal("INTEGER"),
    "Signed_Int_Literal_Constant": _literal("INTEGER"),
    "Real_Literal_Constant": _literal("REAL"),
    "Signed_Real_Literal_Constant": _literal("REAL"),
    "Logical_Literal_Constant": _literal("LOGICAL"),
    "Char_Literal_Constant": _literal("CHARACTER"),
    "Hex_Constant": _boz,
    "Octal_Constant": _boz,
    "Binary_Constant": _boz,
    "Complex_Literal_Constant": lambda node: tree.ComplexLiteral(*map(expression_of, node.items)),
    "Parenthesis": lambda node: tree.Parentheses(expression_of(node.items[1])),
    "Derived_Type_Spec": _derived_type_spec,
    "Data_Ref": _data_reference,
    "Array_Constructor": _array_constructor,
    "Ac_Implied_Do": _implied_do,
    "Io_Implied_Do": _implied_do,
    "Alt_Return_Spec": _alternate_return,
    "Label": _label,
    "Format": _star_or_text,
    "Io_Unit": _star_or_text,
    **{name: _reference for name in _CALLS},
    **{name: _component for name in _COMPONENTS},
    **{name: _section for name in _SECTIONS},
    **{name: _keyword for name in _KEYWORDS},
}
