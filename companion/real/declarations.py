"""Declarations, heads of units and specifications: what the library reads in them, as statements of `tree`.

Each reader gets the statement's text with its blanks, in capitals outside constants, and raises `NotRead`.
"""

from __future__ import annotations

import re
from typing import Any, Callable, Dict, FrozenSet, List, Optional, Set, Tuple

from . import tree
from .expressions import (
    TYPE_WORDS, NotRead, expression_of, expressions_of, length_of, name_of, optional, parsed, type_of,
)
from .keywords import letters_of, words_of

_KIND_BEFORE_LENGTH = re.compile(r"(CHARACTER *\( *)(KIND *=[^,()]*)(,)( *LEN *=[^,()]*)")
_OLD_INITIAL = re.compile(r"/[^/]*/")
_NAME = r"[A-Z_][A-Z0-9_$]*"
_BINDING = r"BIND\(C(,NAME=[^()]*)?\)"


def _list(node: Any) -> Tuple[Any, ...]:
    """The nodes of a list, or of one that may be missing."""
    if node is None:
        return ()
    return tuple(node.items) if type(node).__name__.endswith("_List") else (node,)


# --- Bounds and entities -------------------------------------------------------------------------------------------


def bounds_of(node: Any) -> Tuple[tree.Bound, ...]:
    """The bounds of the dimensions of a name."""
    if node is None:
        return ()
    kind = type(node).__name__
    if kind == "Assumed_Size_Spec":
        explicit, lower = node.items
        return (*bounds_of(explicit), tree.Bound(optional(lower), tree.Star()))
    if kind.endswith("_List"):
        return tuple(bound for item in node.items for bound in bounds_of(item))
    if kind in ("Explicit_Shape_Spec", "Assumed_Shape_Spec", "Deferred_Shape_Spec"):
        return (tree.Bound(*map(optional, node.items)),)
    raise NotRead(f"the library reads a {kind} in it, which isn't known here")


def _entity(node: Any, common: Tuple[tree.Bound, ...], coarray: bool = False) -> tree.Entity:
    """A name of a type declaration, with the bounds of DIMENSION where it has none of its own."""
    if type(node).__name__ in ("Name", "Type_Name"):
        return tree.Entity(name_of(node), common, coarray=coarray)
    name, shape, length, initial = node.items
    is_coarray = coarray or "Coshape" in type(shape).__name__
    return tree.Entity(
        name=name_of(name),
        bounds=common if shape is None or is_coarray else bounds_of(shape),
        length=None if length is None else length_of(length),
        initial=None if initial is None else expression_of(initial.items[1]),
        coarray=is_coarray,
    )


def _shaped(node: Any) -> tree.Entity:
    """A name with bounds or without, of COMMON, DIMENSION, POINTER and others."""
    if isinstance(node, tuple):
        return tree.Entity(name_of(node[0]), bounds_of(node[1]))
    if type(node).__name__ in ("Saved_Entity", "Bind_Entity"):
        return tree.Entity(f"/{name_of(node.items[1])}/")
    if type(node).__name__ == "Generic_Spec":
        return tree.Entity(_generic(node))
    if type(node).__name__ == "Target_Entity_Decl":
        return _entity(node, ())
    items = getattr(node, "items", None)
    return tree.Entity(name_of(node)) if not items else tree.Entity(name_of(items[0]), bounds_of(items[1]))


def _generic(node: Any) -> str:
    return letters_of(str(node), "fixed").full


# --- Declarations of names -----------------------------------------------------------------------------------------


def type_declaration(text: str) -> tree.Statement:
    """A type with names; also for the components of a derived type."""
    text = _KIND_BEFORE_LENGTH.sub(r"\1\4\3\2", text)
    initials = _old_initials(text)
    node = _type_node(text if not initials else _without(text, initials))
    attributes, common, coarray = _attributes(node.items[1])
    entities = tuple(_entity(item, common, coarray) for item in _list(node.items[2]))
    if initials:
        # Old initial values follow names. Their values do not matter, but they make names saved.
        entities = tuple(tree.Entity(e.name, e.bounds, e.length, tree.Star(), e.coarray) for e in entities)
    return tree.TypeDeclaration(type_of(node.items[0]), attributes, entities)


def _type_node(text: str) -> Any:
    """The node of a type declaration; some attributes are known for components alone."""
    try:
        return parsed("Type_Declaration_Stmt", text, TYPE_WORDS)
    except NotRead:
        return parsed("Data_Component_Def_Stmt", text, TYPE_WORDS)


def _old_initials(text: str) -> List[Tuple[int, int]]:
    """Where values between slashes are, as in `REAL A /1.0/`."""
    letters = letters_of(text, "free")
    if "=" in letters.masked or "::" in letters.masked:
        return []
    slashes = letters.outside("/")
    return list(zip(slashes[::2], slashes[1::2])) if len(slashes) % 2 == 0 else []


def _without(text: str, spans: List[Tuple[int, int]]) -> str:
    for first, last in reversed(spans):
        text = text[:first] + text[last + 1:]
    return text


def _attributes(node: Any) -> Tuple[FrozenSet[str], Tuple[tree.Bound, ...], bool]:
    """The attributes before `::`, the bounds of DIMENSION, and whether there is CODIMENSION."""
    words: Set[str] = set()
    bounds: Tuple[tree.Bound, ...] = ()
    coarray = False
    for item in _list(node):
        kind = type(item).__name__
        if kind in ("Dimension_Attr_Spec", "Dimension_Component_Attr_Spec"):
            bounds = bounds_of(item.items[1])
        elif kind == "Codimension_Attr_Spec":
            coarray = True
        else:
            words.add(letters_of(str(item), "fixed").full)
    return frozenset(words), bounds, coarray


def attribute(text: str) -> tree.Statement:
    """A statement that gives one attribute to names."""
    word = letters_of(text, "fixed").masked
    name = next((name for name in _ATTRIBUTES if word.startswith(name)), "")
    if not name:
        raise NotRead("its attribute isn't known here")
    if word == name:
        return tree.AttributeDeclaration(name, ())
    node = parsed(_ATTRIBUTES[name], text, "::")
    entities = node.items if name == "DIMENSION" else _list(node.items[-1])
    if name == "DIMENSION":
        entities = [pair for part in entities for pair in part] if isinstance(entities[0], list) else entities
    said = "INTENT(" + _generic(node.items[0]) + ")" if name == "INTENT" else name
    return tree.AttributeDeclaration(said, tuple(_shaped(entity) for entity in entities))


_ATTRIBUTES = {
    "DIMENSION": "Dimension_Stmt", "ALLOCATABLE": "Allocatable_Stmt", "POINTER": "Pointer_Stmt",
    "TARGET": "Target_Stmt", "SAVE": "Save_Stmt", "INTENT": "Intent_Stmt", "EXTERNAL": "External_Stmt",
    "INTRINSIC": "Intrinsic_Stmt", "OPTIONAL": "Optional_Stmt", "VALUE": "Value_Stmt", "VOLATILE": "Volatile_Stmt",
    "ASYNCHRONOUS": "Asynchronous_Stmt", "PROTECTED": "Protected_Stmt", "PUBLIC": "Access_Stmt",
    "PRIVATE": "Access_Stmt", "BIND": "Bind_Stmt",
}


def parameter(text: str) -> tree.Statement:
    """PARAMETER."""
    node = parsed("Parameter_Stmt", text)
    pairs = [item.items for item in _list(node.items[1])]
    return tree.Parameter(tuple((name_of(name), expression_of(value)) for name, value in pairs))


def common(text: str) -> tree.Statement:
    """COMMON."""
    node = parsed("Common_Stmt", text, r"//|,")
    blocks = node.items[0] if len(node.items) == 1 and isinstance(node.items[0], list) else node.items
    return tree.Common(tuple(
        ("" if name is None else name_of(name), tuple(_shaped(entity) for entity in _list(entities)))
        for name, entities in blocks
    ))


def equivalence(text: str) -> tree.Statement:
    """EQUIVALENCE."""
    node = parsed("Equivalence_Stmt", text)
    return tree.Equivalence(tuple(
        (expression_of(group.items[0]), *expressions_of(group.items[1])) for group in _list(node.items[1])
    ))


def implicit(text: str) -> tree.Statement:
    """IMPLICIT."""
    letters = letters_of(text, "fixed").full
    if re.fullmatch(r"IMPLICITNONE(\((TYPE|EXTERNAL|TYPE,EXTERNAL|EXTERNAL,TYPE)?\))?", letters):
        # With EXTERNAL alone the types are the usual ones.
        return tree.Implicit(() if letters.endswith("(EXTERNAL)") else None)
    node = parsed("Implicit_Stmt", text, TYPE_WORDS)
    return tree.Implicit(tuple(
        (type_of(rule.items[0]), frozenset(letter for item in _list(rule.items[1]) for letter in _letters(item)))
        for rule in _list(node.items[0])
    ))


def _letters(node: Any) -> List[str]:
    first, last = str(node.items[0]).upper(), str(node.items[1] or node.items[0]).upper()
    return [chr(code) for code in range(ord(first), ord(last) + 1)]


def use(text: str) -> tree.Statement:
    """USE."""
    node = parsed("Use_Stmt", text, "::")
    nature, _, module, separator, names = node.items
    return tree.Use(
        module=name_of(module),
        only="ONLY" in str(separator).upper(),
        names=tuple(_renamed(item) for item in _list(names)),
        intrinsic=nature is not None and str(nature).upper() == "INTRINSIC",
    )


def _renamed(node: Any) -> Tuple[str, str]:
    if type(node).__name__ == "Rename":
        return str(node.items[1]).upper(), str(node.items[2]).upper()
    return _generic(node), _generic(node)


def import_(text: str) -> tree.Statement:
    """IMPORT."""
    return tree.Import(tuple(name_of(item) for item in _list(parsed("Import_Stmt", text, "::").items[1])))


def cray_pointer(text: str) -> tree.Statement:
    """POINTER with pairs in parentheses."""
    node = parsed("Cray_Pointer_Stmt", text)
    return tree.CrayPointers(tuple(
        (name_of(pair.items[0]), _shaped(pair.items[1])) for pair in _list(node.items[1])
    ))


def data(text: str) -> tree.Statement:
    """DATA: its names are found without the library, as all of them count."""
    letters = letters_of(text, "free")
    slashes = letters.outside("/")
    if len(slashes) < 2 or not re.match(f" *DATA *({_NAME}|\\()", letters.masked):
        raise NotRead("there are no names with values between slashes")
    if len(slashes) % 2 or re.search(r"[0-9]H", letters.masked):
        return tree.Data(tuple(sorted(words_of(text))))
    outside = _without(letters.masked, list(zip(slashes[::2], slashes[1::2])))
    outside = re.sub("^ *DATA", " ", outside)
    # In fixed form a name may have blanks in it.
    names = dict.fromkeys(re.findall(_NAME, outside) + re.findall(_NAME, outside.replace(" ", "")))
    return tree.Data(tuple(name for name in names if name not in _variables_of_implied_dos(outside.replace(" ", ""))))


def _variables_of_implied_dos(text: str) -> Set[str]:
    """The names in the lists of a DATA, without blanks, that are variables of implied DOs there and nothing else."""
    outside, depth = "", 0
    for letter in text:
        depth += (letter == "(") - (letter == ")")
        outside += letter if depth == 0 else "," if letter == "(" else ""
    return set(re.findall(rf"({_NAME})=", text)) - set(re.findall(_NAME, outside))


def namelist(text: str) -> tree.Statement:
    """NAMELIST."""
    node = parsed("Namelist_Stmt", text, ",")
    return tree.Namelist(tuple(
        (name_of(group), tuple(name_of(item) for item in _list(names))) for group, names in node.items
    ))


def enumerator(text: str) -> tree.Statement:
    """ENUMERATOR."""
    node = parsed("Enumerator_Def_Stmt", text, "::")
    return tree.Enumerator(tuple(
        (name_of(item.items[0]), expression_of(item.items[2])) if type(item).__name__ == "Enumerator"
        else (name_of(item), None)
        for item in _list(node.items[1])
    ))


def procedure(text: str) -> tree.Statement:
    """PROCEDURE, GENERIC or FINAL: the names that are declared or bound, each of a procedure."""
    letters = letters_of(text, "fixed").full
    if re.fullmatch(r"PROCEDURE[A-Z]\w*(,[A-Z]\w*)*", letters) and "::" not in letters:
        return tree.ModuleProcedure(tuple(letters[len("PROCEDURE"):].split(",")))
    before, colons, names = letters.partition("::")
    if not colons:
        before, names = re.match(r"(PROCEDURE(?:\(.*?\))?|FINAL|GENERIC)(.*)", letters).groups()  # type: ignore
    words = re.sub(r"\([^()]*\)", "", before).split(",")[1:]
    bound = [re.split("=>", name)[0] for name in re.split(r",(?![^()]*\))", names)]
    if not all(re.fullmatch(r"[A-Z]\w*|(OPERATOR|ASSIGNMENT|READ|WRITE)\(.*\)", name) for name in bound):
        raise NotRead("it isn't a list of procedures")
    return tree.ProcedureDeclaration(frozenset(words), tuple(bound))


# --- Heads ---------------------------------------------------------------------------------------------------------


def function(text: str) -> tree.Statement:
    """FUNCTION."""
    node = parsed("Function_Stmt", text, f"{TYPE_WORDS}|{_BINDING}")
    prefixes, type_ = _prefixes(node.items[0])
    suffix = node.items[3]
    result = getattr(suffix, "items", (None,))[0] if type(suffix).__name__ == "Suffix" else None
    return tree.Head(
        "FUNCTION", name_of(node.items[1]), _dummies(node.items[2]), prefixes, type_,
        result="" if result is None else name_of(result),
    )


def subroutine(text: str) -> tree.Statement:
    """SUBROUTINE."""
    node = parsed("Subroutine_Stmt", text, rf"\(\)|{_BINDING}")
    return tree.Head("SUBROUTINE", name_of(node.items[1]), _dummies(node.items[2]), _prefixes(node.items[0])[0])


def _prefixes(node: Any) -> Tuple[FrozenSet[str], Optional[tree.TypeSpec]]:
    words, type_ = set(), None
    for item in () if node is None else node.items:
        if type(item).__name__ in ("Intrinsic_Type_Spec", "Declaration_Type_Spec"):
            type_ = type_of(item)
        else:
            words.add(str(item).upper())
    return frozenset(words), type_


def _dummies(node: Any) -> Tuple[str, ...]:
    return tuple(str(item).upper() for item in _list(node))


def entry(text: str) -> tree.Statement:
    """ENTRY."""
    node = parsed("Entry_Stmt", text, rf"\(\)|{_BINDING}")
    suffix = node.items[2]
    result = suffix.items[0] if type(suffix).__name__ == "Suffix" else None
    return tree.Entry(name_of(node.items[0]), _dummies(node.items[1]), "" if result is None else name_of(result))


def _named_head(kind: str, pattern: str) -> Callable[[str], tree.Statement]:
    """A reader of a head that is words and names alone."""
    def read(text: str) -> tree.Statement:
        match = re.fullmatch(pattern, letters_of(text, "fixed").full)
        if match is None:
            raise NotRead("it isn't written as the first statement of a unit")
        found = match.groupdict()
        return tree.Head(kind, found.get("name") or "", parent=found.get("parent") or "")
    return read


def derived_type(text: str) -> tree.Statement:
    """The first line of a derived type."""
    node = parsed("Derived_Type_Stmt", text, "::")
    words, extends = set(), ""
    for item in _list(node.items[0]):
        said = letters_of(str(item), "fixed").full
        if said.startswith("EXTENDS("):
            extends = said[len("EXTENDS("):-1]
        else:
            words.add(said)
    if node.items[2]:
        words.add("PARAMETERS")
    return tree.DerivedType(name_of(node.items[1]), frozenset(words), extends)


def interface(text: str) -> tree.Statement:
    """The first line of an INTERFACE."""
    letters = letters_of(text, "fixed").full
    abstract = letters.startswith("ABSTRACT")
    return tree.Interface(letters.partition("INTERFACE")[2], abstract)


def module_procedure(text: str) -> tree.Statement:
    """MODULE PROCEDURE with names; in a submodule it begins a unit."""
    letters = letters_of(text, "fixed").full
    return tree.ModuleProcedure(tuple(letters[len("MODULEPROCEDURE"):].replace("::", "").split(",")))


#: The readers by the words of `keywords.keyword_of`.
READERS: Dict[str, Callable[[str], tree.Statement]] = {
    "TYPE DECLARATION": type_declaration,
    "ATTRIBUTE": attribute,
    "PARAMETER": parameter,
    "COMMON": common,
    "EQUIVALENCE": equivalence,
    "IMPLICIT": implicit,
    "USE": use,
    "IMPORT": import_,
    "CRAY POINTER": cray_pointer,
    "DATA": data,
    "NAMELIST": namelist,
    "ENUMERATOR": enumerator,
    "PROCEDURE": procedure,
    "FUNCTION": function,
    "SUBROUTINE": subroutine,
    "ENTRY": entry,
    "PROGRAM": _named_head("PROGRAM", r"PROGRAM(?P<name>[A-Z]\w*)(\(.*\))?"),
    "MODULE": _named_head("MODULE", r"MODULE(?P<name>[A-Z]\w*)"),
    "SUBMODULE": _named_head("SUBMODULE", r"SUBMODULE\((?P<parent>[A-Z]\w*(:[A-Z]\w*)?)\)(?P<name>[A-Z]\w*)"),
    "BLOCK DATA": _named_head("BLOCK DATA", r"BLOCKDATA(?P<name>[A-Z]\w*)?"),
    "DERIVED TYPE": derived_type,
    "INTERFACE": interface,
    "MODULE PROCEDURE": module_procedure,
}
