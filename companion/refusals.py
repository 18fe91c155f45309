"""What ped refuses, in sentences: the refusals of a program, the rules of steps, the other refusals of a session.

The words follow docs/LANGUAGE.md, "Refusals", and docs/COMMANDS.md, "Steps". The tests look up that each refusal and
each rule of those pages stands here.
"""

from __future__ import annotations

import re
from typing import Dict, List, NamedTuple, Optional


class Refusal(NamedTuple):
    """A refusal of a program: its name, what is wrong, and what to write instead."""

    name: str
    rule: str
    instead: str


REFUSALS: Dict[int, Refusal] = {
    1: Refusal(
        "Tab", "a tab is in columns 1 to 72", "write blanks: columns 1 to 5 hold a label, 7 to 72 the statement"
    ),
    2: Refusal(
        "BadLabel", "columns 1 to 5 hold something else than a label, or a continuation line has a label",
        "begin the statement in column 7; a label is one to five digits, not all of them 0",
    ),
    3: Refusal(
        "TooManyContinuations", "the statement has more than 19 continuation lines",
        "split the statement, by a scalar that holds a part of the expression",
    ),
    4: Refusal(
        "ContinuationFirst", "a continuation line comes before the first statement",
        "leave column 6 blank on the first line of a statement",
    ),
    5: Refusal(
        "BadCharacter", "a character isn't allowed in a statement",
        "letters, digits, blanks and = + - * / ( ) , . ' $ : may; a comment has a C in column 1",
    ),
    6: Refusal(
        "OpenConstant", "a character constant isn't closed",
        "write an apostrophe after it; one in the constant is written twice, as in 'ISN''T'",
    ),
    7: Refusal(
        "Syntax", "the statement has no form of the language, or may not stand here",
        "see docs/LANGUAGE.md, `Statements`; declarations come first, PRIVATE directly after its DO, a directive "
        "directly before it; END DO ends a DO without a label; write I*(-J) for I*-J",
    ),
    8: Refusal(
        "NotInProfile", "the statement is FORTRAN that is left out of the language",
        "INTEGER is the only type; write IF and DO for GO TO, READ *, and PRINT *, for other input and output, and "
        "subroutines for functions; an edit may hold no CALL and no SUBROUTINE; see docs/SUBROUTINES.md",
    ),
    9: Refusal(
        "OpenBlock", "a DO or an IF isn't ended, or END is missing",
        "end a DO by END DO, one with a label by a statement that has it, an IF by END IF, and the program by END",
    ),
    10: Refusal(
        "BadTerminal", "the label of a DO is on a statement that can't end it, or inside an open IF or loop",
        "end the loop by an END DO or a CONTINUE with its label, after the ends of all that began in it",
    ),
    11: Refusal(
        "IndexAssigned", "the variable of a loop is changed in its body, or named in PRIVATE",
        "use another variable in the body; the variable of a loop is counted by its DO alone, and is private by itself",
    ),
    12: Refusal("StopPlace", "STOP is in a loop", "leave the loop to its end, and stop after it"),
    13: Refusal(
        "Limit", "a limit of the language is passed",
        "see docs/LANGUAGE.md, `Limits`: 4,000 statements, 6 loops in one another, 64 references in a statement, "
        "literals up to 2147483647",
    ),
    14: Refusal(
        "RealName", "a name is REAL, since it is declared nowhere and begins with none of I to N",
        "declare it, as in INTEGER TOTAL, or all names at once by IMPLICIT INTEGER (A-Z)",
    ),
    15: Refusal(
        "DeclaredTwice", "a name is declared twice, or is used as what it isn't",
        "take the second declaration away, or give the second thing a name of its own",
    ),
    16: Refusal(
        "NotConstant", "a value in PARAMETER, a bound of an array or the increment of a DO isn't constant, or is 0",
        "build it of literals and of constants from a PARAMETER before it",
    ),
    17: Refusal(
        "RankDiffers", "a name has another number of subscripts than dimensions",
        "write a subscript for each dimension, and none after a scalar; loops and PRIVATE take scalars alone",
    ),
    18: Refusal("BoundsEmpty", "a lower bound is above its upper bound", "write the lower bound first, as in A(0:9)"),
    19: Refusal(
        "Limit", "the arrays have too many elements, or there are too many pairs of references",
        "an array may have 1,048,576 elements, all together 8,388,608; put statements that don't belong together into "
        "loops of their own, so that there are no more than 200,000 pairs",
    ),
    20: Refusal(
        "NoUnit", "a CALL names no subroutine of the file, or two subroutines have one name",
        "put the subroutine after the main program's END; each has a name of its own",
    ),
    21: Refusal(
        "Recursion", "CALLs lead from a subroutine back to it", "write a loop in the place of the CALL that leads back",
    ),
    22: Refusal(
        "Arguments", "the arguments of a CALL don't fit the subroutine's dummy arguments",
        "see docs/SUBROUTINES.md, `Refusals`: as many, arrays with equal bounds, and for each dummy argument that is "
        "assigned the name of a scalar variable that no loop round the CALL counts",
    ),
    23: Refusal(
        "Aliased", "one variable stands for two dummy arguments, and one of them is assigned",
        "copy the variable to another one, or pass K+0, which has its value",
    ),
    24: Refusal(
        "CallPlace", "a CALL is in a PARALLEL DO",
        "write DO, and make the loop parallel in a session, where the CALL is a block: see docs/SUBROUTINES.md",
    ),
}

#: The rules of steps; `{S}` stands for the statement that is named.
RULES: Dict[int, str] = {
    1: "statement {S} is no DO",
    2: "the loop's body has to be one loop and nothing else",
    3: "the step leaves loops alone that are PARALLEL DO or are in one (`serial`: those that aren't PARALLEL DO)",
    4: "the loop has a PRIVATE list",
    5: "statement {S} reads the variable of a loop where the step would leave it without a value",
    6: "a bound of the loop at statement {S} isn't plain: its value might change",
    7: "the inner bound isn't of a form that can be exchanged",
    8: "the increment isn't one that the step allows",
    9: "a value of the loop's variable leaves the range of literals",
    10: "no loop with the same header comes directly after it",
    11: "the loop's statements depend on each other, or it has but one",
    12: "an iteration may read the scalar before it assigns it, or it is wanted after the loop: see statement {S}",
    13: "the name isn't that of a scalar that the step can take",
    14: "a bound of the loop isn't constant, or the loop has no iteration",
    15: "the new program passes a limit of the language (`reduce`: or what `run` makes of it does)",
    16: "the factor or the size is out of range",
    17: "the name is private already (`reduce`: or given twice, or the loop has a list of sums)",
    18: "there is nothing pending of this name that the loop carries",
    19: "statement {S} has the scalar otherwise than to add to it",
    20: "statement {S} is no block of a CALL: an IF (0.EQ.0) THEN whose first line is a C$CALL comment, and without ELSE",
}

OTHERS: Dict[str, str] = {
    "BadCommand": "the line is no command, or the period after the text of an edit is missing",
    "NoSuchPair": "there are no two references of one array with a write, in as many loops as the pattern has signs",
    "NoSuchStatement": "the program has no statement with this number",
    "NoSuchLine": "the program has no such lines",
    "NothingToUndo": "there is no step back",
    "NothingToRedo": "there is no step forward",
}

_RULE = re.compile(r"rule (\d+) \w+ at (\d+)")
_EDIT = re.compile(r"BadEdit (\d+) \w+ at \d+")


def cause_of(refusal: str, word: str = "") -> Optional[str]:
    """What a refusal of a command with this first word says, in words; none where it isn't known."""
    rule = _RULE.fullmatch(refusal)
    if rule is not None and int(rule.group(1)) in RULES:
        return RULES[int(rule.group(1))].format(S=rule.group(2))
    edit = _EDIT.fullmatch(refusal)
    if edit is not None and int(edit.group(1)) in REFUSALS:
        return f"in the program that the edit makes {REFUSALS[int(edit.group(1))].rule}"
    if refusal.startswith("edge "):
        return "the one loop would carry this dependence" if word == "fuse" else "this dependence forbids it"
    return OTHERS.get(refusal)


def refused(refusal: str, word: str = "") -> str:
    """A refusal of a command with this first word, and its cause."""
    cause = cause_of(refusal, word)
    words: List[str] = [f"refused {refusal}"] + ([cause] if cause else [])
    return ": ".join(words)
