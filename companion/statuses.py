"""How a call of pedx ends: its statuses, and the errors that end it."""

from __future__ import annotations

from enum import IntEnum


class Status(IntEnum):
    """The exit statuses. Those up to 7 are the statuses of ped."""

    DONE = 0
    LINE_REFUSED = 1
    BAD_WORDS = 2
    NOT_READ = 3
    NOT_WRITTEN = 4
    PROGRAM_REFUSED = 5
    NO_MEMORY = 6
    TOO_LONG = 7
    FAULT = 8
    RACE = 9
    WARNING = 10
    NO_PED = 11
    NO_DOT = 12
    NOT_UNDERSTOOD = 13
    FAILED = 14
    DOUBTFUL = 15
    NO_LIBRARY = 16
    DIFFERS = 17
    NO_COMPILER = 18
    OCCURS = 19


class CompanionError(Exception):
    """An error that ends the call, with its status and what is said of it."""

    def __init__(self, status: Status, message: str) -> None:
        super().__init__(message)
        self.status = status
        self.message = message


class ProgramRefused(CompanionError):
    """The program is refused: the number and the name of the refusal, its line, and the text of the program."""

    def __init__(self, number: int, name: str, line: int, source: str) -> None:
        super().__init__(Status.PROGRAM_REFUSED, f"refused {number} {name} at {line}")
        self.number = number
        self.name = name
        self.line = line
        self.source = source
