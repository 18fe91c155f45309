"""Questions to ped about one program: scripts that leave it as it was.

ped answers at the end of a session, and opens the program anew for each. So many questions are asked in one session,
and in several where that lets a user see how far it is.
"""

from __future__ import annotations

import time
from typing import Iterable, List, Sequence

from .ped import Ped
from .progress import Progress
from .replies import Reply

#: A session of fewer commands, each counted by the lines of the program, shows no progress.
_SHORT = 100_000
#: How many questions the first session of a long call has, and how long the others take, in seconds.
_FIRST = 4
_SECONDS = 2.0


def text_of(lines: Iterable[str]) -> str:
    """Lines as a file."""
    return "".join(line + "\n" for line in lines)


def ask_in_turn(
    ped: Ped, lines: Sequence[str], scripts: Sequence[Sequence[str]], progress: Progress, what: str
) -> List[List[Reply]]:
    """The replies to the commands of each script. Each script leaves the program as it was."""
    source = text_of(lines)
    answers: List[List[Reply]] = []
    is_short = sum(map(len, scripts)) * len(lines) < _SHORT
    size = len(scripts) if is_short else _FIRST
    while len(answers) < len(scripts):
        part = scripts[len(answers):len(answers) + size]
        begin = time.monotonic()
        replies = iter(ped.session(source, text_of(command for script in part for command in script)))
        answers.extend([next(replies) for _ in script] for script in part)
        seconds = max(time.monotonic() - begin, 0.001)
        size = max(1, min(int(len(part) * _SECONDS / seconds), 8 * len(part)))
        progress.show(f"{what}: {len(answers)} of {len(scripts)} questions are answered")
    return answers
