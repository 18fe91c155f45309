"""From the program to one that runs in parallel: OpenMP, the compiler, and a run."""

from __future__ import annotations

import os
import subprocess
from typing import List, Optional, Sequence

from ..lines import split_lines
from ..ped import ENCODING, Runner

#: How long the compiled program may take, in seconds.
_SECONDS = 60
_THREADS = "4"


def compile_command(words: List[str], options: Sequence[str], source: str) -> List[str]:
    """The command that compiles a file with these options; the result has the file's name without its ending."""
    return [*words, *options, "-o", os.path.splitext(source)[0], source]


def compiled(command: List[str], run: Runner) -> List[str]:
    """What the compiler says; nothing where all is well."""
    done = run(
        command, stdin=subprocess.DEVNULL, stdout=subprocess.PIPE, stderr=subprocess.STDOUT, check=False
    )
    rows = split_lines(done.stdout.decode(ENCODING))
    return rows if done.returncode == 0 or rows else [f"{command[0]} ended with status {done.returncode}"]


def run_compiled(source: str, data: Optional[str], run: Runner) -> List[str]:
    """What the compiled program prints, with four threads, on these data."""
    program = os.path.abspath(os.path.splitext(source)[0])
    try:
        done = run(
            [program], input=(data or "").encode(ENCODING), stdout=subprocess.PIPE, stderr=subprocess.STDOUT,
            env={**os.environ, "OMP_NUM_THREADS": _THREADS}, timeout=_SECONDS, check=False,
        )
    except subprocess.TimeoutExpired:
        return [f"it was ended after {_SECONDS} seconds"]
    except OSError as error:
        return [f"cannot start {program}: {error.strerror}"]
    rows = split_lines(done.stdout.decode(ENCODING))
    return rows + ([f"(status {done.returncode})"] if done.returncode else [])
