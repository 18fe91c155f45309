"""`pedx serve`: a language server over standard input and output."""

from __future__ import annotations

import sys

from ..ped import Ped
from ..server.server import Server


def serve(ped: Ped) -> int:
    """Serves until the editor ends it, and returns the status of the call. Nothing else is written to standard output."""
    return Server(ped.quiet(), sys.stdin.buffer, sys.stdout.buffer).serve()
