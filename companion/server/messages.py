"""Messages of JSON-RPC 2.0 over two byte streams, each behind a header with its length, as language servers use them."""

from __future__ import annotations

import json
from queue import Queue
from threading import Thread
from typing import IO, Dict, Optional

#: A message, or a part of one.
Json = Dict[str, object]

#: A longer message is no program that ped takes.
_MOST = 64 << 20

PARSE_ERROR, INVALID_REQUEST, NO_METHOD, BAD_WORDS, FAILED = -32700, -32600, -32601, -32602, -32603


class BadMessage(Exception):
    """What was read is no message, and nothing that comes behind it can be read."""


def read_message(stream: IO[bytes]) -> Optional[Json]:
    """The next message; none at the end of the stream."""
    length = _length(stream)
    if length is None:
        return None
    body = stream.read(length)
    if len(body) < length:
        raise BadMessage("the stream ends in a message")
    try:
        message = json.loads(body)
    except (ValueError, RecursionError) as error:
        raise BadMessage(f"a message isn't JSON: {error}") from error
    if not isinstance(message, dict):
        raise BadMessage("a message isn't an object")
    return message


def _length(stream: IO[bytes]) -> Optional[int]:
    """The length that a header tells; none at the end of the stream."""
    length = None
    while True:
        line = stream.readline(1 << 12)
        if not line:
            return None
        name, _, value = line.strip().partition(b":")
        if not name:
            break
        if name.lower() == b"content-length":
            length = int(value) if value.strip().isdigit() else -1
    if length is None or not 0 <= length <= _MOST:
        raise BadMessage("a header has no length that may be")
    return length


def write_message(stream: IO[bytes], message: Json) -> None:
    """Writes a message."""
    body = json.dumps({"jsonrpc": "2.0", **message}).encode()
    stream.write(b"Content-Length: %d\r\n\r\n%s" % (len(body), body))
    stream.flush()


class Inbox:
    """The messages of a stream, read ahead, so that the server knows whether more of them wait."""

    def __init__(self, stream: IO[bytes]) -> None:
        self._queue: Queue[object] = Queue()
        Thread(target=self._read, args=(stream,), daemon=True).start()

    def _read(self, stream: IO[bytes]) -> None:
        try:
            while True:
                message = read_message(stream)
                self._queue.put(message)
                if message is None or message.get("method") == "exit":
                    return  # a thread that waits for more would be in the way of the program's end
        except (BadMessage, OSError, ValueError) as error:
            self._queue.put(error)

    @property
    def is_empty(self) -> bool:
        """Whether no message waits."""
        return self._queue.empty()

    def next(self) -> Optional[Json]:
        """The next message; none at the end."""
        found = self._queue.get()
        if isinstance(found, Exception):
            raise BadMessage(str(found))
        return found  # type: ignore[return-value]
