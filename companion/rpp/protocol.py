"""What the language server and the debug adapter share: messages with a head that gives their length."""
import json
import os
import queue
import re
import threading
from typing import Any, Dict, Optional

LARGEST = 64 * 1024 * 1024
PIECE = 65536
LENGTH = re.compile(rb'^content-length:\s*(\d+)\s*$', re.I | re.M)

Message = Dict[str, Any]


class Broken(Exception):
    """What came is no message of the protocol."""


class Inbox:
    """The messages that come over a file descriptor. It can be asked whether more is waiting. A thread reads the descriptor, since not
    every system can wait for a pipe for a while and then go on."""

    def __init__(self, descriptor: int):
        self.descriptor = descriptor
        self.unread = bytearray()
        self.is_over = False
        self._pieces: 'queue.Queue[bytes]' = queue.Queue()
        threading.Thread(target=self._read, daemon=True).start()

    def next(self, seconds: Optional[float] = None) -> Optional[Message]:
        """The next message; None at the end of the stream; an empty message where none comes within the time."""
        while True:
            message = self._cut()
            if message is not None:
                return message
            if self.is_over:
                return None
            try:
                piece = self._pieces.get(timeout=seconds)
            except queue.Empty:
                return {}
            self.is_over = not piece
            self.unread += piece

    def _read(self) -> None:
        """Reads until the end, which is an empty piece."""
        piece = b' '
        while piece:
            try:
                piece = os.read(self.descriptor, PIECE)
            except OSError:
                piece = b''
            self._pieces.put(piece)

    def _cut(self) -> Optional[Message]:
        """The first whole message of what was read."""
        head = self.unread.find(b'\r\n\r\n')
        if head < 0:
            return None
        found = LENGTH.search(bytes(self.unread[:head]))
        if found is None or int(found[1]) > LARGEST:
            raise Broken('a message without a length')
        end = head + 4 + int(found[1])
        if len(self.unread) < end:
            return None
        body = bytes(self.unread[head + 4 : end])
        del self.unread[:end]
        try:
            message = json.loads(body.decode('utf-8', 'replace'))
        except ValueError as error:
            raise Broken(str(error)) from None
        if not isinstance(message, dict) or not message:
            raise Broken('a message that is no object')
        return message


class Outbox:
    """Messages that go out, each whole, whichever thread sends it."""

    def __init__(self, stream):
        self.stream = stream
        self._lock = threading.Lock()

    def send(self, message: Message):
        body = json.dumps(message).encode()
        with self._lock:
            self.stream.write(b'Content-Length: %d\r\n\r\n' % len(body) + body)
            self.stream.flush()
