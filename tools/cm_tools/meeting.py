"""Connections to who listens at the path of a socket: tools, tests and measurements make theirs here."""

from __future__ import annotations

import socket
import time
from typing import Callable

# Between two tries to connect, in seconds: behind the first one, and at most.
FIRST_PAUSE, LONGEST_PAUSE = 0.002, 0.05


def connected(path: str, seconds: float = 0.0, status: Callable[[], object] = lambda: None,
              patience: float | None = None) -> socket.socket:
    """A connection to who listens at a path, as soon as somebody does; an OSError says why nobody does.

    A server makes its socket's file, and listens a moment later: whoever connects in between is refused. So
    it is tried again for so many seconds, as long as the server's `status` is none yet. `patience` is how
    many seconds each further step on the connection may take.
    """
    until, pause = time.monotonic() + seconds, FIRST_PAUSE
    while True:
        is_last = status() is not None or time.monotonic() >= until
        link = socket.socket(socket.AF_UNIX, socket.SOCK_STREAM)
        try:
            link.settimeout(patience)
            link.connect(path)
            return link
        except (FileNotFoundError, ConnectionRefusedError, BlockingIOError):
            link.close()
            if is_last:
                raise
        except BaseException:
            link.close()
            raise
        time.sleep(pause)
        pause = min(2 * pause, LONGEST_PAUSE)
