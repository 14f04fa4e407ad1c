"""A server of the built program at the path of a socket, which checks wait for and end."""

import os
import stat
import time


class Served:
    """The process that serves at a path, which is ended with the `with` block."""

    def __init__(self, path, process):
        self.path, self.process = path, process

    def __enter__(self):
        return self

    def __exit__(self, *what):
        if self.process.poll() is None:
            self.process.kill()
        self.process.communicate()

    def is_there(self, patience):
        """Whether the server came within so many seconds. Nobody connects for it: that would be a session."""
        end = time.monotonic() + patience
        while time.monotonic() < end and self.process.poll() is None:
            if self.has_socket():
                return True
            time.sleep(0.005)
        return False

    def has_socket(self):
        """Whether a socket stands at the path that only its owner may use."""
        try:
            mode = os.stat(self.path).st_mode
        except OSError:
            return False
        return stat.S_ISSOCK(mode) and stat.S_IMODE(mode) == 0o600
