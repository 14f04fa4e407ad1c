"""Layers: a folder laid over an empty one, read-only.

Through a layer files can be read, also what is written into the folder later. A socket below it can't be
connected, which a plain read-only mount lets: a provider could hand a writable descriptor out there.

To mount takes a right that the runner gives up. So a process beside it keeps that right, and does nothing
else: run as a program, this file is that process. It imports nothing of this project, since it is started in
isolated mode.
"""

import ctypes
import os
import socket
import sys

READ_ONLY, NO_SUID, NO_DEVICES = 1, 2, 4
DETACH = 2
LONGEST = 4096


def _mount(libc: ctypes.CDLL, empty: str, folder: int, at: str) -> bool:
    options = f"lowerdir={empty}:/proc/self/fd/{folder}"
    flags = READ_ONLY | NO_SUID | NO_DEVICES
    return libc.mount(b"layer", at.encode(), b"overlay", flags, options.encode()) == 0


def main() -> None:
    """Lays and lifts what it is asked for, until nobody asks any more."""
    descriptor, empty = int(sys.argv[1]), sys.argv[2]
    libc = ctypes.CDLL(None, use_errno=True)
    with socket.socket(fileno=descriptor) as link:
        while True:
            data, folders, _, _ = socket.recv_fds(link, LONGEST, 4)
            word, _, at = data.decode().partition(" ")
            if not word:
                return
            done = False
            if word == "lay" and len(folders) == 1:
                done = _mount(libc, empty, folders[0], at)
            elif word == "lift":
                done = libc.umount2(at.encode(), DETACH) == 0
            why = os.strerror(ctypes.get_errno())
            for folder in folders:
                os.close(folder)
            link.send(b"done" if done else why.encode())


if __name__ == "__main__":
    main()
