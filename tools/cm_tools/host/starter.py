"""The starter: a process beside the runner that begins others for it, and tells their ends.

Who begins a process is held up until that one has become its program, on a busy machine for long. The runner
has to answer meanwhile, so this process does it. It has one thread, since a sandbox ends with the thread that
began it, and it ends with the runner.

Run as a program, this file is that process. It imports nothing of this project, since it is started in
isolated mode.
"""

import array
import json
import os
import select
import signal
import socket
import sys

# A message of the runner is one byte, and its first descriptor is a file with the order.
MOST = 250
# Python itself ignores these, and what is begun here shall not.
IGNORED = (signal.SIGPIPE, signal.SIGXFSZ)


def read_order(descriptor: int) -> dict:
    """The order that stands in a file: which number the process gets, its words, and its three streams."""
    size = os.fstat(descriptor).st_size
    return json.loads(os.pread(descriptor, size, 0))


def begin(order: dict, passed: list) -> int:
    """Begins a process. Its words that are numbers stand for descriptors by their places in `passed`, which
    it gets, and so do its streams; a stream that is none is nowhere. Its process number."""
    for place in order["words"]:
        if isinstance(place, int):
            os.set_inheritable(passed[place], True)
    streams = [(os.POSIX_SPAWN_OPEN, at, "/dev/null", os.O_RDWR, 0) if place is None
               else (os.POSIX_SPAWN_DUP2, passed[place], at) for at, place in enumerate(order["streams"])]
    words = [word if isinstance(word, str) else str(passed[word]) for word in order["words"]]
    return os.posix_spawnp(words[0], words, os.environ, file_actions=streams, setsigdef=IGNORED)


class Starter:
    """Begins what the other end of a socket orders, and says of each process its number, or why there is
    none, and later its status."""

    def __init__(self, link: socket.socket) -> None:
        self.link = link
        self.poll = select.epoll()
        self.poll.register(link, select.EPOLLIN)
        # Of each process that runs, by a descriptor of it: its own number, and that of the order.
        self.running = {}

    def run(self) -> None:
        """Works until the other end is closed."""
        while True:
            for descriptor, _ in self.poll.poll():
                if descriptor in self.running:
                    self.end(descriptor)
                elif not self.take():
                    return

    def take(self) -> bool:
        """Takes an order. False where there will be none any more."""
        data, (file, *passed) = receive(self.link)
        if not data:
            return False
        order = read_order(file)
        try:
            pid = begin(order, passed)
        except OSError as fault:
            self.tell({"number": order["number"], "fault": fault.errno})
        else:
            descriptor = os.pidfd_open(pid)
            self.running[descriptor] = pid, order["number"]
            self.poll.register(descriptor, select.EPOLLIN)
            self.tell({"number": order["number"], "pid": pid}, (descriptor,))
        finally:
            for one in (file, *passed):
                os.close(one)
        return True

    def end(self, descriptor: int) -> None:
        """Tells the end of a process, and lets it go."""
        pid, number = self.running.pop(descriptor)
        _, status = os.waitpid(pid, 0)
        # The runner may have it open, so that it stayed watched for if it were closed alone.
        self.poll.unregister(descriptor)
        os.close(descriptor)
        self.tell({"number": number, "status": os.waitstatus_to_exitcode(status)})

    def tell(self, what: dict, descriptors: tuple = ()) -> None:
        """Sends a message."""
        socket.send_fds(self.link, [json.dumps(what).encode()], descriptors)


def receive(link: socket.socket) -> tuple:
    """A message and its descriptors, none of which goes on to a process by itself. At the end there are
    none, but for a place of the order."""
    room = socket.CMSG_SPACE(4 * (MOST + 1))
    data, told, _, _ = link.recvmsg(1, room, socket.MSG_CMSG_CLOEXEC)
    descriptors = [one for _, _, numbers in told for one in array.array("i", numbers)]
    return data, descriptors or [-1]


def main() -> None:
    """Works for the socket of the descriptor that the first word names."""
    with socket.socket(fileno=int(sys.argv[1])) as link:
        # No process that is begun here may order others.
        link.set_inheritable(False)
        Starter(link).run()


if __name__ == "__main__":
    main()
