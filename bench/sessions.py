#!/usr/bin/env python3
"""Prints commands per second of 1, 4 and 16 clients over a Unix socket, with as many workers: one command at
a time, and 32 at a time. Beside it stand the same commands from as many lanes of a script, and GETs of a
redis server over a Unix socket by the same clients in the same run, where redis-server is there. Then comes
what a session that waits and a link that was served take of the server's memory, and the machine's load.

    bench/sessions.py [PROGRAM [LOAD]]

The realm has 100 instances, which are resolved and started before; the commands show and route in turns. Each
client is a process of its own. The clients are written in Python, and take most of the time: only what stands
in one run can be compared. With LOAD they are threads of that native client, which is called with the words
`SOCKET CLIENTS COUNT AT-ONCE LINES COMMAND..` and prints `N commands/s`.
"""

import os
import re
import shutil
import subprocess
import sys
import tempfile
import time

HERE = os.path.dirname(os.path.abspath(__file__))
sys.dont_write_bytecode = True
sys.path.insert(0, os.path.join(HERE, "..", "tools"))

from cm_tools import meeting

if len(sys.argv) > 3:
    print("usage: sessions.py [PROGRAM [LOAD]]", file=sys.stderr)
    sys.exit(2)
PROGRAM = os.path.abspath(sys.argv[1] if len(sys.argv) > 1 else os.path.join(HERE, "..", "component_manager"))
LOAD = os.path.abspath(sys.argv[2]) if len(sys.argv) > 2 else ""
ROOT = "fuchsia-pkg://bench/p#meta/root.cm"
INSTANCES = 100
COMMANDS = 32_000
SIZES = (1, 4, 16)
TOGETHER = 32
# The sessions whose memory is measured: as many as wait at once, and as many as are served one after another.
WAITING = 16
SERVED = 4_000


def names():
    return [f"i{number}" for number in range(1, INSTANCES)]


def root():
    children = ",".join(f'{{"name":"{name}","url":"#meta/leaf.cm"}}' for name in names())
    targets = ",".join(f'"#{name}"' for name in names())
    return (
        f'{{"children":[{children}],"capabilities":[{{"protocol":"p"}}],'
        f'"offer":[{{"protocol":"p","from":"self","to":[{targets}]}}]}}'
    )


LEAF = '{"program":{"runner":"elf"},"use":[{"protocol":"p"}]}'


def command(number):
    """The commands that are measured, in turns."""
    name = names()[number % (INSTANCES - 1)]
    return f"show {name}" if number % 2 == 0 else f"route {name} /svc/p"


def manifests(folder):
    place = os.path.join(folder, "repo", "bench", "p", "meta")
    os.makedirs(place)
    for name, text in (("root.cm", root()), ("leaf.cm", LEAF)):
        with open(os.path.join(place, name), "w", encoding="utf-8") as file:
            file.write(text)
    return os.path.join(folder, "repo")


def connected(path, process):
    """A link to a server that may still begin."""
    try:
        return meeting.connected(path, 60, process.poll)
    except OSError as fault:
        sys.exit(f"nobody listens at {path}: {fault}")


def ask(link, requests, lines):
    """Sends requests at once, and reads so many lines."""
    link.sendall(b"".join(requests))
    missing = lines * len(requests)
    while missing > 0:
        piece = link.recv(65536)
        if not piece:
            sys.exit("the server ended the link")
        missing -= piece.count(b"\n")


def client(path, process, requests, together, lines, begin):
    """Sends its requests, so many at a time, in a process of its own, once it reads the byte to begin."""
    link = connected(path, process)
    os.read(begin, 1)
    for at in range(0, len(requests), together):
        ask(link, requests[at : at + together], lines)
    link.close()


def by_load(path, requests, clients, together, lines):
    """Commands per second of the native client's threads, each with its share of the requests."""
    words = [LOAD, path, str(clients), str(len(requests) // clients), str(together), str(lines)]
    commands = list(dict.fromkeys(it.decode().removesuffix("\n") for it in requests))
    done = subprocess.run([*words, *commands], capture_output=True, text=True, check=False)
    found = re.search(r"(\d+) commands/s", done.stdout)
    if done.returncode or not found:
        sys.exit(f"{LOAD} ended with {done.returncode}: {done.stderr.strip()}")
    return float(found[1])


def measure(path, process, requests, clients, together, lines):
    """Commands per second of all clients together."""
    if LOAD:
        return by_load(path, requests, clients, together, lines)
    parts = [requests[at::clients] for at in range(clients)]
    begin, go = os.pipe()
    children = []
    for part in parts:
        child = os.fork()
        if not child:
            client(path, process, part, together, lines, begin)
            os._exit(0)
        children.append(child)
    time.sleep(0.2)
    clock = time.monotonic()
    os.write(go, b"g" * len(parts))
    failed = sum(os.waitpid(child, 0)[1] for child in children)
    seconds = time.monotonic() - clock
    os.close(begin)
    os.close(go)
    if failed:
        sys.exit("a client failed")
    return sum(len(part) for part in parts) / seconds


def sessions(folder, clients, together):
    """The program's sessions: a first one that starts all instances, and then the measured ones."""
    path = os.path.join(folder, "s")
    words = ["serve", path, "--root", ROOT, "--repo", os.path.join(folder, "repo")]
    words += ["--sessions", str(clients + 1), "--workers", str(clients)]
    with subprocess.Popen([PROGRAM, *words], stdin=subprocess.DEVNULL) as process:
        with connected(path, process) as link:
            ask(link, [f"start {name}\n".encode() for name in names()], 1)
        requests = [f"{command(number)}\n".encode() for number in range(COMMANDS)]
        speed = measure(path, process, requests, clients, together, 1)
        if process.wait(60):
            sys.exit(f"the server ended with {process.returncode}")
    return speed


def lanes(folder, clients):
    """The same commands from lanes of one script; the time of one without them is left out."""
    spent = []
    for commands in (0, COMMANDS):
        path = os.path.join(folder, "script.txt")
        with open(path, "w", encoding="utf-8") as file:
            file.write(f"root {ROOT}\n")
            file.writelines(f"0 start {name}\n" for name in names())
            file.write("sync\n")
            file.writelines(f"{number % clients} {command(number)}\n" for number in range(commands))
        clock = time.monotonic()
        with open(path, encoding="utf-8") as script:
            words = ["run", "--repo", os.path.join(folder, "repo")]
            subprocess.run([PROGRAM, *words], stdin=script, stdout=subprocess.DEVNULL, check=True)
        spent.append(time.monotonic() - clock)
    return COMMANDS / (spent[1] - spent[0])


def redis(folder, clients, together):
    """GETs of a redis server, of which each is answered by two lines."""
    path = os.path.join(folder, "redis")
    words = ["--port", "0", "--unixsocket", path, "--save", "", "--appendonly", "no", "--dir", folder]
    with subprocess.Popen(["redis-server", *words], stdout=subprocess.DEVNULL) as process:
        with connected(path, process) as link:
            ask(link, [f"SET {name} {'v' * 60}\r\n".encode() for name in names()], 1)
        requests = [f"GET {names()[number % (INSTANCES - 1)]}\r\n".encode() for number in range(COMMANDS)]
        speed = measure(path, process, requests, clients, together, 2)
        process.terminate()
    return speed


def resident(process):
    """How many bytes a process has in memory."""
    with open(f"/proc/{process.pid}/status", encoding="utf-8") as file:
        for line in file:
            if line.startswith("VmRSS:"):
                return int(line.split()[1]) * 1024
    sys.exit("the system doesn't tell what a process has in memory")


def serve_one(path, process):
    """A session of one line, up to its end."""
    with connected(path, process) as link:
        ask(link, [b"show .\n"], 1)
        link.sendall(b"quit\n")
        link.recv(1)


def memory(folder):
    """The server's bytes for each of the sessions that wait at once, and for each link that was served."""
    path = os.path.join(folder, "s")
    words = ["serve", path, "--root", ROOT, "--repo", os.path.join(folder, "repo")]
    words += ["--sessions", str(2 + WAITING + SERVED), "--workers", str(WAITING)]
    with subprocess.Popen([PROGRAM, *words], stdin=subprocess.DEVNULL) as process:
        serve_one(path, process)
        before = resident(process)
        waiting = [connected(path, process) for _ in range(WAITING)]
        for link in waiting:
            ask(link, [b"show .\n"], 1)
        between = resident(process)
        for link in waiting:
            link.close()
        for _ in range(SERVED):
            serve_one(path, process)
        behind = resident(process)
        serve_one(path, process)
        if process.wait(60):
            sys.exit(f"the server ended with {process.returncode}")
    return (between - before) / WAITING, (behind - between) / SERVED


def main():
    has_redis = shutil.which("redis-server") is not None
    print("clients, commands each second: one at a time, 32 at a time, from lanes"
          + (", redis one at a time, redis 32 at a time" if has_redis else "; redis-server isn't here"))
    for clients in SIZES:
        with tempfile.TemporaryDirectory() as folder:
            manifests(folder)
            row = [sessions(folder, clients, 1), sessions(folder, clients, TOGETHER), lanes(folder, clients)]
            if has_redis:
                row += [redis(folder, clients, 1), redis(folder, clients, TOGETHER)]
            print(clients, *(f"{speed:.0f}" for speed in row), flush=True)
    with tempfile.TemporaryDirectory() as folder:
        manifests(folder)
        waiting, served = memory(folder)
        print(f"bytes of memory: {waiting:.0f} a session that waits, {served:.0f} a link that was served")
    print("the load of the last minute:", os.getloadavg()[0], "on", os.cpu_count(), "processors")


if __name__ == "__main__":
    main()
