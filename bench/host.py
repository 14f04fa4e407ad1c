#!/usr/bin/env python3
"""Measures a host beside what it stands on: plain sockets, and plain bubblewrap.

    bench/host.py [COUNT]

The component manager is the one that COMPONENT_MANAGER names. COUNT is how many instances are started and
stopped, 200 where it isn't said. As root it goes on as another user. What it prints was taken in one run.
"""

from __future__ import annotations

import os
import signal
import subprocess
import sys
import threading
import time
from pathlib import Path

TOP = Path(__file__).resolve().parent.parent
# What both programs begin with: a door that answers each line.
BEGIN = """#!/usr/bin/python3
import os, socket, sys, threading, time
def serve(link):
    with link:
        while data := link.recv(1 << 16):
            if data.endswith(b"\\n"):
                link.sendall(b"1\\n")
def open_door(path):
    door = socket.socket(socket.AF_UNIX)
    door.bind(path)
    door.listen(64)
    while True:
        threading.Thread(target=serve, args=(door.accept()[0],), daemon=True).start()
"""
PROVIDER = BEGIN + """
os.makedirs("/out/svc", exist_ok=True)
open_door("/out/svc/bench.Door")
"""
CLIENT = BEGIN + """
def show(what, times):
    times.sort()
    n = len(times)
    tenth, middle, most = (1e6 * times[n * part // 100] for part in (10, 50, 99))
    print(f"{what}: a tenth within {tenth:.0f} us, half within {middle:.0f}, 99 of 100 within {most:.0f}",
          flush=True)
def connects(path, count):
    times = []
    for _ in range(count):
        begun = time.perf_counter()
        with socket.socket(socket.AF_UNIX) as link:
            link.connect(path)
            link.sendall(b"x\\n")
            assert link.recv(100)
        times.append(time.perf_counter() - begun)
    return times
def lines(path, count):
    times = []
    with socket.socket(socket.AF_UNIX) as link:
        link.connect(path)
        for _ in range(count):
            begun = time.perf_counter()
            link.sendall(b"x\\n")
            assert link.recv(100)
            times.append(time.perf_counter() - begun)
    return times
def carried(path, size):
    piece = bytes(1 << 16)
    with socket.socket(socket.AF_UNIX) as link:
        link.connect(path)
        begun = time.perf_counter()
        for _ in range(size >> 16):
            link.sendall(piece)
        link.sendall(b"\\n")
        link.recv(100)
        return size / (time.perf_counter() - begun) / 1e9
def in_turns(what, work, count):
    # Both ways in short rounds beside each other, since other work may come and go.
    found = {through: [], plain: []}
    for _ in range(ROUNDS):
        for path, times in found.items():
            times += work(path, count // ROUNDS)
    show(what + " through the runner", found[through])
    show(what + " plain sockets     ", found[plain])
ROUNDS = 10
through, plain = "/svc/bench.Door", os.path.join("/tmp", "direct")
connects(through, 3)
if os.fork() == 0:
    open_door(plain)
while True:
    try:
        connects(plain, 3)
        break
    except OSError:
        time.sleep(0.05)
print("ready", flush=True)
time.sleep(1)
if sys.argv[1] == "connects":
    in_turns("connect, a line, its answer,", connects, 1000)
elif sys.argv[1] == "lines":
    in_turns("a line and its answer,      ", lines, 2000)
else:
    for what, path in ("through the runner", through), ("plain sockets     ", plain):
        print(f"bytes of one connection,     {what}: {carried(path, 1 << 29):.2f} GB/s", flush=True)
print("done", flush=True)
os.read(os.pipe()[0], 1)
"""
P = '{program:{runner:"elf",binary:"bin/x"%s}%s}'
NOTIFY = ',lifecycle:{stop_event:"notify"}'
SLEEPER = "#!/bin/sh\nexec sleep 1000000\n"
STUBBORN = "#!/bin/sh\ntrap '' TERM\nwhile :; do sleep 1; done\n"
PLAIN = ("bwrap", "--unshare-all", "--die-with-parent", "--ro-bind", "/usr", "/usr",
         "--symlink", "usr/bin", "/bin", "--symlink", "usr/lib", "/lib", "--symlink", "usr/lib64", "/lib64",
         "--proc", "/proc", "--dev", "/dev", "/usr/bin/sleep", "1000000")


# What is wanted of each, as it is printed behind what was found.
AIMS = {"connects": " (300 wanted)", "lines": " (40 more than plain wanted)",
        "up": " (8 s for 500 wanted)", "down": " (2 s for 500 wanted)", "memory": " (100 MB for 500 wanted)",
        "held": " (500 ms for 200 wanted)", "stubborn": " (5 s wanted)"}


def in_lanes(host, lines, lanes):
    """Gives commands to a host over so many sessions. How long it took, in seconds."""
    threads = [threading.Thread(target=host.ask, args=lines[lane::lanes]) for lane in range(lanes)]
    begun = time.monotonic()
    for thread in threads:
        thread.start()
    for thread in threads:
        thread.join()
    return time.monotonic() - begun


def memory(pid):
    """The memory of a process, in megabytes."""
    for line in Path(f"/proc/{pid}/status").read_text().splitlines():
        if line.startswith("VmRSS:"):
            return int(line.split()[1]) / 1024
    return 0.0


def processor(pid):
    """The processor time that a process has taken so far, in microseconds."""
    threads = Path(f"/proc/{pid}/task").iterdir()
    return sum(int((thread / "schedstat").read_text().split()[0]) for thread in threads) / 1000


def connections(Host, folder, package, root_of):
    """Connects and lines, through the runner and without one; what they cost the runner and the manager."""
    base = folder()
    repo = base / "repo"
    package(repo, "door", P % ("", ',capabilities:[{protocol:"bench.Door"}],'
                               'expose:[{protocol:"bench.Door",from:"self"}]'), PROVIDER)
    phases = {"connects": 1000, "lines": 2000, "bytes": 0}
    for name in phases:
        package(repo, name, P % (f',args:["{name}"]', ',use:[{protocol:"bench.Door"}]'), CLIENT)
    targets = ",".join(f'"#{name}"' for name in phases)
    root = root_of(repo, "door", *phases,
                   more=f',offer:[{{protocol:"bench.Door",from:"#door",to:[{targets}]}}]')
    host = Host(repo, root, run=base / "r", options=("--quiet",), waits=False)
    for name, count in phases.items():
        host.ask(f"start {name}")
        host.wait_until(lambda: "ready\n" in host.said(name), "begin")
        pids = host.runner_pid(), host.manager_pids()[0]
        before = [processor(pid) for pid in pids]
        host.wait_until(lambda: "done\n" in host.said(name), "measurement")
        first, *more = host.said(name).replace("done\n", "").replace("ready\n", "").rstrip().split("\n")
        print("\n".join([first + AIMS.get(name, ""), *more]))
        if count:
            runner, manager = ((processor(pid) - was) / count for pid, was in zip(pids, before))
            print(f"  of the processor a {name[:-1]} takes {runner:.0f} us of the runner, {manager:.0f} of "
                  "the manager")
        sys.stdout.flush()
        host.ask(f"stop {name}")
    host.end()
    host.remove()


def spin():
    """How long a million steps of a plain loop take here and now, in milliseconds of the processor."""
    begun, count = time.process_time(), 0
    while count < 1_000_000:
        count += 1
    return 1000 * (time.process_time() - begun)


def instances(Host, folder, package, root_of, count):
    """Instances up and down, and plain sandboxes beside."""
    begun = time.monotonic()
    plain = [subprocess.Popen(PLAIN) for _ in range(count)]
    while True:
        inside = [Path(f"/proc/{one.pid}/task/{one.pid}/children").read_text() for one in plain]
        if all(inside):
            break
        time.sleep(0.005)
    up = time.monotonic() - begun
    begun = time.monotonic()
    # Not bwrap itself: who kills it so soon may leave the first process inside.
    for one in inside:
        os.kill(int(one), signal.SIGKILL)
    for one in plain:
        one.wait()
    print(f"{count} sandboxes, plain bubblewrap:  up in {up:.2f} s, down in {time.monotonic() - begun:.2f} s")
    base = folder()
    names = [f"c{number}" for number in range(count)]
    for name in names:
        package(base / "repo", name, P % ("", ""), SLEEPER)
    host = Host(base / "repo", root_of(base / "repo", *names), run=base / "r")
    for lanes in 1, 4:
        up_and_down(host, names, lanes)
    replaced(host, count)
    begun = time.monotonic()
    host.end()
    print(f"{count} instances: all shut down in {time.monotonic() - begun:.2f} s{AIMS['down']}")
    host.remove()


def up_and_down(host, names, lanes):
    """Starts all over so many sessions; stops them again one by one where that is one session."""
    count, many = len(names), f"{len(names)} instances by {lanes} session{'s' * (lanes > 1)}"
    pids = helpers(host)
    before = [processor(pid) for pid in pids]
    took = in_lanes(host, [f"start {name}" for name in names], lanes)
    runner, starter = ((processor(pid) - was) / count for pid, was in zip(pids, before))
    print(f"{many}: up in {took:.2f} s{AIMS['up']}; of the processor a start takes {runner:.0f} us of the "
          f"runner, {starter:.0f} of the starter")
    has = [f"{memory(pid):.0f} MB" for pid in pids]
    print(f"{many}: the runner has {has[0]}, the starter {has[1]}{AIMS['memory']}")
    if lanes == 1:
        begun = time.monotonic()
        host.ask(*[f"stop {name}" for name in names])
        print(f"{many}: stopped one by one in {time.monotonic() - begun:.2f} s{AIMS['down']}")


def helpers(host):
    """The processes of the runner and of its starter."""
    from cm_tools.host.starts import PROGRAM
    from tests.hosting.trial import cmdline

    return host.runner_pid(), next(pid for pid in host.below() if cmdline(pid)[3:4] == [PROGRAM])


def replaced(host, count):
    """Another manager by request, and behind one that is killed, while all run."""
    for why in "by request", "behind one that is killed":
        before = len(host.events("replaced"))
        host.own("replace") if why == "by request" else os.kill(host.manager_pids()[-1], signal.SIGKILL)
        host.wait(r"^replaced ", before + 1)
        held = host.events("replaced")[-1]["held_ms"]
        print(f"{count} instances: connects held {held:.0f} ms by another manager {why}{AIMS['held']}")
        host.wait_until(lambda: len(host.manager_pids()) == 1, "end of the first manager")


def stubborn(Host, folder, package, root_of, count=20):
    """A shutdown of programs that don't heed it."""
    base = folder()
    names = [f"c{number}" for number in range(count)]
    for name in names:
        package(base / "repo", name, P % (NOTIFY, ""), STUBBORN)
    host = Host(base / "repo", root_of(base / "repo", *names), run=base / "r")
    in_lanes(host, [f"start {name}" for name in names], 4)
    time.sleep(0.5)
    begun = time.monotonic()
    host.end()
    print(f"{count} programs that ignore their stop: all shut down in {time.monotonic() - begun:.2f} s"
          f"{AIMS['stubborn']}")
    host.remove()


def main():
    """Measures all."""
    sys.dont_write_bytecode = True
    sys.path.insert(0, str(TOP / "tools"))
    from tests.hosting.trial import Host, folder, package, root_of
    from tests.hosting.user import as_another_user, can_host

    if not can_host():
        return 0
    if os.getuid() == 0:
        return as_another_user(__file__)
    count = int(sys.argv[1]) if len(sys.argv) > 1 else 200
    print(f"load {os.getloadavg()[0]:.0f} on {os.cpu_count()} processors; a million steps of Python's loop "
          f"take {spin():.0f} ms", flush=True)
    connections(Host, folder, package, root_of)
    instances(Host, folder, package, root_of, count)
    stubborn(Host, folder, package, root_of)
    return 0


if __name__ == "__main__":
    sys.exit(main())
