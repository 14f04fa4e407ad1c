#!/usr/bin/env python3
"""A component manager that is wrong in one way: it runs the one that RIGHT names, and changes what that tells
in the way that WRONG names."""

import ctypes
import os
import re
import signal
import socket
import subprocess
import sys
import threading

sys.dont_write_bytecode = True
sys.path.insert(0, os.path.join(os.path.dirname(os.path.abspath(__file__)), ".."))

from cm_tools.meeting import connected

# How long the right program may take to listen, in seconds.
PATIENCE = 300
HEAD = b"journal\n"
# Of prctl(2): the signal that a process gets when the one that made it ends.
PR_SET_PDEATHSIG = 1


def in_answers(change):
    """What a run told, with its answers changed."""

    def changed(told):
        answers, head, journal = told.partition(HEAD)
        return change(answers) + head + journal

    return changed


def in_entries(change):
    """What a run told, with the list of its entries' lines changed."""

    def changed(told):
        answers, head, journal = told.partition(HEAD)
        lines = journal.split(b"\n")
        root = next((at for at, line in enumerate(lines) if line.startswith(b"root ")), len(lines))
        entries = lines[root + 1 : -1]
        if entries:
            change(entries)
        return answers + head + b"\n".join([*lines[: root + 1], *entries, b""])

    return changed


def another_number(entries):
    """The first action that begins is told as the one behind it."""
    for at, line in enumerate(entries):
        found = re.search(rb"=> begun (\d+)$", line)
        if found:
            entries[at] = line[: found.start(1)] + b"%d" % (int(found[1]) + 1)
            return


def another_caller(entries):
    """The last look for an instance is told as another lane's: the journal is legal all the same."""
    for at in reversed(range(len(entries))):
        number, caller, event = entries[at].split(b" ", 2)
        if event.startswith((b"find ", b"show ")):
            entries[at] = b" ".join([number, b"%d" % (int(caller) + 1), event])
            return


# What is changed of a run, of an audit, and of what a session replies.
RUNS = {
    "reply_word": in_answers(lambda text: re.sub(rb" incarnation (\d)", rb" incarnation 1\1", text, count=1)),
    "reply_number": in_answers(lambda text: re.sub(rb"action (\d)", rb"action 1\1", text, count=1)),
    "reply_of_another": in_answers(lambda text: text.replace(b"refused 80 not-found", b"refused 81 gone", 1)),
    "answer_dropped": in_answers(lambda text: text.partition(b"\n")[2]),
    "journal_number": in_entries(another_number),
    "journal_caller": in_entries(another_caller),
    "entry_dropped": in_entries(lambda entries: entries.pop(len(entries) // 2)),
    "last_entry_dropped": in_entries(lambda entries: entries.pop()),
}
AUDITS = {"always_legal": lambda text, _told: b"legal %d\n" % text[text.index(b"\nroot ") :].count(b" => ")}
SESSIONS = {
    "session_word": lambda told: told.replace(b"shown ", b"shewn "),
    "session_reply_dropped": lambda told: b"" if told.startswith(b"refused 8") else told,
}


def main():
    right, wrong, words = os.environ["RIGHT"], os.environ["WRONG"], sys.argv[1:]
    if words[0] == "serve" and wrong in SESSIONS:
        sys.exit(serve(right, words, SESSIONS[wrong]))
    if words[0] == "serve":
        os.execv(right, [right, *words])
    text = sys.stdin.buffer.read()
    done = subprocess.run([right, *words], input=text, stdout=subprocess.PIPE)
    told = done.stdout
    if words[0] == "run" and wrong in RUNS:
        told = RUNS[wrong](told)
    if words[0] == "audit" and wrong in AUDITS:
        told = AUDITS[wrong](text, told)
    sys.stdout.buffer.write(told)
    sys.exit(done.returncode)


def serve(right, words, change):
    """Serves by the right program behind another socket, whose lines are changed on their way."""
    path, behind = words[1], f"{words[1]}r"
    # The right program ends with this one, however this one ends.
    end_too = lambda: ctypes.CDLL(None).prctl(PR_SET_PDEATHSIG, signal.SIGKILL)
    process = subprocess.Popen([right, words[0], behind, *words[2:]], preexec_fn=end_too)
    door = socket.socket(socket.AF_UNIX, socket.SOCK_STREAM)
    os.umask(0o177)
    door.bind(path)
    door.listen()
    threading.Thread(target=accept, args=(door, behind, change), daemon=True).start()
    return process.wait()


def accept(door, behind, change):
    while True:
        client, _ = door.accept()
        link = connected(behind, PATIENCE)
        threading.Thread(target=pump, args=(client, link, None), daemon=True).start()
        threading.Thread(target=pump, args=(link, client, change), daemon=True).start()


def pump(source, target, change):
    """Hands on each line of a link, changed, to another one, and then its end."""
    with source.makefile("rb") as lines:
        for line in lines:
            target.sendall(change(line) if change else line)
    target.shutdown(socket.SHUT_WR)


if __name__ == "__main__":
    main()
