"""What `run` and `serve` told, held against the journal of it: each answer has an entry that decides it."""

import re

ARROW = " => "
# Of an answer's first line, the events that decide it, and their reply. An event stands for all that begin
# so, and a reply that ends in `*` for all that begin so. What is in braces is a group of the pattern.
DECISIONS = [
    (re.compile(pattern + r"\Z"), events.split("|"), reply)
    for pattern, events, reply in (
        (r"resolved \S+ action (\d+)", "end {0} resolved |await {0}", "ended resolved"),
        (r"started \S+ action (\d+)", "end {0} started|await {0}", "ended started"),
        (r"stopped \S+ action (\d+)", "end {0} stopped|await {0}", "ended stopped"),
        (r"stopped \S+ by-force action (\d+)", "end {0} killed|await {0}", "ended killed"),
        (r"resolved \S+ already", "begin resolve ", "already"),
        (r"started \S+ already", "begin start ", "already"),
        (r"stopped \S+ already", "begin stop ", "already"),
        (r"shut \S+", "pick ", "done"),
        (r"destroyed \S+", "purge ", "purged*"),
        (r"created \S+ ([^ :]+):(\S+) incarnation (\d+)", "create ", "created {2}"),
        (r"children \S+ (\S+) (\d+)", "list ", "listed {1}"),
        (r"opened (.+)", "open |open-exposed ", "opened {0} through *"),
        (r"route (.+)", "route ", "given {0}"),
        (r"shown \S+ incarnation (\d+) url \S+ (.+)", "show {0}", "shown {1}"),
        (r"survey \S+ (\d+)", "survey ", "surveyed {0}"),
        (r"doctor \S+ \d+", "survey ", "surveyed *"),
        (r"exited \S+ already", "exited ", "already"),
        (r"exited \S+", "exited ", "left"),
        (r"events \S+ \d+ next (\d+)", "tail ", "tailed {0}"),
        (r"refused 60 collection-not-found", "list |create ", "no-collection"),
        (r"refused 61 already-exists incarnation (\d+)", "create ", "exists {0}"),
        (r"refused 62 dynamic-offers-refused", "create ", "offers-refused"),
        (r"refused 63 bad-offer (\d+ \d+)", "create ", "bad-offer {0}"),
        (r"refused 64 offer-cycle (.+)", "create ", "cycle {0}"),
        (r"refused 65 parent-closing incarnation (\d+)", "create ", "closing {0}"),
        (r"refused 67 full", "create ", "full"),
        (r"refused 68 not-dynamic", "mark doomed ", "not-dynamic"),
        (r"refused 80 not-found in (\S+)", "find ", "not-found {0}"),
        (r"refused 81 gone incarnation (\d+)", "", "gone {0}"),
        (r"refused 82 shut incarnation (\d+)", "", "shut {0}"),
        (r"refused 83 cannot-resolve action (\d+) (.+)", "end {0} |await {0}", "ended {1}"),
        (r"refused 84 cannot-start action (\d+) (.+)", "end {0} |await {0}", "ended {1}"),
        (r"refused 85 client-off", "open ", "client-off"),
        (r"refused 86 no-such-use", "route |open ", "no-such-use"),
        (r"refused 87 (\S+ at .+)", "", "failed {0}"),
        (r"refused 88 (void at .+)", "", "{0}"),
        (r"refused 89 source-shut incarnation (\d+)", "", "source-shut {0}"),
    )
]
# What an entry told that is an event of a stream.
HAPPENED = {
    "resolved": ("ended resolved",),
    "started": ("ended started",),
    "stopped": ("ended stopped", "ended killed", "left"),
    "destroyed": ("purged ",),
}


def entries_of(journal):
    """The entries of a journal's text: the number, the caller, the event and the reply of each."""
    lines = journal.split("\n")
    root = next(at for at, line in enumerate(lines) if line.startswith("root "))
    return [entry_of(line) for line in lines[root + 1 :] if line]


def entry_of(line):
    """The number, the caller, the event and the reply of an entry's line."""
    asked, _, reply = line.rpartition(ARROW)
    number, caller, event = asked.split(" ", 2)
    return int(number), int(caller), event, reply


def replies_of(text):
    """The replies of a text: each a line, with the lines behind it that begin with two spaces."""
    replies = []
    for line in text.split("\n")[:-1]:
        if line.startswith("  ") and replies:
            replies[-1].append(line[2:])
        else:
            replies.append([line])
    return replies


def decision(lines):
    """The events that decide a reply, and what they were answered; None for a reply that isn't known."""
    for pattern, events, reply in DECISIONS:
        found = pattern.match(lines[0])
        if found:
            wanted = reply.format(*found.groups())
            if lines[0].startswith(("children ", "survey ")):
                wanted += "".join(f" [{line}]" for line in lines[1:])
            return tuple(event.format(*found.groups()) for event in events), wanted
    return None


def decisions(lines):
    """The decisions of a reply in their order: of a doctor one for each line that isn't `unresolved`."""
    found = [decision(lines)]
    if lines[0].startswith("doctor "):
        texts = [line.split(" ", 2)[2] for line in lines[1:] if not line.endswith(" unresolved")]
        found += [decision([text]) for text in texts]
    return found


def fits(events, wanted, event, reply):
    """Whether an entry is one that decides so."""
    told = reply.startswith(wanted[:-1]) if wanted.endswith("*") else reply == wanted
    return told and event.startswith(events)


def odd_reply(replies, entries):
    """The first of a caller's replies that its own entries don't decide in this order, if there is one."""
    left = iter(entries)
    for lines in replies:
        for decided in decisions(lines):
            if decided is None or not any(fits(*decided, event, reply) for _, _, event, reply in left):
                return lines[0]
    return None


def odd_happening(replies, entries):
    """The first line of an event that no entry tells as it does; None if there is none."""
    for lines in replies:
        for line in lines[1:] if lines[0].startswith("events ") else ():
            number, kind = line.split(" ")[:2]
            told = entries[int(number) - 1][3] if 0 < int(number) <= len(entries) else ""
            if not told.startswith(HAPPENED.get(kind, ("?",))):
                return line
    return None
