#!/usr/bin/env python3
"""Checks manifests of 1,000, 4,000 and 16,000 children with an offer to each, and prints time and
memory for each, and their growth.

The memory that is told for a byte is that which the run takes above the run on a manifest of no
bytes, parted by the bytes read. Run it from anywhere: bench/manifests.py [PROGRAM]
"""
import os
import sys
import tempfile

HERE = os.path.dirname(os.path.abspath(__file__))
PROGRAM = sys.argv[1] if len(sys.argv) > 1 else os.path.join(HERE, "..", "component_manager")


def name(number):
    """A short name for each number."""
    digits = "0123456789abcdefghijklmnopqrstuvwxyz"
    text = digits[number % 36]
    while number >= 36:
        number //= 36
        text = digits[number % 36] + text
    return text


def manifest(children):
    """A manifest of so many children, each of which is offered something by the one before."""
    rows = ",".join("{name:'%s',url:'#c'}" % name(k) for k in range(children))
    pairs = [(name(k - 1), name(k)) for k in range(1, children)]
    offers = ",".join("{protocol:'p',from:'#%s',to:'#%s'}" % pair for pair in pairs)
    return "{children:[%s],offer:[%s]}" % (rows, offers)


def measure(text):
    """Seconds, KiB of memory, status and output of one run in a process of its own."""
    with tempfile.TemporaryFile("w+") as source, tempfile.TemporaryFile("w+") as out:
        source.write(text)
        source.seek(0)
        child = os.fork()
        if not child:
            os.dup2(source.fileno(), 0)
            os.dup2(out.fileno(), 1)
            os.execv(PROGRAM, [PROGRAM, "check"])
        _, status, usage = os.wait4(child, 0)
        out.seek(0)
        return usage.ru_utime + usage.ru_stime, usage.ru_maxrss, os.waitstatus_to_exitcode(status), out.read()


def main():
    _, least, _, _ = measure("{}")
    earlier = None
    for children in (1000, 4000, 16000):
        text = manifest(children)
        seconds, kib, status, out = measure(text)
        growth = "" if earlier is None else "  %.2f times the time of a quarter" % (seconds / earlier)
        print("%6d children, %8d bytes: %6.2f s  %6.1f MiB, %5.1f bytes for each byte read  status %d: %s%s"
              % (children, len(text), seconds, kib / 1024, (kib - least) * 1024 / len(text), status,
                 out.strip(), growth))
        earlier = seconds


if __name__ == "__main__":
    main()
