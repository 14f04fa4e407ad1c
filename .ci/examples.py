#!/usr/bin/env python3
"""Runs the examples of Markdown files, and compares what they print with what the files say.

    .ci/examples.py [--program PATH] [--seconds N] FILE...

An example stands in a fenced block whose language is `console`, or in a page of help, a file `*.txt`, in
lines that are set in by four spaces. A line that begins with `$ ` is a command;
where it ends with a backslash, the next line belongs to it. What follows up to the next command is the output
that is expected, with two marks: a line `# status N` says the exit status, which else has to be 0, and a line
`...` stands for any number of lines. Empty lines at the end of an output don't count, and the error stream
isn't compared.

Commands are run by sh, one after another, in a copy of the repository's top whose entries are links, so that
a file that an example writes at the top comes to stand there. With --program, ./component_manager is the
program at PATH, except for the words for help, which the script at the top answers. `rt try -- WORDS`, by
which a document runs the program before it is proved, runs the same one. --seconds is how long one command
may take.

Each difference is printed with its file and line. The status is 0 where all examples print what is said, 1
where one doesn't or there is none, and 2 for words that are none of these or a file that can't be read.
"""

import argparse
import os
import re
import shlex
import subprocess
import sys
import tempfile

TOP = os.path.dirname(os.path.dirname(os.path.abspath(__file__)))
FENCE = re.compile(r" {0,3}(`{3,}|~{3,})\s*(\S*)")
STATUS = re.compile(r"# status (\d+)\s*")
SCRIPT = "component_manager"
# What a page of help sets an example in by.
INDENT = "    "


class Example:
    """A command with the output and the exit status that are expected."""

    def __init__(self, file, line, command):
        self.file, self.line, self.command = file, line, command
        self.output, self.status = [], 0

    def add(self, line):
        """Takes a line that follows the command."""
        status = STATUS.fullmatch(line)
        if self.command.endswith("\\") and not self.output:
            self.command = self.command[:-1] + line.strip()
        elif status:
            self.status = int(status[1])
        else:
            self.output.append(line)


def examples_of(file):
    """The examples of a Markdown file or of a page of help, in order."""
    if file.endswith(".txt"):
        return examples_of_page(file)
    found, fence, example = [], None, None
    with open(file, encoding="utf-8") as lines:
        for number, line in enumerate(lines, 1):
            line = line.rstrip("\n")
            opens = FENCE.match(line)
            if fence is None and opens:
                fence, is_console, example = opens[1], opens[2] == "console", None
            elif fence is not None and line.strip() == fence:
                fence = None
            elif fence is None or not is_console:
                continue
            elif line.startswith("$ "):
                example = Example(file, number, line[2:])
                found.append(example)
            elif example is not None:
                example.add(line)
    return found


def examples_of_page(file):
    """The examples of a page of help: a block of lines that are set in, from a command on."""
    found, example = [], None
    with open(file, encoding="utf-8") as lines:
        for number, line in enumerate(lines, 1):
            line, is_inside = line.rstrip("\n").removeprefix(INDENT), line.startswith(INDENT)
            if is_inside and line.startswith("$ "):
                example = Example(file, number, line[2:])
                found.append(example)
            elif is_inside and example is not None:
                example.add(line)
            else:
                example = None
    return found


def without_empty_end(lines):
    """The lines without the empty ones at their end."""
    end = len(lines)
    while end and not lines[end - 1].strip():
        end -= 1
    return lines[:end]


def fits(expected, printed):
    """Whether the printed lines are the expected ones, where `...` stands for any number of lines."""
    ends = {0}
    for line in expected:
        if line.strip() == "...":
            ends = set(range(min(ends, default=len(printed) + 1), len(printed) + 1))
        else:
            ends = {end + 1 for end in ends if end < len(printed) and printed[end] == line}
    return len(printed) in ends


def make_copy(folder, program):
    """Fills a folder with links to what stands at the repository's top, but for the script there: one calls
    it in its place, with the program that is given.
    """
    for name in os.listdir(TOP):
        if name != SCRIPT:
            os.symlink(os.path.join(TOP, name), os.path.join(folder, name))
    own, script = shlex.quote(os.path.join(TOP, SCRIPT)), os.path.join(folder, SCRIPT)
    given = f"export COMPONENT_MANAGER_PROGRAM={shlex.quote(program)}\n" if program else ""
    with open(script, "w", encoding="utf-8") as it:
        it.write(f'#!/bin/sh\n{given}exec {own} "$@"\n')
    os.chmod(script, 0o755)


def run(command, folder, program, seconds):
    """What a command prints, and its exit status; None as the status where it took too long."""
    # The tools take the program that this variable names.
    given = {**os.environ, "COMPONENT_MANAGER": program} if program else dict(os.environ)
    # A file and no pipe, since a command may leave a program behind that holds its output open.
    with tempfile.TemporaryFile() as out:
        how = {"stdin": subprocess.DEVNULL, "stdout": out, "timeout": seconds, "check": False}
        try:
            status = subprocess.run(["sh", "-c", command], cwd=folder, env=given, **how).returncode
        except subprocess.TimeoutExpired:
            status = None
        out.seek(0)
        return out.read().decode("utf-8", "replace"), status


def differs(example, folder, program, seconds):
    """Whether an example prints something else, which is then told."""
    text, status = run(example.command, folder, program, seconds)
    expected, printed = without_empty_end(example.output), without_empty_end(text.split("\n"))
    if status == example.status and fits(expected, printed):
        return False
    print(f"{example.file}:{example.line}: $ {example.command}")
    if status is None:
        print(f"  it didn't end within {seconds} seconds")
    elif status != example.status:
        print(f"  status {status}, where {example.status} is expected")
    if not fits(expected, printed):
        print("  expected:", *(f"    {line}" for line in expected), sep="\n")
        print("  printed:", *(f"    {line}" for line in printed), sep="\n")
    return True


def words():
    """The words of the command line."""
    parser = argparse.ArgumentParser(description="Runs the examples of Markdown files.")
    parser.add_argument("--program", metavar="PATH", help="the program that ./component_manager takes")
    parser.add_argument("--seconds", metavar="N", type=int, default=600,
                        help="how long a command may take (default: 600)")
    parser.add_argument("files", metavar="FILE", nargs="+")
    return parser.parse_args()


def main():
    given = words()
    program = os.path.abspath(given.program) if given.program else None
    if program is None:
        # The first use of the script at the top may make a program, which takes longer than an example may.
        subprocess.run([os.path.join(TOP, SCRIPT), "--where"], stdout=subprocess.DEVNULL, check=False)
    try:
        examples = [example for file in given.files for example in examples_of(file)]
    except OSError as fault:
        print(f"examples.py: {fault}", file=sys.stderr)
        return 2
    with tempfile.TemporaryDirectory(prefix="examples-") as folder:
        make_copy(folder, program)
        count = sum(differs(example, folder, program, given.seconds) for example in examples)
    print(f"{len(examples)} examples, {count} differ")
    return 0 if examples and not count else 1


if __name__ == "__main__":
    sys.exit(main())
