"""A filter that keeps out system calls which no program of a component needs.

It is a list of what is refused with EPERM; all else the kernel judges as ever. A call of another architecture
than the machine's own is refused too, since its numbers mean other calls.
"""

from __future__ import annotations

import os
import struct

# Of each machine: what the kernel calls it, and the numbers of the calls that are refused.
MACHINES = {"x86_64": 0xC000003E, "aarch64": 0xC00000B7}
REFUSED = {
    # Watching and changing other processes, and what the kernel keeps for debugging.
    "ptrace": (101, 117), "process_vm_readv": (310, 270), "process_vm_writev": (311, 271), "kcmp": (312, 272),
    "perf_event_open": (298, 241), "bpf": (321, 280), "userfaultfd": (323, 282), "syslog": (103, 116),
    # Programs for the kernel, and other kernels.
    "io_uring_setup": (425, 425), "io_uring_enter": (426, 426), "io_uring_register": (427, 427),
    "init_module": (175, 105), "finit_module": (313, 273), "delete_module": (176, 106),
    "kexec_load": (246, 104), "kexec_file_load": (320, 294), "reboot": (169, 142),
    # Mounts and namespaces.
    "mount": (165, 40), "umount2": (166, 39), "pivot_root": (155, 41), "chroot": (161, 51),
    "open_tree": (428, 428), "move_mount": (429, 429), "fsopen": (430, 430), "fsconfig": (431, 431),
    "fsmount": (432, 432), "fspick": (433, 433), "mount_setattr": (442, 442),
    "unshare": (272, 97), "setns": (308, 268),
    # Files by what isn't a path, and keys that outlive a process.
    "name_to_handle_at": (303, 264), "open_by_handle_at": (304, 265),
    "add_key": (248, 217), "request_key": (249, 218), "keyctl": (250, 219),
    # The system's own.
    "swapon": (167, 224), "swapoff": (168, 225), "acct": (163, 89), "quotactl": (179, 60),
    "settimeofday": (164, 170), "clock_settime": (227, 112), "clock_adjtime": (305, 266),
    "adjtimex": (159, 171),
    "lookup_dcookie": (212, 18), "nfsservctl": (180, 42), "vhangup": (153, 58), "iopl": (172, -1),
    "ioperm": (173, -1), "personality": (135, 92),
}
LOAD, EQUAL, AT_LEAST, ANSWER = 0x20, 0x15, 0x35, 0x06
ALLOW, KILL, EPERM = 0x7FFF0000, 0x80000000, 0x00050001
# x86_64 has a second table of calls, from this number on.
SECOND_TABLE = 0x40000000


def program(machine: str | None = None) -> bytes:
    """The filter as the kernel reads it; nothing for a machine that isn't known here."""
    machine = machine or os.uname().machine
    if machine not in MACHINES:
        return b""
    column = list(MACHINES).index(machine)
    numbers = sorted(calls[column] for calls in REFUSED.values() if calls[column] >= 0)
    steps = [(LOAD, 0, 0, 4), (EQUAL, 1, 0, MACHINES[machine]), (ANSWER, 0, 0, KILL), (LOAD, 0, 0, 0)]
    tests = [(AT_LEAST, SECOND_TABLE)] + [(EQUAL, number) for number in numbers]
    for place, (code, number) in enumerate(tests):
        steps.append((code, len(tests) - place, 0, number))
    steps += [(ANSWER, 0, 0, ALLOW), (ANSWER, 0, 0, EPERM)]
    return b"".join(struct.pack("=HBBI", *step) for step in steps)
