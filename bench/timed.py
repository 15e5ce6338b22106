"""Runs a command and tells what it took; for the scripts of this folder.

Memory is what the kernel says when the command ends (the most that it, or a child that it waited for, had at once). That counts
the caller too, which becomes the command; so where it isn't more than the caller itself has had, what was seen of the command's
own memory while it ran stands instead. A caller should stay small: what makes files belongs in a process of its own, `apart`.
"""

import os
import resource
import statistics
import subprocess
import sys
import tempfile
import time
from dataclasses import dataclass

MIB = 1 << 20
BUILT = os.path.join(os.path.dirname(os.path.realpath(__file__)), "..", "crates", "mfdedup", "out", "mfdedup")


@dataclass
class Took:
    """What a command printed, seconds by the clock and of processor time, and the most memory in bytes."""

    text: str = ""
    clock: float = 0
    processor: float = 0
    memory: int = 0

    def __add__(self, next_):
        """Both, one after the other."""
        most = max(self.memory, next_.memory)
        return Took(self.text + next_.text, self.clock + next_.clock, self.processor + next_.processor, most)


def seen_memory(pid):
    """The most memory that the process itself has had so far, in bytes; 0 where it has ended."""
    try:
        with open(f"/proc/{pid}/status") as it:
            for line in it:
                if line.startswith("VmHWM:"):
                    return int(line.split()[1]) * 1024
    except OSError:
        pass
    return 0


def timed(words, source=None, target=None, environment=None):
    """Runs the words, from the file `source` into the file `target` where they are named. Ends this script where they fail."""
    most = 0
    with open(source or os.devnull, "rb") as given, open(target, "wb") if target else tempfile.TemporaryFile("w+b") as out:
        with tempfile.TemporaryFile() as errors:
            began = time.monotonic()
            child = subprocess.Popen(words, stdin=given, stdout=out, stderr=errors, env=os.environ | (environment or {}))
            own = resource.getrusage(resource.RUSAGE_SELF).ru_maxrss * 1024
            while True:
                pid, status, used = os.wait4(child.pid, os.WNOHANG)
                if pid:
                    break
                most = max(most, seen_memory(child.pid))
                time.sleep(0.002)
            ended = time.monotonic()
            child.returncode = os.waitstatus_to_exitcode(status)
            text = ""
            if not target:
                out.seek(0)
                text = out.read().decode(errors="replace")
            if child.returncode:
                errors.seek(0)
                said = text + errors.read().decode(errors="replace")
                sys.exit(f"{' '.join(words)}: status {child.returncode}\n{said}")
    if used.ru_maxrss * 1024 > own:
        most = used.ru_maxrss * 1024
    return Took(text, ended - began, used.ru_utime + used.ru_stime, most)


def apart(call, *given):
    """Calls it in a process of its own."""
    pid = os.fork()
    if not pid:
        try:
            call(*given)
            os._exit(0)
        except BaseException as fault:
            print(f"{call.__name__}: {fault!r}", file=sys.stderr, flush=True)
            os._exit(1)
    if os.waitpid(pid, 0)[1]:
        sys.exit(1)


def built_program():
    """The path of the program; ends this script where it isn't built."""
    if not os.path.isfile(BUILT):
        sys.exit("the program isn't built: run `rt run` in crates/mfdedup")
    return os.path.realpath(BUILT)


def store_bytes(extent, extents, retain):
    """What a store of this shape needs (docs/FORMAT.md)."""
    return 64 + 2 * (10 + 64 + 36 * retain + 10 * retain * (retain + 1) + 28 * extents + 1 + 65_536) + extents * extent


def middle(numbers):
    return statistics.median(numbers)
