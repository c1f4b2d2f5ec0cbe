"""What one call of a program takes: its processor seconds, its memory and the seconds by the clock."""
import os
import re
import subprocess
import sys
import time
from typing import NamedTuple


class Timed(NamedTuple):
    seconds: float
    megabytes: float
    clock: float
    status: int
    err: str


def timed(words, folder, out=subprocess.DEVNULL):
    """What a call in a folder took; its output goes where it is asked for."""
    begun = time.monotonic()
    with subprocess.Popen(words, cwd=folder, stdout=out, stderr=subprocess.PIPE) as ran:
        err = ran.stderr.read().decode("utf-8", "replace")
        _, status, used = os.wait4(ran.pid, 0)
        ran.returncode = os.waitstatus_to_exitcode(status)
    return Timed(used.ru_utime + used.ru_stime, used.ru_maxrss / 1024, time.monotonic() - begun, ran.returncode, err)


def instructions(words, folder):
    """The instructions of one call, counted by valgrind, and what it writes."""
    ran = subprocess.run(["valgrind", "--tool=callgrind", "--callgrind-out-file=/dev/null", *words], cwd=folder, capture_output=True, text=True, check=False)
    counted = re.search(r"Collected : (\d+)", ran.stderr)
    if not counted:
        sys.exit(f"{words}: {ran.stderr[:300].strip()}")
    return int(counted[1]), ran.stdout


def by_turns(calls, times, call):
    """For each of these calls what it comes to, so many times; they take turns, so that a slow minute of the machine strikes them alike."""
    return list(zip(*[[call(words) for words in calls] for _ in range(times)]))
