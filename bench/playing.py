"""Playing a script on a program, for the benchmarks."""
import os
import subprocess
import sys


def play(command, script, replies):
    """Plays a script once: seconds of a processor, and the peak in megabytes."""
    with open(script, "rb") as source, open(replies, "wb") as sink:
        child = subprocess.Popen(command, stdin=source, stdout=sink)
        _, status, usage = os.wait4(child.pid, 0)
    child.returncode = os.waitstatus_to_exitcode(status)
    if child.returncode != 0:
        sys.exit("%s ended with %d" % (" ".join(command), child.returncode))
    return usage.ru_utime + usage.ru_stime, usage.ru_maxrss / 1024
