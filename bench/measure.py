"""What the benchmarks share: how a run is measured, how files are written, and how a table is printed."""
import os
import shlex
import signal
import subprocess
import sys
import tempfile
from math import log
from typing import NamedTuple

TOP = os.path.dirname(os.path.dirname(os.path.abspath(__file__)))
STRUDEL = os.environ.get("STRUDEL") or os.path.join(TOP, "strudel")


def measured(words, folder, wanted=0, limit=None):
    """Processor seconds and megabytes of one run with the wanted status. (Wall-clock time says little on a machine that does other work.)

    A run that has used `limit` processor seconds is ended, and its seconds are None.
    GNU time begins the run, and tells its memory: what this process began itself would be charged with the 20 MB of Python."""
    if limit:
        words = ["sh", "-c", f"ulimit -S -t {limit}; exec {shlex.join(words)}"]
    with tempfile.NamedTemporaryFile("r") as told:
        timed = ["/usr/bin/time", "-q", "-f", "%M", "-o", told.name, *words]
        child = subprocess.Popen(timed, cwd=folder, stdout=subprocess.DEVNULL, stderr=subprocess.PIPE)
        errors = child.stderr.read()
        _, status, usage = os.wait4(child.pid, 0)
        seconds, memory = usage.ru_utime + usage.ru_stime, int(told.read().split()[-1]) / 1024
        ended = os.waitstatus_to_exitcode(status)
        if limit and ended == 128 + signal.SIGXCPU:
            return None, memory
        if ended != wanted:
            sys.exit(f"{' '.join(words)}: status {ended}: {errors.decode(errors='replace')}")
        return seconds, memory


def strudel(words, folder, wanted=0, limit=None):
    """The same for a run of the program with these words."""
    return measured([STRUDEL, *words], folder, wanted, limit)


def least(words, folder, wanted=0, limit=None, runs=3):
    """The least processor seconds of so many runs of the program, one where a run takes more than five seconds, and its megabytes."""
    best, memory = strudel(words, folder, wanted, limit)
    for _ in range(runs - 1):
        if best is not None and best < 5:
            best, memory = min((best, memory), strudel(words, folder, wanted, limit))
    return best, memory


def knows(command):
    """Whether the program has a command of this name."""
    return subprocess.run([STRUDEL, "help", command], stdout=subprocess.DEVNULL, stderr=subprocess.DEVNULL).returncode == 0


def written(path, pieces):
    """Writes the pieces of a text, and returns its size in MiB."""
    with open(path, "w") as file:
        file.writelines(pieces)
    return os.path.getsize(path) / 2**20


def exponent(seconds, low, high):
    """The power of the amount with which the seconds grow; none where a difference of two runs is lost in what they vary by."""
    if min(seconds[low], seconds[high]) <= 0:
        return "growth: not told, since one is less than what runs vary by"
    return f"N^{log(seconds[high] / seconds[low]) / log(high / low):.2f}"


def resident(pid):
    """The megabytes that a process holds."""
    with open(f"/proc/{pid}/status") as status:
        return next(int(line.split()[1]) for line in status if line.startswith("VmRSS")) / 1024


def spent(pid):
    """The processor seconds that a process has used."""
    with open(f"/proc/{pid}/stat") as stat:
        fields = stat.read().rpartition(")")[2].split()
    return (int(fields[11]) + int(fields[12])) / os.sysconf("SC_CLK_TCK")


class Compared(NamedTuple):
    """A row of the server next to nginx. What misses its target is in bold."""

    what: str
    target: str
    nginx: str
    strudel: str


def table(rows):
    """The rows of a benchmark (what, processor seconds, megabytes, a note; or all of them next to nginx) as a table."""
    if isinstance(rows[0], Compared):
        yield "| What | target | nginx | strudel |\n|---|---|---|---|\n"
        yield from (f"| {' | '.join(row)} |\n" for row in rows)
        return
    yield "| What | processor seconds | MB | |\n|---|---|---|---|\n"
    for what, seconds, memory, note in rows:
        yield f"| {what} | {'' if seconds is None else f'{seconds:.2f}' if seconds >= 0.01 else f'{round(seconds, 10):.2g}'} | {'' if memory is None else f'{memory:.0f}'} | {note} |\n"
