"""Each allocation refused in turn: every run gives the whole answer or shows that memory ran out, in one of the ways that the command has."""
import os
import re
import shutil
import subprocess
import sys

from measure import STRUDEL, TOP, knows, written

HERE = os.path.dirname(os.path.abspath(__file__))
EXAMPLE = os.path.join(TOP, "examples", "bibliography")
REFUSED = b"HTTP/1.1 503 Service Unavailable\r\nContent-Length: 0\r\nConnection: close\r\n\r\n"


def refuser(folder):
    """The library that refuses an allocation, compiled."""
    compiler = next((it for it in ("cc", "gcc", "clang") if shutil.which(it)), None)
    if compiler is None:
        subprocess.run(["apt-get", "install", "-y", "-q", "gcc", "libc6-dev"], stdout=subprocess.DEVNULL, check=True)
    made = f"{folder}/refuse.so"
    subprocess.run([compiler or "gcc", "-O2", "-shared", "-fPIC", "-o", made, f"{HERE}/refuse.c"], check=True)
    return made


def run(library, folder, words, number, program=None):
    """The status, output and error output of a run in which the allocation of this number is refused, and the number of all."""
    told = f"{folder}/told"
    environment = {**os.environ, "LD_PRELOAD": library, "REFUSE": str(number), "REFUSE_TOLD": told}
    # (the launcher ./strudel would be refused its own allocations)
    done = subprocess.run([program or PROGRAM, *words], cwd=folder, env=environment, stdin=subprocess.DEVNULL, capture_output=True)
    with open(told) as file:
        return done.returncode, done.stdout, done.stderr, int(file.read())


def is_launcher(path):
    with open(path, "rb") as file:
        return file.read(2) == b"#!"


# The launcher is a script of the shell: the program itself lies where it puts it.
PROGRAM = os.path.join(TOP, "crates", "strudel", "out", "strudel") if os.path.exists(STRUDEL) and is_launcher(STRUDEL) else STRUDEL


def shows(status, err, wanted):
    """How a run shows that memory ran out, by its status and its line; None where it doesn't."""
    if (status, err) == (8, b"strudel: out of memory\n"):
        return "status 8"
    if (status, err) == (8, b""):
        return "status 8 without its line"
    if status == 5 and err.startswith(b"strudel: cannot write"):
        return "status 5"
    return None


def files_below(folder):
    """The files of a built site by their paths in it."""
    return {os.path.relpath(f"{at}/{name}", folder): open(f"{at}/{name}", "rb").read() for at, _, names in os.walk(folder) for name in names}


def judge_text(ample, found, _folder):
    """A command whose answer is a text: the whole of it, or a prefix and a status that shows why."""
    if found[:3] == ample[:3]:
        return "the answer"
    how = shows(found[0], found[2], ample)
    return how if how and ample[1].startswith(found[1]) else None


def judge_build(ample, found, folder):
    """A site in files: all of them, or whole ones among them and a status that shows why."""
    made = files_below(f"{folder}/site")
    if found[:3] == ample[:3]:
        return "the answer" if made == ample[4] else None
    how = shows(found[0], found[2], ample)
    whole = all(ample[4].get(path) == text for path, text in made.items())
    return how if how and whole and ample[1].startswith(found[1]) else None


def connections(out):
    """What each connection was sent, by its number, and the counts at the end; None where the output isn't so."""
    sent = {}
    while found := re.match(rb"connection (\d+) (\d+)\n", out):
        size = int(found[2])
        sent[int(found[1])], out = out[found.end() : found.end() + size], out[found.end() + size :]
        if not out.startswith(b"\n"):
            return None
        out = out[1:]
    counts = re.fullmatch(rb"connections (\d+)\nreplies (\d+)\nhits (\d+)\n", out)
    return (sent, [int(it) for it in counts.groups()]) if counts else None


def judge_replay(ample, found, _folder):
    """Replies to connections: the whole output; or each connection has its replies or the one of 503; or a status that shows why."""
    if found[:3] == ample[:3]:
        return "the answer"
    if found[0] != 0:
        how = shows(found[0], found[2], ample)
        return how
    whole, told = connections(ample[1]), connections(found[1])
    if whole is None or told is None or whole[0].keys() != told[0].keys() or found[2]:
        return None
    refused = [number for number, text in told[0].items() if text != whole[0][number]]
    if any(told[0][number] != REFUSED for number in refused):
        return None
    right = told[1][0] == whole[1][0] and told[1][1] == whole[1][1] - len(refused)
    return "a connection has the 503" if right and refused else None


def bytewise(address):
    """A script of two connections that ask for the same page, one byte an event, turn by turn."""
    yield "open 1 open 2\n"
    for byte in [*f"GET {address} HTTP/1.1", "\\r", "\\n", *"Host: a", "\\r", "\\n", "\\r", "\\n"]:
        yield f'bytes 1 "{byte}" bytes 2 "{byte}"\n'


def swept(library, folder, words, judge):
    """What the runs came to, by how they ended, over each allocation of the command."""
    shutil.rmtree(f"{folder}/site", ignore_errors=True)
    ample = run(library, folder, words, 0)
    ample = (*ample, files_below(f"{folder}/site"))
    counts = {}
    for number in range(1, ample[3] + 1):
        shutil.rmtree(f"{folder}/site", ignore_errors=True)
        found = run(library, folder, words, number)
        how = judge(ample, found, folder)
        if how is None:
            sys.exit(f"{' '.join(words)}, allocation {number} refused: status {found[0]}, {found[1]!r}, {found[2]!r}")
        counts[how] = counts.get(how, 0) + 1
    return ample, counts


def bench_memory(folder):
    """Each allocation of a command refused in turn, in a run of its own: the answer, or out of memory as the command shows it. Any other end fails the benchmark."""
    if not os.access(PROGRAM, os.X_OK):
        subprocess.run([STRUDEL, "version"], stdout=subprocess.DEVNULL, check=True)
    library = refuser(folder)
    for name in ("bib.ddl", "q.struql", "t.tmpl"):
        shutil.copy(f"{EXAMPLE}/{name}", folder)
    written(f"{folder}/script", bytewise("/YearPage/i1998.html"))
    written(f"{folder}/c.txt", ["REACHABLE PaperPage FROM RootPage\n"])
    runs = [
        ("page of a year", ["page", "q.struql", "t.tmpl", "/YearPage/i1998.html", "bib.ddl"], judge_text),
        ("replay of two connections, a byte an event", ["replay", "q.struql", "t.tmpl", "script", "bib.ddl"], judge_replay),
        ("build of the whole site", ["build", "q.struql", "t.tmpl", "site", "bib.ddl"], judge_build),
        ("data, written in canonical form", ["data", "bib.ddl"], judge_text),
        ("explain", ["explain", "q.struql", "bib.ddl"], judge_text),
    ]
    if knows("check"):
        runs.append(("check of a constraint", ["check", "q.struql", "c.txt"], judge_text))
        runs.append(("check of a constraint in this site", ["check", "--here", "q.struql", "c.txt", "bib.ddl"], judge_text))
    if knows("schema"):
        runs.append(("schema", ["schema", "q.struql"], judge_text))
    rows = []
    for what, words, judge in runs:
        ample, counts = swept(library, folder, words, judge)
        note = ", ".join(f"{count:,} {how}" for how, count in sorted(counts.items()))
        rows.append((f"{what}: {ample[3]:,} allocations, status {ample[0]} with all of them", None, None, note))
    return rows


def builder(folder, program):
    """A builder at its limits (two edges between two nodes, a third node and a third edge), each allocation refused in turn.

    `program` makes the calls, and ends with 0 where each was answered as its limits ask, with 8 where memory ran out and the graph is as it was."""
    library, words = refuser(folder), ["limits", "0", "0"]
    status, _, _, count = run(library, folder, words, 0, program)
    statuses = [run(library, folder, words, number, program)[0] for number in range(1, count + 1)]
    if status != 0 or set(statuses) - {0, 8}:
        sys.exit(f"a builder at its limits: status {status}, and {statuses} with an allocation refused")
    return (f"a builder at its limits, {count:,} allocations refused in turn", None, None, f"{statuses.count(8)} out of memory, {statuses.count(0)} the answer")
