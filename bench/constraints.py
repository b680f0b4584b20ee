"""Constraints: in a large site (`check --here`), and for every data graph (`check`)."""
import glob
import os
import random

from measure import STRUDEL, TOP, knows, least, measured, written
from queries import PAPERS, PAPERS_PAGES
import shapes

# One of each kind, over the site of papers, years and a home page.
FIVE = """REACHABLE Paper FROM Home
EACH Year LINKS "paper" TO Paper
ONLY Home LINKS "year" TO Year
NONE Year LINKS "r"
ONE Paper LINKS "t"
"""


def bench_here(folder):
    """Constraints of all five kinds in the site of 20,000 papers, next to building the same site into files in memory."""
    if not knows("check"):
        return [("this program has no command `check`", None, None, "not measured")]
    written(f"{folder}/q", [PAPERS])
    written(f"{folder}/t", [PAPERS_PAGES])
    written(f"{folder}/five", [FIVE])
    rows = []
    for count in (2_000, 20_000):
        written(f"{folder}/d.ddl", shapes.papers(count))
        build, held = least(["build", "q", "t", "site", "d.ddl"], folder)
        seconds, memory = least(["check", "--here", "q", "five", "d.ddl"], folder)
        rows.append((f"build, {count:,} papers", build, held, ""))
        rows.append(("`check --here` of five constraints over the same", seconds, memory, f"{seconds / build:.2f} of build's time; target: 1.5 of it"))
        for line in FIVE.splitlines():
            written(f"{folder}/c", [line, "\n"])
            one, memory = least(["check", "--here", "q", "c", "d.ddl"], folder)
            rows.append((f"`{line}` alone", one, memory, ""))
    return rows


def chains(links, variables, draw):
    """A query of so many links, each in a block of its own with a chain of so many variables along one path, and some conditions besides."""
    yield "INPUT D CREATE Home()\n"
    for n in range(links):
        path = ", ".join(f'x{k} -> "a{draw.randrange(4)}" -> x{k + 1}' for k in range(variables - 1))
        yield f'{{ WHERE P(x0), {path}, x{variables - 1} != {n} CREATE F{n % 20}(x0) LINK F{n % 20}(x0) -> "l{n}" -> x{variables - 1}, Home() -> "f" -> F{n % 20}(x0) }}\n'
    yield "OUTPUT S\n"


def expression(*last):
    """An expression of 16 positions: any steps, these, and steps of any label for the rest."""
    return ".".join(["true*", *last, *["true"] * (15 - len(last))])


# Every path of the first is one of the second, which a search over sets of positions finds among 2^15 of them.
DEEP = f"""INPUT D
{{ WHERE P(x), x -> {expression('"a"', '"a"')} -> y CREATE F(x), G(y) }}
{{ WHERE P(x), x -> {expression('"a"')} -> y CREATE F(x), G(y) LINK F(x) -> "l" -> G(y) }}
OUTPUT S
"""


def checked(query, constraints, folder):
    """Processor seconds and megabytes of `check`, least of three; its status is 1 where some verdict isn't yes."""
    words = ["sh", "-c", f"{STRUDEL} check {query} {constraints}; test $? -le 1"]
    return min(measured(words, folder) for _ in range(3))


def bench_proofs(folder):
    """Constraints for every data graph: those of the examples, and a query of 200 links with 32 variables a chain."""
    if not knows("check"):
        return [("this program has no command `check`", None, None, "not measured")]
    rows, whole, lines = [], 0, 0
    for path in sorted(glob.glob(f"{TOP}/examples/*/site.constraints")):
        site = os.path.dirname(path)
        seconds, memory = checked("q.struql", path, site)
        with open(path) as file:
            count = sum(1 for line in file if line.split() and line.split()[0].isupper())
        whole, lines = whole + seconds, lines + count
        rows.append((f"examples/{os.path.basename(site)}, {count} constraints", seconds, memory, ""))
    rows.append((f"{lines} constraints of the examples", whole, None, "target: 0.1 s for sixty"))
    written(f"{folder}/q", chains(100, 32, random.Random(30)))
    texts = [f'EACH F{n} LINKS "l{n}" TO F{n}\nONE F{n} LINKS "l{n + 20}"\nREACHABLE F{n} FROM Home\n' for n in range(20)]
    written(f"{folder}/c", texts)
    seconds, memory = checked("q", "c", folder)
    rows.append(("60 constraints of a query of 200 links, 32 variables a chain", seconds, memory, "target: 1 s"))
    written(f"{folder}/q", [DEEP])
    written(f"{folder}/c", ['EACH F LINKS "l" TO G\n'])
    seconds, memory = checked("q", "c", folder)
    rows.append(("inclusion of expressions of 16 positions each, the last of 15 steps deciding", seconds, memory, "target: 1 s"))
    return rows
