#!/usr/bin/env python3
"""Which constraints `check` answers yes, no and unknown: the worked ones of tests_constraints, and a hundred that are made here.

    bench/answers.py        prints the counts, and each constraint that is answered unknown
    bench/answers.py -v     prints each with its answer
"""
import collections
import re
import subprocess
import sys
import tempfile

from measure import STRUDEL, TOP, least, written

if {it for it in sys.argv[1:] if it.startswith("-")} - {"-v"}:
    print(__doc__.strip())
    sys.exit(0 if sys.argv[1:] == ["--help"] else 2)

# Ten queries, each beside ten constraints: comparisons, negations, lists, tests, paths and arcs.
MADE = [
    ('INPUT D { CREATE Home() } { WHERE Person(x), x -> "age" -> a, a < 18 CREATE Child(x) LINK Child(x) -> "age" -> a, Home() -> "child" -> Child(x) } '
     '{ WHERE Person(x), x -> "age" -> a, a <= 20 CREATE Young(x) LINK Young(x) -> "age" -> a, Child(x) -> "young" -> Young(x) } OUTPUT S',
     ['REACHABLE Child FROM Home', 'EACH Child LINKS "young" TO Young', 'REACHABLE Young FROM Home', 'ONE Child LINKS "age"', 'EACH Young LINKS "age" TO Child',
      'NONE Home LINKS "young"', 'ONLY Child LINKS "young" TO Young', 'NONE Child LINKS "age"', 'ONE Child LINKS "young"', 'ONLY Home LINKS "child" TO Child']),
    ('INPUT D { CREATE Home() } { WHERE Item(x), x -> "low" -> l, x -> "high" -> h, l < h CREATE Range(x) LINK Range(x) -> "low" -> l, Home() -> "range" -> Range(x) } '
     '{ WHERE Item(x) CREATE Page(x) LINK Home() -> "item" -> Page(x), Page(x) -> "range" -> Range(x) } OUTPUT S',
     ['REACHABLE Range FROM Home', 'REACHABLE Page FROM Home', 'EACH Page LINKS "range" TO Range', 'ONE Range LINKS "low"', 'NONE Range LINKS "low"',
      'NONE Range LINKS "high"', 'ONLY Range LINKS "low" TO Page', 'ONE Page LINKS "range"', 'EACH Range LINKS "low" TO Page', 'NONE Home LINKS "low"']),
    ('INPUT D { CREATE Home() } { WHERE Paper(x), not(x -> "draft" -> x) CREATE Shown(x) LINK Home() -> "paper" -> Shown(x) } '
     '{ WHERE Paper(x), x -> l -> v, l != "draft" LINK Shown(x) -> l -> v } OUTPUT S',
     ['REACHABLE Shown FROM Home', 'NONE Shown LINKS "draft"', 'NONE Shown LINKS "title"', 'ONE Shown LINKS "title"', 'ONLY Home LINKS "paper" TO Shown',
      'EACH Shown LINKS "title" TO Shown', 'EACH Home LINKS "paper" TO Shown', 'NONE Home LINKS "title"', 'ONE Home LINKS "paper"', 'ONLY Shown LINKS "draft" TO Home']),
    ('INPUT D { CREATE Home() } { WHERE Thing(x), x -> "kind" -> k, k in {"book", "film"} CREATE Work(x), Kind(k) LINK Work(x) -> "kind" -> Kind(k), Home() -> "kind" -> Kind(k) } '
     '{ WHERE Thing(x), x -> "kind" -> k, k = "book" CREATE Book(x) LINK Book(x) -> "work" -> Work(x), Home() -> "book" -> Book(x) } OUTPUT S',
     ['REACHABLE Book FROM Home', 'REACHABLE Kind FROM Home', 'REACHABLE Work FROM Home', 'EACH Book LINKS "work" TO Work', 'ONE Work LINKS "kind"',
      'ONE Book LINKS "work"', 'ONLY Work LINKS "kind" TO Kind', 'NONE Kind LINKS "work"', 'EACH Kind LINKS "work" TO Work', 'NONE Book LINKS "work"']),
    ('INPUT D { CREATE Home() } { WHERE Node(x), x -> "next"* -> y CREATE Way(x, y) LINK Home() -> "way" -> Way(x, y), Way(x, y) -> "end" -> y } '
     '{ WHERE Node(x), x -> "next"."next" -> y CREATE Two(x, y) LINK Two(x, y) -> "way" -> Way(x, y) } OUTPUT S',
     ['REACHABLE Way FROM Home', 'EACH Two LINKS "way" TO Way', 'REACHABLE Two FROM Home', 'ONE Way LINKS "end"', 'ONE Two LINKS "way"',
      'NONE Way LINKS "end"', 'ONLY Two LINKS "way" TO Way', 'EACH Way LINKS "end" TO Way', 'NONE Two LINKS "end"', 'ONLY Home LINKS "way" TO Two']),
    ('INPUT D { CREATE Home() } { WHERE Doc(x), x -> "size" -> n, isInt(n), n > 5 CREATE Big(x) LINK Home() -> "big" -> Big(x), Big(x) -> "size" -> n } '
     '{ WHERE Doc(x), x -> "size" -> n CREATE Sized(x) LINK Sized(x) -> "big" -> Big(x) } OUTPUT S',
     ['REACHABLE Big FROM Home', 'NONE Big LINKS "size"', 'ONE Big LINKS "size"', 'EACH Sized LINKS "big" TO Big', 'REACHABLE Sized FROM Home',
      'ONLY Sized LINKS "big" TO Big', 'NONE Sized LINKS "size"', 'EACH Big LINKS "size" TO Sized', 'ONE Sized LINKS "big"', 'NONE Home LINKS "size"']),
    ('INPUT D { CREATE Home() } { WHERE Place(x), x -> a -> y, a in {"north", "south"} CREATE Spot(x) LINK Spot(x) -> a -> Spot(y), Home() -> "spot" -> Spot(x) } OUTPUT S',
     ['REACHABLE Spot FROM Home', 'ONLY Spot LINKS "north" TO Spot', 'NONE Spot LINKS "east"', 'NONE Spot LINKS "north"', 'ONE Spot LINKS "north"',
      'EACH Spot LINKS "south" TO Spot', 'ONLY Spot LINKS "south" TO Home', 'NONE Home LINKS "north"', 'ONLY Home LINKS "spot" TO Spot', 'EACH Home LINKS "spot" TO Spot']),
    ('INPUT D { CREATE Home() } { WHERE Song(x), x -> "by"."name" -> n, not(x -> "hidden"|"lost" -> n) CREATE Singer(n) LINK Home() -> "singer" -> Singer(n), Singer(n) -> "name" -> n } '
     '{ WHERE Song(x), x -> "by"."name" -> n, not(x -> "hidden" -> n) CREATE Name(n) LINK Name(n) -> "singer" -> Singer(n), Singer(n) -> "entry" -> Name(n) } OUTPUT S',
     ['REACHABLE Singer FROM Home', 'REACHABLE Name FROM Home', 'ONE Singer LINKS "name"', 'EACH Name LINKS "singer" TO Singer', 'EACH Singer LINKS "entry" TO Name',
      'ONE Name LINKS "singer"', 'ONLY Singer LINKS "entry" TO Name', 'NONE Name LINKS "name"', 'NONE Singer LINKS "name"', 'EACH Singer LINKS "name" TO Name']),
    ('INPUT D { CREATE Home() } { WHERE Part(x), x -> l -> v, isNode(v), l != "of" CREATE Part_(x) LINK Part_(x) -> l -> Part_(v), Home() -> "part" -> Part_(x) } '
     '{ WHERE Part(x), x -> "of" -> w CREATE Whole(w) LINK Whole(w) -> "part" -> Part_(x), Home() -> "whole" -> Whole(w) } OUTPUT S',
     ['REACHABLE Part_ FROM Home', 'REACHABLE Whole FROM Home', 'NONE Part_ LINKS "of"', 'NONE Part_ LINKS "part"', 'EACH Whole LINKS "part" TO Part_',
      'ONE Whole LINKS "part"', 'ONLY Part_ LINKS "part" TO Part_', 'ONLY Whole LINKS "part" TO Part_', 'ONE Part_ LINKS "part"', 'NONE Whole LINKS "whole"']),
    ('INPUT D { CREATE Home() } { WHERE Talk(x), x -> "start" -> s, x -> "end" -> e, s < e, e < 24 CREATE Talk_(x) LINK Talk_(x) -> "start" -> s, Home() -> "talk" -> Talk_(x) '
     '{ WHERE x -> "room" -> r CREATE Room(r) LINK Room(r) -> "talk" -> Talk_(x), Talk_(x) -> "room" -> Room(r), Home() -> "room" -> Room(r) } } OUTPUT S',
     ['REACHABLE Talk_ FROM Home', 'REACHABLE Room FROM Home', 'EACH Room LINKS "talk" TO Talk_', 'EACH Talk_ LINKS "room" TO Room', 'ONE Talk_ LINKS "room"',
      'NONE Room LINKS "start"', 'ONLY Talk_ LINKS "room" TO Room', 'ONE Talk_ LINKS "start"', 'ONLY Room LINKS "talk" TO Room', 'NONE Talk_ LINKS "talk"']),
]


def unquoted(text):
    """A Rust literal's text: an escaped line end takes the blanks behind it along."""
    return re.sub(r"\\\n\s*", "", text).replace('\\"', '"')


def worked():
    """The query and the constraint of each worked row of tests_constraints."""
    with open(f"{TOP}/crates/tests_constraints/src/verdicts.rt") as file:
        text = file.read()
    queries = {it: unquoted(body) for it, body in re.findall(r'const (\w+): &str =\s*"((?:\\.|[^"\\])*)";', text, re.S)}
    for query, constraint in re.findall(r'query: (\w+),\s*constraint: "((?:\\.|[^"\\])*)"', text, re.S):
        yield queries[query], unquoted(constraint)


def made():
    """The query and the constraint of each made row."""
    for query, constraints in MADE:
        for constraint in constraints:
            yield query, constraint


def answer(query, constraint, folder):
    """What `check` prints of the one constraint behind its number: yes, no or unknown, and the lines below."""
    written(f"{folder}/q", [query])
    written(f"{folder}/c", [constraint, "\n"])
    done = subprocess.run([STRUDEL, "check", "q", "c"], cwd=folder, capture_output=True, text=True)
    if done.returncode > 1:
        sys.exit(f"{query}\n{constraint}\nstatus {done.returncode}: {done.stderr}")
    first, _, rest = done.stdout.partition("\n")
    return first.removeprefix("1 "), rest


def is_broken_over(text, folder):
    """Whether `check --here` over this data text, with the query and the constraint of the folder, says broken."""
    written(f"{folder}/d.ddl", [text])
    done = subprocess.run([STRUDEL, "check", "--here", "q", "c", "d.ddl"], cwd=folder, capture_output=True, text=True)
    return done.stdout == "1 broken\n"


def answered(rows, folder, verbose=False):
    """How many of the rows have each answer. Each no has to be broken over its text, as it is printed."""
    counts = collections.Counter()
    for query, constraint in rows:
        said, rest = answer(query, constraint, folder)
        counts[said] += 1
        if said == "no" and not is_broken_over(rest, folder):
            sys.exit(f"not broken over its text:\n{query}\n{constraint}\n{rest}")
        if verbose or said == "unknown":
            print(f"{said}: {constraint}\n    {query}")
    return counts


def bench_answers(folder):
    """How long an answer takes, least of three runs of the whole program: of the worked constraints and of a hundred made ones. Target: 10 ms for a no of the worked ones."""
    rows = []
    for what, given in (("worked", list(worked())), ("made", list(made()))):
        slowest = collections.defaultdict(float)
        counts = collections.Counter()
        for query, constraint in given:
            said, _ = answer(query, constraint, folder)
            counts[said] += 1
            status = 0 if said == "yes" else 1
            slowest[said] = max(slowest[said], least(["check", "q", "c"], folder, status)[0])
        rows += [(f"{what}: {counts[said]} of {len(given)} are {said}, the slowest", slowest[said], None, "") for said in ("yes", "no", "unknown")]
    return rows


def main():
    verbose = "-v" in sys.argv[1:]
    with tempfile.TemporaryDirectory() as folder:
        for what, rows in (("worked", list(worked())), ("made", list(made()))):
            counts = answered(rows, folder, verbose)
            print(f"{what}: {len(rows)} constraints, " + ", ".join(f"{counts[it]} {it}" for it in ("yes", "no", "unknown")))


if __name__ == "__main__":
    main()
