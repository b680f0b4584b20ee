"""Queries over data of the shapes of real sites: closures, cross references, long lists, plans of many conditions."""
import os
import random

from measure import exponent, least, strudel, written
import shapes

# What a run may use before it is ended: queries that took minutes before are shown as such.
LIMIT = int(os.environ.get("BENCH_LIMIT", "120"))

ROOT = "<TEMPLATE R><SFMT @x></TEMPLATE>"


def told(seconds, asked=None):
    """The note beside a measurement: what is asked for, and whether the run was ended."""
    return "; ".join([f"ended after {LIMIT} s"] * (seconds is None) + [f"target: {asked}"] * (asked is not None))


def shown(folder, query, data):
    """Processor seconds and megabytes of the root page that shows what a chain gives, less the seconds of one that asks for nothing."""
    written(f"{folder}/q", [f"INPUT D CREATE R() {{ {query} }} OUTPUT S"])
    written(f"{folder}/d.ddl", data)
    words = ["page", "q", "t", "/R.html", "d.ddl"]
    written(f"{folder}/t", ["<TEMPLATE R>ok</TEMPLATE>"])
    nothing, _ = least(words, folder)
    written(f"{folder}/t", [ROOT])
    seconds, memory = least(words, folder, limit=LIMIT)
    return None if seconds is None else max(seconds - nothing, 0.0), memory


COUNTRIES = """INPUT World
{ CREATE Home() }
{ WHERE Countries(c), c -> l -> v
  CREATE Country(c) LINK Country(c) -> l -> v, Home() -> "country" -> Country(c) }
{ WHERE Subdivisions(s), s -> l -> v
  CREATE Part(s) LINK Part(s) -> l -> v
  { WHERE l = "type" CREATE Type(v) LINK Type(v) -> "title" -> v, Type(v) -> "part" -> Part(s), Home() -> "type" -> Type(v) } }
{ WHERE Subdivisions(s), s -> "parent"."parent"* -> p, p -> "code" -> k LINK Part(s) -> "within" -> k }
{ WHERE Subdivisions(s), s -> "parent"."parent"* -> p, Countries(p) LINK Country(p) -> "part" -> Part(s) }
OUTPUT Site
"""

COUNTRIES_PAGES = """<TEMPLATE Home><SFMT @country LINK=name DELIM=", "><SFMT @type LINK=title DELIM=", "></TEMPLATE>
<TEMPLATE Country><h1><SFMT @name></h1><SFMT @part LINK=name DELIM=", "></TEMPLATE>
<TEMPLATE Type><h1><SFMT @title></h1><SFMT @part LINK=name DELIM=", "></TEMPLATE>
<TEMPLATE Part><h1><SFMT @name></h1><SFMT @type>: <SFMT @within DELIM=", "></TEMPLATE>
"""

JOURNAL = """INPUT Journal
{ CREATE Home() }
{ WHERE Papers(x), x -> l -> v
  CREATE Paper(x) LINK Paper(x) -> l -> v
  { WHERE l = "year" CREATE Year(v) LINK Year(v) -> "title" -> v, Year(v) -> "paper" -> Paper(x), Home() -> "year" -> Year(v) }
  { WHERE l = "author" CREATE Author(v) LINK Author(v) -> "name" -> v, Author(v) -> "paper" -> Paper(x), Home() -> "author" -> Author(v) } }
{ WHERE Papers(x), x -> "crossref"."crossref"* -> b, b -> "key" -> k LINK Paper(x) -> "in" -> k }
{ WHERE Papers(x), x -> "crossref" -> b, b -> "title" -> t
  CREATE Issue(b) LINK Issue(b) -> "title" -> t, Issue(b) -> "paper" -> Paper(x), Paper(x) -> "issue" -> Issue(b), Home() -> "issue" -> Issue(b) }
{ WHERE Papers(x), y -> "cites" -> x, y -> "title" -> t LINK Paper(x) -> "cited by" -> t }
OUTPUT Site
"""

JOURNAL_PAGES = """<TEMPLATE Home><SFMT @year LINK=title DELIM=", "><SFMT @issue LINK=title DELIM=", "><SFMT @author LINK=name DELIM=", "></TEMPLATE>
<TEMPLATE Year><h1><SFMT @title></h1><SFMT @paper LINK=title DELIM=", "></TEMPLATE>
<TEMPLATE Author><h1><SFMT @name></h1><SFMT @paper LINK=title DELIM=", "></TEMPLATE>
<TEMPLATE Issue><h1><SFMT @title></h1><SFMT @paper LINK=title DELIM=", "></TEMPLATE>
<TEMPLATE Paper><h1><SFMT @title></h1><SFMT @author DELIM=" and ">, <SFMT @issue LINK=title>, <SFMT @in DELIM="; "><SFMT @"cited by" DELIM="; "></TEMPLATE>
"""

GROUPS = """INPUT D
{ WHERE Entries(x), x -> "name" -> n, x -> "type" -> t
  CREATE Entry(x), Type(t)
  LINK Entry(x) -> "name" -> n, Entry(x) -> "type" -> Type(t), Type(t) -> "title" -> t, Type(t) -> "entry" -> Entry(x) }
OUTPUT Site
"""

GROUPS_PAGES = """<TEMPLATE Type><h1><SFMT @title></h1><SFMT @entry LINK=name DELIM=", "></TEMPLATE>
<TEMPLATE Entry><h1><SFMT @name></h1><SFMT @type LINK=title></TEMPLATE>
"""


def clicks(folder, addresses):
    """Processor seconds of each page of a site in `folder`, made when it is asked for, less those of a run that asks for no page.

    Both are long beside their difference, so each is the least of nine runs."""
    def script(asked):
        for n, address in enumerate(asked, 1):
            yield f'open {n} bytes {n} "GET {address} HTTP/1.1\\r\\nHost: a\\r\\n\\r\\n" end {n}\n'

    # (an address that names no page would cost nothing)
    strudel(["page", "q", "t", addresses[0], "d.ddl"], folder)
    words = ["replay", "q", "t", "script", "d.ddl"]
    written(f"{folder}/script", script(["/no"]))
    nothing, _ = least(words, folder, runs=9)
    written(f"{folder}/script", script(addresses))
    seconds, _ = least(words, folder, limit=LIMIT, runs=9)
    return None if seconds is None else max(seconds - nothing, 0.0) / len(addresses)


def site(folder, query, pages, data):
    """Writes a site's files."""
    written(f"{folder}/q", [query])
    written(f"{folder}/t", [pages])
    return written(f"{folder}/d.ddl", data)


def built(folder):
    """Processor seconds and megabytes of the whole site in files."""
    return least(["build", "q", "t", "site", "d.ddl"], folder, limit=LIMIT)


def bench_closures(folder):
    """Closures with a condition at both ends, shown on one page: the page's time less that of a page that asks for nothing."""
    rows, seconds = [], {}
    closure = 'WHERE Nodes(s), s -> "parent"."parent"* -> p, p -> "code" -> c, Listed(p) LINK R() -> "x" -> c'
    # (a member at one end, and a code at the other)
    plain = 'WHERE Nodes(s), s -> "parent"."parent"* -> p, p -> "code" -> c LINK R() -> "x" -> c'
    for count in (500, 5_000):
        seconds[count], memory = shown(folder, plain, shapes.forest(count, 40))
        rows.append((f"`parent` closure over {count:,} nodes in 40 trees, a condition at both ends", seconds[count], memory, told(seconds[count], "0.3 s" if count == 5_000 else None)))
    if all(it for it in seconds.values()):
        rows.append(("growth from 500 to 5,000 nodes", None, None, exponent(seconds, 500, 5_000)))
    few, memory = shown(folder, closure, shapes.forest(5_000, 40))
    rows.append(("the same if one node of a hundred is listed", few, memory, told(few, "0.3 s")))
    return rows


def bench_hurt(folder):
    """Made to hurt: chains whose shortest way is not the first that offers, shown on one page as above."""
    rows = []
    cases = [
        ("hub: 200 starts that reach 5,000 nodes, 20 ends to which one node leads", 'WHERE Starts(x), Ends(y), x -> "a"."a"* -> y LINK R() -> "x" -> y', shapes.hub(200, 5_000, 20), "0.2 s"),
        ("lists: people with ten tags and a country of 5,000 fans, each of whom likes two tags", 'WHERE People(x), x -> "tag" -> t, x -> "country" -> c, y -> "country" -> c, y -> "likes" -> t LINK R() -> "x" -> y', shapes.two_lists(200, 1_000, 5_000), "0.2 s"),
        ("two walks over 700 nodes that reach most others", 'WHERE Nodes(x), x -> "a"."a"* -> y, y -> "b"."b"* -> x LINK R() -> "x" -> y', shapes.tangle(700), None),
    ]
    for what, query, data, asked in cases:
        seconds, memory = shown(folder, query, data)
        rows.append((what, seconds, memory, told(seconds, asked)))
    return rows


def bench_sites(folder):
    """Sites of the shapes of real ones, built whole; and pages made by a click (a `replay` of so many pages less one of none)."""
    rows = []
    draw = random.Random(1)
    site(folder, COUNTRIES, COUNTRIES_PAGES, shapes.countries())
    seconds, memory = built(folder)
    rows.append(("build, 249 countries with 5,127 subdivisions", seconds, memory, told(seconds)))
    each = clicks(folder, [f"/Part/nd{draw.randrange(5_127)}.html" for _ in range(50)])
    rows.append(("a click of a subdivision", each, None, told(each)))
    site(folder, JOURNAL, JOURNAL_PAGES, shapes.journal(5_000))
    seconds, memory = built(folder)
    rows.append(("build, 5,000 papers with authors, years, issues and cross references", seconds, memory, told(seconds, "1.5 s")))
    each = clicks(folder, [f"/Paper/np{draw.randrange(5_000)}.html" for _ in range(50)])
    rows.append(("a click of a paper", each, None, told(each)))
    site(folder, GROUPS, GROUPS_PAGES, shapes.groups(20, 1_000))
    each = clicks(folder, [f"/Type/tType~20{n:03}.html" for n in range(20)])
    rows.append(("a click of a page that shows 1,000 links, of 20,000 entries", each, None, told(each, "5 ms")))
    each = clicks(folder, [f"/Entry/ne{draw.randrange(20_000)}.html" for _ in range(50)])
    rows.append(("a click of a page that shows the name of a page of 1,000 rows", each, None, told(each)))
    site(folder, PAPERS, PAPERS_PAGES, shapes.papers(20_000))
    seconds, memory = built(folder)
    rows.append(("build, 20,000 papers", seconds, memory, "memory at most what it was"))
    composed, memory = least(["data", "--over", "q", "d.ddl"], folder, limit=LIMIT)
    rows.append(("the same site as the data of another query (`data --over`)", composed, memory, told(composed, "twice the build")))
    return rows


PAPERS = """INPUT D
{ CREATE Home() }
{ WHERE P(x), x -> l -> v
  CREATE Paper(x)
  LINK Paper(x) -> l -> v
  { WHERE l = "y" CREATE Year(v) LINK Year(v) -> "paper" -> Paper(x), Home() -> "year" -> Year(v) } }
OUTPUT S
"""

PAPERS_PAGES = """<TEMPLATE Home><SFMT @year LINK></TEMPLATE>
<TEMPLATE Year><SFMT @paper LINK=t DELIM=", "></TEMPLATE>
<TEMPLATE Paper><h1><SFMT @t></h1><SFMT @y></TEMPLATE>
"""


def conditions(count, one):
    """A query of one chain of so many conditions."""
    return ["INPUT D WHERE P(x), ", ", ".join(one(n) for n in range(count)), " CREATE F(x) OUTPUT S\n"]


def bench_plans(folder):
    """Plans of 32,000 conditions: `explain`, less the same of one condition."""
    rows = []
    written(f"{folder}/d.ddl", shapes.papers(1_000))
    cases = [
        ("one label", lambda n: f'x -> "y" -> v{n % 31}'),
        ("32,000 labels", lambda n: f'x -> "l{n:05}" -> v{n % 31}'),
        ("comparisons", lambda n: f"x != {n}"),
    ]
    for what, one in cases:
        seconds = {}
        for count in (1, 32_000):
            written(f"{folder}/q", conditions(count, one))
            seconds[count], memory = least(["explain", "q", "d.ddl"], folder, limit=LIMIT)
        planned = seconds[32_000] and seconds[32_000] - seconds[1]
        rows.append((f"32,000 conditions, {what}: reading, planning and printing", planned, memory, told(planned, "0.2 s")))
    written(f"{folder}/q", ["INPUT D CREATE R() { WHERE P(x), ", ", ".join(f"x != {n}" for n in range(8_000)), ' LINK R() -> "x" -> x } OUTPUT S\n'])
    written(f"{folder}/t", [ROOT])
    seconds, memory = least(["page", "q", "t", "/R.html", "d.ddl"], folder, limit=LIMIT)
    rows.append(("one page over a chain of 8,000 conditions, 1,000 rows", seconds, memory, told(seconds)))
    return rows
