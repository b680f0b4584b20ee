"""Made data of the shapes that real sites have, and of shapes made to hurt. The same amount gives the same text on every machine.

Each function yields the pieces of a data text."""
import random


def forest(count, trees):
    """Nodes in trees, each but the roots with one parent, and a code; every hundredth is listed."""
    draw = random.Random(count)
    for n in range(count):
        parent = f"parent &s{draw.randrange(n // trees) * trees + n % trees}" if n >= trees else ""
        yield f'object s{n} in Nodes{", Listed" if n % 100 == 99 else ""} {{ code "S{n:05}" {parent} }}\n'


def countries(count=249, parts=5_127):
    """Countries with their subdivisions, most of them of the country itself and the rest of another subdivision, as the tables of ISO 3166 are."""
    draw = random.Random(3166)
    types = ["Province", "State", "District", "Region", "County", "Municipality", "Department", "Parish"]
    for n in range(count):
        yield f'object c{n} in Countries {{ code "C{n:03}" name "Country {n:03}" number {n} region "Region {n % 22}" }}\n'
    for n in range(parts):
        parent = f"c{n % count}" if n < count * 15 or draw.random() < 0.6 else f"d{n % count + count * draw.randrange(15)}"
        yield f'object d{n} in Subdivisions {{ code "C{n % count:03}-{n:04}" name "Part {n:04}" type "{types[draw.randrange(8)]}" parent &{parent} }}\n'


def journal(papers, volumes=160, authors=900):
    """A bibliography: papers with a year and one to three authors, each in an issue (its crossref), each issue in a volume; a third of the papers cite earlier ones."""
    draw = random.Random(papers)
    for n in range(volumes):
        year = 1980 + n // 4
        above = f"crossref &v{n - n % 4}" if n % 4 else ""
        yield f'object v{n} in Issues {{ key "vol{n // 4}:{n % 4}" title "Volume {n // 4}, number {n % 4}" year {year} journal "Journal of Pages" {above} }}\n'
    for n in range(papers):
        volume = n * volumes // papers
        names = " ".join(f'author "Author {draw.randrange(authors):03}"' for _ in range(1 + draw.randrange(3)))
        cited = f"cites &p{draw.randrange(n)}" if n % 3 == 2 else ""
        yield f'object p{n} in Papers {{ key "paper{n:05}" title "On pages and graphs, part {n:05}" year {1980 + volume // 4} pages "{n}--{n + 9}" {names} crossref &v{volume} {cited} }}\n'


def groups(count, each):
    """Entries of so many groups, each group with as many entries."""
    for n in range(count * each):
        yield f'object e{n} in Entries {{ name "Entry {n:06}" type "Type {n % count:03}" code {n} }}\n'


def hub(starts, reached, ends):
    """Starts that lead to a hub, which leads to many nodes; ends to which one node alone leads, and nothing to that."""
    for n in range(starts):
        yield f"object s{n} in Starts {{ a &hub }}\n"
    yield f"object hub {{ {' '.join(f'a &m{n}' for n in range(reached))} }}\n"
    yield f"object lonely {{ {' '.join(f'a &e{n}' for n in range(ends))} }}\n"
    for n in range(ends):
        yield f"object e{n} in Ends {{ n {n} }}\n"


def two_lists(people, tags, fans):
    """People with ten tags and one country, which is that of many fans; each fan likes two of many tags. So there are more likes than countries, though few for each tag."""
    for n in range(people):
        own = " ".join(f'tag "t{(n * 7 + k * 13) % tags:04}"' for k in range(10))
        yield f'object x{n} in People {{ country "c" {own} }}\n'
    for n in range(fans):
        yield f'object y{n} {{ country "c" likes "t{n % tags:04}" likes "t{(n * 3 + 1) % tags:04}" }}\n'


def tangle(count):
    """Nodes with three edges each to others, under two labels, so that each reaches most of the others by both."""
    draw = random.Random(count)
    for n in range(count):
        edges = " ".join(f"{label} &k{draw.randrange(count)}" for label in "aabb")
        yield f"object k{n} in Nodes {{ {edges} n {n} }}\n"


def papers(count, years=50):
    """The papers of the other benchmarks: a title, a year and a reference each."""
    for n in range(count):
        yield f'object p{n} in P {{ t "Title of {n:07}" y {1970 + n % years} r &p{(n * 7) % count} }}\n'


def listed(count, object_of):
    """A JSON array of so many objects, one a line."""
    yield "[\n"
    for n in range(count):
        yield object_of(n)
        yield ",\n" if n + 1 < count else "\n"
    yield "]\n"


def records(count):
    """The data of `papers` as JSON."""
    return listed(count, lambda n: f'{{"id": "p{n}", "t": "Title {n}", "y": {1970 + n % 50}, "r": "p{(n * 7) % count}"}}')


def entries(count):
    """The same as JSON without names, so that an object states three edges and a member, as in the data text."""
    return listed(count, lambda n: f'{{"t": "Title of {n:07}", "y": {1970 + n % 50}, "r": "p{(n * 7) % count}"}}')


def sheet(count):
    """A CSV of so many records of five columns, about 158 bytes a record."""
    yield "title,author,author,year,note\n"
    for n in range(1, count + 1):
        title = f'"Notes {n:07} of graphs, webs and the ""paths"" between them"'
        yield f"{title},Author {n % 9973:05},Author {n % 7919:05},{1900 + n % 120},a note of record {n:07} that goes on for some forty bytes more\n"


def four_edges(n, count):
    """The labels and ends of a node's four edges, the last of them to another node."""
    return ("t", f"{n:07} title"), ("y", 1970 + n % 50), ("g", 1 if n % 5 < 2 else 0), ("r", f"p{(n * 7 + 3) % count}")


def linked(count):
    """Nodes in no collection, with four edges each."""
    for n in range(count):
        title, year, group, other = (end for _, end in four_edges(n, count))
        yield f'object p{n} {{ t "{title}" y {year} g {group} r &{other} }}\n'


def triples(count):
    """The edges of `linked` as N-Triples."""
    for n in range(count):
        for label, end in four_edges(n, count):
            yield f"<http://e/p{n}> <http://e/{label}> " + (f"<http://e/{end}> .\n" if label == "r" else f'"{end}" .\n')


def rows(count):
    """The edges of `linked` as CSV."""
    yield "start,label,end\n"
    for n in range(count):
        for label, end in four_edges(n, count):
            yield f"p{n},{label},{end}\n"
