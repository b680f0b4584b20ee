"""Small inputs that cost much: each is made to hurt, and has to stay bounded or to grow with its size."""
from measure import exponent, least, strudel, written


def doubled(lines, times):
    """BibTeX macros, each of which is so many of the one before."""
    yield "@string{a0 = {xxxxxxxxxx}}\n"
    yield from (f"@string{{a{n} = {' # '.join([f'a{n - 1}'] * times)}}}\n" for n in range(1, lines + 1))
    yield f"@misc{{k, t = a{lines}}}\n"


def collected(count):
    """A directive, and one object that is in one collection more by each statement."""
    yield "collection Other { z url }\n"
    yield from (f"object o in C{n} {{ a \"{n}\" }}\n" for n in range(count))


def directed(count):
    """One object in many collections, each with a directive of its own, and a value for each."""
    yield from (f"collection C{n} {{ a{n} url }}\n" for n in range(count))
    yield f"object o in {', '.join(f'C{n}' for n in range(count))} {{ {' '.join(f'a{n} {chr(34)}{n}{chr(34)}' for n in range(count))} }}\n"


def shared(count):
    """One object in many collections, whose directives all give one attribute a kind, and as many values of it."""
    yield from (f"collection C{n} {{ a url }}\n" for n in range(count))
    yield f"object o in {', '.join(f'C{n}' for n in range(count))} {{ {' '.join(f'a {chr(34)}{n}{chr(34)}' for n in range(count))} }}\n"


def listed(count):
    """A condition that lists as many constants as there are rows."""
    return 'INPUT D CREATE R() { WHERE P(x), x -> "v" -> v, not(v in {' + ", ".join(f'"s{n}"' for n in range(count)) + '}) LINK R() -> "x" -> v } OUTPUT S'


def labelled(count):
    """As many links as labels that templates ask for."""
    query = "INPUT D CREATE R() LINK " + ", ".join(f'R() -> "l{n}" -> {n}' for n in range(count)) + " OUTPUT S"
    return query, "<TEMPLATE R>" + "".join(f"<SFMT @l{n}>" for n in range(count)) + "</TEMPLATE>"


def argued(count):
    """Pages of so many arguments that link to one another, and a constraint that asks for a way to them from elsewhere."""
    term = f"F(x0, {', '.join(f'x{n}' for n in range(1, count))})"
    conditions = ", ".join(f'x0 -> "a{n}" -> x{n}' for n in range(1, count))
    return f'INPUT D {{ CREATE Home() }} {{ WHERE C(x0), {conditions} CREATE {term} LINK {term} -> "next" -> {term} }} OUTPUT S', "REACHABLE F FROM Home\n"


def alike(count):
    """A page whose block has so many conditions of one label, and a constraint that it breaks."""
    conditions = ", ".join(f'x -> "by" -> x{n}' for n in range(count))
    return f"INPUT D {{ CREATE Home() }} {{ WHERE C(x), {conditions} CREATE F(x) }} OUTPUT S", "REACHABLE F FROM Home\n"


def functions(count):
    """As many functions as labels: each has a link to it and one by a label, and words go on from all by all labels."""
    query = "INPUT D CREATE R(), " + ", ".join(f"F{n}()" for n in range(count)) + " LINK "
    query += ", ".join(f'R() -> "f{n}" -> F{n}(), F{n}() -> "l{n}" -> {n}' for n in range(count)) + " OUTPUT S"
    return query, "<TEMPLATE R>" + "".join(f"<SFMT @f{n}.l{n}>" for n in range(count)) + "</TEMPLATE>"


def nested(records, levels, key):
    """JSON records whose one value is that deep in objects of this key."""
    return "[" + ",".join(("{\"" + key + "\":") * levels + "1" + "}" * levels for _ in range(records)) + "]"


def grown(what, counts, run):
    """A row for each amount, and one for the growth; `run` gives bytes, seconds and megabytes."""
    rows, seconds = [], {}
    for count in counts:
        size, seconds[count], memory = run(count)
        rows.append((f"{what.format(f'{count:,}')}, {size:,} bytes", seconds[count], memory, ""))
    return [*rows, ("growth", None, None, exponent(seconds, *counts))]


def sized(path, pieces):
    """Writes a file, and returns its bytes."""
    return round(written(path, pieces) * 2**20)


def bench_hurt(folder):
    """Small inputs that are made to cost much, with the growth of those that have no limit of their own."""
    size = sized(f"{folder}/b.bib", doubled(12, 10))
    rows = [(f"twelve BibTeX macros, each ten times the one before, {size:,} bytes, refused with 124", *strudel(["data", "b.bib"], folder, 3), "before: 3 GB and more")]

    def data(pieces):
        return lambda count: (sized(f"{folder}/d.ddl", pieces(count)), *least(["data", "d.ddl"], folder))

    def rows_in(count):
        written(f"{folder}/d.ddl", (f"object o{n} in P {{ v \"t{n}\" }}\n" for n in range(count)))
        written(f"{folder}/t", ["<TEMPLATE R><SFMT @x></TEMPLATE>"])
        return (sized(f"{folder}/q", [listed(count)]), *least(["page", "q", "t", "/R.html", "d.ddl"], folder))

    def links(made):
        def run(count):
            query, templates = made(count)
            written(f"{folder}/d.ddl", [""])
            return (sized(f"{folder}/q", [query]) + sized(f"{folder}/t", [templates]), *least(["lint", "q", "t", "d.ddl"], folder))

        return run

    rows += grown("a directive, and one object in {} collections by as many statements", (2_500, 10_000), data(collected))
    rows += grown("one object in {} collections with as many directives and values", (1_000, 4_000), data(directed))
    rows += grown("one object in {} collections whose directives give one attribute a kind, and as many values of it", (1_000, 4_000), data(shared))
    rows += grown("`not(v in {{..}})` of {} constants over as many rows", (5_000, 20_000), rows_in)
    rows += grown("`lint` with {} labels and links", (2_500, 10_000), links(labelled))
    rows += grown("`lint` with {} functions and labels", (600, 6_000), links(functions))
    for count, before in ((6, "before: 0.2 s"), (9, "before: hours")):
        query, constraint = argued(count)
        size = sized(f"{folder}/q", [query]) + sized(f"{folder}/c", [constraint])
        rows.append((f"`check` of REACHABLE for a page of {count} arguments, {size:,} bytes", *least(["check", "q", "c"], folder, 1), before))
    for count, before in ((6, "as before"), (9, "before: hours")):
        query, constraint = alike(count)
        size = sized(f"{folder}/q", [query]) + sized(f"{folder}/c", [constraint])
        rows.append((f"`check` of a block with {count} conditions of one label, {size:,} bytes", *least(["check", "q", "c"], folder, 1), before))
    for what, text, wanted in (
        ("JSON, 4,000 records of 120 levels", nested(4_000, 120, "k"), 0),
        ("JSON, 200 records of 100 levels with keys of 100 bytes", nested(200, 100, "k" * 100), 0),
        ("64 MiB of `{` as JSON", "{" * 2**26, 3),
        ("64 MiB of `{` as a data text", "{" * 2**26, 3),
    ):
        name = "d.ddl" if what.endswith("data text") else "d.json"
        size = sized(f"{folder}/{name}", [text])
        seconds, memory = strudel(["data", name], folder, wanted)
        rows.append((f"{what}, {size:,} bytes", seconds, memory, f"{memory * 2**20 / size:.0f} bytes of memory a byte"))
    return rows
