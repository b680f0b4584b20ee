"""The benchmark of data that change during a run: what a change of 60,000 edges costs, and how fast requests are behind it."""
from measure import strudel, written

QUERY = 'INPUT D\n{ WHERE P(x), x -> l -> v CREATE F(x) LINK F(x) -> l -> v }\nOUTPUT S\n'
TEMPLATES = '<TEMPLATE F><h1><SFMT @title></h1><SFMT @author></TEMPLATE>\n'
NODES = 20_000
CHANGES = 10


def data():
    """Nodes of three edges each."""
    return "".join(f'object p{n} in P {{ title "Title {n}" year {1900 + n % 100} author "A{n % 500}" }}\n' for n in range(NODES))


def quoted(text):
    return '"' + text.replace("\\", "\\\\").replace('"', '\\"').replace("\n", "\\n") + '"'


def requests():
    """One for each page, each on a connection of its own."""
    for n in range(NODES):
        head = quoted(f"GET /F/np{n}.html HTTP/1.1\r\nHost: a\r\n\r\n".replace("\r", "\0")).replace("\0", "\\r")
        yield f"open {n + 1} bytes {n + 1} {head}\n"


def bench_changes(folder):
    """A change of the data during a run, and requests after it, by `replay`."""
    text = data()
    written(f"{folder}/d.ddl", [text])
    written(f"{folder}/q.struql", [QUERY])
    written(f"{folder}/t.tmpl", [TEMPLATES])
    seconds, memory = {}, {}
    scripts = {"none": "", "one": f"change {quoted(text)}\n", "more": f"change {quoted(text)}\n" * (CHANGES + 1)}
    for name, changes in scripts.items():
        for asked in (False, True):
            written(f"{folder}/{name}", [changes, *(requests() if asked else [])])
            seconds[name, asked], memory[name, asked] = strudel(["replay", "q.struql", "t.tmpl", name, "d.ddl"], folder)
    change = (seconds["more", False] - seconds["one", False]) / CHANGES
    before = NODES / (seconds["none", True] - seconds["none", False])
    behind = NODES / (seconds["one", True] - seconds["one", False])
    return [
        (f"a change of {3 * NODES:,} edges, the mean of {CHANGES}", change, memory["more", False], "target: 0.3 s"),
        (f"{NODES:,} requests without a change", seconds["none", True], memory["none", True], f"{before:,.0f} a second"),
        (f"{NODES:,} requests after a change", seconds["one", True], memory["one", True], f"{behind:,.0f} a second"),
    ]
