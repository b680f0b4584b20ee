"""Loading: what data cost until they are read, until they are written, and until they can be asked, beside other programs over the same data."""
from measure import STRUDEL, exponent, measured, written
from shapes import entries, linked, papers, rows, sheet, triples

PYTHON_JSON = "import json; data = json.load(open('d.json'))"
PYTHON_BOTH = "import json, sys; json.dump(json.load(open('d.json')), sys.stdout)"
PYTHON_COUNTS = "import csv; print(sum(len(row) for row in csv.reader(open('d.csv', newline=''))))"
PYTHON_KEEPS = "import csv; rows = list(csv.reader(open('d.csv', newline='')))"
PYTHON_ONE = "import csv; rows = list(csv.reader(open('P.csv', newline=''))); print(rows[7][0])"
IMPORTED = ["sqlite3", ":memory:", ".mode csv", ".import d.csv d"]
ORDERS = "CREATE INDEX a ON d(start, label, end); CREATE INDEX b ON d(label, start, end); CREATE INDEX c ON d(end, start, label);"


def best(words, folder, wanted=0):
    """The least processor seconds of three runs, one where a run takes more than five seconds, and its megabytes."""
    found = measured(words, folder, wanted)
    for _ in range(2):
        if found[0] < 5:
            found = min(found, measured(words, folder, wanted))
    return found


def reading(path, folder):
    """A run that reads a file, and ends where it looks for the next one, which isn't there."""
    return best([STRUDEL, "data", path, "none" + path[path.rindex("."):]], folder, 4)


def grown(what, of, path, pieces, amount, asked, folder):
    """How a file is read at an eighth, a quarter, a half and all of so many objects or records; the whole file stays."""
    seconds, found = {}, []
    for count in (amount // 8, amount // 4, amount // 2, amount):
        size = written(f"{folder}/{path}", pieces(count))
        seconds[count], memory = reading(path, folder)
        found.append((f"{what} of {count:,} {of}, {size:.0f} MiB, read only", seconds[count], memory, asked if count == amount else ""))
    found.append((f"growth from {amount // 8:,} to {amount:,} {of}", None, None, f"{exponent(seconds, amount // 8, amount)}; target: N^1.05"))
    found.append((f"{what} of {amount:,} {of}, read and written (`data`)", *best([STRUDEL, "data", path], folder), ""))
    return found


def texts(folder):
    """Data texts and JSON of the same objects."""
    found = grown("data text", "objects", "d.ddl", papers, 1_000_000, "target: 1.5 s and 450 MB", folder)
    found.append(("wc on the same file", *best(["wc", "d.ddl"], folder), ""))
    found += grown("JSON", "objects", "d.json", entries, 1_000_000, "target: Python's time and memory", folder)
    found.append(("python3's json on the same file, all kept", *best(["python3", "-c", PYTHON_JSON], folder), ""))
    found.append(("python3's json, read and written", *best(["python3", "-c", PYTHON_BOTH], folder), ""))
    found.append(("jq length", *best(["jq", "length", "d.json"], folder), ""))
    return found


def sheets(folder):
    """Records of CSV."""
    found = grown("CSV", "records", "d.csv", sheet, 420_000, "target: 1.5 s", folder)
    found.append(("wc on the same file", *best(["wc", "d.csv"], folder), ""))
    found.append(("python3's csv on the same file, counting fields", *best(["python3", "-c", PYTHON_COUNTS], folder), ""))
    found.append(("python3's csv, all rows kept", *best(["python3", "-c", PYTHON_KEEPS], folder), ""))
    found.append(("sqlite3's .import, in memory", *best(IMPORTED, folder), ""))
    return found


def indexed(folder):
    """Graphs until they can be asked: a page that isn't there is asked of a query that asks for nothing, and what reading takes is left out."""
    written(f"{folder}/q", ["INPUT D CREATE R() OUTPUT S"])
    written(f"{folder}/t", ["<TEMPLATE R>ok</TEMPLATE>"])
    seconds, found = {}, []
    for count in (125_000, 250_000, 500_000, 1_000_000):
        written(f"{folder}/e.ddl", linked(count))
        read = reading("e.ddl", folder)
        whole, memory = best([STRUDEL, "page", "q", "t", "/none.html", "e.ddl"], folder, 9)
        seconds[count] = whole - read[0]
        asked = "target: 1.5 s and 500 MB with the graph" if count == 1_000_000 else ""
        found.append((f"{4 * count:,} edges put in order and indexed, after {read[0]:.2f} s and {read[1]:.0f} MB of reading", seconds[count], memory, asked))
    found.append(("growth from 500,000 to 4,000,000 edges", None, None, f"{exponent(seconds, 125_000, 1_000_000)}; target: N^1.05"))
    written(f"{folder}/e.nt", triples(1_000_000))
    found.append(("rapper -c on 4,000,000 triples of these edges", *best(["rapper", "-q", "-c", "-i", "ntriples", "e.nt"], folder), ""))
    written(f"{folder}/d.csv", rows(1_000_000))
    imported = best(IMPORTED, folder)
    ordered = best([*IMPORTED, ORDERS], folder)
    found.append(("sqlite3's .import of these edges, in memory", *imported, ""))
    found.append(("three indexes over them in sqlite3, after that", ordered[0] - imported[0], ordered[1], ""))
    return found


def one_page(folder):
    """A page over 20,000 entries, start and loading in it."""
    written(f"{folder}/q", ['INPUT D { WHERE P(x) CREATE Paper(x) { WHERE x -> "title" -> v LINK Paper(x) -> "t" -> v } } OUTPUT S'])
    written(f"{folder}/t", ["<TEMPLATE Paper><SFMT @t></TEMPLATE>"])
    written(f"{folder}/P.csv", sheet(20_000))
    page = best([STRUDEL, "page", "q", "t", "/Paper/nP_7.html", "P.csv"], folder)
    return [
        ("a page of one of 20,000 CSV records, start and loading in it", *page, "target: 0.05 s"),
        ("python3's csv on the same file, all rows kept, one printed", *best(["python3", "-c", PYTHON_ONE], folder), ""),
        ("sqlite3's .import of it, and one row", *best(["sqlite3", ":memory:", ".mode csv", ".import P.csv P", "SELECT title FROM P WHERE rowid = 7;"], folder), ""),
    ]


def bench_loading(folder):
    """Loading: data texts, JSON and CSV until they are read and until they are written, graphs until they can be queried, and one page over 20,000 entries. Each is next to other programs over the same data, in one run. Least of three runs."""
    return texts(folder) + sheets(folder) + indexed(folder) + one_page(folder)
