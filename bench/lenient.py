"""CSV and JSON read leniently: files that a machine has, each compared with a reader of this benchmark's own."""
import csv
import hashlib
import io
import json
import os
import re
import subprocess
import sys
from collections import Counter

from measure import STRUDEL, written

# Where files are looked for, how many are taken, and the most bytes of one.
ROOTS = os.environ.get("LENIENT_ROOTS", "/usr /opt /etc /var").split()
MOST, LARGEST = 600, 8 * 2**20
ENDS = (".csv", ".CSV", ".json", ".JSON")
DEEPEST = 127


class Refused(Exception):
    """The number of a refusal."""


# ---- a plain reader, by docs/FORMATS.md

def is_integer(text):
    return re.fullmatch(r"0|-?[1-9][0-9]*", text) is not None and -(2**63) <= int(text) < 2**63


def quoted(text):
    for sign, escape in (("\\", "\\\\"), ('"', '\\"'), ("\n", "\\n"), ("\r", "\\r"), ("\t", "\\t")):
        text = text.replace(sign, escape)
    return f'"{text}"'


def text_value(text):
    """A text as the value that is printed: a link is a URL."""
    return f"url {quoted(text)}" if text.startswith(("http://", "https://")) else quoted(text)


def escaped(key):
    """A key as it stands in names."""
    return "".join(chr(it) if chr(it).isascii() and (chr(it).isalnum() or it == 45) else f"~{it:02X}" for it in key.encode())


class Reader:
    """The nodes of a file: each with its collections and the lines of its edges."""

    def __init__(self):
        self.nodes = {}

    def node(self, name, collection=None):
        collections, lines = self.nodes.setdefault(name, (set(), set()))
        collections.update([collection] if collection is not None else [])
        return lines

    def value(self, node, label, name, it):
        """What a value states under this label of a node; an object of it has this name."""
        lines = self.node(node)
        if isinstance(it, dict):
            lines.add(f"  {quoted(label)} &{quoted(name)}")
            self.members(name, it)
        elif isinstance(it, list):
            for at, item in enumerate(it, 1):
                self.value(node, label, f"{name}_{at}", item)
        elif isinstance(it, bool):
            lines.add(f'  {quoted(label)} "{str(it).lower()}"')
        elif isinstance(it, int):
            lines.add(f"  {quoted(label)} {it}")
        elif it is not None:
            lines.add(f"  {quoted(label)} {text_value(it)}")

    def members(self, node, record):
        self.node(node)
        for key, it in record.items():
            self.value(node, key, f"{node}_{escaped(key)}", it)

    def collection(self, name, prefix, records):
        for at, record in enumerate(records, 1):
            self.node(f"{prefix}_{at}", name)
            self.members(f"{prefix}_{at}", record)

    def json(self, stem, text):
        value = json_value(text)
        if isinstance(value, dict):
            tables = {key: it for key, it in value.items() if is_table(it)}
            if not tables:
                self.collection(stem, stem, [value])
            for key, it in tables.items():
                self.collection(key, f"{stem}_{escaped(key)}", it)
        elif isinstance(value, list) and all(isinstance(it, dict) for it in value):
            self.collection(stem, stem, value)
        else:
            raise Refused(46)

    def csv(self, stem, text):
        header, rows = csv_records(text)
        if any(not is_utf8(it) for it in header):
            raise Refused(41)
        if "" in header:
            raise Refused(42)
        for at, row in enumerate(rows, 1):
            if len(row) > len(header):
                raise Refused(43)
            if any(not is_utf8(it) for it in row):
                raise Refused(41)
            lines = self.node(f"{stem}_{at}", stem)
            for label, it in zip(header, row):
                if it:
                    it = decoded(it)
                    lines.add(f"  {quoted(decoded(label))} {it if is_integer(it) else text_value(it)}")

    def blocks(self):
        return sorted((f"object {quoted(name)}" + (" in " + ", ".join(sorted(map(quoted, collections))) if collections else "") + " {", sorted(lines)) for name, (collections, lines) in self.nodes.items())


def is_table(it):
    return isinstance(it, list) and bool(it) and all(isinstance(item, dict) for item in it)


def depth(text):
    """The most levels of lists and objects that are open at once."""
    most = level = 0
    for sign in re.sub(r'"(?:[^"\\]|\\.)*"', "", text):
        level += {"[": 1, "{": 1, "]": -1, "}": -1}.get(sign, 0)
        most = max(most, level)
    return most


def json_value(text):
    try:
        text = text.decode()
        if depth(text) > DEEPEST:
            raise Refused(44)
        value = json.loads(text, parse_int=lambda it: int(it) if is_integer(it) else it, parse_float=str, parse_constant=lambda it: 1 / 0)
        json.dumps(value, ensure_ascii=False).encode()
    except (ValueError, ZeroDivisionError):
        raise Refused(44) from None
    return value


# Bytes are read as Latin-1 first, so that each is one character.
def is_utf8(field):
    try:
        decoded(field)
    except UnicodeDecodeError:
        return False
    return True


def decoded(field):
    return field.encode("latin-1").decode()


def records(text, separator):
    return [it for it in csv.reader(io.StringIO(text, newline=""), delimiter=separator) if it]


def csv_records(text):
    """The header, and the other records."""
    text = text.removeprefix(b"\xef\xbb\xbf").decode("latin-1")
    found = records(text, ",")
    if not found:
        return [], []
    separator = ","
    if len(found[0]) == 1 and "," not in found[0][0]:
        separator = next((it for it in found[0][0] if it in ";\t"), ",")
    header, *rows = records(text, separator)
    return header, rows


# ---- the comparison

def stem_of(path):
    return os.path.splitext(os.path.basename(path))[0]


def wanted(path, text):
    """What a file states, or the number of its refusal, by the reader of this module."""
    reader = Reader()
    text = text.removeprefix(b"\xef\xbb\xbf")
    try:
        (reader.csv if path.lower().endswith(".csv") else reader.json)(stem_of(path), text)
    except Refused as refusal:
        return refusal.args[0]
    return reader.blocks()


def printed(out):
    """The blocks of a canonical data text, each with its lines in another order."""
    blocks = re.findall(r"^(object .*)\n((?:  .*\n)*)\}\n", out, re.M)
    return sorted((head, sorted(lines.splitlines())) for head, lines in blocks)


def run(path, *options):
    """The blocks that the program prints of a file, or the number of its refusal."""
    done = subprocess.run([STRUDEL, "data", *options, "--", path], capture_output=True, env={**os.environ, "STRUDEL_PLAIN": "1"})
    if done.returncode == 0:
        return printed(done.stdout.decode())
    line = re.search(rb": (\d+) \w+ at ", done.stderr)
    return int(line[1]) if line else sys.exit(f"{path}: status {done.returncode}, {done.stderr.decode(errors='replace')}")


def holds_records(path, text):
    """Whether a file holds a table or records, whatever the rules are: a JSON text that is an object or a list with an object in it, or two rows and two columns with some separator."""
    try:
        if path.lower().endswith(".csv"):
            rows = [it for it in csv.reader(io.StringIO(text.decode("latin-1"), newline=""), delimiter=next((it for it in ",;\t" if it in text.decode("latin-1")), ",")) if it]
            return len(rows) > 1 and max(map(len, rows)) > 1
        value = json.loads(text.removeprefix(b"\xef\xbb\xbf"))
    except (ValueError, RecursionError, csv.Error):
        return False
    return isinstance(value, dict) or isinstance(value, list) and any(isinstance(it, dict) for it in value)


def found():
    """Files with other contents each: all of CSV, and of JSON as many as are still wanted, from all places alike."""
    paths, had = [], set()
    for root in ROOTS:
        for folder, _, names in os.walk(root):
            paths += [os.path.join(folder, name) for name in names if name.endswith(ENDS)]
    texts = {}
    for path in sorted(paths):
        try:
            if os.path.islink(path) or not 0 < os.path.getsize(path) <= LARGEST:
                continue
            with open(path, "rb") as file:
                text = file.read()
            path.encode()
        except (OSError, UnicodeEncodeError):
            continue
        mark = hashlib.sha256(text).digest()
        if mark not in had:
            had.add(mark)
            texts[path] = text
    tables = [it for it in texts if it.lower().endswith(".csv")][:MOST]
    others = [it for it in texts if not it.lower().endswith(".csv")]
    step = max(1, len(others) // max(1, MOST - len(tables)))
    return {it: texts[it] for it in tables + others[::step][: MOST - len(tables)]}


def bench_lenient(folder):
    """CSV and JSON files of this machine read with `--lenient`: each answer is compared with that of a reader of this benchmark's own. Target: nine tenths of those that hold tables or records."""
    written(f"{folder}/p.CSV", ["a;b\n1\n"])
    done = subprocess.run([STRUDEL, "data", "--lenient", "p.CSV"], cwd=folder, capture_output=True)
    if done.returncode != 0:
        return [("this program has no `--lenient`", None, None, "not measured")]
    files = found()
    strict = lenient = held = 0
    refusals = Counter()
    for path, text in files.items():
        answer = run(path, "--lenient")
        if answer != wanted(path, text):
            sys.exit(f"{path}: not as the reader of bench/lenient.py has it")
        if not holds_records(path, text):
            continue
        held += 1
        strict += not isinstance(run(path), int)
        lenient += not isinstance(answer, int)
        refusals.update([answer] if isinstance(answer, int) else [])
    kinds = Counter(it.lower().rpartition(".")[2] for it in files)
    told = ", ".join(f"{number}: {count}" for number, count in sorted(refusals.items()))
    return [
        (f"{len(files)} files: {kinds['json']} JSON, {kinds['csv']} CSV", None, None, "each as the other reader has it"),
        (f"{held} of them hold tables or records", None, None, ""),
        (f"of these are read strictly: {strict}", None, None, f"{100 * strict / max(1, held):.0f} %"),
        (f"of these are read leniently: {lenient}", None, None, f"{100 * lenient / max(1, held):.0f} %; refused, by number: {told or 'none'}"),
    ]
