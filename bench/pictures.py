#!/usr/bin/env python3
"""Whether Graphviz accepts the picture of the schema of every query in the tests and the examples.

    bench/pictures.py

It needs `dot` (apt-get install graphviz). A query that the program refuses has no picture, and is counted apart."""
import glob
import os
import re
import shutil
import subprocess
import sys
import tempfile

from measure import STRUDEL, TOP

if sys.argv[1:]:
    print(__doc__.strip())
    sys.exit(0 if sys.argv[1:] == ["--help"] else 2)

# A comment, a character or a string, so that a quote within one begins no other.
STRING = re.compile(r"""//[^\n]*|'(?:[^'\\]|\\.[^']*)'|"((?:[^"\\]|\\.)*)\"""", re.DOTALL)
ESCAPE = re.compile(r'\\(?:x([0-9a-fA-F]{2})|\n\s*|(.))', re.DOTALL)
PLAIN = {"n": b"\n", "r": b"\r", "t": b"\t", "0": b"\0"}


def bytes_of(literal):
    """The bytes of a string as a source file spells it."""
    out, at = b"", 0
    for found in ESCAPE.finditer(literal):
        out += literal[at:found.start()].encode()
        code, letter = found.groups()
        if code:
            out += bytes([int(code, 16)])
        elif letter:
            out += PLAIN.get(letter, letter.encode())
        at = found.end()
    return out + literal[at:].encode()


def queries():
    """Each query once, with the file where it stands."""
    found = {}
    for path in sorted(glob.glob(f"{TOP}/**/*.struql", recursive=True)):
        with open(path, "rb") as file:
            found.setdefault(file.read(), path)
    for path in sorted(glob.glob(f"{TOP}/crates/tests_*/src/**/*.rt", recursive=True)):
        with open(path, encoding="utf-8") as file:
            for literal in STRING.findall(file.read()):
                if "INPUT" in literal and "OUTPUT" in literal:
                    found.setdefault(bytes_of(literal), path)
    return found


def main():
    if not shutil.which("dot"):
        sys.exit("no program `dot`: apt-get install graphviz")
    drawn, refused, failures = 0, 0, []
    with tempfile.TemporaryDirectory() as folder:
        for query, path in queries().items():
            with open(f"{folder}/q", "wb") as file:
                file.write(query)
            picture = subprocess.run([STRUDEL, "schema", "--dot", "q"], cwd=folder, capture_output=True)
            if picture.returncode == 3:
                refused += 1
                continue
            svg = subprocess.run(["dot", "-Tsvg"], input=picture.stdout, capture_output=True)
            # `dot` warns on standard error, and goes on, where it takes a text otherwise than it is meant.
            if picture.returncode or svg.returncode or svg.stderr or b"</svg>" not in svg.stdout:
                failures.append((os.path.relpath(path, TOP), query, picture.stderr + svg.stderr))
            drawn += 1
    for path, query, error in failures:
        print(f"{path}: {query!r}: {error.decode(errors='replace').strip()}")
    print(f"{drawn} queries, of which {len(failures)} have no picture; {refused} more are refused by the program")
    sys.exit(1 if failures else 0)


if __name__ == "__main__":
    main()
