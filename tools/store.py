"""What the tools of this folder share: the checkout, the kit, and the store of built libraries over which they check.

The store is a folder of libraries that a run of the gate has built (`tools/harvest` or `tools/gate` fills it). A crate is checked over
them without proving anything below it again. STRUDEL_STORE names the folder, else it is `/tmp/strudel-store`. Libraries
that were changed in a checkout and built there by `tools/prove CRATE --build` are in the checkout's own part of it, and
come first.
"""
import functools
import glob
import os
import re
import subprocess
import types

TOP = os.path.dirname(os.path.dirname(os.path.abspath(__file__)))
STORE = os.environ.get("STRUDEL_STORE", "/tmp/strudel-store")
OWN = f"{STORE}/own/{TOP.strip('/').replace('/', '-')}"


@functools.lru_cache(None)
def kit():
    """The kit's folder, which has bin/, rlibs/ and the guides."""
    return os.path.dirname(subprocess.run(["rt", "doc"], stdout=subprocess.PIPE, encoding="utf-8", check=True).stdout.strip())


def crates():
    """The crates of crates.txt in its order, each with what it names."""
    found = {}
    with open(f"{TOP}/crates.txt", encoding="utf-8") as file:
        for line in file:
            name, colon, used = line.split("#")[0].partition(":")
            if colon:
                found[name.split()[0]] = used.split()
    return found


def below(crate, uses):
    """All crates of the repository that a crate stands on."""
    found, left = set(), [crate]
    while left:
        for name in uses.get(left.pop(), ()):
            if name in uses and name not in found:
                found.add(name)
                left.append(name)
    return found


def library(name):
    """The folder of a built library: the checkout's own, the store's or the kit's; none if it isn't built."""
    for place in (f"{OWN}/rlibs", f"{STORE}/rlibs", f"{kit()}/rlibs"):
        if os.path.isdir(f"{place}/{name}.rlib"):
            return f"{place}/{name}.rlib"
    return None


def sources(crate):
    """The files of a crate that a proof reads."""
    every = glob.glob(f"{TOP}/crates/{crate}/*/**/*", recursive=True)
    return sorted(it for it in every if re.search(r"/crates/\w+/(src|specs|proofs)/.*\.(rt|antt)$", it))


def script(name):
    """A script of the kit as a module, whose parts are used and which isn't run."""
    path = f"{kit()}/bin/{name}"
    module = types.ModuleType(name.replace("-", "_"))
    module.__file__ = path
    with open(path, encoding="utf-8") as file:
        exec(compile(file.read(), path, "exec"), module.__dict__)
    return module


def over_store(library_of_kit):
    """Has the kit's type of a crate take its own library from the store."""
    made = library_of_kit.Crate.__init__

    def make(self, *words, **named):
        made(self, *words, **named)
        self.rlib = library(self.name) or f"{STORE}/rlibs/{self.name}.rlib"

    library_of_kit.Crate.__init__ = make
