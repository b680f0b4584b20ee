"""The server under many requests and beside silent clients, over real sockets on 127.0.0.1."""
import contextlib
import random
import socket
import subprocess
import sys
import threading
import time

from measure import STRUDEL, resident, spent, written
import shapes
from queries import COUNTRIES, COUNTRIES_PAGES, GROUPS, GROUPS_PAGES, JOURNAL, JOURNAL_PAGES, PAPERS, PAPERS_PAGES

# How long a silent client is waited for, in milliseconds, and how long a page is waited for, in seconds.
IDLE = 500
# What a page may take beside those that hold their connections, in seconds.
SOON = 0.05
PATIENCE = 60


def free_port():
    with socket.socket() as it:
        it.bind(("127.0.0.1", 0))
        return it.getsockname()[1]


@contextlib.contextmanager
def serving(folder, *options):
    """A server over the site in `folder`: its process and its port, or None where the program refuses the words."""
    port = free_port()
    words = [STRUDEL, "serve", "q", "t", "d.ddl", "--port", str(port), *options]
    server = subprocess.Popen(words, cwd=folder, stdout=subprocess.PIPE, stderr=subprocess.DEVNULL)
    try:
        yield (server, port) if server.stdout.readline() == f"serving {port}\n".encode() else None
    finally:
        server.kill()
        server.wait()


def connected(port):
    client = socket.create_connection(("127.0.0.1", port), timeout=PATIENCE)
    client.setsockopt(socket.IPPROTO_TCP, socket.TCP_NODELAY, 1)
    return client


def request(address, version="1.1"):
    return f"GET {address} HTTP/{version}\r\nHost: a\r\n\r\n".encode()


def reply(client, kept=b""):
    """One reply, head and body."""
    while (end := kept.find(b"\r\n\r\n")) < 0:
        piece = client.recv(65_536)
        if not piece:
            raise EOFError(f"a connection ended within a head: {kept!r}")
        kept += piece
    head = kept[:end].decode().split("\r\n")
    size = next(int(line.split(":")[1]) for line in head if line.lower().startswith("content-length:"))
    while len(kept) < end + 4 + size:
        piece = client.recv(65_536)
        if not piece:
            raise EOFError("a connection ended within a body")
        kept += piece
    return head[0], kept[end + 4 :]


def ask_over_one(port, addresses):
    """Each address over one connection, one after another."""
    with connected(port) as client:
        for address in addresses:
            client.sendall(request(address))
            status, _ = reply(client)
            if not status.endswith("200 OK"):
                sys.exit(f"{address}: {status}")


def ask_each(port, addresses):
    """Each address over a connection of its own."""
    for address in addresses:
        with connected(port) as client:
            client.sendall(request(address, "1.0"))
            status, _ = reply(client)
            if not status.endswith("200 OK"):
                sys.exit(f"{address}: {status}")


def pages(count, papers):
    """Addresses, most of them of few papers, as visitors ask."""
    return (f"/Paper/np{(n * 7) % papers if n % 10 == 0 else n % 20}.html" for n in range(count))


def bench_requests(folder):
    """Memory and time over 100,000 requests, half of them over one connection and half over connections of their own; each page was requested once before."""
    papers = 2_000
    written(f"{folder}/q", [PAPERS])
    written(f"{folder}/t", [PAPERS_PAGES])
    written(f"{folder}/d.ddl", shapes.papers(papers))
    rows = []
    with serving(folder, "--requests", "4294967296") as (server, port):
        ask_over_one(port, (f"/Paper/np{n}.html" for n in range(papers)))
        ask_each(port, pages(1_000, papers))
        before, begun = resident(server.pid), spent(server.pid)
        ask_over_one(port, pages(50_000, papers))
        ask_each(port, pages(50_000, papers))
        after, ended = resident(server.pid), spent(server.pid)
        rows.append(("100,000 requests", ended - begun, after, f"{after - before:+.2f} MB since they began; target: less than 1 MB"))
    return rows


def silent(port, kind):
    """A client that holds a connection: one that sends nothing, a part of a head, or nothing more after a reply."""
    client = connected(port)
    if kind == "part of a head":
        client.sendall(b"GET / HT")
    if kind == "nothing after a reply":
        client.sendall(request("/"))
    return client


@contextlib.contextmanager
def dripping(port):
    """A client that sends a head a byte at a time, one each tenth of a second, until it is let go."""
    stop, client = threading.Event(), connected(port)

    def drip():
        with contextlib.suppress(OSError):
            while not stop.wait(0.1):
                client.sendall(b"a")

    client.sendall(b"GET / HTTP/1.1\r\nX: ")
    thread = threading.Thread(target=drip)
    thread.start()
    try:
        yield
    finally:
        stop.set()
        thread.join()
        client.close()


def after(seconds):
    return f"{seconds:.2f} s" if seconds is not None else f"not within {PATIENCE} s"


def waited(port, address="/Paper/np7.html"):
    """Seconds until a page is there, or None where it isn't within the time that is waited, or never."""
    begun = time.monotonic()
    try:
        with connected(port) as client:
            client.sendall(request(address, "1.0"))
            reply(client)
    except (OSError, EOFError):
        return None
    return time.monotonic() - begun


def bench_silent(folder):
    """How long a page takes with fifty clients that hold their connections and send nothing, a part of a head, or nothing after a reply. Seconds are by the clock."""
    written(f"{folder}/q", [PAPERS])
    written(f"{folder}/t", [PAPERS_PAGES])
    written(f"{folder}/d.ddl", shapes.papers(200))
    rows = []
    for kind in ("nothing", "part of a head", "nothing after a reply"):
        for options in (["--idle", str(IDLE)], ["--idle", str(IDLE), "--requests", "1000"]):
            with serving(folder, *options) as found:
                if found is None:
                    return [("this program has no option --idle", None, None, "not measured")]
                clients = [silent(found[1], kind) for _ in range(50)]
                time.sleep(0.2)
                seconds = waited(found[1])
                for it in clients:
                    it.close()
            rows.append((f"fifty clients, {kind}, `{' '.join(options)}`: a page after {after(seconds)}", None, None, f"target: at most {SOON} s"))
    with serving(folder, "--idle", str(IDLE)) as (_, port), dripping(port):
        time.sleep(0.2)
        rows.append((f"a client that sends a byte of a head each tenth of a second: a page after {after(waited(port))}", None, None, f"target: at most {SOON} s"))
    return rows


# Sites, and how a page of theirs is named by a number.
SITES = (
    ("a subdivision of 5,127", COUNTRIES, COUNTRIES_PAGES, lambda: shapes.countries(), lambda n: f"/Part/nd{n % 5_127}.html"),
    ("a paper of 5,000", JOURNAL, JOURNAL_PAGES, lambda: shapes.journal(5_000), lambda n: f"/Paper/np{n % 5_000}.html"),
    ("an entry of 20,000, with the name of a page of 1,000 rows", GROUPS, GROUPS_PAGES, lambda: shapes.groups(20, 1_000), lambda n: f"/Entry/ne{n % 20_000}.html"),
    ("a page that shows 1,000 links", GROUPS, GROUPS_PAGES, lambda: shapes.groups(20, 1_000), lambda n: f"/Type/tType~20{n % 20:03}.html"),
)


def each_page(folder, addresses, *options):
    """Processor seconds of the server for each page, less those of as many replies with a page that is kept; the megabytes that it holds then; and the seconds that it took to start."""
    with serving(folder, "--requests", "4294967296", "--cache", "1", *options) as (server, port):
        ask_over_one(port, addresses[:1])
        begun = spent(server.pid)
        ask_over_one(port, [addresses[0]] * len(addresses))
        kept = spent(server.pid)
        ask_over_one(port, addresses)
        return (spent(server.pid) - kept - (kept - begun)) / len(addresses), resident(server.pid), begun


def bench_whole(folder):
    """Pages from the whole site (`serve --whole`), next to those from their own demand: processor seconds of the server for one page, none of which is kept, less those of a reply with a kept page. The megabytes are those of the server."""
    rows = []
    for what, query, templates, data, address in SITES:
        written(f"{folder}/q", [query])
        written(f"{folder}/t", [templates])
        written(f"{folder}/d.ddl", data())
        draw = random.Random(1)
        addresses = [address(draw.randrange(1_000_000)) for _ in range(2_000)]
        for how, options in (("from its own demand", ()), ("from the whole site", ("--whole",))):
            # (a click may take a hundred times as long)
            seconds, memory, start = each_page(folder, addresses if options else addresses[:200], *options)
            note = f"target: 0.1 ms; the start took {start:.2f} s" if options and "links" not in what else f"the start took {start:.2f} s"
            rows.append((f"{what}, {how}", seconds, memory, note))
    return rows
