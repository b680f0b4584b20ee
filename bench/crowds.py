"""The server beside crowds, over real sockets on 127.0.0.1, next to nginx (Debian's, one worker) that serves the same pages as files."""
import asyncio
import contextlib
import http.client
import importlib.machinery
import importlib.util
import os
import random
import re
import resource
import select
import subprocess
import sys
import tempfile
import threading
import time
from typing import NamedTuple

from edge import PATIENCE, SOON, connected, free_port, request, serving, waited
from measure import TOP, Compared, resident, spent, strudel, written
from queries import PAPERS, PAPERS_PAGES
import shapes

PAGE = "/Paper/np7.html"
KEPT = ("--requests", "4294967296", "--cache", "4096")

NGINX = """daemon off; {user}worker_processes 1; worker_rlimit_nofile 20000; pid {own}/pid; error_log /dev/null; events {{ worker_connections 9000; }}
http {{ access_log off; keepalive_requests 100000000; default_type text/html;
  client_body_temp_path {own}/b; proxy_temp_path {own}/p; fastcgi_temp_path {own}/f; uwsgi_temp_path {own}/u; scgi_temp_path {own}/s;
  server {{ listen 127.0.0.1:{port} backlog=4096; root {site}; }} }}
"""


def more_files():
    """As many open files as the system lets a process have, up to 20,000: for the clients, and for the servers that are started."""
    most = resource.getrlimit(resource.RLIMIT_NOFILE)[1]
    wanted = 20_000 if most == resource.RLIM_INFINITY else min(most, 20_000)
    resource.setrlimit(resource.RLIMIT_NOFILE, (wanted, most))


@contextlib.contextmanager
def nginx(folder):
    """nginx over the built site in `folder`: its process and its port."""
    with tempfile.TemporaryDirectory() as own:
        port, user = free_port(), "user root; " if os.geteuid() == 0 else ""
        written(f"{own}/conf", [NGINX.format(user=user, own=own, port=port, site=f"{folder}/site")])
        server = subprocess.Popen(["nginx", "-p", own, "-c", f"{own}/conf"], stderr=subprocess.DEVNULL)
        try:
            answers(port)
            yield server, port
        finally:
            server.terminate()
            server.wait()


def answers(port):
    """Waits until something answers at the port."""
    for _ in range(200):
        with contextlib.suppress(OSError), connected(port):
            return
        time.sleep(0.05)
    sys.exit(f"nothing answers at port {port}")


def site(folder, papers):
    """A site of so many papers, for the server and as files."""
    more_files()
    written(f"{folder}/q", [PAPERS])
    written(f"{folder}/t", [PAPERS_PAGES])
    written(f"{folder}/d.ddl", shapes.papers(papers))
    strudel(["build", "q", "t", "site", "d.ddl"], folder)


def marked(text, met):
    return text if met else f"**{text}**"


def compared(what, target, attack, folder):
    """The row of an attack, which is given a port and answers with a text and whether the target is met: on nginx, and on a server of our own."""
    with nginx(folder) as (_, port):
        theirs, _ = attack(port)
    with serving(folder, *KEPT) as (server, port):
        ours, met = attack(port)
        if server.poll() is not None:
            ours, met = f"{ours}; ended with status {server.poll()}", False
        else:
            ours = f"{ours}; {resident(server.pid):.0f} MB"
    return Compared(what, target, theirs, marked(ours, met))


class Start:
    """Lets each of so many clients send at once, or else so many seconds after all of them have connected."""

    def __init__(self, count, later):
        self.missing, self.later, self.all = count, later, asyncio.Event()

    async def wait(self):
        if self.later is not None:
            self.missing -= 1
            if self.missing == 0:
                self.all.set()
            await self.all.wait()
            await asyncio.sleep(self.later)


async def read_reply(reader):
    """The status of one reply whose body has the length that its head says; none where it isn't whole."""
    try:
        head = (await reader.readuntil(b"\r\n\r\n")).decode()
        size = int(re.search(r"^content-length: *(\d+)", head, re.I | re.M)[1])
        await reader.readexactly(size)
    except asyncio.IncompleteReadError as cut:
        return "cut within a reply" if cut.partial else "closed without a byte"
    return head.split(maxsplit=2)[1]


async def visit(port, addresses, start):
    """How each of a client's requests ends, one after another over one connection, and the seconds that it took."""
    ends, begun = [], time.monotonic()
    try:
        async with asyncio.timeout(PATIENCE):
            reader, writer = await asyncio.open_connection("127.0.0.1", port)
            with contextlib.closing(writer):
                await start.wait()
                for n, address in enumerate(addresses):
                    begun = begun if n == 0 else time.monotonic()
                    writer.write(request(address, "1.1" if len(addresses) > 1 else "1.0"))
                    ends.append((await read_reply(reader), time.monotonic() - begun))
    except TimeoutError:
        ends.append((f"not within {PATIENCE} s", PATIENCE))
    except OSError as fault:
        ends.append((fault.strerror or type(fault).__name__, time.monotonic() - begun))
    # (what was not asked for after a failure failed with it)
    return ends + ends[-1:] * (len(addresses) - len(ends))


async def crowd(port, visits, later):
    """How the requests of many clients at once end: the addresses of each are a list of `visits`."""
    start = Start(len(visits), later)
    return [it for ends in await asyncio.gather(*(visit(port, each, start) for each in visits)) for it in ends]


def told(ends):
    """The ends of many requests as a text, and whether each of them had its page."""
    waits, others = [seconds for how, seconds in ends if how == "200"], {}
    for how, _ in ends:
        if how != "200":
            others[how] = others.get(how, 0) + 1
    longest = f", longest {max(waits):.2f} s" if waits else ""
    return "; ".join([f"{len(waits):,} of {len(ends):,}{longest}", *(f"{count:,} {how}" for how, count in others.items())]), not others


def burst(count, later):
    return lambda port: told(asyncio.run(crowd(port, [[PAGE]] * count, later)))


def bench_bursts(folder):
    """Clients that come at once, each with a connection of its own for one page, which they ask for at once or 0.1 seconds after all have connected: those that had it, and the longest wait of one, by the clock from its connecting. The megabytes are those of the server afterwards."""
    site(folder, 200)
    rows = []
    for count in (65, 200, 1_000, 5_000):
        for later, when in ((None, "asking at once"), (0.1, "asking 0.1 s later")):
            rows.append(compared(f"{count:,} clients, {when}", "all", burst(count, later), folder))
    return rows


@contextlib.contextmanager
def holding(port, count, text):
    """So many clients that send this text and then neither send nor read."""
    with contextlib.ExitStack() as stack:
        for _ in range(count):
            stack.enter_context(connected(port)).sendall(text)
        yield


def page_beside(port, times=5, address=PAGE):
    """The longest wait of another client for a page, as a text, and whether it is soon there."""
    waits = [waited(port, address) for _ in range(times)]
    if None in waits:
        return "none", False
    return f"{max(waits):.3f} s", max(waits) <= SOON


def beside(count, text, made=None):
    """An attack: clients that hold their connections after this text. Where an address is given the other client asks for that page, once theirs are made."""

    def attack(port):
        with holding(port, count, text):
            time.sleep(0.2)
            if made:
                waited(port, made)
            return page_beside(port, address=made or PAGE)

    return attack


def greedy(port):
    """Fifty connections that ask again as soon as they have a page, by wrk."""
    words = ["wrk", "-t1", "-c50", "-d6s", f"http://127.0.0.1:{port}{PAGE}"]
    with subprocess.Popen(words, stdout=subprocess.DEVNULL) as asking:
        time.sleep(1)
        it = page_beside(port, 20)
        asking.terminate()
    return it


def pipelined(port):
    """One connection that sends requests without end, and reads what it is sent."""
    client, stop = connected(port), threading.Event()

    def send():
        with contextlib.suppress(OSError):
            while not stop.is_set():
                client.sendall(request(PAGE) * 400)

    def read():
        with contextlib.suppress(OSError):
            while client.recv(1 << 20):
                pass

    threads = [threading.Thread(target=it) for it in (send, read)]
    for it in threads:
        it.start()
    time.sleep(0.5)
    told_of = page_beside(port, 20)
    stop.set()
    client.shutdown(2)
    for it in threads:
        it.join()
    client.close()
    return told_of


def is_closed(client):
    """Whether the server has closed the connection, of which nothing was read."""
    with contextlib.suppress(OSError):
        return bool(select.select([client], [], [], 0)[0]) and client.recv(1) == b""
    return True


def dripped(port):
    """Twenty clients that send a byte of a head each 40 milliseconds: how long the last of them is held, at most 30 seconds."""
    with contextlib.ExitStack() as stack:
        clients, begun = [stack.enter_context(connected(port)) for _ in range(20)], time.monotonic()
        for it in clients:
            it.sendall(b"GET / HTTP/1.1\r\nHost: a\r\nX-A: ")
        while clients and time.monotonic() - begun < 30:
            time.sleep(0.04)
            clients = [it for it in clients if not is_closed(it)]
            for it in clients:
                with contextlib.suppress(OSError):
                    it.sendall(b"x")
        seconds = time.monotonic() - begun
    return (f"{seconds:.1f} s", seconds <= 6) if not clients else ("over 30 s", False)


POST = b"POST / HTTP/1.1\r\nHost: a\r\nContent-Length: 8000000\r\n\r\n"


def refused(port):
    """Clients that send all of 8 MB that are refused, and then read: how many have the refusal."""
    read = 0
    for _ in range(10):
        with connected(port) as client, contextlib.suppress(OSError):
            with contextlib.suppress(OSError):
                client.sendall(POST + b"x" * 8_000_000)
            read += client.recv(100).startswith(b"HTTP/1.1 405")
    return f"{read} of 10", read == 10


def large_site(folder):
    """A site of one page of 8 MiB and one of a few bytes."""
    written(f"{folder}/q", ['INPUT D CREATE R(), S() LINK S() -> "t" -> 1 { WHERE C(x), x -> "t" -> v LINK R() -> "t" -> v } OUTPUT S'])
    written(f"{folder}/t", ["<TEMPLATE R><SFMT @t></TEMPLATE><TEMPLATE S><SFMT @t></TEMPLATE>"])
    written(f"{folder}/d.ddl", [f'object o in C {{ t "{"x" * (1 << 23)}" }}\n'])
    strudel(["build", "q", "t", "site", "d.ddl"], folder)


def bench_held(folder):
    """How long a page takes another client, the longest of five or twenty, beside clients that hold their connections: with half a head, with 8 MiB that they don't read (once these are made), refused ones that stay, and ones that ask without end. Seconds are by the clock."""
    site(folder, 200)
    rows, target = [], f"{SOON} s"
    for count in (1, 64, 200, 1_000):
        rows.append(compared(f"{count:,} half heads", target, beside(count, b"GET / HTTP/1.1\r\nHost: a\r\nX-"), folder))
    for count in (1, 50, 200, 1_000):
        rows.append(compared(f"{count:,} refused (405) that stay", target, beside(count, POST), folder))
    rows.append(compared("20 that send a byte of a head each 40 ms: how long they are held", "6 s", dripped, folder))
    rows.append(compared("50 kept connections that ask without end", target, greedy, folder))
    rows.append(compared("one that sends requests without end, reading no reply before the next", target, pipelined, folder))
    rows.append(compared("clients that send 8 MB, are refused, and read the refusal", "all", refused, folder))
    large_site(folder)
    for count in (1, 8, 50, 200):
        rows.append(compared(f"{count:,} that read nothing of 8 MiB", target, beside(count, request("/R.html"), "/S.html"), folder))
    return rows


class Wrk(NamedTuple):
    """What wrk tells of a run: requests a second, the 99th percentile's wait, and what went wrong; and the processor seconds of the server for each."""

    rate: float
    late: str
    faults: str
    each: float


def worker(process):
    """The process that answers: the server itself, or the worker that it has started."""
    with open(f"/proc/{process.pid}/task/{process.pid}/children") as children:
        return int((children.read().split() or [process.pid])[0])


def wrk(server, clients, close):
    """Three seconds of so many clients that ask a server for one page, over connections that are kept or a new one for each."""
    process, port = server
    header = ["-H", "Connection: close"] if close else []
    words = ["wrk", f"-t{min(clients, 2)}", f"-c{clients}", "-d3s", "--latency", "--timeout", "20s", *header, f"http://127.0.0.1:{port}{PAGE}"]
    begun = spent(worker(process))
    text = subprocess.run(words, capture_output=True, text=True, check=True).stdout
    seconds = spent(worker(process)) - begun
    found = lambda pattern: next(iter(re.findall(pattern, text, re.M)), "")
    faults = [found(r"Socket errors: (.*)"), found(r"Non-2xx or 3xx responses: \d+")]
    answered = int(found(r"^ +(\d+) requests in"))
    return Wrk(float(found(r"^Requests/sec: +(\S+)")), found(r"^ +99% +(\S+)"), "; ".join(it for it in faults if it), seconds / max(answered, 1))


def middle(runs):
    """The run of the middle rate, with all that went wrong in any."""
    return sorted(runs)[len(runs) // 2]._replace(faults="; ".join(it.faults for it in runs if it.faults))


def rate_of(run):
    return "; ".join([f"{run.rate:,.0f}, 99 % within {run.late}, {run.each * 1e6:.1f} us", *([run.faults] if run.faults else [])])


def speed(clients, close, servers):
    """The row of so many clients: three runs of each server in turns, of which the middle ones are compared."""
    runs = [[wrk(server, clients, close) for server in servers] for _ in range(3)]
    files, ours = (middle([each[n] for each in runs]) for n in (0, 1))
    share, wanted = ours.rate / files.rate, 1 if clients == 1 else 1.2
    what = f"{clients} client{'s' * (clients > 1)}, {'a connection for each' if close else 'kept connections'}"
    own = f"{rate_of(ours)}; {share:.2f} of it, {ours.each / max(files.each, 1e-9):.2f} of its processor time"
    return Compared(what, f"{wanted} of nginx's, none lost", rate_of(files), marked(own, share >= wanted and not ours.faults))


def first_clicks(port, count):
    """Seconds of each of so many pages, asked for the first time over one connection."""
    connection = http.client.HTTPConnection("127.0.0.1", port)
    begun = time.monotonic()
    for n in range(count):
        connection.request("GET", f"/Paper/np{n}.html")
        answer = connection.getresponse()
        if answer.status != 200 or not answer.read():
            sys.exit(f"page {n} of port {port}: {answer.status}")
    connection.close()
    return (time.monotonic() - begun) / count


def bench_serve(folder):
    """Requests of a kept page a second, as wrk counts them with so many clients at once, the middle of three runs of three seconds in turns, and the server's processor time for each; what wrk has lost is named. Seconds are by the clock."""
    site(folder, 2_000)
    with nginx(folder) as them, serving(folder, *KEPT) as us:
        theirs, ours = them[1], us[1]
        # The store is made at the first event.
        first_clicks(ours, 1)
        files, clicked = first_clicks(theirs, 1_000), first_clicks(ours, 1_000)
        rows = [Compared("a first click", "", f"{files * 1e6:.0f} us", f"{clicked * 1e6:.0f} us; {clicked / files:.1f} times as long")]
        for close in (False, True):
            rows += [speed(clients, close, (them, us)) for clients in (1, 50, 100, 200, 400)]
        rows.append(Compared("memory after these", "", "", f"{resident(us[0].pid):.0f} MB"))
    return rows


def deployed():
    """The script that tries the site behind nginx, whose nginx is set up as it is for visitors."""
    path = os.path.join(TOP, "examples", "deploy", "try")
    loader = importlib.machinery.SourceFileLoader("deployed", path)
    module = importlib.util.module_from_spec(importlib.util.spec_from_loader("deployed", loader))
    loader.exec_module(module)
    return module


def visited(visits, folder):
    """How the visits end with nginx in front, as `examples/deploy` sets it up, of two servers that have made no page yet."""
    with serving(folder, "--cache", "4096") as (one, first), serving(folder, "--cache", "4096") as (other, second), tempfile.TemporaryDirectory() as own:
        os.chmod(own, 0o755)
        port = free_port()
        front = deployed().start_nginx(own, port, (first, second))
        try:
            answers(port)
            text, met = told(asyncio.run(crowd(port, visits, None)))
        finally:
            front.terminate()
            front.wait()
        return marked(f"{text}; {resident(one.pid) + resident(other.pid):.0f} MB", met and one.poll() is other.poll() is None)


def bench_visitors(folder):
    """Visitors at once through the nginx of `examples/deploy`, three pages each over one connection, that no one has asked for before: those that are there, and the longest wait. Nothing is compared, since nginx is in front."""
    site(folder, 3_000)
    rows, draw = [], random.Random(1)
    for count in (200, 400, 1_000):
        visits = [[f"/Paper/np{3 * n + k}.html" for k in range(3)] for n in range(count)]
        rows.append(Compared(f"{count:,} visitors, three pages each, each another", "all", "", visited(visits, folder)))
    visits = [[f"{PAGE}?{draw.randrange(1 << 60)}" for _ in range(3)] for _ in range(1_000)]
    rows.append(Compared("1,000 visitors, three requests each of one page with another query", "all", "", visited(visits, folder)))
    return rows
