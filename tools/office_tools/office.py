"""An office in a folder: the program that runs on its file, serves it, and is killed; requests, crowds of clients, and a proxy."""
import asyncio, base64, collections, contextlib, functools, itertools, os, re, shutil, socket, socketserver, sqlite3, subprocess
import tempfile, threading, time
from concurrent.futures import ThreadPoolExecutor
from pathlib import Path

HERE, SECONDS = "127.0.0.1", 60
PAGE = b"HTTP/1.1 200 OK\r\nContent-Type: text/html\r\nConnection: close\r\n\r\n<!DOCTYPE html><title>elsewhere</title><body>"

def request(target, *headers, body=""):
    length = [f"Content-Length: {len(body.encode())}"] if body else []
    return "\r\n".join([f"{'POST' if body else 'GET'} {target} HTTP/1.1", *headers, *length, "", body]).encode()

def basic(name, code):
    return "Basic " + base64.b64encode(f"{name}:{code}".encode()).decode()

def received(line):
    """Reads until the connection ends, and closes it."""
    text = b""
    with line, contextlib.suppress(ConnectionResetError):
        while piece := line.recv(65536):
            text += piece
    return text

def answer(line, sends, shut=False):
    """Sends bytes, closes the sending side if `shut`, and returns what comes back until the connection ends."""
    with contextlib.suppress(OSError):
        line.sendall(sends)
        if shut:
            line.shutdown(socket.SHUT_WR)
    return received(line)

def ask(port, sends, host=HERE, seconds=SECONDS, **how):
    return answer(socket.create_connection((host, port), timeout=seconds), sends, **how)

def status(text):
    return int(text[9:12]) if re.match(rb"HTTP/1\.1 \d{3} ", text) else 0

@contextlib.contextmanager
def crowd(port, count, sends=b"", *, host=HERE, goes=False, reads=True):
    """Clients who say nothing, or what they are given to send, during a `with`. One that is disconnected, or goes, connects again."""
    came, is_over = [], threading.Event()

    async def connect():
        loop = asyncio.get_running_loop()
        with socket.socket(socket.AF_INET6 if ":" in host else socket.AF_INET) as line, contextlib.suppress(OSError):
            if not reads:
                # What nobody reads fills these sockets soon.
                line.setsockopt(socket.IPPROTO_TCP, socket.TCP_MAXSEG, 536)
                line.setsockopt(socket.SOL_SOCKET, socket.SO_RCVBUF, 1)
            line.setblocking(False)
            await loop.sock_connect(line, (host, port))
            await loop.sock_sendall(line, sends)
            came.append(host)
            while not goes and (not reads or await loop.sock_recv(line, 65536)):
                await asyncio.sleep(0 if reads else SECONDS)

    async def stay(number):
        # Of those that go, five hundred come a second: more would ask than the office can answer.
        pause = count / 500 if goes else 0.01
        await asyncio.sleep(number * pause / count)
        while not is_over.is_set():
            await asyncio.gather(connect(), asyncio.sleep(pause))

    async def stay_all():
        clients = [asyncio.create_task(stay(number)) for number in range(count)]
        while clients and not is_over.is_set():
            await asyncio.sleep(0.05)

    with ThreadPoolExecutor(1) as pool:
        pool.submit(asyncio.run, stay_all())
        try:
            yield came
        finally:
            is_over.set()
    wrong_if(len(came) < count, f"of {count} clients {len(came)} came")

class Carried(socketserver.StreamRequestHandler):
    """A request that comes to a proxy, which carries it to the office, and the answer back."""

    def handle(self):
        proxy, lines = self.server, list(itertools.takewhile(bytes.strip, iter(self.rfile.readline, None)))
        if not lines:
            return
        length = re.search(rb"(?i)\ncontent-length: *(\d+)", b"".join(lines))
        sends = b"".join([*lines, b"\r\n", self.rfile.read(int(length[1]) if length else 0)])
        proxy.asked.append(lines[0].decode().rstrip())
        back = ask(proxy.office, sends) if proxy.office and not sends.startswith(b"GET /page ") else PAGE
        if sends.startswith(b"POST") and proxy.cuts:
            proxy.cuts -= 1
        else:
            self.wfile.write(back)

class Proxy(socketserver.ThreadingTCPServer):
    """A server that hands requests on to an office, and notes them. It drops the next `cuts` answers to a POST. It has a page at /page."""

    allow_reuse_address = daemon_threads = True
    request_queue_size = 64

    def __init__(self, office=0, port=0):
        super().__init__((HERE, port), Carried)
        self.office, self.asked, self.cuts, self.port = office, [], 0, self.server_address[1]
        threading.Thread(target=self.serve_forever, args=[0.02], daemon=True).start()

    def handle_error(self, *_):
        """Says nothing of a connection that breaks."""

    def __exit__(self, *_):
        self.shutdown()
        self.server_close()

ROOT, PORTS = Path(__file__).resolve().parents[2], itertools.count()
TOWN, LOG, SCRIPT = "town.db", "town.db-wal", "orders.txt"
# The largest number of connections that `serve` accepts. Without this word there is no limit; programs up to 1.6.0 want it.
CONNECTIONS = 1000000
STORE, NO_OFFICE = "fault 102: store\n", "fault 105: wrong database\n"
# Debian's packages of commands that have another name.
PACKAGES = {"node": "nodejs", "ab": "apache2-utils", "chromedriver": "chromium-driver"}

class Wrong(Exception):
    """A condition that isn't met."""

def wrong_if(is_wrong, what):
    if is_wrong:
        raise Wrong(what)

def expect(what, found, wanted):
    wrong_if(found != wanted, f"{what}: {found!r}, and not {wanted!r}")

@contextlib.contextmanager
def about(what, *errors):
    """Says what a condition that isn't met is about, and makes other errors such a condition."""
    try:
        yield
    except (Wrong, *errors) as error:
        raise Wrong(f"{what}: {error}") from error

class Table:
    """A table in Markdown, as the pages of docs/ have them, printed row by row after an empty line."""

    def __init__(self, *heads):
        print()
        self.row(*heads)
        print("|---" * len(heads) + "|")

    def row(self, *cells):
        print("| " + " | ".join(map(str, cells)) + " |", flush=True)

    def rows(self, counts):
        for what, number in counts.items():
            self.row(what, number)

Printed = collections.namedtuple("Printed", "status out err", defaults=("", ""))

@functools.cache
def program(variable="COUNT_OFFICE"):
    """Returns the program that a variable names, or else the one that the script count-office keeps or unpacks."""
    if named := os.environ.get(variable):
        return os.path.realpath(named)
    subprocess.run([ROOT / "count-office", "--help"], stdout=subprocess.DEVNULL, check=True)
    return str(ROOT / "out" / variable.lower().replace("_", "-"))

def ran(*words, text=True, **how):
    """Runs a command, which has nothing to read but `input`, and returns its status and both outputs."""
    reads = {} if "input" in how else {"stdin": subprocess.DEVNULL}
    done = subprocess.run(words, capture_output=True, text=text, check=False, **reads, **how)
    return Printed(done.returncode, done.stdout, done.stderr)

def checker(*words, **how):
    """Runs the program that needs no office. Its outputs are bytes."""
    return ran(program("CHECK_COUNT"), *words, text=False, timeout=SECONDS, **how)

def needs(*commands):
    if missing := [PACKAGES.get(command, command) for command in commands if not shutil.which(command)]:
        raise Wrong(f"commands are missing; on Debian: apt-get install {' '.join(missing)}")

def is_free(port, host=HERE):
    """Returns whether a port can be bound. Of port 0 it says whether the machine has the address."""
    try:
        socket.create_server((host, port), family=socket.AF_INET6 if ":" in host else socket.AF_INET).close()
        return True
    except OSError:
        return False

def free_port():
    """Returns a port that is free at both loopback addresses. Processes side by side take theirs from ranges of their own."""
    hosts, first = [host for host in (HERE, "::1") if is_free(0, host)], 10000 + 1000 * (os.getpid() % 20)
    return next(port for port in (first + number % 1000 for number in PORTS) if all(is_free(port, host) for host in hosts))

def ended(process, seconds=SECONDS):
    try:
        printed = process.communicate(timeout=seconds)
    except subprocess.TimeoutExpired as error:
        process.kill()
        process.communicate()
        raise Wrong(f"no end within {seconds} seconds") from error
    return Printed(process.returncode, *(text.decode("utf-8", "surrogateescape") for text in printed))

@contextlib.contextmanager
def temporary_folder(**how):
    with tempfile.TemporaryDirectory(**how) as folder:
        yield Path(folder)

def side_by_side(act, items, most=0):
    """Yields what a function returns of each item, at most so many at once, or as many as there are processors; what it raises ends all."""
    with ThreadPoolExecutor(most or len(os.sched_getaffinity(0))) as pool:
        try:
            yield from pool.map(act, items)
        finally:
            pool.shutdown(wait=False, cancel_futures=True)

def open_many_files():
    import resource  # Not every machine on which ballots are counted anew has it.
    most = resource.getrlimit(resource.RLIMIT_NOFILE)[1]
    resource.setrlimit(resource.RLIMIT_NOFILE, (most, most))

def timed(act, *words):
    began = time.perf_counter()
    return act(*words), time.perf_counter() - began

def waited(is_so, seconds=SECONDS, pause=0.0005):
    """Waits until something is so, at most some seconds. Returns whether it is."""
    until = time.monotonic() + seconds
    while not (found := is_so()) and time.monotonic() < until:
        time.sleep(pause)
    return found

def listens(address, family=socket.AF_INET):
    with socket.socket(family) as line:
        return line.connect_ex(address) == 0

def remove(*paths):
    for path in paths:
        Path(path).unlink(missing_ok=True)

class Office:
    def __init__(self, folder):
        self.folder = Path(folder)
        self.folder.mkdir(parents=True, exist_ok=True)

    def start(self, *words, town=TOWN, under=(), **how):
        """Starts an order, at wish under another program, such as `strace`."""
        words = [*under, program(), town, *map(str, words)]
        return subprocess.Popen(words, cwd=self.folder, stdout=subprocess.PIPE, stderr=subprocess.PIPE, **how)

    def run(self, *words, seconds=SECONDS, **how):
        return ended(self.start(*words, **how), seconds)

    def do(self, *words, **how):
        printed = self.run(*words, **how)
        wrong_if(printed.status, f"{' '.join(map(str, words))}: {printed}")
        return printed.out

    def write(self, name, lines):
        (self.folder / name).write_text("".join(f"{line}\n" for line in lines), encoding="utf-8", newline="")

    def replay(self, lines, **how):
        self.write(SCRIPT, lines)
        return self.do("replay", SCRIPT, **how)

    def begin(self, lines=(), **how):
        """Makes the office, sends these orders as one script, and returns the office."""
        wrong_if((printed := self.run("init")) != (0, "office ready\n", ""), f"init: {printed}")
        if lines:
            self.replay(lines, **how)
        return self

    def write_codes(self, codes):
        self.write("codes.txt", [f"{clerk} {code}" for clerk, code in codes.items()])
        (self.folder / "codes.txt").chmod(0o600)

    def serve(self, *words, **how):
        return Serving(self, *words, **how)

    def copied(self, folder, town=TOWN):
        """Copies the file, or the copy of it that has another name, with its log into an empty folder."""
        shutil.rmtree(folder, ignore_errors=True)
        copy = Office(folder)
        for ending in ("", "-wal"):
            if (source := self.folder / (town + ending)).exists():
                shutil.copyfile(source, copy.folder / (TOWN + ending))
        return copy

    def rows(self, town=TOWN):
        """Returns every row of every table, or None if there is no office, as Python's own SQLite reads a copy; the file must be whole.

        An `init` that was stopped may leave a file without the first byte of a database's."""
        with temporary_folder() as folder, contextlib.closing(sqlite3.connect(self.copied(folder, town).folder / TOWN)) as base:
            try:
                whole = base.execute("PRAGMA integrity_check").fetchall()
                tables = base.execute("SELECT name FROM sqlite_schema WHERE type = 'table' ORDER BY name").fetchall()
                found = {name: sorted(base.execute(f"SELECT * FROM {name}").fetchall()) for (name,) in tables}
            except sqlite3.DatabaseError as error:
                if "file is not a database" in str(error):
                    return None
                raise Wrong(f"SQLite: {error}") from error
        wrong_if(whole != [("ok",)], f"the file isn't whole: {whole}")
        return found or None

class Serving(contextlib.AbstractContextManager):
    """The program while it serves an office. At the end of a `with` it is killed."""

    def __init__(self, office, *words, connections=CONNECTIONS, port=None, **how):
        self.port = port or free_port()
        self.process = office.start("serve", self.port, connections, *words, **how)

    def __exit__(self, *_):
        self.kill()

    def connect(self):
        """Connects to it as soon as it listens. Returns None if it ended before."""
        while self.process.poll() is None:
            with contextlib.suppress(ConnectionRefusedError):
                return socket.create_connection((HERE, self.port), timeout=SECONDS)
            time.sleep(0.001)
        return None

    def wait(self):
        if not (line := self.connect()):
            raise Wrong(f"serve doesn't start: {ended(self.process)}")
        line.close()
        return self

    def ask(self, sends, **how):
        line = self.connect()
        return answer(line, sends, **how) if line else b""

    def kill(self):
        if self.process.stdout.closed:
            return None
        self.process.kill()
        return ended(self.process)

    def memory(self):
        status = Path(f"/proc/{self.process.pid}/status").read_text(encoding="ascii")
        return int(status.split("VmHWM:")[1].split()[0]) / 1024
