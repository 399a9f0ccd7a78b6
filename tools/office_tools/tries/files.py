"""The file of an office, damaged, held, shared and taken away; and files that are no office."""
import contextlib, fcntl, itertools, os, random, re, shlex, shutil, signal, socket, sqlite3, struct, threading, time
from concurrent.futures import ThreadPoolExecutor

from office_tools.election import (
    COPY, COPYING, ELECTION, END, FILE, READS, REPLAY, REQUESTS, SCRIPTED, Order, make_older, noise, offices)
from office_tools.office import (
    LOG, NO_OFFICE, SCRIPT, SECONDS, STORE, TOWN, Office, Table, Wrong, crowd, ended, expect, listens, needs, open_many_files, program,
    ran, remove, request, status, timed, waited, wrong_if)
from office_tools.trials import CALL, NOT_WRITTEN, left, strace

JOURNAL, PAGE, BITS_A_PAGE, FAULT_105, READY = "town.db-journal", 4096, 6, (3, "", NO_OFFICE), (0, "office ready\n", "")
QUAY, HILL, STATUS, INIT = (Order(line.split()) for line in ("ward 8 1 Quay --id q", "ward 9 2 Hill --id h", "status 7", "init"))
EVERY = [order.words for order in (*ELECTION, REPLAY, COPYING, *(order for _, order in READS))] + [
    line.split() for line in ("ballots 7", "page 7", "table 7", "index", "migrate", "serve 65000 1")]
# The longest log that `init` begins before it writes the first page of the file.
BEGUN, FRAME = 41, 24 + PAGE
LENGTHS = [0, 1, 31, 32, BEGUN, BEGUN + 1, 55, 56, 511, 512, 567, 568, FRAME + 31, FRAME + 32, 3 * PAGE]

def try_older_office(path):
    """Makes the file of an office as an earlier program left it, to bring over: crates/store_tests/src/older/rows.rt holds it as text."""
    make_older(path)

def kinds(town, chance):
    def turned(place):
        return town[:place] + bytes([town[place] ^ 1 << chance.randrange(8)]) + town[place + 1:]

    def swapped(a, b):
        return town[:a] + town[b:b + PAGE] + town[a + PAGE:b] + town[a:a + PAGE] + town[b + PAGE:]

    pages, lengths = range(0, len(town), PAGE), (100, 101, 512, PAGE, len(town))
    return [
        ("random bytes", [noise(chance, length) for length in (0, 1, 2, 15, 16, 100, 512, PAGE, 3 * PAGE, len(town)) for _ in range(4)]),
        ("a header and random bytes", [town[:100] + noise(chance, length - 100) for length in lengths for _ in range(4)]),
        ("cut before and within each page", [town[:place + more] for place in pages for more in (0, chance.randrange(1, PAGE))]),
        ("a page of zeros", [town[:place] + bytes(PAGE) + town[place + PAGE:] for place in pages]),
        ("one bit turned in each page", [turned(place + chance.randrange(PAGE)) for place in pages for _ in range(BITS_A_PAGE)]),
        ("two pages of each other's", [swapped(*sorted(chance.sample(pages, 2))) for _ in range(20)])]

def put(folder, **contents):
    """Returns a new office of these files: bytes, where a link leads, a folder for {}, or None for no file."""
    shutil.rmtree(folder, ignore_errors=True)
    office = Office(folder)
    for name, content in contents.items():
        if isinstance(content, str):
            (office.folder / name).symlink_to(content)
        elif content == {}:
            (office.folder / name).mkdir()
        elif content is not None:
            (office.folder / name).write_bytes(content)
    return office

def seen(office):
    """Returns every name of an office's folder, and what it is: where a link leads, the names in a folder, or a file's bytes."""
    return {path.name: os.readlink(path) if path.is_symlink() else os.listdir(path) if path.is_dir() else path.read_bytes()
            for path in office.folder.iterdir()}

def tried(folder, what, town, log=None):
    """Returns 'opens', or the number of the fault."""
    found = []
    for order in (STATUS, QUAY):
        office = put(folder / "tried", **{TOWN: town, LOG: log})
        before, printed = seen(office), office.run(*order.words)
        fault = re.fullmatch(r"fault (\d+): .*\n", printed.err)
        wrong_if(printed.status != (3 if fault else 0), f"{what}: {order.name}: {printed}")
        is_kept = not fault or seen(office) == before and office.run(*order.words).err == printed.err
        wrong_if(not is_kept, f"{what}: {order.name}: a fault, and a file changed, or not the same fault again")
        wrong_if(not fault and order is QUAY and not office.rows(), f"{what}: a ward was added, and no office is there")
        found.append(fault[1] if fault else "opens")
    wrong_if(found[0] != found[1], f"{what}: {found}")
    return found[0]

def tried_beside(folder, town, name, content, words):
    office = put(folder / "beside", **{TOWN: town, FILE: b"paper,1,2,3\n", name: content})
    before, printed = seen(office), office.run(*words)
    if printed == FAULT_105 and seen(office) == before:
        return "105"
    is_begun = town is not None and name == LOG and isinstance(content, bytes) and len(content) <= BEGUN
    if words == ["init"] and is_begun and printed == READY and office.run("wards").status == 0 and office.rows():
        return "made"
    raise Wrong(f"{words} beside {name}: {printed}; {len(before)} files before")

def print_beside(folder, log, chance):
    made = "`init` makes an office"
    heads = ("DB missing: fault 105", "DB of 0 bytes: fault 105", made, "DB of 1 byte: fault 105", made)
    table = Table(f"What stands beside the place of DB ({len(EVERY)} orders each)", *heads)
    for what, name, contents in (
            ("a log of random bytes", LOG, [noise(chance, length) for length in LENGTHS]),
            ("a log of zeros", LOG, [bytes(length) for length in LENGTHS]),
            ("the log of a killed office, cut at each frame", LOG, [log[:place] for place in (*range(32, len(log), FRAME), len(log))]),
            ("a link to nothing, one to a file, and a folder, as log", LOG, ["nothing", FILE, {}]),
            ("a rollback journal", JOURNAL, [bytes(0), bytes(512), b"\xd9\xd5\x05\xf9 \xa1c\xd7" + bytes(504), "nothing", {}])):
        cells = []
        for town in (None, b"", b"\0"):
            found = [tried_beside(folder, town, name, content, words) for content in contents for words in EVERY]
            cells += [found.count("105")] + ([found.count("made")] if town is not None else [])
        table.row(what, *cells)

STRANGER = 65534
FOREIGN_LOG = (3, "", f"{STORE}town.db-wal doesn't belong to the owner of town.db, so it isn't read\n")
NO_SOCKET = "no socket for orders next to the database: the database belongs to another account\n"
# Whose DB and its log are, with which rights, and whether the log is read.
OWNERS = [
    ("DB root's, its log another's", 0, STRANGER, 0o600, "refused"),
    ("DB another's, its log a third's", STRANGER, STRANGER - 1, 0o600, "refused"),
    ("the same, and others may read both", 0, STRANGER, 0o644, "refused"),
    ("the same, and others may write to DB", 0, STRANGER, 0o666, "taken"),
    ("DB another's, its log root's", STRANGER, 0, 0o600, "taken"), ("both another's", STRANGER, STRANGER, 0o600, "taken"),
]

def of_accounts(office, mode=0o600, **owners):
    for name, owner in owners.items():
        os.chown(office.folder / name, owner, -1)
        os.chmod(office.folder / name, mode)
    return office

def served_once(office, *words):
    """Returns what `serve` prints on standard error, which is asked once and killed, and whether it made its socket."""
    with office.serve(*words) as serving:
        serving.ask(request("/nothing"))
        return serving.kill().err, (office.folder / (TOWN + "-serve")).exists()

def print_foreign(folder, town):
    table = Table("Whose the files are", "as it must be")
    if os.geteuid():
        return table.row("not tried: that needs root", 0)
    for (what, owner, owner_of_log, mode, wanted), order in itertools.product(OWNERS, (STATUS, QUAY)):
        office = of_accounts(put(folder / "foreign", **{TOWN: town, LOG: bytes(BEGUN)}), mode, **{TOWN: owner, LOG: owner_of_log})
        before, printed = seen(office), office.run(*order.words)
        if not (printed == FOREIGN_LOG and seen(office) == before if wanted == "refused" else printed.status == 0):
            raise Wrong(f"{what}: {order.name}: {printed}, and not {wanted}")
        if order is QUAY:
            table.row(what, wanted)
    for owner, of_codes, of_db in ((STRANGER, "codes fault 5: file open to others\n", (NO_SOCKET, False)), (0, "", ("", True))):
        office = put(folder / "foreign", **{TOWN: town})
        office.do("codes", "codes.txt", "1-9")
        found = served_once(of_accounts(office, **{"codes.txt": owner}), "--codes", "codes.txt")[0]
        remove(office.folder / (TOWN + "-serve"), office.folder / LOG)
        found = found, served_once(of_accounts(office, **{TOWN: owner}))
        expect(f"root serves files of account {owner}", found, (of_codes, of_db))
    table.row("a file of codes another's, and root's", "refused, and taken")
    table.row("DB another's, and root serves it", "no socket")

def try_hostile_files(room, seed=7):
    """Gives the program files that are no office, or a damaged one, and prints what it reports.

    - *Damaged files.* If the program reports a fault, the files stay byte for byte as they were, and a second report is the same. If the
      office opens, it adds a ward, and the file is whole. A bit turned in a name, or in what nothing uses, is damage that no row shows.
    - *A log without its file.* While DB is missing or empty, and something has the name of its log, or of a rollback journal, each order
      reports fault 105, and touches nothing. Only `init` makes an office there, if the log has at most 41 bytes: an `init` begins so.
    - *Other accounts*, if the tool runs as root. An order doesn't read a log that belongs to another account than DB, but root's, and any
      if others may write to DB. `serve` refuses another account's codes, and root's makes no socket for orders next to another's DB.

    Not an error: the log of another database, put next to the file of an office, is taken for the office's own, and the office is lost."""
    columns, chance = ["opens", "101", "102", "103", "105", "106"], random.Random(seed)
    before = offices(room)
    town = (before[END].folder / TOWN).read_bytes()
    table = Table(f"The file ({len(town) // PAGE} pages, seed {seed})", "files", *columns)
    for what, files in kinds(town, chance):
        found = [tried(room, what, content) for content in files]
        table.row(what, len(found), *map(found.count, columns))
    found = [tried(room, "a log of random bytes", town, noise(chance, length)) for length in LENGTHS]
    table.row("an office and a log of random bytes", len(found), *map(found.count, columns))
    # The log of an office that was killed while it served holds what it answered.
    number, keying = REQUESTS[1]
    with before[number].serve() as serving:
        answer = serving.ask(keying.sends)
    log = (before[number].folder / LOG).read_bytes()
    wrong_if(status(answer) != 200 or len(log) < 32 + FRAME, f"the office that is killed: {answer}, a log of {len(log)} bytes")
    print_beside(room, log, chance)
    print_foreign(room, town)

KEYINGS, FAULTS, OTHER = 7, ("102", "105", "109", "110"), "other.csv"
KEYED = [Order([OTHER if word == FILE else word for word in ELECTION[number].words], ELECTION[number].lines) for number in (7, 8)]
# What is begun at once: what it is, the office (before the order of this number), and the two orders.
PAIRS = [
    ("two clerks' keyings of a batch", KEYINGS, ELECTION[7], KEYED[1]),
    ("one keying, twice", KEYINGS, ELECTION[7], KEYED[0]),
    ("two wards", KEYINGS, QUAY, HILL), ("a ward and a status", KEYINGS, QUAY, STATUS),
    ("two stages of one count", 16, ELECTION[16], ELECTION[17]), ("two `init`", 0, INIT, INIT), ("`init` and a ward", 0, INIT, QUAY),
    ("a copy and a ward", KEYINGS, COPYING, QUAY), ("two copies at one path", KEYINGS, COPYING, COPYING),
    ("a script and a copy", SCRIPTED[0], REPLAY, COPYING),
    ("a script and its first order", SCRIPTED[0], REPLAY, ELECTION[SCRIPTED[0]]),
    ("a copy and `init` at its path", KEYINGS, COPYING, Order(["init"], town=COPY)),
]

def kind(printed):
    return printed[2][6:9] if printed[0] == 3 else "answered"

class Pair:
    """Two orders at an office, and each outcome that is right: what they print, the rows, what that is, and what is given again then.

    They may print and leave what they do one after the other. An `init` that is first may turn the other away, which is given again."""

    def __init__(self, folder, office, *orders):
        self.folder, self.office, self.orders, self.outcomes = folder, office, orders, []
        self.seconds = timed(orders[0].done, office.copied(folder / "sequence"))[1]
        for one, last in ((0, 1), (1, 0)):
            here = office.copied(folder / "sequence")
            first, between, second, after = orders[one].done(here), left(here), orders[last].done(here), left(here)
            what = next((kind(printed) for printed in (first, second) if printed.status == 3), "both")
            self.outcomes.append(({one: first, last: second}, after, what, None))
            if orders[one].words == ["init"]:
                away = (3, "", NO_OFFICE if orders[one].town == TOWN else NOT_WRITTEN + "\n")
                self.outcomes.append(({one: first, last: away}, between, kind(away), (orders[last], second, after)))

    def tried(self, chance):
        """Returns 'both', or the fault that one printed."""
        here = self.office.copied(self.folder / "run")
        first = self.orders[0].started(here)
        time.sleep(chance.uniform(0, 1.2 * self.seconds))
        second = self.orders[1].started(here)
        found = {0: ended(first), 1: ended(second)}, left(here)
        what, again = next((outcome[2:] for outcome in self.outcomes if outcome[:2] == found), ("", None))
        wrong_if(not what, f"{self.orders[0].words}, {self.orders[1].words}: {found[0]}")
        if again:
            order, *wanted = again
            expect(f"{order.words}, given again", [order.done(here), left(here)], wanted)
        return what

def taken(folder, before, names, is_replaced, chance):
    """Takes files while an order runs, which is answered, or reports a fault. Another office's file may get the order, and no other."""
    order, office, other = ELECTION[KEYINGS], before[KEYINGS], before[2].copied(folder / "other")
    QUAY.done(other)
    here, after, come, there = (its.copied(folder / name) for its, name in (
        (office, "run"), (office, "after"), (other, "come"), (other, "there")))
    (wanted, seconds), elsewhere = timed(order.done, after), order.done(there)
    files = {name: open(here.folder / name, "rb") for name in (TOWN, LOG)}  # which can be read after they are taken away
    process = order.started(here)
    time.sleep(chance.uniform(0, 1.2 * seconds))
    for name in names:
        if is_replaced:
            os.replace(come.folder / name, here.folder / name)
        else:
            remove(here.folder / name)
    printed, found, at = ended(process), put(folder / "held", **{name: file.read() for name, file in files.items()}).rows(), here.rows()
    gone = other.rows() if is_replaced else None if TOWN in names else at
    allowed = [(wanted, after.rows(), gone), *(((3, "", fault), office.rows(), gone) for fault in (STORE, NO_OFFICE))]
    if is_replaced:
        allowed[2] = (elsewhere, office.rows(), there.rows())
    wrong_if((printed, found, at) not in allowed, f"{names} taken from an order: {printed}, or other rows")
    return kind(printed)

# How long another order may wait for the one that stopped, which then continues.
STUCK, NO_ROOM = 0.4, ["prlimit", "--fsize=40960"]

def check_made(here, name, printed, before):
    """Checks that what was answered is there under its name; or that nothing is left of the file, and an office can be made."""
    at, there = here.rows(name), [file for file in (name, name + "-wal") if (here.folder / file).exists()]
    is_made, is_free = at and here.run("wards", town=name).status == 0, not at and not there and here.run("init", town=name) == READY
    is_right = (is_free if printed.status else is_made) and before.rows() == (here.rows() if name != TOWN else None)
    wrong_if(not is_right, f"an order that finds no room at {name}, and another, which prints {printed}: {there} is left")

def print_gaps(folder, before, runs, chance):
    """Prints the table of orders that find no room for the file that they make, and of others that come to it meanwhile."""
    outcomes = "runs", "stopped", "answered", "fault 102", "fault 105"
    table, trace = Table("An order that finds no room for its file", "another at that file", *outcomes), folder / "gap-trace"

    def start(order, here, name, *changes):
        return order.started(here, under=strace(trace, here.folder, (name, name + "-wal"), *changes) + NO_ROOM, restore_signals=False)

    def is_stopped():
        return trace.exists() and "--- stopped by SIGSTOP ---" in trace.read_text(errors="replace")

    for (what, office, first, name), other in itertools.product((
            ("`init`", before[0], INIT, TOWN), ("a copy", before[KEYINGS], COPYING, COPY)), (INIT, QUAY)):
        found, stops = [], 0
        ended(start(first, office.copied(folder / "gap"), name))
        calls = CALL.findall(trace.read_text(errors="replace"))
        for place in chance.choices(range(len(calls)), k=runs):
            here = office.copied(folder / "gap")
            remove(trace)
            making = start(first, here, name, f"{calls[place]}:signal=STOP:when={calls[:place + 1].count(calls[place])}")
            waited(lambda: is_stopped() or making.poll() is not None)
            stops += is_stopped()
            coming = Order(other.words, town=name).started(here)
            waited(lambda: coming.poll() is not None, STUCK)
            making.send_signal(signal.SIGCONT)
            made, printed = ended(making), ended(coming)
            wrong_if(made.status != 3, f"{first.words} without room: {made}; another order: {printed}")
            check_made(here, name, printed, office)
            found.append(kind(printed))
        table.row(what, "`init`" if other is INIT else "a ward", runs, stops, *map(found.count, ("answered", "102", "105")))
        wrong_if(runs and not stops, f"{what} never stopped")

CREATED = re.compile(r'openat\(AT_FDCWD, "([^"]*)", [A-Z_|]*O_CREAT[A-Z_|]*, (0\d*)\) = \d')

def print_rights(folder, before):
    """Prints the table of what is made under mask 0, and by which calls: all of it has to be its owner's alone."""
    table, own, trace = Table("What is made, under mask 0", "made for its owner alone"), os.umask(0), folder / "rights-trace"
    for what, number, order in (("`init`", 0, INIT), ("a copy", KEYINGS, COPYING), ("an order while it is served", KEYINGS, QUAY)):
        here = before[number].copied(folder / "rights")
        for path in here.folder.iterdir():
            path.chmod(0o600)
        under = strace(trace, here.folder, (), calls=("openat",))
        with here.serve(under=under) if order is QUAY else contextlib.nullcontext() as serving:
            waited(lambda: not serving or (here.folder / (TOWN + "-serve")).exists())
            printed = order.done(here, **({} if serving else {"under": under}))
            made = sorted(os.listdir(here.folder))
            found = [path.name for path in here.folder.iterdir() if path.stat().st_mode & 0o077]
            found += [one[1] for one in CREATED.finditer(trace.read_text()) if int(one[2], 8) & 0o077]
        wrong_if(printed.status or found, f"{what}: others have rights to {found}; {printed}")
        table.row(what, ", ".join(made))
    os.umask(own)

def try_shared_files(room, runs=100, seed=7):
    """Gives two orders at one file at once, takes files away, and looks at the rights of what is made.

    - *Two orders at once.* What both print, and the rows, are as if one had come after the other. During `init` the other may report 105.
    - *Files taken away.* The file or its log is removed, or replaced by another office's. An order continues with the files that it has
      open: they have the rows before it, or those after it if it was answered, and the other office's file isn't changed.
    - *No room.* An order that makes a file finds no room for an office in it. By `strace` it stops after one of its calls on the file, and
      another order opens that file. If that was answered, the file holds what it printed; else nothing is left, and `init` works there.
    - *Rights.* By `strace`: DB, its log, a copy and the socket are made for their owner alone, and are their owner's alone then."""
    needs("strace")
    chance = random.Random(seed)
    before = offices(room)
    table = Table(f"Two orders at once ({runs} runs each)", "both answered", *(f"one: fault {word}" for word in FAULTS))
    for what, number, *orders in PAIRS:
        pair = Pair(room, before[number], *orders)
        found = [pair.tried(chance) for _ in range(runs)]
        table.row(what, *map(found.count, ("both", *FAULTS)))
    table = Table("What is done to the file and its log while an order runs", "runs", "answered", "fault 102", "fault 105")
    for what, *how in (("both removed", [TOWN, LOG], False), ("the log removed", [LOG], False),
                       ("the file replaced", [TOWN], True), ("both replaced", [TOWN, LOG], True)):
        found = [taken(room, before, *how, chance) for _ in range(runs)]
        table.row(what, runs, *map(found.count, ("answered", "102", "105")))
    print_gaps(room, before, runs, chance)
    print_rights(room, before)

SERVING, CROWD, LINES, LONG = 12, 2000, 2000, (32 << 20) - 4096
# Each kind of order has wards of its own.
COMING, PIPED, KILLED, STEERS = range(10, 40), 40, 60, 70
HELD_BYTE, OFD_SETLK = (1 << 30) + 512, 37
OPEN_LINE = b"town.db is open to other accounts on this machine; 'chmod 600 town.db town.db-wal' closes it\n"
STEERING, SHOWN = "A\u009b31m\u202eB\u061c\u2066C", b"A\xc2?31m\xe2\x80?B\xd8?\xe2\x81?C"

def lock_of_an_order(path):
    """Holds a database as an order does. Returns what lets it go."""
    file = open(path, "r+b")
    fcntl.fcntl(file, OFD_SETLK, struct.pack("hhqqi4x", fcntl.F_WRLCK, os.SEEK_SET, HELD_BYTE, 1, 0))
    return file.close

def lock_of_sqlite(path):
    """Holds a database as another program of SQLite does. Returns what lets it go."""
    base = sqlite3.connect(path, check_same_thread=False)
    base.execute("BEGIN EXCLUSIVE")
    return base.close

def added(ward):
    return 0, f"ward {ward} added\n", ""

class Waits:
    def __init__(self, folder):
        self.office = Office(folder).begin()
        self.path, self.table = self.office.folder / TOWN, Table("What", "seconds")

    def run(self, *words):
        return self.office.run(*words, seconds=180)

    def add(self, number):
        return self.run("ward", number, 1, f"Ward {number}", "--id", f"w{number}")

    def held(self):
        for hold, what, who in ((lock_of_an_order, "an order", "another order holds it"),
                                (lock_of_sqlite, "another program", "another program has it open")):
            late = (3, "", f"{STORE}waited ten seconds for town.db: {who}\n")
            for held, wanted, end in ((1, self.run("receipts"), "for a second: the order is done"),
                                      (30, late, "and stays held: fault 102")):
                free = hold(self.path)
                threading.Timer(held, free).start()
                found, seconds = timed(self.run, "receipts")
                free()
                expect(what, (found, min(held, 9.9) < seconds < 20), (wanted, True))
                self.table.row(f"the file held by {what} {end}", f"{seconds:.1f}")

    def serve(self):
        serving = self.office.serve()
        if not waited(lambda: listens(f"{self.path}-serve", socket.AF_UNIX)):
            raise Wrong(f"serve takes no orders: {serving.kill()}")
        return serving

    def while_serve_comes_and_goes(self):
        """Gives orders one after the other, while `serve` begins and is ended again and again."""
        def come_and_go():
            for _ in range(SERVING):
                serving = self.serve()
                time.sleep(0.05)
                serving.process.terminate()
                ended(serving.process, 30)

        began = time.perf_counter()
        with ThreadPoolExecutor(1) as pool:
            serves = pool.submit(come_and_go)
            given = itertools.takewhile(lambda _: time.sleep(0.05) or not serves.done(), itertools.cycle(COMING))
            found = [(number, self.add(number)) for number in given]
            serves.result()
        cut = [(number, printed) for number, printed in found if printed != added(number)]
        # One whose server was ended after it had read the order may have been done: it says so, and is given again.
        for number, printed in cut:
            expect(f"ward {number}, cut off, and given again", (printed, self.add(number).status), ((3, "", STORE), 0))
        done, took = f"{len(found) - len(cut)} done at once, {len(cut)} when given again", time.perf_counter() - began
        self.table.row(f"{len(found)} orders while `serve` begins and is ended {SERVING} times: {done}", f"{took:.1f}")

    def script(self, what, first, name=SCRIPT, before="", times=1, pause=0, meanwhile=bool):
        """Sends a script that adds four wards, or one through a pipe, with a pause after each line. Something happens after the second."""
        lines = [before] * bool(before) + [f"ward {n} 1 Ward --id p{n}" for n in range(first, first + 4)] * times

        def feed():
            with open(self.office.folder / name, "w", encoding="ascii", buffering=1) as file:
                for number, line in enumerate(lines):
                    file.write(line + "\n")
                    time.sleep(pause)
                    if number == 1:
                        meanwhile()
        if name != SCRIPT:
            os.mkfifo(self.office.folder / name)
            threading.Thread(target=feed, daemon=True).start()
        else:
            self.office.write(name, lines)
        found, seconds = timed(self.run, "replay", name)
        expect(what, found, (0, "".join(added(n)[1] for n in range(first, first + 4)) * times, ""))
        self.table.row(f"{what}: {'the order' if name == 'cut' else 'it'} is done", f"{seconds:.1f}")

    def slow_and_long(self):
        with self.serve() as serving:
            with crowd(serving.port, CROWD):
                open_ones = f"while {CROWD} silent connections are open"
                self.script(f"a script through a pipe for two minutes, {open_ones}", PIPED, "slow", pause=30)
                self.script(f"a script of almost 32 MiB, {open_ones}", PIPED, before="# " + "x" * LONG)
            self.script(f"a script of {4 * LINES} lines, while served", PIPED, times=LINES)
            self.script("`serve` is killed while a script comes through a pipe", KILLED, "cut", pause=1, meanwhile=serving.process.kill)

    def at_terminal(self, *words):
        command = ["script", "--quiet", "--command", shlex.join([program(), TOWN, *words]), "/dev/null"]
        return ran(*command, cwd=self.office.folder, text=False, timeout=SECONDS).out.replace(b"\r\n", b"\n")

    def terminal(self):
        for mode, lines in ((0o640, 1), (0o620, 1), (0o604, 1), (0o602, 1), (0o600, 0)):
            self.path.chmod(mode)
            expect(f"rights {mode:o}", (self.at_terminal("receipts").count(OPEN_LINE), self.run("receipts").err), (lines, ""))
        threading.Timer(2, lock_of_an_order(self.path)).start()
        expect("an order that waits", self.at_terminal("receipts").count(b"waiting for town.db: another order holds it\n"), 1)
        expect("a name that steers", self.run("ward", STEERS, 1, STEERING, "--id", "steers").status, 0)
        expect("a name that steers", (SHOWN in self.at_terminal("wards"), STEERING in self.run("wards").out), (True, True))
        self.table.row("on a terminal: rights of DB, what an order waits for, and no character that steers", "0.0")

def try_waiting_orders(room):
    """Gives orders while their file is held, served, or about to be, and prints how long they took.

    An order that finds its file held tries again for ten seconds. It reads its own files before it connects to `serve`, which waits less
    for a silent connection than the pipe of the table takes. Each line of the table says what must happen."""
    open_many_files()
    waits = Waits(room)
    for play in (waits.held, waits.while_serve_comes_and_goes, waits.slow_and_long, waits.terminal):
        play()
