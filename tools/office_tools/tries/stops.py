"""What stops an order or `serve`: a kill, a refusal of memory, a failing disk. Nothing that was answered is lost."""
import collections, contextlib, itertools, os, random, re, shutil, threading, time
from concurrent.futures import ThreadPoolExecutor

from office_tools.election import COPY, COPY_LOG, FILE, election, ward_orders
from office_tools.office import (
    LOG, SCRIPT, STORE, TOWN, Office, Table, about, ended, expect, needs, ran, request, side_by_side, status, timed, wrong_if)
from office_tools.trials import CALL, NOT_WRITTEN, ON_FILES, RESULTS, Trial, strace, trials

# The election whose orders are killed has 99 valid papers and a doubtful one.
COPIES = 11

def killed(trial, wait):
    """Kills the order after some seconds. Returns (whether it was killed, the number of the state that was found)."""
    here = trial.office.copied(trial.folder / "run")
    process = trial.order.started(here)
    time.sleep(wait)
    process.kill()
    printed = ended(process)
    is_killed = printed.status < 0
    return is_killed, trial.judged(here, printed, is_killed, lambda _: is_killed or printed == trial.printed)

def try_killed(room, runs=100, seed=7):
    """Kills each order of a small election RUNS times (SIGKILL), at a random moment, and sees that nothing is lost.

    The file is whole by the stock `sqlite`, with the rows before the order or those after it; if the order had answered, those after it. An
    import or a script may leave some of its records (`some records`): at least those that were answered. The order, repeated, prints what
    it prints without a kill. At a copy's path there is no office (`rows before it found`), which fault 105 says; or the whole one.
    """
    def killings(trial):
        chance = random.Random(f"{seed} {trial.number}")
        longest = 1.2 * sorted(timed(trial.order.done, trial.office.copied(trial.folder / "timed"))[1] for _ in range(3))[1]
        return (("killed", {"wait": chance.uniform(0, longest)}) for _ in range(runs))

    tried = trials(room, orders=election(COPIES))
    print_stops(f"A kill ({runs} runs each, seed {seed})", [("SIGKILL", "an order", killings)], tried, killed)

def print_stops(title, kinds, tried, act):
    """Prints the table of how trials were stopped: the kinds are a way, what of, and what yields the stops of a trial, with its words."""
    table = Table(f"{title}, {len(tried)} orders", "of", "runs", "stopped", "not", *RESULTS)
    found = side_by_side(lambda trial: [trial.runs(act, stops(trial, *how)) for _, _, stops, *how in kinds], tried)
    totals = [[sum(column) for column in zip(*rows)] for rows in zip(*found)]
    for (way, of, *_), counts in zip(kinds, totals):
        if any(counts):
            table.row(way, of, sum(counts[:2]), *counts)
    wrong_if(not any(map(any, totals)), "nothing was stopped; to refuse memory needs a program of the GNU C library")

# With this setting the GNU C library asks the system for each growth by itself. `brk` and `mremap` never give any, so it asks by `mmap`.
GROWING = {"calls": ("mmap", "brk", "mremap", "rt_sigaction"), "env": {"GLIBC_TUNABLES": "glibc.malloc.mmap_threshold=1"}}
NEVER, NO_MEMORY = ["brk:error=ENOMEM", "mremap:error=ENOMEM"], [r"fault 101: memory", r"file fault 9 at record \d+: memory"]

def growths(trial, step):
    """Yields each refusal: its name, and how the order is given. Before the program sets what signals do, growths are the loader's."""
    calls = CALL.findall(trial.traced(changes=NEVER, **GROWING)[-1])
    first = calls[:calls.index("rt_sigaction")].count("mmap") + 1
    # Each order begins with another growth, so that not all miss the same ones. What `mmap` refuses is asked for once more.
    for growth in range(first + trial.number % step, calls.count("mmap") + 1, step):
        yield f"growth {growth}", {"faults": NO_MEMORY, "changes": [*NEVER, f"mmap:error=ENOMEM:when={growth}..{growth + 1}"], **GROWING}

def try_refused_growths(room, step=1, order=""):
    """Refuses each growth of memory of each order in turn, and sees that nothing is lost.

    The GNU C library is set to ask the system for each growth by itself, and `strace` refuses the one that is meant. An order asks for some
    7,000 growths, which takes hours: STEP tries one in STEP, from another one on for each order; ORDER the orders of one name alone. Each
    run meets what `tools/try killed` requires, and reports fault 101, or prints what it prints with ample memory. `serve` may also
    disconnect the client, or end with fault 101. The second `advance 7 --id a3` comes before its lot, the second `status 7` finds no file.
    """
    needs("strace")
    kinds = [("a growth is refused", "memory", lambda trial: growths(trial, step))]
    print_stops(f"Memory, one in {step}", kinds, trials(room, order), Trial.refused)

FAULT, GONE_FILE, READ = "fault 102: store", "fault 113: file gone or replaced", r"file fault 8 at record \d+: read failed"
COPIED, EVERY = [COPY, COPY_LOG], [TOWN, LOG, COPY, COPY_LOG, "."]
ONCE, GONE, ROOM = "a call fails once", "all calls fail from one on", "no room past a length, which cuts a write"
FILES = {"DB": TOWN, "its log": LOG, "the folder": ".", "a copy": COPY, "a copy's log": COPY_LOG, "the import file": FILE,
         "the script": SCRIPT}
KINDS = [*((ONCE, what, [name]) for what, name in FILES.items()), (GONE, "any", EVERY), (GONE, "a copy and its log", COPIED),
         (ROOM, "any", EVERY)]
WRITE = re.compile(r" pwrite64\(.*, (\d+), (\d+)\) = ")

def may_report(trial, names):
    """Returns what the program may report. A copy reports its own files as its own; to `serve` a file that it can't see is gone."""
    if names in ([FILE], [SCRIPT]):
        return [READ]
    if not trial.is_copy:
        return [FAULT, GONE_FILE] if trial.order.sends else [FAULT]
    return [NOT_WRITTEN] if set(names) <= set(COPIED) else [FAULT, NOT_WRITTEN]

def failures(trial, way, names, step):
    """Yields each failure: its name, and how the order is given. Each order begins with another call, so not all miss the same."""
    how, trace = {"names": names, "faults": may_report(trial, names)}, trial.traced(names)[-1]
    if way == ROOM:
        for room in sorted({int(place) + int(length) // 2 for length, place in WRITE.findall(trace)})[trial.number % step::step]:
            yield f"room for {room} bytes", {"under": ["prlimit", f"--fsize={room}"], **how}
        return
    calls = CALL.findall(trace)
    for number in range(trial.number % step, len(calls), step):
        before = collections.Counter(calls[:number])
        which = [f"{name}:error=EIO:when={before[name] + 1}" for name in (calls[number:number + 1] if way == ONCE else ON_FILES)]
        yield f"{way}: {which[0]}", {"changes": which if way == ONCE else [f"{one}+" for one in which], "keeps": way == GONE, **how}

def try_failing_disk(room, step=1, order=""):
    """Fails each call on the disk of each order that writes, and sees that nothing is lost.

    By `strace` one call fails, or all calls from one on, as on a disk that is gone; or there is no room past a length (`prlimit --fsize`).
    STEP tries one call in STEP, ORDER the orders of one name alone. Each run meets what `tools/try killed` requires, and reports fault 102
    (for an import file or a script its own fault 8), or prints what it prints with a disk that works. `serve` may also report fault 113,
    and `copy` 110 if its own file or log fails, even after its reply. If all calls fail, `copy` and `init` may leave a file, not an office.
    """
    needs("strace")
    kinds = [(way, what, lambda trial, *how: failures(trial, *how, step), way, names) for way, what, names in KINDS]
    tried = [trial for trial in trials(room, order) if len(trial.states) > 1]
    print_stops(f"The disk, one call in {step}", kinds, tried, Trial.refused)

CLERKS, PAPERS, WARDS = range(1, 21), 2, range(11, 21)
KEYING = '{"id":"k","round":1,"papers":["1,2,","D"]}'
RECORD, SAME = "town.script", "town.script and this office hold the same"
MORE_HERE, MORE_THERE = "this office has one request more than town.script", "town.script has one request more than this office"
UNRECORDED, NOT_RECORDED = "fault 112: second record\n", b'{"fault":112}'
WARNING = f"warning: {RECORD} is on the same disk as the office, so losing that disk loses both; use a file on another disk\n"
RECORDING = f"recording in {RECORD} now\n"
RECORD_FAILS = f"{RECORD}: the file of the second record failed; nothing more is accepted until you start again with a new file\n"
WHOLE = re.compile(rb"HTTP/1\.1 200 OK\r\n.*?Content-Length: (\d+)\r\n.*?\r\n\r\n(.*)", re.DOTALL)

class Crowd:
    """Twenty clerks who key at once, and orders that are handed over meanwhile."""

    def __init__(self, folder, *words, more=()):
        begun = [*ward_orders(*((n, PAPERS, n, 999) for n in CLERKS)), *more]
        self.office, self.here = Office(folder / "office").begin(begun), folder / "here"
        self.words = words
        here = self.office.copied(self.here)
        self.seconds, self.answered = self.served(here)
        self.before, self.after = set(rows_of(self.office)), set(rows_of(here))
        wrong_if(len(self.answered) < len(CLERKS) + len(WARDS), f"of twenty clerks at once and ten orders are answered: {self.answered}")

    def order(self, here):
        """Adds ten wards, one after the other, and returns what was answered, by ward. The others must print a fault of the store, and so may
        one whose reply came before the kill.

        With a record, no order begins after the kill: it would be done alone, without the record. The one that the kill meets may be.
        """
        printed, self.alone = {}, set()
        for ward in itertools.takewhile(lambda _: not (self.words and self.is_over.is_set()), WARDS):
            printed[f"ward {ward}"] = here.run("ward", ward, 2, f"Ward {ward}", "--id", f"w{ward}")
            self.alone |= {f"ward {ward}"} if self.words and self.is_over.is_set() else set()
        faults = [(3, "", UNRECORDED)] if self.fails else [(3, "", STORE)]
        # An order that is done alone says that the record lacks it.
        noted = {ward for ward in self.alone if printed[ward].err.startswith("note: this office was served with the second record ")}
        told = {ward: (*one[:2], "") if ward in noted else one for ward, one in printed.items()}
        other = [one for ward, one in told.items() if one not in ((0, f"{ward} added\n", ""), *faults, (3, f"{ward} added\n", STORE))]
        wrong_if(other, f"an order for a ward prints {other}")
        return {ward: one for ward, one in printed.items() if one.out and ward not in self.alone}

    def served(self, here, wait=None, fails=False, begun_at=None, warned="", **how):
        """Returns (seconds of clerks and of orders, whose answers) of a `serve` that is killed after some seconds, or at the end.

        If its record fails, nothing is answered from then on but what is read. WARNED is what `serve` says of the record's disk.
        """
        self.is_over, self.fails = threading.Event(), fails
        with (begun_at or here).serve(*self.words, **how).wait() as serving, ThreadPoolExecutor(len(CLERKS) + 2) as pool:
            def key(n):
                try:
                    return serving.ask(request(f"/clerks/{n}/batches/{n}/keying", body=KEYING))
                except OSError:
                    return b""

            def key_all():
                found = {f"clerk {n}": (text, WHOLE.fullmatch(text)) for n, text in zip(CLERKS, pool.map(key, CLERKS))}
                wrong_if(fails and not all(parts or text.endswith(NOT_RECORDED) for text, parts in found.values()), f"clerks get {found}")
                return {clerk: text for clerk, (text, parts) in found.items() if parts and len(parts[2]) == int(parts[1])}

            keyings, orders = pool.submit(timed, key_all), pool.submit(timed, self.order, here)
            if wait is not None:
                time.sleep(wait)
                self.is_over.set()
                serving.process.kill()
            (keyed, keying), (ordered, ordering) = keyings.result(), orders.result()
            if fails:
                later = key(1).endswith(NOT_RECORDED), status(serving.ask(request("/clerks/1/work")))
                later = *later, serving.kill().err.replace(WARNING, "")
                expect("what a clerk gets and reads later, and `serve` prints", later, (True, 200, RECORDING + warned + RECORD_FAILS))
        return (keying, ordering), keyed | ordered

    def kept(self, here):
        """Returns whose rows are there: all of each clerk and ward or none, and no other rows."""
        found, owners = set(rows_of(here)) - self.before, collections.defaultdict(set)
        for table, row in self.after - self.before:
            # The actor of a receipt is a clerk, or the office: 0, and the id of its order has the number of the ward.
            ward = row[0] if table == "ward" else row[1].removeprefix("w") if table == "receipt" and row[0] == 0 else None
            owners[f"ward {ward}" if ward else f"clerk {row[2] if table == 'keying' else row[0]}"].add((table, row))
        kept = {owner for owner, rows in owners.items() if rows <= found}
        is_wrong = found != set().union(*(owners[owner] for owner in kept)) or set(owners) != set(self.answered)
        wrong_if(is_wrong, f"twenty clerks at once left other rows, or some of somebody's: {sorted(found)}")
        return kept

    def stopped(self, chance):
        """Kills `serve` at a random moment. Returns the office, and whose keyings and orders were answered, and whose are kept."""
        here = self.office.copied(self.here)
        _, answered = self.served(here, chance.uniform(0, 1.2 * chance.choice(self.seconds)))
        kept = self.kept(here)
        wrong_if(lost := set(answered) - kept, f"what {lost} sent was answered, and is lost")
        return here, answered, kept

    def killed(self, chance):
        """Returns whose keyings and orders were answered, and whose are kept. Everyone sends theirs again."""
        here, answered, kept = self.stopped(chance)
        _, again = self.served(here)
        expect("what twenty clerks who key again, and the officer, get and leave", (again, set(rows_of(here))), (self.answered, self.after))
        return answered, kept

    def recorded(self, here, answered, kept):
        """Returns whose keyings and orders were answered, whose the record keeps, and whose the office keeps."""
        again = Office(self.here.with_name("again")).begin()
        shutil.copyfile(here.folder / RECORD, again.folder / RECORD)
        again.do("replay", RECORD, "--cut")
        found = self.kept(again) - self.alone
        kept -= self.alone
        shutil.rmtree(again.folder)
        wrong_if(lost := set(answered) - found, f"what {lost} sent was answered, and is lost in the second record")
        wrong_if(max(map(len, (found - set(answered), kept - set(answered), found ^ kept))) > 1, f"{answered} answered, {found} and {kept} kept")
        says = SAME if found == kept else MORE_HERE if found < kept else MORE_THERE
        printed = here.run("second", RECORD)
        expect("what the order `second` says", bool(self.alone) or says in printed.out + printed.err, True)
        return answered, found, kept

    def traced(self, here, *changes):
        """Returns the words that run a program under `strace`, which changes its calls on the record."""
        return strace(self.here.with_name("trace"), here.folder.resolve(), [RECORD], *changes)

    def unstarted(self, change):
        """Fails a call with which the record begins: nothing is served, and no file is left."""
        here = self.office.copied(self.here)
        printed = ended(here.serve(*self.words, under=self.traced(here, change)).process)
        is_right = printed.status == 3 and re.fullmatch(f"{UNRECORDED}{RECORD}: it can't be (read and )?written\n", printed.err)
        wrong_if(not is_right or (here.folder / RECORD).exists(), f"{printed}, and {[*here.folder.iterdir()]}")

    def unrecorded(self, change="", size=""):
        """Fails a call with which a request is recorded, or has the record on a disk that becomes full. Returns what `recorded` does.
        Everyone sends theirs again, with a new record."""
        here = self.office.copied(self.here)
        if change:
            _, answered = self.served(here, fails=True, under=self.traced(here, change))
        else:
            with full_disk(here.folder / "stick", size) as stick:
                _, answered = self.served(here, fails=True, begun_at=stick, warned=little_room(0), town=f"../{TOWN}")
                shutil.copy(stick.folder / RECORD, here.folder)
        found = self.recorded(here, answered, self.kept(here))
        (here.folder / RECORD).unlink()
        _, again = self.served(here)
        expect("what everyone gets again, and leaves", (again, set(rows_of(here))), (self.answered, self.after))
        return found

def failed_alone(folder):
    """Fails each call on the record of an order that is performed alone. Returns how many were failed, and after how many it was done."""
    office, trace, done = Office(folder / "office").begin(ward_orders((1, PAPERS, 1, 9))), folder / "trace", 0

    def ordered(*changes):
        here = office.copied(folder / "here")
        here.write(RECORD, here.do("journal").splitlines())
        words = ["ward", 50, 2, "Quay", "--id", "w", "--second", RECORD]
        return here.run(*words, under=strace(trace, here.folder.resolve(), [RECORD], *changes)), here.rows(), here.run("second", RECORD)
    before, (_, after, _), calls = office.rows(), ordered(), CALL.findall(trace.read_text(encoding="utf-8"))
    for number, call in enumerate(calls):
        printed, rows, second = ordered(f"{call}:error=EIO:when={calls[:number + 1].count(call)}")
        err = printed.err.replace(WARNING, "")
        is_told = re.fullmatch(f"(.*\n)?{UNRECORDED}(.*\n)?|file fault 8 at record 0: read failed\n", err)
        is_compared = SAME in second.out or (rows == after and MORE_HERE in second.err)
        # Whether the file is on the office's disk may stay unknown.
        is_harmless = call == "statx" and (*printed[:2], err) == (0, "ward 50 added\n", "") and rows == after and SAME in second.out
        is_right = printed[:2] == (3, "") and is_told and rows in (before, after) and is_compared
        wrong_if(not is_right and not is_harmless, f"{call}: {printed}, {second}")
        done += rows == after and not is_harmless
    return len(calls), done

@contextlib.contextmanager
def full_disk(path, size):
    """Has a small disk at a path during a `with`. A write past its end is cut, and the next one fails."""
    stick = Office(path)
    expect("mount", ran("mount", "-t", "tmpfs", "-o", f"size={size}", "tmpfs", str(path)).status, 0)
    try:
        yield stick
    finally:
        ran("umount", str(path))

def little_room(left):
    """Returns the line that warns that so many KB are left on the record's disk; nothing if that is 1 MB."""
    warning = f"warning: the disk of {RECORD} has room for {left} KB, and once it is full, nothing more is accepted"
    return f"{warning}; make room there, or use a file on another disk\n" if left < 1024 else ""

def tell_room(folder, size):
    """Has a record on a disk of some size, and sees that `copy` and `serve` say how much room it has left, and leave nothing else there."""
    office = Office(folder).begin()
    with full_disk(folder / "stick", size) as stick, stick.serve("--second", RECORD, town=f"../{TOWN}").wait() as serving:
        while not (folder / f"{TOWN}-recording").exists():
            time.sleep(0.01)
        found = os.statvfs(stick.folder)
        left = found.f_bavail * found.f_frsize // 1024
        said = re.sub(r"[\d:]{8} UTC", "TIME", office.run("copy", "copied.db").err)
        room = f"{left} KB" if left < 16 * 1024 else "at least 16 MB"
        place = f"second record: {stick.folder.resolve() / RECORD}, last line TIME, room for {room}\n"
        expect(f"what `copy` says of a disk of {size}", said, place + little_room(left))
        expect(f"what `serve` says of a disk of {size}", serving.kill().err, RECORDING + little_room(left))
        expect(f"what is on a disk of {size}", [path.name for path in stick.folder.iterdir()], [RECORD])

def rows_of(office):
    return [(table, row) for table, rows in office.rows().items() for row in rows]

def try_killed_serving(room, runs=200, seed=7):
    """Kills `serve` at random moments while it serves clients, and sees that nothing is lost.

    Twenty clerks key at once, each their own batch, and the office gives ten orders, which are handed over to `serve`. After its kill the
    file is whole, with some of the keyings and orders, each whole and with its receipt: that of each clerk who had the whole response with
    code 200, and each order that was answered. An order is answered, or prints fault 102. All of them, sent again, leave the rows of all.
    """
    chance = random.Random(seed)
    crowd = Crowd(room)
    found = [crowd.killed(chance) for _ in range(runs)]
    heads = "runs", "answered", "found", "runs with some of them, and not all"
    table = Table(f"Twenty clerks at once, and ten orders (seed {seed})", *heads)
    for what, kind, most in (("each clerk keys a batch", "clerk", len(CLERKS)), ("the office adds ten wards", "ward", len(WARDS))):
        answered, kept = ([sum(own.startswith(kind) for own in those) for those in column] for column in zip(*found))
        table.row(what, runs, sum(answered), sum(kept), sum(0 < count < most for count in kept))

def try_second_record(room, runs=100, seed=7, *, step=1):
    """Stops `serve --second FILE` while it serves clients, or fails its calls on FILE, and sees that nothing is lost in FILE, or in the office.

    Twenty clerks key, and the office gives ten orders, as in `tools/try killed-serving`. After a kill at a random moment FILE is replayed in
    a new office (`replay FILE --cut`), as if DB were lost, and DB is opened, as if FILE were. Each has all that was answered, and at most
    one more; and so does each of them have at most one more than the other, as the order `second` says.

    Then each call on FILE fails once, by `strace`; STEP tries one in STEP. If FILE can't be begun, nothing is served, and it is removed. If
    it fails later, the same holds as after a kill, and more: nothing is acknowledged from then on, although the calls don't fail any more.
    Each clerk and order gets fault 112, `serve` prints why, and pages can be read. With a new FILE everyone gets the answer. Given by root,
    it also has FILE on a disk of 4 KB that becomes full, which cuts a line, and on disks of which it knows how much room is left: `serve`
    and `copy` have to say so. Last fails each call on FILE of an order that is performed alone:
    it prints fault 112 or file fault 8, and is done or not; if it is done, FILE may lack it. A `statx` that fails may harm nothing.
    """
    needs("strace")
    chance, crowd = random.Random(seed), Crowd(room, "--second", RECORD)
    heads = "runs", "answered", "in the record", "in the office", "runs in which these differ"
    table = Table(f"Twenty clerks at once, and ten orders (seed {seed})", *heads)

    def row(what, found):
        table.row(what, len(found), *(sum(map(len, column)) for column in zip(*found)), sum(record != kept for _, record, kept in found))
    row("`serve` is killed", [crowd.recorded(*crowd.stopped(chance)) for _ in range(runs)])
    here = crowd.office.copied(crowd.here)
    with here.serve(*crowd.words, under=crowd.traced(here)).wait():
        begins = CALL.findall(crowd.here.with_name("trace").read_text(encoding="utf-8"))
    # What comes after the look at the file that was read only tells whether it is on the office's disk, and where.
    begins = begins[: begins.index("read") + 2]
    for number, call in enumerate(begins):
        with about(f"call {number} on a record that begins, {call}"):
            crowd.unstarted(f"{call}:error=EIO:when={begins[:number + 1].count(call)}")
    for call, fault in (("write", "ENOSPC"), ("write", "EIO"), ("fdatasync", "EIO")):
        found, before = [], begins.count(call)
        for number in range(1, len(crowd.answered) + 1, step):
            with about(f"{call}, request {number}: {fault}"):
                found.append(crowd.unrecorded(f"{call}:error={fault}:when={before + number}"))
        row(f"`{call}` fails once: {fault}", found)
    if os.geteuid() == 0:
        # The journal is so long that the disk is full after some of the requests.
        crowd = Crowd(room / "full", *crowd.words, more=[f"ward {n} 1 {'x' * 80} --id p{n}" for n in range(80, 88)])
        row("a disk that becomes full", [crowd.unrecorded(size="4k") for _ in range(0, runs, 10)])
        for size in ("600k", "3m", "40m"):
            tell_room(room / size, size)
    table = Table("Calls on the file that fail", "number", "the order is done, without a reply")
    table.row("of `serve`, before it serves anybody", len(begins), "")
    table.row("of an order that is performed alone", *failed_alone(room / "alone"))
