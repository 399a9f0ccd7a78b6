"""Orders that are refused memory or a call on a file, or killed, and what they may print and leave then. `strace` refuses the calls."""
import re

from office_tools.election import (
    COPY, COPY_LOG, COPYING, ELECTION, FILE, MADE, READS, REPLAY, REQUESTS, SCRIPTED, Order, make_older, offices)
from office_tools.office import LOG, NO_OFFICE, SCRIPT, TOWN, Office, about, remove, wrong_if

NOT_WRITTEN = "fault 110: copy not written"
# What `serve` prints besides, if it can't make its socket. Clients are served all the same.
NO_SOCKET = "no socket for orders next to the database: it can't be made\n"
RESULTS = ("rows before it found", "rows after it", "some records")
ON_FILES = ("openat", "statx", "readlink", "pread64", "read", "pwrite64", "write", "fsync", "fdatasync", "ftruncate", "fcntl", "lseek",
            "flock", "unlink", "fchmod", "fchown")
CALL, REFUSED = re.compile(r"^\d+ +(\w+)\(", re.MULTILINE), re.compile(r"\(INJECTED\)$|= -1 EFBIG", re.MULTILINE)

def strace(trace, folder, names, *changes, calls=ON_FILES):
    """Returns the words that run a program under `strace`, which notes its calls on some files of a folder, and changes some of these."""
    paths, changed = [f"-P{path}" for name in names for path in (name, folder / name)], [f"-einject={change}" for change in changes]
    return ["strace", "-D", "-f", "--quiet=all", "-o", trace, f"-etrace={','.join(calls)}", *paths, *changed]

def left(office, status=0):
    """Returns the rows of the office and those of its copy. With status 0 the copy is its file alone, so its log is removed."""
    if status == 0:
        remove(office.folder / COPY_LOG)
    return office.rows(), office.rows(COPY)

class Trial:
    """An order, the office before it, and what it prints and leaves if nothing is refused."""

    def __init__(self, folder, office, order, number=0):
        self.folder, self.office, self.order, self.number = folder, office, order, number
        after = office.copied(self.folder / "after")
        self.printed = order.done(after)
        self.is_copy, self.is_script, self.states = order.words[0] == "copy", order.words[0] == "replay", [left(office)]
        if self.is_script or order.words[0] in ("import-candidates", "import-batches"):
            # What it leaves after each of its records but the last.
            for count in range(2, len(order.lines)):
                part = office.copied(self.folder / "part")
                Order(order.words, order.lines[:count]).done(part)
                self.states.append(left(part))
        if left(after) != self.states[0]:
            self.states.append(left(after))

    def is_fault(self, printed, faults):
        status, out, err = printed
        if self.order.sends and not status:
            if not out and not err:
                # The client was disconnected: there was no memory for what it sends, or for its answer.
                return any("memory" in fault for fault in faults)
            answered = re.fullmatch(r'HTTP/1\.1 503 Service Unavailable\r\n.*\r\n\r\n\{"fault":(\d+)\}', out, re.DOTALL)
            return bool(answered) and any(fault.startswith(f"fault {answered[1]}: ") and err in ("", fault + "\n") for fault in faults)
        has_parts = len(self.states) > 2 or self.is_copy or self.order.words[0] == "count"
        whole_lines = out == "" or (has_parts and out.endswith("\n") and self.printed.out.startswith(out))
        if self.is_copy and out:
            faults = [fault for fault in faults if fault == NOT_WRITTEN]
        if self.is_script:
            # It names the line that was under way.
            faults = [f"line {2 + self.order.replies(out)}: {fault}" for fault in faults] + ([] if out else faults)
        return status == 3 and whole_lines and any(re.fullmatch(fault + "\n", err) for fault in faults)

    def check_beside(self, office, printed, keeps):
        """Checks that nothing is next to the office but a copy that was reported, or what may be kept of one: all of it, or no office."""
        there = {path.name for path in office.folder.iterdir()} - {TOWN, LOG, FILE, SCRIPT}
        wrong_if(others := there - ({COPY, COPY_LOG} if printed.out or keeps else set()), f"left behind: {others}: {printed}")
        if COPY in there:
            opened = office.copied(self.folder / "opened", COPY).run("wards")
            is_right = opened.status == 0 if office.rows(COPY) else opened == (3, "", NO_OFFICE)
            wrong_if(not is_right, f"what is left of a copy prints {opened}: {printed}")

    def check_again(self, office, printed, place):
        """Checks that the order, given again, prints and leaves what it does if nothing is refused."""
        remove(office.folder / COPY, office.folder / COPY_LOG)
        wanted = MADE.get(self.order.words[0], self.printed) if place else self.printed
        again = self.order.done(office)
        wrong_if(again != wanted or left(office) != self.states[-1], f"{printed}, and given again {again}")

    def judged(self, here, printed, keeps, is_right):
        """Judges what an order that was stopped printed and left, and gives it again. Returns the number of the state that was found."""
        self.check_beside(here, printed, keeps)
        wrong_if((found := left(here, printed.status)) not in self.states, f"other rows: {printed}")
        place, last = self.states.index(found), len(self.states) - 1
        wrong_if(place != last and (printed == self.printed or printed.out == self.printed.out != ""), f"answered, and lost: {printed}")
        wrong_if(place < min(last, self.order.replies(printed.out)) or not is_right(place), f"{place} of {last} records found: {printed}")
        self.check_again(here, printed, place)
        return place

    def traced(self, names=(), changes=(), under=(), env=(), calls=ON_FILES):
        """Gives the order under `strace`. Returns the office, what was printed, and the trace."""
        here, trace = self.office.copied(self.folder / "run"), self.folder / "trace"
        words = [*strace(trace, here.folder, names, *changes, calls=calls), *under]
        # A write past the length of `prlimit --fsize` fails only if its signal is ignored, as Python has it.
        printed = self.order.done(here, env=env, under=words, restore_signals=False)
        return here, printed, trace.read_text(errors="replace")

    def refused(self, faults, keeps=False, **how):
        """Gives the order with a refusal. Returns (whether a fault was reported, the number of the state found), or None if it met none."""
        here, printed, trace = self.traced(**how)
        printed = printed._replace(err=printed.err.removeprefix(NO_SOCKET))
        differs, is_met, replies = printed != self.printed, REFUSED.search(trace), self.order.replies(printed.out)
        place = self.judged(here, printed, keeps, lambda place: not differs or (
            is_met and self.is_fault(printed, faults) and replies <= place <= replies + 1))
        return (differs, place) if is_met else None

    def runs(self, act, ways):
        """Stops the order in each way, which has a name. Returns [how often it was stopped, how often not, what was found]."""
        found = []
        for which, how in ways:
            with about(f"{self.order.name}: {which}"):
                found += filter(None, [act(self, **how)])
        places, stopped = [place for _, place in found], sum(is_stopped for is_stopped, _ in found)
        old, new = places.count(0), sum(place == len(self.states) - 1 for place in places if place)
        return [stopped, len(found) - stopped, old, new, len(found) - old - new]

def trials(folder, name="", orders=None):
    """Returns the trials of the election, or those of the orders of one name, each on the office before its order."""
    is_small, orders = orders is None, orders or ELECTION
    before, older = offices(folder, orders), Office(folder / "older")
    make_older(older.folder / TOWN)
    wanted = [*zip(before, orders), (older, Order(["migrate"]))]
    if is_small:
        wanted += [(before[number], order) for number, order in READS + REQUESTS]
    wanted += [(before[-1], COPYING), (before[SCRIPTED[0]], REPLAY)]
    found = [Trial(folder / f"trial-{number}", office, order, number) for number, (office, order) in enumerate(wanted)]
    wrong_if(found[-2].states[-1] != (before[-1].rows(),) * 2, "a copy has other rows than its office")
    wrong_if(is_small and found[-1].states[-1] != left(before[SCRIPTED[-1] + 1]), "a script leaves other rows than its orders do")
    return [trial for trial in found if name in ("", trial.order.words[0])]
