"""Journals of made-up evenings: each makes the same office again, and a mended one."""
import collections, random, re, shlex

from office_tools.election import keying, marks_of
from office_tools.office import SCRIPT, Office, Table, about, expect, remove, side_by_side, temporary_folder, wrong_if

SECONDS, PHASES = 120, ("nominations", "keying", "sealed", "declared")
REFUSED = re.compile(r"line (\d+): (?:file fault|refused) (\d+)(?: at record \d+)?: (.*)\n")
CLERKS = (1, 4, 5, 9, 17, 998, 999)
NAMES = (
    "Ann", "Bob", "Old Harbour", "O'Neill", 'the "Red" one', '"', "'", "''", '""', "\"'\"'", "-Harbour", "-", "--", "--id", "--id=x",
    "--help", "-h", "#", "# a comment", "key", "ward 7 2", "withdrawn candidate 1", " before", "behind ", "  ", "\\", "a\\b", "$HOME",
    "`ls`", "=1+1", "*", "~", "Łódź", "名前", "\u00a0", "\u0080", "\u202eeman", "\ufeff", "x" * 120, "é" * 60, "7", "0", "accept:1,,")
# What an id begins with, before a number.
IDS = ("k", "-", "--", "---", "-x", "--id", "--help-", "7", "0", "z" * 32)
REFUSALS = (
    "seal 100", "close 0", "ward 7 0 Harbour", "candidate 7 31 Ann", "withdraw 7 31", "judge 10000 1 reject:5", "judge 1 1 reject:9",
    "lot 7 2 30", "lot 7 32 1", "third 10000 4", "batch 1 7 0 4 4", "key 1000 1 1 D", "key 4 10000 1 D")

def replayed(office, text):
    (office.folder / SCRIPT).write_text(text, encoding="utf-8", newline="")
    return office.run("replay", SCRIPT, seconds=SECONDS)

def typed(words):
    """Returns the line of a script that these words are: each is between two ', and a ' between two "."""
    return " ".join("'" + word.replace("'", "'\"'\"'") + "'" for word in words) + "\n"

class Evening:
    def __init__(self, chance, office):
        self.chance, self.office, self.ids, self.refused = chance, office, collections.defaultdict(list), 0
        self.batches = chance.sample(range(1, 10000), 9)

    def chosen(self, likely):
        return self.chance.random() < likely

    def order(self, *words, name=None, is_used=False):
        """Returns the words of an order with its id, one in forty of something else. A name comes last, and may look like an option."""
        given = self.ids[str(words[1]) if "key" in words[0] else ""]
        if not (given and (is_used or words[0] not in ("candidate", "withdraw") and self.chosen(0.03))):
            given.append(self.chance.choice(IDS) + str(len(given)))
        return [*map(str, words), f"--id={self.chance.choice(given) if is_used else given[-1]}", *(["--", name] if name else [])]

    def sent(self, orders):
        """Sends orders, past those that are refused. Returns the last refusal, a number and a text, if it was of the last order."""
        refusal = None
        while orders:
            printed = replayed(self.office, "".join(map(typed, orders)))
            if printed.status == 0:
                return None
            wrong_if(printed.status != 1 or not (refusal := REFUSED.fullmatch(printed.err)), f"an evening's orders: {printed}")
            self.refused, orders = self.refused + 1, orders[int(refusal[1]):]
        return refusal and (int(refusal[2]), refusal[3])

    def play(self):
        """Sends the orders of some wards, those of each in their order, with some in between that are refused; and counts the wards."""
        chance = self.chance
        wards = {ward: list(self.ward(ward)) for ward in chance.sample(range(1, 100), chance.choice((0, 1, 2, 2, 3)))}
        turns = chance.sample([ward for ward, orders in wards.items() for _ in orders], sum(map(len, wards.values())))
        orders = [wards[ward].pop(0) for ward in turns]
        for line in chance.choices(REFUSALS, k=len(orders) // 5):
            orders.insert(chance.randrange(len(orders)), self.order(*line.split(), is_used=self.chosen(0.5)))
        self.sent(orders)
        for ward in wards:
            self.count(ward)

    def ward(self, ward):
        """Yields the orders of a ward up to its seal, as far as it comes. Some of them are refused."""
        chance = self.chance
        yield self.order("ward", ward, chance.randint(1, 3), name=chance.choice(NAMES))
        numbers = chance.sample(range(1, chance.choice((6, 30)) + 1), chance.choice((1, 3, 4, 5, 5, 6)))
        if self.chosen(0.3):
            names = [chance.choice(NAMES).replace('"', '""') for _ in numbers]
            lines = [f'{ward},{number},"{name}"' for number, name in zip(numbers, names)]
            self.office.write(f"names{ward}.csv", ["ward,candidate,name", *lines])
            yield self.order("import-candidates", f"names{ward}.csv")
        for number in [*numbers, *chance.choices(numbers, k=chance.choice((0, 0, 1, 3, 6)))]:
            if self.chosen(0.25):
                yield self.order("withdraw", ward, number)
            yield self.order("candidate", ward, number, name=chance.choice(NAMES))
        for _ in range(min(chance.choice((0, 0, 0, 1, 2)), len(numbers) - 1)):
            yield self.order("withdraw", ward, numbers.pop())
        if self.chosen(0.9):
            yield self.order("close", ward)
            batches = [self.batch(ward, sorted(numbers)) for _ in range(chance.choice((1, 1, 2, 3)))]
            while batches:
                batch = chance.choice(batches)
                if (order := next(batch, None)) is None:
                    batches.remove(batch)
                else:
                    yield order
            yield self.order("seal", ward)

    def ranked(self, columns, least):
        size = len(columns)
        return marks_of(self.chance.sample(range(size), self.chance.randint(least, size)), size)

    def marks(self, columns):
        odd = ",".join(self.chance.choice(("", "1", "2", "99")) for _ in columns)
        return "D" if self.chosen(0.17) else odd if self.chosen(0.05) else self.ranked(columns, 0)

    def keyed(self, columns, clerk, batch, turn, papers):
        if self.chosen(0.7):
            return [*self.order("key", clerk, batch, turn), *papers]
        name = f"k{clerk}-{batch}-{turn}.csv"
        self.office.write(name, keying(papers, columns))
        return self.order("import-keying", clerk, batch, turn, name)

    def batch(self, ward, columns):
        """Yields the orders of a batch, keyed in rounds until two clerks agree, or left before, and the verdicts."""
        batch, (first, second, third) = self.batches.pop(), self.chance.sample(CLERKS, 3)
        papers = [self.marks(columns) for _ in range(self.chance.choice((1, 2, 3, 5, 8)))]
        yield self.order("batch", batch, ward, len(papers), first, second)
        for turn in range(1, self.chance.choice((2, 3, 4, 5))):
            clerks = self.chance.sample((first, second), 1 if self.chosen(0.05) else 2)
            # Some key the first paper otherwise.
            keyings = [[self.marks(columns), *papers[1:]] if turn < self.chance.choice((1, 1, 2, 4)) else papers for _ in clerks]
            for clerk, keying_of in zip(clerks, keyings):
                yield self.keyed(columns, clerk, batch, turn, keying_of)
            if keyings == [papers, papers]:
                break
            if self.chosen(0.4):
                yield self.order("third", batch, third)
                yield self.keyed(columns, third, batch, turn, papers)
            yield self.order("again", batch)
        for paper in [number for number, text in enumerate(papers, 1) if text == "D"]:
            yield self.order("judge", batch, paper, self.chance.choice((f"accept:{self.ranked(columns, 1)}", "reject:3", "reject:5")))

    def count(self, ward):
        while not self.chosen(0.03):
            number, text = self.sent([self.order("advance", ward)]) or (0, "")
            if number == 26:
                stage, tied = text.removeprefix("lot needed at stage ").split(" among ")
                self.sent([self.order("lot", ward, stage, self.chance.choice(tied.split(", ")))])
            elif number:
                self.sent([self.order("declare", ward)])
                return

def journal(office):
    printed = office.run("journal", seconds=SECONDS)
    wrong_if(printed.status or printed.err, f"journal: {printed}")
    return printed.out

def differing(wanted, found):
    """Returns the first table that has other rows, with both, or nothing."""
    return next((f"table {table}: {rows} and {found[table]}" for table, rows in wanted.items() if found[table] != rows), "")

def compared(office, chance, in_other_forms):
    """Checks that the journal of an office makes the same office. Returns its rows."""
    found, text = office.rows(), journal(office)
    lines = [line for line in text.split("\n") if line and not line.startswith("#")]
    wrong_if(len(lines) != len(found["receipt"]), f"{len(lines)} lines for {len(found['receipt'])} receipts")
    new = Office(office.folder / "new").begin()
    printed, again = replayed(new, text), new.rows()
    wrong_if(printed.status or printed.err or printed.out.count("\n") != len(lines), f"the journal sent: {printed}")
    wrong_if(other := differing(found, again), other)
    wrong_if(journal(new) != text, "the new office has another journal")
    lines = text.split("\n")
    cut, mixed = text[:chance.randint(0, len(text))], "\n".join(chance.sample(lines, len(lines)))
    for name, form in (("twice", text + text), ("cut", cut), ("shuffled", mixed)) * in_other_forms:
        new = Office(office.folder / name).begin()
        printed = replayed(new, form)
        is_wrong = printed.status not in (0, 1, 2) or name == "twice" and (printed.status or new.rows() != found)
        wrong_if(is_wrong, f"the journal {name}: {printed}, or other tables")
        journal(new)
    return found

def counted(evening, number):
    found = compared(evening.office, evening.chance, number % 10 == 0)
    had = collections.Counter({"evenings": 1, "orders accepted": len(found["receipt"]), "orders refused": evening.refused})
    had["candidates withdrawn"] = sum(receipt[2].startswith("withdraw ") for receipt in found["receipt"])
    had.update(f"wards in {PHASES[ward[2] - 1]}" for ward in found["ward"])
    had.update({
        "batches": len(found["batch"]), "rounds past the first": sum(batch[5] - 1 for batch in found["batch"]),
        "third clerks": len(found["third"]), "keyings": sum(keyed[3] == 1 for keyed in found["keying"]), "verdicts": len(found["verdict"]),
        "stages": sum(ward[3] for ward in found["ward"]), "lots": len(found["lot"])})
    return had

def print_evenings(title, evenings, seed, act, front=""):
    """Plays evenings side by side, and prints the sum of what an act counts of each."""
    def played(number):
        with temporary_folder() as folder, about(f"evening {number} of seed {seed}"):
            evening = Evening(random.Random(f"{front}{seed} {number}"), Office(folder / "town").begin())
            evening.play()
            return act(evening, number)
    Table(f"{title} (seed {seed})", "number").rows(sum(side_by_side(played, range(evenings)), collections.Counter()))

def try_journalled(evenings=200, seed=7):
    """Plays made-up evenings, sends the journal of each to a new office, and compares all rows.

    Names and ids look like words of a script. Refused orders, and ids that were given to something else, come between. `journal` has a line
    for each receipt, and each is accepted by `replay`. All tables of both offices have the same rows, and both have the same journal. That
    of one evening in ten is also sent twice, which makes the same tables, cut, and shuffled: each makes an office with a journal."""
    print_evenings("What the evenings had", evenings, seed, counted)

NEW, COUNTS = "mended.db", ("advance", "lot", "declare")
# How many words of an order say what it is about, besides its name; of others it is one.
ABOUT = {"candidate": 2, "withdraw": 2, "lot": 2, "judge": 2}

def split(line):
    """Returns the words of a script's line, in which a backslash is a character like others."""
    words = shlex.shlex(line, posix=True)
    words.whitespace_split, words.escape, words.commenters = True, "", ""
    return list(words)

class Line:
    def __init__(self, words):
        at = next(place for place, word in enumerate(words) if word == "--id" or word.startswith("--id="))
        length = 2 if words[at] == "--id" else 1
        self.words, self.id = words, words[at + 1] if length == 2 else words[at][5:]
        # (a name may be `--` too)
        plain = words[:at] + words[at + length:]
        self.order, *self.plain = [word for place, word in enumerate(plain) if word != "--" or place != plain.index("--")]
        self.clerk = self.plain.pop(0) if self.order == "key" else "0"
        self.name = f"{self.clerk}:{self.id}" if self.order == "key" else self.id
        self.subject = " ".join([self.order, *self.plain[:2 if self.order == "key" else ABOUT.get(self.order, 1)]])

    def wards(self, lines):
        """Returns the wards that the order is about, by the lines that give out its batch."""
        if self.order in ("again", "third", "judge", "key"):
            return {line.plain[1] for line in lines if line.order == "batch" and line.plain[0] == self.plain[0]}
        return {self.plain[1 if self.order == "batch" else 0]}

def other_for(chance, line, used):
    """Returns an order that may take the place of another, with another word, or None."""
    own = line.id if chance.random() < 0.3 else chance.choice([f"mend{len(used)}", chance.choice(sorted(used))])
    words = [line.clerk] * (line.order == "key") + line.plain
    place = chance.randrange(3, len(words)) if line.order == "key" else 1 if line.order in ("ward", "third") else 2
    old = words[place] if place < len(words) else ""
    others = {"judge": ("reject:3", "reject:4", "reject:5", "accept:1", "accept:,,,"), "key": (old, "D", "1", old[::-1]), "ward": "123",
              "batch": (old, f"{old}1"), "candidate": ("Zoe", old), "lot": "123456", "third": ("5", "17", "998")}.get(line.order)
    if not others:
        return None
    words[place] = chance.choice(others)
    return Line([line.order, f"--id={own}", "--", *words])

def refusals(new, sent):
    """Sends lines, each with its place in a journal, to a new office. Returns why some are refused, by their places."""
    new.write(SCRIPT, [typed(line.words).rstrip("\n") for _, line in sent])
    printed, refused = new.run("replay", SCRIPT, "--keep-going", seconds=SECONDS), {}
    for text in printed.err.splitlines(keepends=True):
        if match := REFUSED.fullmatch(text):
            refused[sent[int(match[1]) - 1][0]] = f"refused {match[2]}: {match[3]}"
        else:
            wrong_if(not text.startswith("line") or "note:" not in text, f"the orders that are left: {printed}")
    return refused

def expected(office, lines, without, instead, number):
    """Makes the office of the orders that are left, by `replay` alone. Returns it, and why each order that is gone is, by its place."""
    gone = {place: "as asked" for place, line in enumerate(lines) if line.name in without and place not in instead}
    while True:
        new, changed, more = Office(office.folder / f"expected{number}-{len(gone)}").begin(), set(), {}
        refused = refusals(new, [(place, instead.get(place, line)) for place, line in enumerate(lines) if place not in gone])
        for place, line in enumerate(lines):
            if line.order in COUNTS and line.plain[0] in changed and place not in gone and place not in instead:
                more[place] = f"ward {line.plain[0]} changed before it"
            elif place in gone or place in refused or place in instead:
                changed |= line.wards(lines) | (instead[place].wards(lines) if place in instead and place not in refused else set())
        if not more:
            return new, gone | {place: f"the order in its place is {why}" if place in instead else why for place, why in refused.items()}
        # What is refused after the first that falls away may be refused because of it: only the first is certain.
        gone[min(more)] = more[min(more)]

def told_of(lines, gone, instead, wards):
    """Yields the lines that `mend` has to print before its numbers. `wards` printed the two lists, of the office and of the new one."""
    for place, line in enumerate(lines):
        if place in gone:
            yield f"left out {line.name}, {line.subject}: {gone[place]}"
        elif place in instead:
            yield f"replaced {line.name}, {line.subject}: by {instead[place].name}"
    for sign, these, others in (("-", *wards), ("+", *reversed(wards))):
        yield from (f"{sign} {line}" for line in these if line not in others)

def mended(chance, office, number):
    lines = [Line(split(line)) for line in journal(office).split("\n") if line and not line.startswith("#")]
    if not lines:
        return collections.Counter({"offices without an order": 1})
    subjects, used = collections.Counter((line.clerk, line.subject) for line in lines), {line.id for line in lines}
    without = {line.name for line in chance.sample(lines, min(len(lines), chance.choice((0, 1, 1, 2, 4))))}
    places = chance.sample(range(len(lines)), min(len(lines), chance.choice((0, 1, 1, 2, 3))))
    others = {place: other_for(chance, lines[place], used) for place in places if subjects[lines[place].clerk, lines[place].subject] == 1}
    instead = {place: other for place, other in others.items() if other}
    words = [f"--without={name}" for name in sorted(without)]
    words += [word for other in instead.values() for word in ("--with", typed(other.words).rstrip("\n"))]
    before = office.rows()
    remove(office.folder / NEW, office.folder / (NEW + "-wal"))
    printed = office.run("mend", NEW, *words, seconds=SECONDS)
    wrong_if(printed.status or printed.err or office.rows() != before, f"mend {words}: {printed}, or the office was changed")
    new, gone = expected(office, lines, without, instead, number)
    *told, last = printed.out.splitlines()
    replaced, wards = len(instead.keys() - gone), [its.run("wards").out.splitlines() for its in (office, new)]
    expect(f"mend {words} printed", told, list(told_of(lines, gone, instead, wards)))
    counts = f"{len(lines) - replaced - len(gone)} orders kept, {replaced} replaced, {len(gone)} left out"
    expect(f"mend {words} counted", last, f"mended: {counts}")
    wrong_if(different := differing(new.rows(), office.rows(NEW)), f"mend {words}: {different}")
    whys = {"as asked": "as asked", "since they are refused": "refused", "since their ward changed": "changed before"}
    return collections.Counter({
        "offices mended": 1, "orders": len(lines), "orders replaced": replaced, "orders left out": len(gone),
        **{f"left out, {what}": sum(part in why for why in gone.values()) for what, part in whys.items()}})

def try_mended(evenings=400, seed=7):
    """Plays made-up evenings, mends each at random, and compares the new office with that of the orders that are left.

    The other office is made without `mend`: the journal's lines without those that are left out, with others in the place of some, and
    without the stages, lots and declarations of a ward of which an order was left out, replaced or refused before. All tables of both have
    the same rows, and the office that was given stays as it was. A line is printed for each order that is gone or replaced, with the reason
    for which `replay` refuses it, in the journal's sequence; then how `wards` differs; then the three numbers."""
    print_evenings("What was mended", evenings, seed, lambda evening, _: sum(
        (mended(evening.chance, evening.office, turn) for turn in range(5)), collections.Counter()), "mended ")
