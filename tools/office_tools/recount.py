"""A count of ballots apart from the program, written from the text of the Order alone, as tellers do it who lay papers into parcels."""
import collections, itertools, json, re

from office_tools.office import Wrong

# Values are whole hundred-thousandths of a vote.
VOTE, CODES = 100000, range(1, 6)
BLANKS, MOST = " \t\r", 4999500
# What a comment of ours says, and the numbers at most; blanks, colons and commas part its words.
OURS = {
    "ward": ("Ward ([0-9]+)", 255),
    "rejected": ("Rejected " + " ".join(f"{code} ([0-9]+)" for code in CODES), 2 ** 32 - 1),
    "lot": ("Lot at stage ([0-9]+) ([0-9]+)", 255),
}
BEGINS_AS_OURS = re.compile(r"[^0-9a-z]*(ward|rejected|lot)(?![a-z])", re.ASCII | re.IGNORECASE)
# Equal papers, held together.
Bundle = collections.namedtuple("Bundle", "papers preferences")

class Unreadable(Wrong):
    """What makes a file no ballots file, and the number of the line that isn't understood, or 0."""

    def __init__(self, what, line=0):
        super().__init__(what)
        self.line = line

def require(condition, what):
    if not condition:
        raise Unreadable(what)

def told_by(comment, is_alone):
    """Returns what a comment of ours says, and its numbers; nothing for another program's. One that only begins as ours can't be read."""
    words = " ".join(re.split("[ \t\r:,]+", comment))
    for what, (form, most) in OURS.items():
        if is_alone and (found := re.fullmatch(f" {form} ?", words, re.ASCII)) and max(map(int, found.groups())) <= most:
            return [(what, [int(number) for number in found.groups()])]
    require(not BEGINS_AS_OURS.match(comment), f"a comment that begins as ours do: {comment[:40]!r}")
    return []

def number_in(word, most):
    require(re.fullmatch("[0-9]+", word) and int(word) <= most, f"no number, or too large: {word[:40]!r}")
    return int(word)

class Ballots:
    """A ballots file, read line by line as docs/formats/ballots.md says."""

    def __init__(self, content):
        self.take, self.highest, self.texts = self.take_size, 0, []
        self.told, self.withdrawn, self.papers = {}, set(), collections.Counter()
        place, lines = 0, content.removeprefix(b"\xef\xbb\xbf").decode("utf-8", "surrogateescape").split("\n")
        try:
            for place, line in enumerate(lines, 1):
                self.take_line(line)
            require(len(self.texts) > self.highest, "the name of the ward is missing")
        except (Unreadable, UnicodeEncodeError) as error:
            raise Unreadable(f"line {place}: {error}", place) from error
        *names, self.ward_name = self.texts
        self.names = {c: name for c, name in enumerate(names, 1) if c not in self.withdrawn}
        self.bundles = [Bundle(papers, named) for named, papers in sorted(self.papers.items())]
        self.lots = {numbers[0]: numbers[1] for (what, _), numbers in self.told.items() if what == "lot"}
        self.ward, rejected = self.told.get(("ward", 0), [1])[0], self.told.get(("rejected", 0))
        require(not (self.bundles or rejected) or len(self.names) > self.seats, "papers where nobody has to be chosen")
        self.rejected = rejected or [0 for _ in CODES]

    def take_line(self, line):
        if not line.lstrip(BLANKS).startswith("#"):
            return self.take(line) if line.strip(BLANKS) else None
        for what, numbers in told_by(line.lstrip(BLANKS)[1:], True):
            key = what, numbers[0] if what == "lot" else 0
            require(key not in self.told, "one of our comments again")
            self.told[key] = numbers

    def words(self, line, count=None):
        numbers, _, comment = line.partition("#")
        told_by(comment, False)
        words = re.findall(f"[^{BLANKS}]+", numbers)
        require(count in (None, len(words)), "another number of words")
        return words

    def candidate(self, word):
        require(number_in(word, self.highest) > 0, "no candidate")
        return int(word)

    def take_size(self, line):
        highest, seats = self.words(line, 2)
        self.highest, self.seats, self.take = number_in(highest, 30), number_in(seats, 15), self.take_withdrawn
        require(self.seats > 0, "no seats")

    def take_withdrawn(self, line):
        words = self.words(line)
        if not words[0].startswith("-"):
            self.take = self.take_papers
            return self.take_papers(line)
        require(all(word.startswith("-") for word in words), "no minus")
        self.withdrawn.update(self.candidate(word[1:]) for word in words)

    def take_papers(self, line):
        """Reads so many papers with these ranks, up to the first that several share who stand, without the withdrawn."""
        words = self.words(line)
        if words == ["0"]:
            self.take = self.take_name
            return
        papers, ranks = number_in(words[0], MOST), [[self.candidate(c) for c in word.split("=")] for word in words[1:-1]]
        read = itertools.takewhile(lambda rank: len([c for c in rank if c not in self.withdrawn]) < 2, ranks)
        named = [c for rank in read for c in rank]
        preferences = tuple(c for c in named if c not in self.withdrawn)
        require(papers and words[-1] == "0" and preferences and len(set(named)) == len(named), "no papers")
        self.papers[preferences] += papers
        require(self.papers.total() <= MOST, "too many papers")

    def take_name(self, line):
        found = re.fullmatch(f'[{BLANKS}]*"((?:[^"\\\\]|\\\\.)*)"[{BLANKS}]*(?:#(.*))?', line, re.DOTALL)
        require(found, "no name in quotation marks")
        told_by(found[2] or "", False)
        self.texts.append(re.sub(r'\\(["\\])', r"\1", found[1]))
        require(len(self.texts[-1].encode()) <= 1000, "a name that is too long")
        self.take = self.take_name if len(self.texts) <= self.highest else self.take_nothing

    def take_nothing(self, line):
        require(not line, "a line behind the ward's name")

    def lines(self):
        """Returns the same ballots as the program prints them. Lots of an uncontested ward are left out."""
        names = [self.names.get(c, "withdrawn") for c in range(1, self.highest + 1)]
        lines = blt(self.seats, self.bundles, names, self.rejected, self.ward_name, self.ward, sorted(self.withdrawn))
        lots = [f"# Lot at stage {stage}: {c}" for stage, c in sorted(self.lots.items())]
        return lines + lots if len(self.names) > self.seats else lines[:-1]

def votes_text(value):
    return f"{value // VOTE}.{value % VOTE:05}"

def written(lines):
    """Returns lines as bytes, those of names as they were read."""
    return "".join(f"{line}\n" for line in lines).encode("utf-8", "surrogateescape")

def blt(seats, bundles, names, rejected, ward_name, ward=1, gone=()):
    """Returns the lines of a ballots file: its bundles are papers and preferences. It has no lot."""
    def quoted(name):
        return '"' + re.sub(r'(["\\])', r"\\\1", name) + '"'
    papers = [f"{papers} {' '.join(map(str, named))} 0" for papers, named in bundles]
    lines = [f"{len(names)} {seats}", *[" ".join(f"-{c}" for c in gone)] * bool(gone), *papers, "0", *map(quoted, names)]
    rejected = ", ".join(f"{code}: {papers}" for code, papers in enumerate(rejected, 1))
    return [*lines, quoted(ward_name), f"# Ward {ward}", f"# Rejected {rejected}"]

class Count:
    """The count of a ward: as many stages as its lots let it have.

    A candidate has parcels, each with the value at which its papers came, and votes. Those of `None` are non-transferable. The letters are
    those of the sheet: - for a continuing candidate, E at the stage of the election and e after it, x once excluded."""

    def __init__(self, ballots):
        self.ballots, self.stages, self.figures, self.lost = ballots, [], [], 0
        # The stages as JSON shows them, and the stage at which a candidate was elected, or excluded.
        self.told, self.stage_of = [], {}
        self.letters, self.votes = dict.fromkeys(ballots.names, "-"), dict.fromkeys([*ballots.names, None], 0)
        self.parcels = {number: [] for number in self.votes}
        # The quota: the papers divided by one more than the seats, the whole part of that, and one vote more.
        self.valid = sum(bundle.papers for bundle in ballots.bundles)
        self.quota = (self.valid // (ballots.seats + 1) + 1) * VOTE
        # The lots that no stage has taken; and the stage that a lot is wanted for, with the tied.
        self.lots, self.waits = dict(ballots.lots), None
        # If there are no more candidates than seats all are elected, without a poll.
        self.is_contested = len(self.letters) > ballots.seats
        if self.is_contested:
            # Each paper is laid before the candidate of its first preference, as one vote.
            for bundle in ballots.bundles:
                self.receive(bundle.preferences[0], VOTE, [bundle])
            self.end_stage("first preferences")
            while self.vacancies() and not self.waits:
                self.next_stage()

    def those(self, letters):
        return [number for number, letter in self.letters.items() if letter in letters]

    def vacancies(self):
        return self.ballots.seats - len(self.those("Ee"))

    def next_stage(self):
        """Transfers the highest surplus; if there is none, excludes the continuing candidate with the fewest votes."""
        surpluses = [number for number in self.those("Ee") if self.votes[number] > self.quota]
        giver = self.foremost(surpluses, max) if surpluses else self.foremost(self.those("-"), min)
        if giver and surpluses:
            # All papers are handed on, each at its part of the surplus, and the quota stays. What is cut off their values is lost.
            surplus, credited = self.votes[giver] - self.quota, self.votes[giver]
            self.lost += surplus - self.hand_on(giver, lambda received: surplus * received // credited)
            self.votes[giver] = self.quota
            self.end_stage(f"surplus of {giver}")
        elif giver:
            # The papers are handed on at the values at which they were received. If all the others are elected now, the votes stay.
            self.letters[giver] = "x"
            is_last = len(self.those("-")) == self.vacancies()
            self.votes[giver] -= 0 if is_last else self.hand_on(giver, lambda received: received)
            self.end_stage(f"exclusion of {giver}" + ", last vacancies" * is_last)

    def foremost(self, tied, most):
        """Returns the candidate with the most votes, or the fewest; None if a lot has to be drawn for that."""
        # Between equal ones the latest stage before decides at which they weren't equal: the one with the most, or fewest, votes
        # there is chosen. Between several who are equal there too the stages before it decide in turn, else a lot.
        for figures in reversed(self.figures):
            figure = most(figures[number] for number in tied)
            tied = [number for number in tied if figures[number] == figure]
        due = len(self.stages) + 1
        if len(tied) == 1:
            return tied[0]
        if self.lots.get(due) in tied:
            return self.lots.pop(due)
        self.waits = due, tied
        return None

    def receive(self, number, value, bundles):
        """Credits a candidate, or nobody, with papers at this value each. Returns what they are worth."""
        worth = value * sum(bundle.papers for bundle in bundles)
        self.parcels[number].append((value, bundles))
        self.votes[number] += worth
        return worth

    def hand_on(self, giver, value_of):
        """Hands on each parcel of a candidate, at a value made from the one at which it was received. Returns the worth of all."""
        parcels, self.parcels[giver], worth = self.parcels[giver], [], 0
        for value, bundles in parcels:
            heaps = collections.defaultdict(list)
            for bundle in bundles:
                # To the continuing candidate whom these papers prefer next, if there is one.
                after = bundle.preferences[bundle.preferences.index(giver) + 1:]
                heaps[next((number for number in after if self.letters[number] == "-"), None)].append(bundle)
            worth += sum(self.receive(receiver, value_of(value), heap) for receiver, heap in heaps.items())
        return worth

    def end_stage(self, action):
        """Deems elected who has the quota, or is needed for the last vacancies, and writes the stage down."""
        for number in self.those("E"):
            self.letters[number] = "e"
        is_last = len(self.those("-")) == self.vacancies()
        for number in self.those("-"):
            if is_last or self.votes[number] >= self.quota:
                self.letters[number] = "E"
        self.figures.append(dict(self.votes))
        for number in self.those("Ex"):
            self.stage_of.setdefault(number, len(self.figures))
        what, _, concerned = action.removesuffix(", last vacancies").partition(" of ")
        self.told.append({"stage": len(self.figures), "action": what + ", last vacancies" * action.endswith(", last vacancies"),
                          "of": int(concerned) if concerned else None, "votes": [votes_text(self.votes[number]) for number in self.letters],
                          "non_transferable": votes_text(self.votes[None]), "lost": votes_text(self.lost)})
        candidates = [f"{number:2} {votes_text(self.votes[number]):>13} {self.letters[number]} {name}"
                      for number, name in self.ballots.names.items()]
        self.stages.append(written([f"Stage {len(self.stages) + 1}: {action}", *candidates,
                                    f"   {votes_text(self.votes[None]):>13} non-transferable",
                                    f"   {votes_text(self.lost):>13} lost by fractions"]))

    def sheet(self):
        lines = [f"Ward {self.ballots.ward} {self.ballots.ward_name}", f"Seats {self.ballots.seats}, uncontested"]
        if self.is_contested:
            lines[1] = f"Seats {self.ballots.seats}, valid {self.valid}, quota {votes_text(self.quota)}"
            lines.append("Rejected " + ", ".join(f"{code}: {papers}" for code, papers in zip(CODES, self.ballots.rejected)))
        return written(lines) + b"".join(self.stages)

    def declaration(self):
        lines = [f"{number:2} {self.ballots.names[number]}" for number in self.those("Ee" if self.is_contested else "-")]
        return written([f"Ward {self.ballots.ward} {self.ballots.ward_name}", "Elected", *lines])

    def results(self):
        """Returns the result as JSON, declared if the count is finished."""
        poll, elected = self.is_contested, self.those("Ee" if self.is_contested else "-")
        lots = {stage: number for stage, number in sorted(self.ballots.lots.items()) if poll}
        told = {
            "ward": self.ballots.ward, "name": self.ballots.ward_name, "seats": self.ballots.seats, "declared": not self.waits, "contested": poll,
            "valid": self.valid if poll else None, "rejected": self.ballots.rejected if poll else None,
            "quota": votes_text(self.quota) if poll else None,
            "candidates": [{"number": number, "name": self.ballots.names[number], "elected": number in elected,
                            "elected_at": self.stage_of.get(number) if letter in "Ee" else None,
                            "excluded_at": self.stage_of.get(number) if letter == "x" else None} for number, letter in self.letters.items()],
            "stages": self.told, "lots": [{"stage": stage, "candidate": number} for stage, number in lots.items()],
        }
        return written([json.dumps(told, ensure_ascii=False, separators=(",", ":"))])

def counts(lines, choose):
    """Yields the count of the ballots of these lines; and again after each lot that it needs, which is chosen, and added to the lines."""
    while True:
        yield (count := Count(Ballots(written(lines))))
        if not count.waits:
            return
        stage, tied = count.waits
        lines.append(f"# Lot at stage {stage}: {choose(tied)}")
