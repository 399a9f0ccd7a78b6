"""Ballots, sheets and cast-vote records, of the program and of anyone, compared with a count apart from the program."""
import collections, contextlib, itertools, os, random, re, sys

from office_tools.election import Ward, damaged, judged, orders_to_seal
from office_tools.office import Office, Table, about, checker, expect, request, timed, wrong_if
from office_tools.recount import BLANKS, MOST, Ballots, Count, Unreadable, blt, counts, number_in, require, written

MOST_WARDS, SCRIPT_SECONDS = 99, 600
# Characters that could steer a terminal: a question mark is shown for each.
STEERS = re.compile("[\0-\x09\x0b-\x1f\x7f-\x9f\u061c\u200e\u200f\u202a-\u202e\u2066-\u2069]")

def compare(what, told, wanted):
    for place, (line, right) in enumerate(itertools.zip_longest(told.split(b"\n"), wanted.split(b"\n")), 1):
        wrong_if(line != right, f"{what}, line {place}: told is {line}, wanted {right}")

def compare_counted(content, words, count, wanted, lots=None):
    """Counts a file without an office, with a count's lots or those given, and compares each text by its option, the line about a lot and
    the status."""
    lots = count.ballots.lots if lots is None else lots
    line, added = b"0", [word for stage, drawn in lots.items() for word in ("--lot", f"{stage}:{drawn}")]
    if count.waits:
        tied = ", ".join(f"{number} {count.ballots.names[number]}" for number in count.waits[1])
        line = STEERS.sub("?", f"lot needed at stage {count.waits[0]} among {tied}").encode() + b"\n1"
    for option, text in wanted.items():
        status, out, err = checker(*words, *option.split(), *added, input=content)
        compare(f"count without an office {option}", out, text)
        compare("its line about a lot, and its status", err + b"%d" % status, line)

class Election:
    """A ward that is sealed, or closed without a poll, and the recount of its ballots, which has one lot more in each round."""

    def __init__(self, ward, ballots):
        self.ward, self.number, self.first, self.count = ward, ward.number, ballots, None
        read, (bundles, rejected) = Ballots(ballots), ward.judged()
        papers = [(bundle.papers, bundle.preferences) for bundle in sorted(read.bundles)]
        compare("ballots, sorted", written([read.rejected, *papers]), written([rejected, *bundles]))
        wrong_if(read.lots, f"ballots: no stage takes these lots: {read.lots}")
        self.lines = ballots.decode("utf-8", "surrogateescape").split("\n")[:-1]
        self.counts = counts(self.lines, ward.chance.choice)

    def orders(self):
        """Returns the orders of a round, and the last line that they print: which lot is needed next, or that the count is finished."""
        before, self.count = self.count, next(self.counts)
        drawn = [f"lot {self.number} {stage} {self.count.ballots.lots[stage]} --id l{self.number}-{stage}"
                 for stage in (before.waits[:1] if before else [])]
        stage, tied = self.count.waits or (0, [])
        last = f"lot needed at stage {stage} among {', '.join(map(str, tied))}" if tied else "count finished"
        return [*drawn, f"count {self.number} --id c{self.number}-{stage}"], last

    def compare_sheet(self, served):
        compare("sheet", served(f"/wards/{self.number}/sheet"), self.count.sheet())
        if self.count.waits:
            compare_counted(self.first, ["--count", "-"], self.count, {"": self.count.sheet(), "--results": self.count.results()})

    def compare_all(self, served, told):
        """Compares all texts of the ward, which is declared."""
        ballots, declaration = written(self.lines), self.count.declaration()
        compare("result", served(f"/wards/{self.number}/result"), declaration)
        compare("ballots", told("ballots", self.number), ballots)
        texts = {"": self.count.sheet(), "--declaration": declaration, "--table": told("table", self.number),
                 "--results": self.count.results(), "--ballots": ballots, "--page --title Spring": told("page", self.number, "--title", "Spring")}
        compare_counted(self.first, ["--count", "-"], self.count, texts)

def play(wards, folder):
    """Plays wards in one office to their declarations, and compares all that the program prints on the way. Returns their counts."""
    office, batches = Office(folder), iter(wards[0].chance.sample(range(1, 10000), 9999))
    office.begin([order for ward in wards for order in orders_to_seal(office, ward, batches)], seconds=SCRIPT_SECONDS)
    with office.serve().wait() as serving:
        def told(*words):
            return office.do(*words).encode("utf-8", "surrogateescape")

        def served(target):
            return serving.ask(request(target)).partition(b"\r\n\r\n")[2]
        elections = waiting = [Election(ward, told("ballots", ward.number)) for ward in wards]
        while waiting:
            orders, last = zip(*(election.orders() for election in waiting))
            printed = office.replay(itertools.chain(*orders), seconds=SCRIPT_SECONDS)
            expect("what `count` prints", re.findall("(?m)^(?:lot needed|count finished).*", printed), [*last])
            for election in waiting:
                with about(f"ward {election.number}"):
                    election.compare_sheet(served)
            waiting = [election for election in waiting if election.count.waits]
        office.replay(f"declare {election.number} --id d{election.number}" for election in elections)
        for election in elections:
            with about(f"ward {election.number}"):
                election.compare_all(served, told)
    return [election.count for election in elections]

def try_recount(room, ballots="", *, wards=0, seed=1):
    """Counts the ballots of a file anew, apart from the program; or compares made-up wards that the program counts with its own count.

    BALLOTS is what the order `ballots` prints, or another program's BLT file: without a comment `# Ward N` the ward is 1, and without `#
    Rejected 1: ..` no paper was rejected. A paper is read up to the first rank that several share who stand. It prints the stage sheet, and
    stops if a lot is needed that the file doesn't have. Status 1: the file can't be read, or has a lot that isn't needed.

    With --wards N wards are made up, 99 to an office that is served. Scripts have two clerks key them, from files and by orders, seal, count
    and declare them. Once sealed `ballots` must print the papers that were made up, and at the end the same with the lots; at each lot and at the end
    the sheet must be the recount's, byte for byte; a lot is asked for just where the recount stops, among the same candidates. The program
    that needs no office counts the first ballots with the same lots, and must print the office's own texts.
    """
    if wards:
        totals = collections.Counter()
        for first in range(0, wards, MOST_WARDS):
            made = [Ward(random.Random(f"{seed} {place}")) for place in range(first + 1, min(wards, first + MOST_WARDS) + 1)]
            for number, ward in enumerate(made, 1):
                ward.number = number
            with about(f"seed {seed}, {len(made)} wards after {first}"):
                found = play(made, room / str(first))
            totals.update({"offices": 1, "contested": sum(ward.is_contested for ward in made), "papers": sum(len(ward.papers) for ward in made),
                           "stages": sum(len(count.stages) for count in found), "figures": sum(len(one) + 1 for count in found for one in count.figures),
                           "lots": sum(len(count.ballots.lots) for count in found), "wards with a lot": sum(bool(count.ballots.lots) for count in found)})
        return Table(f"Made-up wards, seed {seed}", wards).rows(totals)
    wrong_if(not ballots, "a file of ballots is needed, or --wards N")
    with about(ballots, OSError), open(ballots, "rb") as file:
        count = Count(Ballots(file.read()))
    sys.stdout.buffer.write(count.sheet())
    sys.stdout.flush()
    if count.waits:
        print(f"a lot is needed at stage {count.waits[0]} among {', '.join(map(str, count.waits[1]))}", file=sys.stderr)
    wrong_if(count.lots, "no stage takes " + ", ".join(f"the lot at stage {stage}: {number}" for stage, number in count.lots.items()))

NAMES = ["Ann", "Bob", 'B. "Bob" \\ Brün', "Cy # 3", "דנה", "<b>Eve</b>", "-1", "Fay=2", "0", "E, jr.", "\x1b[2J", "\x9b2J", "\u202eevE"]
# Comments of ours, in forms that are read and in others, and such as begin otherwise; N is a number.
OURS = ["Ward N", "Rejected 1: N, 2: N, 3: N, 4: N, 5: N", "Lot at stage N: N"]
NEAR = ["Ward", "Ward N N", "WardN", "Ward-N", "Wards N", "Warden", "the Ward N", "2017 Ward N", "Rejected N", "Rejections N",
        "Rejected 1: N, 2: N, 3: N, 4: N", "Rejected papers", "Lot N", "Lot at Stage N: N", "Lots at stage N: N", "Lottery", "a lot of N"]
SIGNS = ["# ", "#", "## ", "#\t", "#: ", "#-", '# "', "#\u00a0", "#\u200b"]
DAMAGE = [b"\n", b"\r", b"0", b"-", b"#", b'"', b"\\", b"=", b"\0", b"\xff", b"99999999999999999999"]
EXTREME = {
    "an empty file": b"", "a word of 20,000,000 digits": b"9" * 20_000_000, "10,000,000 empty lines": b"\n" * 10_000_000,
    "a name of 20,000,000 bytes that isn't closed": b'1 1\n0\n"' + b"a" * 20_000_000, "5,000,000 comments": b"# Lot\n" * 5_000_000,
    "a line of 5,000,000 candidates": b"30 1\n1" + b" 1" * 5_000_000 + b" 0\n",
    "5,000,000 shared ranks": b"30 1\n1 1 2=3" + b" 2=3" * 5_000_000 + b"\n",
    "2,000,000 lines of papers without an end": b"2 1\n" + b"1 1 0\n" * 2_000_000,
    "more papers than a ward has": b"2 1\n" + b"4000000 1 0\n" * 2 + b"0\n",
}

def made_up_ballots(chance):
    """Returns the lines of a contested ward's ballots, without a lot."""
    highest = chance.randint(2, 12)
    gone = [c for c in range(1, highest - 1) if chance.random() < 0.1]
    standing = [c for c in range(1, highest + 1) if c not in gone]
    seats = chance.randint(1, max(1, len(standing) - 1))
    lists = {tuple(chance.sample(standing, chance.randint(1, len(standing)))) for _ in range(chance.randint(0, 40))}
    bundles = [(chance.choice((1, 1, 2, 3, 50)), named) for named in sorted(lists)]
    names = ["withdrawn" if c in gone else chance.choice(NAMES) for c in range(1, highest + 1)]
    rejected = [chance.randint(0, 9) for _ in range(5)]
    return blt(seats, bundles, names, rejected, chance.choice(NAMES), chance.randint(1, 99), gone)

def as_others_write(lines, chance):
    """Returns the same ballots in other words: lines of papers in another order and parted, remarks, blanks and line ends."""
    end, start, papers = lines.index("0"), 2 if lines[1].startswith("-") else 1, []
    for line in lines[start:end]:
        number, named = line.split(" ", 1)
        share = chance.randint(0, int(number))
        papers += [f"{part}\t{named}{chance.choice(('', ' # so many'))}" for part in (share, int(number) - share) if part]
    chance.shuffle(papers)
    comments = [line for line in lines if line.startswith("# ")]
    text = ["", "# made up", *comments, *lines[:start], *papers, *lines[end:len(lines) - len(comments)]]
    return b"\xef\xbb\xbf" + "".join(f"{chance.choice(('', ' '))}{line}\r\n" for line in text).encode()

def commented(lines, chance):
    """Returns the same ballots with a comment of ours, or one that is near it, alone or after another line; and at times without one."""
    lines = list(lines)
    if chance.random() < 0.5:
        lines.remove(chance.choice([line for line in lines if line.startswith("# ")]))
    words = re.sub("N", lambda _: str(chance.choice((0, 1, 2, 7, 255, 256))), chance.choice(OURS + NEAR))
    comment = chance.choice(["# "] * 5 + SIGNS) + chance.choice((str, str, str.lower, str.upper))(words)
    at, comment = chance.randrange(len(lines)), chance.choice(("", " ")) + comment
    lines[at:at + 1] = chance.choice(([comment, lines[at]], [lines[at] + comment]))
    return lines

def shared(lines, chance):
    """Returns the same ballots with ranks that several share, of whom some may be withdrawn, or with a word that is no rank."""
    lines = list(lines)
    gone = lines[1].replace("-", "").split() if lines[1].startswith("-") else []
    for at in range(2 if gone else 1, lines.index("0")):
        words = lines[at].split()[:-1]
        place = chance.randrange(1, len(words))
        if chance.random() < 0.3 and len(words) > 2:
            words[place - 1 or 1:place + 1] = ["=".join(words[place - 1 or 1:place + 1])]
        elif chance.random() < 0.5 and gone:
            words[place] = chance.choice(("{0}={1}", "{1}={0}")).format(words[place], chance.choice(gone))
        elif chance.random() < 0.03:
            words.insert(place + 1, chance.choice(["x", "=", "2=", "=1", "99", "-1", "1==2"]))
        lines[at] = " ".join(words + ["0"])
    return lines

def as_recounted(lines, chance):
    """Returns ballots with the sheet that the recount makes of them, and what the checker must make of both."""
    drawn = list(lines)
    with contextlib.suppress(Unreadable):
        *_, count = counts(drawn, chance.choice)
        lines = drawn
        if not count.lots:
            return written(lines), count.sheet(), [0], b"the text is the stage sheet "
    return written(lines), b"", [2], rb"error: (line \d+ of the ballots: |(a|no|the) lot )"

def cases(chance):
    """Yields (what it is, the ballots, the text, the statuses that are right, what is printed) of a made-up ward."""
    *_, count = counts(lines := made_up_ballots(chance), chance.choice)
    ballots, sheet, declaration = written(lines), count.sheet(), count.declaration()
    for text, name in ((sheet, b"stage sheet"), (declaration, b"declaration")):
        yield "sheets and declarations", ballots, text, [0], b"the text is the %s that" % name
    text = chance.choice((sheet, declaration))
    yield "the same, with ballots as another program writes them", as_others_write(lines, chance), text, [0], b"the text is "
    for _ in range(10):
        what = "ballots with a comment of ours or near it, in any form and place, or without one"
        yield what, *as_recounted(commented(lines, chance), chance)
        what = "ballots with shared ranks, of the withdrawn too, and with words that are no ranks"
        yield what, *as_recounted(shared(lines, chance), chance)
        content = damaged(chance, ballots, chance.choice((1, 2, 8)), chance.choice((1, 3, 30)), DAMAGE)
        yield "damaged ballots", content, sheet, [0, 1, 2], b""
    for _ in range(5):
        while (text := damaged(chance, sheet, 1, 30)) in (sheet, declaration):
            pass
        # It is compared with the one that it is like for longer.
        same = max((os.path.commonprefix([text, other]) for other in (sheet, declaration)), key=len)
        differs = b"line %d differs" % (same.count(b"\n") + 1)
        yield "damaged sheets", ballots, text, [1], differs

def check_refused(content, words, refused):
    status, out, err = checker(*words, input=content)
    wrong_if(status != 2 or out or not err.startswith(refused), f"{refused} is wanted: status {status}, {err}, {out[:200]}")

def compare_read(content):
    """Compares what the program makes of a ballots file with what is read and counted here. Returns what that is."""
    refused = b"error: no more candidates than seats"
    try:
        count = Count(Ballots(content))
        is_among = not count.waits or count.waits[0] not in count.lots
        # While a lot is waited for, those for later stages have yet to be drawn.
        undrawn = [stage for stage in count.lots if not count.waits or stage < count.waits[0]]
        if is_among and not (undrawn and count.is_contested):
            texts = {"": count.sheet(), "--results": count.results(), "--ballots": written(count.ballots.lines())}
            compare_counted(content, ["--count", "-"], count, texts, {})
            return "counted"
        refused = b"error: a lot is recorded for stage " if is_among else b"error: the lot for stage %d " % count.waits[0]
    except Unreadable as error:
        refused = b"error: line %d of the ballots: " % error.line if error.line else refused
    check_refused(content, ["--count", "-"], refused)
    return "refused"

def checked(folder, what, ballots, text, right, pattern):
    """Has the checker compare a text with ballots. Returns its status, which must be a right one, as what it prints must match."""
    for name, content in (("ballots", ballots), ("text", text)):
        (folder / name).write_bytes(content)
    status, out, err = checker("ballots", "text", cwd=folder)
    is_wrong = status not in right or not re.match(pattern, out + err) or STEERS.search((out + err).decode("utf-8", "replace"))
    wrong_if(is_wrong, f"{what}: status {status}, {(out + err)[:200]!r} of {ballots[:2000]!r} and {text[:2000]!r}")
    return status

def try_hostile_ballots(room, wards=100, seed=1):
    """Gives the checker ballots and sheets from anyone, and compares what it prints with the count of `tools/try recount`.

    - Of the sheet and the declaration of made-up wards it confirms both, and says which of the two it is; so too with ballots as another
      program may write them. Of a changed sheet it names the very line that differs first.
    - Ballots may have a comment that is ours, or close to it, anywhere, or lack one of ours; or ranks that several share, some of whom
      withdrew. The checker accepts them if `tools/try recount` does, and only then, and as those of the same ward.
    - Nothing that it prints has a character that steers a terminal, though some names have.
    - Of ballots that were damaged at random it reports that it doesn't understand them, and the line, or says whether they give the sheet.
      Files that no program writes (EXTREME) it doesn't understand, each in about a second.
    - All ballots but EXTREME are read and counted by `tools/try recount`, by what docs/formats/ballots.md says. The program that counts
      without an office must print the same sheet and ballots, or refuse the file at the same line."""
    runs, read = collections.defaultdict(collections.Counter), collections.defaultdict(collections.Counter)
    for ward in range(wards):
        for what, content, *case in cases(random.Random(f"{seed} {ward}")):
            runs[what][checked(room, f"ward {ward}, {what}", content, *case)] += 1
            with about(f"seed {seed}, ward {ward}, {what}, {content[:2000]!r}"):
                read[what][compare_read(content)] += 1
    table = Table(f"What the checker is given ({wards} wards, seed {seed})", "runs", "yes", "no", "not understood", "counted", "refused")
    for what, found in runs.items():
        table.row(what, found.total(), *(found[status] for status in (0, 1, 2)), read[what]["counted"], read[what]["refused"])
    slowest = max(timed(checked, room, what, content, b"", [2], b"error: ")[1] for what, content in EXTREME.items())
    table.row(f"files that no program writes, at most {slowest:.1f} s each", len(EXTREME), 0, 0, len(EXTREME), "", "")

WARD = 'Harbour "7"'
VOTERS = ["Ann", "Bob", "Cy, jr.", 'D. "Dee"', "Eve", "Fay # 1", "-x", "Zoë", "G\\H", "<b>I</b>", " J ", "Rankin", "Countess", "Choices"]
MARKS = [b",", b'"', b"\n", b"\r", b"0", b"99", b"100", b"\xff", b"rank1", b"count", b";", b"Ann", b"31"]
# Words with which the name of a column begins that may be something other than a candidate's.
TITLES = ["rank", "choice", "preference", "first", "count", "weight", "votes", "papers", "ballot", "ballots"]
# Other fields and other names of columns: of records with a candidate in each column, and with a rank.
ODD = [["", "1", "2", "3", "99"], ["", "", "1", "0", "02", "31", "99", "Ann ", "overvote", '"1"', '""']]
ODD_HEADS = [["", "2nd", "RANK 1", "Choice-1", "Weight", "Votes", "Ballot paper", "Firstly", "count"],
             ["", "rank0", "rank", "RANK1", "rank01", "rank  1", "Ann", "rank1"]]
FIELD = '(?:"(?:[^"]|"")*"|[^",]*)'

def made_up_records(chance):
    """Returns the text of a ward's records, and the names of the candidates if there is a rank in each column."""
    def field(name, always=False):
        return '"' + name.replace('"', '""') + '"' if always or re.search('[",]', name) else name

    names, is_ranked, is_quoted = chance.sample(VOTERS, chance.randint(1, 9)), chance.random() < 0.6, chance.random() < 0.2
    is_named, size, title = chance.random(), len(names), chance.choice(("rank{}", "Rank{}", "rank {}", "Rank {}"))
    columns, lines = chance.randint(1, min(size + 1, 9)) if is_ranked else size, []
    if is_ranked and chance.random() < 0.1:
        names[0] = chance.choice(names + ["2", "02", "rank1"])
    heads = [title.format(rank) for rank in range(1, columns + 1)] if is_ranked else [*map(field, names)]
    for _ in range(chance.randint(0, 40)):
        chosen = chance.sample(range(size), chance.randint(0, min(columns, size)))
        if is_ranked:
            fields = [field(names[c], is_quoted) if chance.random() < is_named else str(c + 1) for c in chosen]
            fields += [""] * (columns - len(chosen))
        else:
            fields = [str(chosen.index(c) + 1) if c in chosen else "" for c in range(size)]
        while chance.random() < (0.03 if is_ranked else 0.2):
            fields[chance.randrange(columns)] = chance.choice(ODD[is_ranked])
        lines.append(fields)
    if chance.random() < 0.1:
        heads[chance.randrange(columns)] = chance.choice(ODD_HEADS[is_ranked])
    lines, end = [heads, *lines], chance.choice(("\n", "\r\n"))
    if chance.random() < 0.5:
        lines = [["count" if fields is heads else str(chance.choice((1, 1, 2, 7, 50))), *fields] for fields in lines]
    text = chance.choice(("", "\ufeff")) + end.join(map(",".join, lines)) + chance.choice(("", end))
    return text.encode(), names if is_ranked else []

def fields_in(line):
    require(re.fullmatch(f"{FIELD}(,{FIELD})*", line), "no fields")
    found = [found[1] for found in re.finditer(f"(?:^|,)({FIELD})", line)]
    return [name[1:-1].replace('""', '"') if name.startswith('"') else name for name in found]

def columns_in(line, candidates):
    """Returns whether a line begins with a number of papers, the number of ranks or None, and the candidates' names."""
    fields = fields_in(line)
    names = fields[fields[0] == "count":]
    require(len(fields) > 1 and len(names) <= 30, "a single column, or too many")
    for rank, name in enumerate(names, 1):
        found = re.fullmatch("[Rr]ank ?([0-9]+)", name)
        is_other = name == "" or name[0] in "0123456789" or re.match("[A-Za-z]*", name)[0].lower() in TITLES
        is_one = found and int(found[1]) == rank if candidates else not is_other and len(name.encode()) <= 1000
        require(is_one, "not the next rank, or a column without a name, or not of a candidate")
    return names != fields, len(names) if candidates else None, candidates or names

class Records(Ballots):
    """Cast-vote records, read line by line as docs/formats/records.md says."""

    def __init__(self, content, seats, candidates):
        self.seats, self.candidates = seats, candidates
        super().__init__(content)

    def take_line(self, line):
        if line.strip(BLANKS):
            self.take(line.removesuffix("\r"))

    def take_size(self, line):
        self.is_counted, self.ranks, names = columns_in(line, self.candidates)
        self.highest, self.texts, self.take, self.told["rejected", 0] = len(names), [*names, WARD], self.take_papers, [0] * 5

    def take_papers(self, line):
        papers, comma, line = line.partition(",") if self.is_counted else ("1", ",", line)
        require(comma and 0 < number_in(papers, MOST), "no number of papers")
        preferences = self.ranked(line) if self.ranks else self.marked(line)
        if isinstance(preferences, tuple):
            self.papers[preferences] += int(papers)
        else:
            self.told["rejected", 0][preferences - 1] += int(papers)
        require(self.papers.total() <= MOST, "too many papers")

    def marked(self, line):
        """Returns a paper's preferences, of a mark for each candidate, or the code by which it is rejected."""
        marks = line.split(",")
        require(len(marks) == self.highest and all(re.fullmatch("([1-9][0-9]?)?", mark) for mark in marks), "other fields than ranks")
        return judged(range(1, self.highest + 1), marks)

    def ranked(self, line):
        """Returns the same of a candidate for each rank, up to the first rank that is empty."""
        fields, found = fields_in(line), []
        require(self.highest and len(fields) == self.ranks, "another number of fields")
        for name in filter(None, fields):
            chosen = [c for c, known in enumerate(self.texts[:-1], 1) if known == name or (re.fullmatch("[0-9]+", name) and int(name) == c)]
            require(len(chosen) == 1 and chosen[0] not in found, "no candidate, or several, or one twice")
            found += chosen
        return tuple(found[:(fields + [""]).index("")]) or 1

def compared(content, seats, candidates, chance):
    """Compares what the program makes of a file with what is read here, lot by lot. Returns what that is."""
    words = ["--count", "-", "--seats", str(seats), "--name", WARD, *(word for name in candidates for word in ("--candidate", name))]
    try:
        for count in counts(lines := Records(content, seats, candidates).lines(), chance.choice):
            texts = {"": count.sheet(), "--results": count.results()} | ({} if count.waits else {"--ballots": written(lines)})
            compare_counted(content, words, count, texts)
        return "counted"
    except Unreadable as error:
        check_refused(content, words, b"error: line %d of the ballots: " % error.line if error.line else b"error: ")
        return "refused" if error.line else "no contest"

def try_hostile_records(wards=1000, seed=1):
    """Gives the program that counts ballots without an office cast-vote records of made-up wards, and files that are no such records.

    Records are read here a second time, by what docs/formats/records.md says, and counted by `tools/try recount`. The program, which
    CHECK_COUNT names, must print the same sheet and ballots, ask for the same lots, and refuse the same files at the same line."""
    found = collections.Counter()
    for ward in range(wards):
        chance = random.Random(f"{seed} {ward}")
        (content, candidates), seats = made_up_records(chance), chance.randint(1, 4)
        form = "a rank" if candidates else "a candidate"
        for what, given in (("", content), (", damaged", damaged(chance, content, 2, 3, MARKS))):
            with about(f"seed {seed}, ward {ward}{what}, {given[:2000]!r}, {candidates}, {seats} seats"):
                found[form + what, compared(given, seats, candidates, chance)] += 1
    table = Table(f"Cast-vote records, in each column ({wards} wards, seed {seed})", "counted", "no contest", "refused")
    for what in ("a candidate", "a candidate, damaged", "a rank", "a rank, damaged"):
        table.row(what, *(found[what, came] for came in ("counted", "no contest", "refused")))
