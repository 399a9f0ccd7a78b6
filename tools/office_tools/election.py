"""Small elections: one, order by order, for tools that make its orders fail; one ward; an evening with codes; wards drawn at random."""
import collections, contextlib, os, re, shlex, sqlite3
from dataclasses import dataclass

from office_tools.office import NO_OFFICE, ROOT, SCRIPT, TOWN, Office, ended, request

FILE, COPY, COPY_LOG = "rows.csv", "copy.db", "copy.db-wal"
# What an order prints when it is given again after its result was found, if it has no receipt.
MADE = {"init": (3, "", NO_OFFICE), "migrate": (0, "office is at version 2\n", "")}

def ward_orders(*batches, candidates=("Ann", "Bob", "Cy"), seats=2, ward=7, name="Harbour"):
    """Returns the orders of a ward up to its batches, each of a number, a size and two clerks."""
    nominated = [f"candidate --id c{ward}-{number} -- {ward} {number} {shlex.quote(name)}" for number, name in enumerate(candidates, 1)]
    given_out = [f"batch {batch} {ward} {size} {first} {second} --id b{batch}" for batch, size, first, second in batches]
    return [f"ward {ward} {seats} {shlex.quote(name)} --id w{ward}", *nominated, f"close {ward} --id n{ward}", *given_out]

def marks_of(order, columns):
    """Returns the marks of a paper on which the candidates of these columns are ranked in this order."""
    return ",".join(str(order.index(column) + 1) if column in order else "" for column in range(columns))

def keyed(batch, papers, clerks=(4, 9)):
    return [f"key {clerk} {batch} 1 {' '.join(papers)} --id k{batch}" for clerk in clerks]

def keying(papers, columns):
    """Returns the lines of a keying's import file. The marks of a doubtful paper are D."""
    records = [f"{number},{'D' + ',' * (len(columns) - 1) if marks == 'D' else marks}" for number, marks in enumerate(papers, 1)]
    return [",".join(["paper", *map(str, columns)]), *records]

@dataclass
class Order:
    """An order of the program with the lines of the file that it names, or a request to `serve`."""

    words: list
    lines: list = None
    sends: bytes = b""
    town: str = TOWN

    @property
    def name(self):
        return self.words[0] if self.sends else " ".join(self.words)

    def put_files(self, office):
        for name in self.words:
            if self.lines and name.endswith((".csv", ".txt")):
                office.write(name, self.lines)
        if SCRIPT in self.words:
            office.write(FILE, ELECTION[7].lines)

    def started(self, office, **how):
        self.put_files(office)
        return office.start(*self.words, town=self.town, **how)

    def done(self, office, env=(), **how):
        """Gives the order, or has another `serve` answer the request, and returns what was printed. The output of `serve` is its answer."""
        env = {**os.environ, **dict(env)}
        if not self.sends:
            return ended(self.started(office, env=env, **how))
        serving = office.serve(connections=1, env=env, **how)
        text = serving.ask(self.sends)
        printed = ended(serving.process)
        return printed._replace(out=printed.out + text.decode())

    def replies(self, out):
        """Returns how many of its replies an output has."""
        return int(out.startswith("HTTP/1.1 200 ")) if self.sends else out.count("\n")

def election(copies=1):
    """Returns the orders of an election of two seats, with nine valid papers, or so many copies of them, and a doubtful one.

    The batch is given out once more by a file, under the id that it has, which does nothing. The first candidate has the quota, the fourth
    is excluded, and a lot is drawn between the two others. The second clerk errs once; a third one is set, and all may key again."""
    papers = (["1,,,"] * 4 + [",1,,", ",1,,2", ",,1,", ",,1,", ",,,1"]) * copies + ["D"]
    right, wrong, size = keying(papers, range(1, 5)), keying(["1,2,,", *papers[1:]], range(1, 5)), len(papers)
    # More papers leave the first candidate a surplus, which is a stage of its own.
    lot = 3 if copies == 1 else 4
    lines = [
        "init", "ward 7 2 Harbour --id w1", f"import-candidates {FILE} --id c", "withdraw 7 4 --id x1", "candidate 7 4 Dee --id c4",
        "close 7 --id n1", f"batch 12 7 {size} 4 9 --id b-1", f"import-keying 4 12 1 {FILE} --id k1",
        f"import-keying 9 12 1 {FILE} --id k1", f"import-batches {FILE} --id b",
        "third 12 5 --id t1", "again 12 --id g1", f"import-keying 4 12 2 {FILE} --id k2", f"key 9 12 2 {' '.join(papers)} --id k2",
        f"judge 12 {size} reject:5 --id j1", "seal 7 --id s1", *(f"advance 7 --id a{stage}" for stage in range(1, lot)),
        f"lot 7 {lot} 2 --id l{lot}", "count 7 --id a", "declare 7 --id d1",
    ]
    batches = ["batch,ward,size,first clerk,second clerk", f"12,7,{size},4,9"]
    files = {2: ["ward,candidate,name", *(f"7,{c},Candidate {c}" for c in range(1, 5))], 7: right, 8: wrong, 9: batches, 12: right}
    return [Order(line.split(), files.get(number)) for number, line in enumerate(lines)]

ELECTION = election()
END = len(ELECTION)
# A script of some of the orders, after a line that is passed over; it is sent to the office before the first of them.
SCRIPTED = range(4, 8)
REPLAY = Order(["replay", SCRIPT], ["# the last candidate, a batch, and the first keying"] + [ELECTION[number].name for number in SCRIPTED])
COPYING = Order(["copy", COPY])
# Orders that change nothing, each with the number of the order before which it is tried.
READS = [(number, Order(line.split())) for number, line in (
    (END, "status 7"), (END, "sheet 7"), (END, "result 7"), (18, "advance 7 --id a3"), (18, "next 7"), (0, "status 7"), (END, "wards"),
    (END, "receipts"), (END, "journal"), (14, "batches 7"), (14, "doubtful 7"), (9, "differences 12"), (14, "papers 12"),
    (14, "forms covers 7"))]
# The same of requests; the keying is that of the order 8.
KEYING = '{"id":"k1","round":1,"papers":["1,2,,",%s"D"]}' % "".join(f'"{line.split(",", 1)[1]}",' for line in ELECTION[8].lines[2:-1])
REQUESTS = [(number, Order([f"{'POST' if body else 'GET'} {target}"], sends=request(target, body=body))) for number, target, body in (
    (8, "/clerks/9/work", ""), (8, "/clerks/9/batches/12/keying", KEYING), (END, "/wards/7/sheet", ""), (END, "/wards/7/result", ""))]

def offices(folder, orders=ELECTION):
    found = [Office(folder / "office-0")]
    for number, order in enumerate(orders, 1):
        office = found[-1].copied(folder / f"office-{number}")
        order.put_files(office)
        office.do(*order.words)
        found.append(office)
    return found

def make_older(path):
    """Makes the file of an office of an earlier program, with all rows in the file itself: the log goes as the connection is closed."""
    text = (ROOT / "crates/store_tests/src/older/rows.rt").read_text(encoding="utf-8")
    parts = [re.search(rf'pub const {name}: &str =\s+"((?:[^"\\]|\\.)*)";', text)[1] for name in ("OLDER_TABLES", "OLDER_ROWS")]
    statements = [line.removeprefix("# ") for line in "".join(parts).replace('\\"', '"').splitlines()]
    with contextlib.closing(sqlite3.connect(path)) as database:
        database.execute("PRAGMA journal_mode = wal")
        database.executescript("BEGIN;\n" + ";\n".join(statements) + ";\nCOMMIT;\n")

TITLE = "Election of 6 May 2027, Harbour Council"
CODES, OFFICE_CODE = {4: "kf7m-2wxt-h4dn", 9: "w3hd-4psn-7kfr"}, "kf7m-2wxt-h4dn-p3cs"
SMALL = ["Ann", "Bob", "Cy", "Dee", "Maximiliane Oberhuber-Featherstonehaugh of the Old Harbour Road"]
LARGE = [*(f"Candidate {c}" for c in range(1, 29)), "<img src=x onerror=document.title='marked'>", "\u202eesrever\u2066 in"]
# Names that look like markup, change the direction of writing, or are as long as they may be.
HOSTILE = [*LARGE[-2:], "A" * 120, "\u05d0" * 60, "Maximiliane " * 9 + "Oberhuber-F.", "=1+1", "\u0627\u062d\u0645\u062f, 2 Bob", "\u0085x"]

def evening_office(folder, codes=None):
    harbour = ward_orders((12, 50, 4, 9), (14, 1, 4, 9), (15, 1, 4, 9), candidates=SMALL)
    office = Office(folder).begin(harbour + ward_orders((13, 3, 4, 9), candidates=LARGE, ward=8, name="Old Town <b>&"))
    office.write_codes(codes or CODES)
    return office

PIECES = ["Ann", "O'Neill", 'Bob "jr"', "back\\slash", "\\", '"', "Zoë", "李小龙", "🗳", "a, b", " two  blanks ", "#7", "-Hyphen", "withdrawn",
          "\u0085", "0", "long" * 14]
# The least and the most candidates of a ward, papers of it, and kinds of papers: of small wards, middling, crowded and large ones.
SHAPES = [[(2, 6), (0, 24), (1, 4)]] * 3 + [[(5, 14), (20, 90), (10, 60)]] * 4
SHAPES += [[(4, 30), (0, 120), (4, 120)]] * 3 + [[(30, 30), (300, 900), (20, 900)]]

def judged(numbers, marks):
    """Returns a paper's preferences; or the code by which it is rejected: 1 for no first preference, 2 for more than one."""
    # They continue as long as the next number is next to one candidate and no other.
    preferences = []
    for place in range(1, len(marks) + 1):
        beside = [number for number, mark in zip(numbers, marks) if mark == str(place)]
        if len(beside) != 1:
            break
        preferences += beside
    return tuple(preferences) or (2 if "1" in marks else 1)

class Ward:
    def __init__(self, chance):
        size, papers, kinds = (chance.randint(*limits) for limits in chance.choice(SHAPES))
        self.chance, self.number, self.seats = chance, chance.randint(1, 99), chance.randint(1, min(size, chance.choice([4, 15])))
        self.name, *names = (" ".join(chance.choices(PIECES, k=chance.randint(1, 2))) for _ in range(size + 1))
        self.names = dict(zip(sorted(chance.sample(range(1, 31), size)), names))
        self.is_contested, self.is_neat = size > self.seats, chance.randrange(2) == 0
        self.papers = [self.paper(preferences) for preferences in self.voted(papers, kinds)] if self.is_contested else []

    def voted(self, papers, kinds):
        """Returns the preferences of about so many papers, of about so many kinds: many are equal, so that many candidates tie."""
        chance, numbers, spread = self.chance, list(self.names), self.chance.choice([1, 4, 12, 40])
        favourites = chance.sample(numbers, len(numbers))
        kinds = [chance.sample(numbers, chance.randint(1, len(numbers))) for _ in range(kinds)]
        for preferences in kinds:
            # The smaller the spread, the more often the favourites come first, and have surpluses.
            preferences.sort(key=lambda number: favourites.index(number) + chance.randrange(spread))
        if chance.randrange(2):
            # To each voter belongs one who has two candidates the other way round: these two tie at all stages.
            pair = chance.sample(numbers, 2)
            other = dict(zip(pair, reversed(pair)))
            kinds += [[other.get(number, number) for number in preferences] for preferences in kinds]
        copies = papers // len(kinds)
        return kinds * copies if copies and chance.randrange(2) else [chance.choice(kinds) for _ in range(papers)]

    def paper(self, preferences):
        """Returns a paper's marks, now and then other ones too, and None; or, if it is doubtful, 0 or the code of its rejection."""
        marks = [str(preferences.index(number) + 1) if number in preferences else "" for number in self.names]
        while not self.is_neat and self.chance.randrange(12) == 0:
            marks[self.chance.randrange(len(marks))] = self.chance.choice(["", "1", "2", "3", "99"])
        if self.is_neat or self.chance.randrange(20):
            return marks, None
        return marks, self.chance.choice([0, 3, 4, 5] if isinstance(judged(self.names, marks), tuple) else [3, 4, 5])

    def judged(self):
        """Returns how many papers have each list of preferences, in ascending order, and how many are rejected by each code."""
        found = collections.Counter(verdict or judged(self.names, marks) for marks, verdict in self.papers)
        rejected = [found.pop(code, 0) for code in range(1, 6)]
        return sorted((papers, preferences) for preferences, papers in found.items()), rejected

def orders_to_seal(office, ward, batches):
    """Writes the files of a ward, and returns the orders up to its seal, or its close if it is uncontested. BATCHES yields unused numbers."""
    number, chance, papers = ward.number, ward.chance, ward.papers
    quoted = {candidate: name.replace('"', '""') for candidate, name in ward.names.items()}
    office.write(f"names-{number}.csv", ["ward,candidate,name"] + [f'{number},{candidate},"{name}"' for candidate, name in quoted.items()])
    orders = [f"ward --id w{number} -- {number} {ward.seats} {shlex.quote(ward.name)}", f"import-candidates names-{number}.csv --id c{number}-",
              f"close {number} --id n{number}"]
    while papers:
        batch, size, (first, second) = next(batches), chance.randint(1, 500), chance.sample(range(1, 1000), 2)
        keyed, papers = papers[:size], papers[size:]
        texts = [",".join(marks) if verdict is None else "D" for marks, verdict in keyed]
        office.write(f"{batch}.csv", keying(texts, ward.names))
        orders.append(f"batch {batch} {number} {len(keyed)} {first} {second} --id b{batch}")
        imports = [f"import-keying {clerk} {batch} 1 {batch}.csv --id k{batch}" for clerk in (first, second)]
        # Every other batch is keyed by its second clerk in the words of an order.
        orders += [imports[0], f"key {second} {batch} 1 {' '.join(texts)} --id k{batch}" if batch % 2 else imports[1]]
        for place, (marks, verdict) in enumerate(keyed, 1):
            word = f"reject:{verdict}" if verdict else f"accept:{','.join(marks)}"
            orders += [f"judge {batch} {place} {word} --id v{batch}-{place}"] * (verdict is not None)
    return orders + [f"seal {number} --id s{number}"] * ward.is_contested

def noise(chance, length):
    return bytes(chance.getrandbits(8) for _ in range(length))

def damaged(chance, content, most, longest, signs=()):
    """Returns bytes of which some are others, are gone, or stand twice, or have a sign between them: at most so many, each so long."""
    found = bytearray(content)
    for _ in range(chance.randint(1, most)):
        at = chance.randrange(max(1, len(found)))
        end = at + (chance.randint(1, longest) if longest > 1 else 1)
        ways = [lambda: (end, noise(chance, end - at)), lambda: (end, b""), lambda: (at, found[at:at + chance.randint(1, 20)]),
                lambda: (at, chance.choice(signs))]
        gone, new = ways[chance.randrange(4 if signs else 3)]()
        found[at:gone] = new
    return bytes(found)
