"""What the program costs."""
import collections, contextlib, itertools, json, os, random, re, resource, select

from office_tools.election import COPYING, ELECTION, END, READS, REPLAY, SCRIPTED, Order, keying, marks_of, ward_orders
from office_tools.office import HERE, ROOT, TOWN, Office, Table, needs, program as program_of
from office_tools.office import ran, request, side_by_side, status, timed, wrong_if
from office_tools.recount import blt, written

CANDIDATES, SEATS, BATCH, RUNS = 10, 4, 500, 5
LARGE = [Order(line.split()) for line in (
    "batches 8", "seal 8 --id seal", "advance 8 --id first", "advance 8 --id second", "count 8 --id count", "sheet 8", "ballots 8",
    "declare 8 --id declare", "result 8")]

def papers(chance, count):
    """Returns the marks of papers: a few preferences each, the lower numbers more often first, so that no lot is needed."""
    orders = [sorted(range(CANDIDATES), key=lambda candidate: candidate + 12 * chance.random()) for _ in range(count)]
    return [marks_of(order[:chance.randint(1, 6)], CANDIDATES) for order in orders]

def nominated(folder, *batches):
    candidates = [f"Candidate {c}" for c in range(1, CANDIDATES + 1)]
    return Office(folder).begin(ward_orders(*batches, candidates=candidates, seats=SEATS, ward=8, name="Quay"))

def best(office, order, is_served=False):
    found = []
    for _ in range(RUNS):
        copy = office.copied(office.folder / "timed")
        with copy.serve().wait() if is_served else contextlib.nullcontext():
            printed, seconds = timed(order.done, copy)
        wrong_if(printed.status and not printed.err.startswith("refused"), f"{order.name[:80]}: {printed}")
        found.append(1000 * seconds)
    return min(found)

def keyed_office(folder, count):
    chance, batches = random.Random(7), range(100, 100 + count // BATCH)
    office = nominated(folder, *((batch, BATCH, 4, 9) for batch in batches))
    for batch in batches:
        office.write(f"{batch}.csv", keying(papers(chance, BATCH), range(1, CANDIDATES + 1)))
    office.replay([f"import-keying {clerk} {batch} 1 {batch}.csv --id k{batch}" for batch in batches for clerk in (4, 9)], seconds=600)
    return office

def measured(folder, count):
    reads = [*READS, (SCRIPTED[0], REPLAY), (END, COPYING)]
    office = keyed_office(folder / "town", count)
    found = {"`init`": f"{best(Office(folder / 'empty'), ELECTION[0]):.0f} ms"}
    for number, order in enumerate([*ELECTION[1:], *LARGE], 1):
        for one in (*(read for place, read in reads if place == number), order):
            found[f"`{one.name[:32].strip()}`"] = f"{best(office, one):.0f} ms; {best(office, one, is_served=True):.0f} ms"
        order.put_files(office)
        office.do(*order.words)
    found["the most memory so far"] = f"{resource.getrusage(resource.RUSAGE_CHILDREN).ru_maxrss / 1024:.0f} MB"
    return found

def bench_cost(room, *papers: int):
    """Measures each order, alone and while the office is served, in offices of several sizes, and prints a table.

    An office has a ward of PAPERS papers, by default 1000 10000 100000, which come from a fixed generator; it has 10 candidates and 4
    seats, and two clerks keyed it alike, in batches of 500. Next to it the small election of tools/try is played, and each of its orders is
    timed on a copy of the file: the shortest of five runs counts. Then the large ward is counted. The last line is the highest peak of
    memory, which is that of `journal`. Take the machine for half an hour.
    """
    sizes = sorted(papers) or (1000, 10000, 100000)
    columns = [measured(room / str(count), count) for count in sizes]
    table = Table("Order, alone; while it is served", *(f"{count:,} papers" for count in sizes))
    for name in columns[0]:
        table.row(name, *(found[name] for found in columns))

CLERKS, CLIENTS, SILENT = range(1, 21), (1, 20, 200), 300
# How often each program serves, and how many `ab` run side by side: one has one thread, and is slower than `serve`.
TURNS, LOADS = 5, 3
WORK = "/clerks/1/work"

def office_to_key(folder, rounds, size):
    chance, requests, batches = random.Random(7), {clerk: [] for clerk in CLERKS}, []
    for number in range(1, rounds * len(CLERKS) + 1):
        clerk, body = number % len(CLERKS) + 1, json.dumps({"id": f"k{number}", "round": 1, "papers": papers(chance, size)})
        requests[clerk].append(request(f"/clerks/{clerk}/batches/{number}/keying", body=body))
        batches.append((number, size, clerk, 999))
    return nominated(folder, *batches), requests

def keyed(serving, requests):
    """Has clerks key at once. Returns how many keyings are answered a second, and how long the slowest took, in ms."""
    found, seconds = timed(list, side_by_side(lambda own: [timed(serving.ask, sends) for sends in own], requests, len(requests)))
    texts, times = zip(*(answered for own in found for answered in own))
    wrong_if(wrong := [text for text in texts if status(text) != 200], f"a keying is answered by {wrong[:1]}")
    return len(times) / seconds, 1000 * max(times)

def reads_a_second(port, clients, seconds):
    """Returns how many requests for a clerk's work are answered a second, as `ab` counts them; none may fail."""
    def count(part):
        words = ["ab", "-q", "-t", str(seconds), "-n", "1000000", "-c", str(len(part)), f"http://{HERE}:{port}{WORK}"]
        told = ran(*words).out
        found = dict(line.split(":", 1) for line in told.splitlines() if ":" in line)
        wrong_if(found.get("Failed requests", "").strip() != "0" or "Non-2xx responses" in found, f"ab: {told}")
        return float(found["Requests per second"].split()[0])
    return sum(side_by_side(count, [range(first, clients, LOADS) for first in range(min(LOADS, clients))], LOADS))

def figures(folder, rounds):
    found = {}
    for size in (5, BATCH):
        made, requests = office_to_key(folder / str(size), 3 * rounds, size)
        with made.serve().wait() as serving:
            alone, *others = requests.values()
            silent = [serving.connect() for _ in range(SILENT)]
            for who, own in (("one clerk", [alone]), (f"{len(others)} clerks", others)):
                what = f"{who}, {size} papers"
                found[f"keyings a second, {what}"], found[f"the slowest of them, ms, {what}"] = keyed(serving, own)
            wrong_if(select.select(silent, [], [], 0)[0], "a silent connection was disconnected")
            for line in silent:
                line.close()
            if size == BATCH:
                found |= {f"reads a second, {clients} clients": reads_a_second(serving.port, clients, rounds) for clients in CLIENTS}
                found["memory, MB"] = serving.memory()
    return found

def bench_serving(room, rounds=5, *, program: list = ()):
    """Times clients that are served side by side, and prints a table. It needs `ab` of apache2-utils.

    Each program that --program A --program B names serves a few times, in turns, or the one alone that is set: the table has the middle of
    its turns, and what part that is of the first one's. Next to 300 silent connections one clerk keys, and then 19 at once, all as fast as
    they are answered. Reads are requests for a clerk's work, as `ab` counts. Memory is that of `serve` after all this. ROUNDS is how many
    seconds `ab` asks, and a third of the batches that each clerk keys.
    """
    needs("ab")
    found = {path: [] for path in program or [program_of()]}
    for turn in range(TURNS):
        for number, (path, results) in enumerate(found.items()):
            os.environ["COUNT_OFFICE"] = path
            program_of.cache_clear()
            results.append(figures(room / f"{turn}-{number}", rounds))
    table = Table(f"The middle of {TURNS} turns", *found)
    for what in results[0]:
        middle = [sorted(result[what] for result in results)[TURNS // 2] for results in found.values()]
        table.row(what, *(f"{count:,.0f} ({count / max(1, middle[0]):.2f})" for count in middle))

def cast(lines, lists, chance, candidates=12):
    """Returns as many papers as there are lines, of so many different lists."""
    numbers, found = range(1, candidates + 1), {}
    while len(found) < lists:
        order = sorted(numbers, key=lambda c: c + 1.2 * candidates * chance.random())
        found[tuple(order[:chance.randint(1, 7)])] = True
    papers = [*found, *chance.choices([*found], k=lines - lists)]
    chance.shuffle(papers)
    return [f"Candidate {c}" for c in numbers], papers

def record_files(names, papers):
    """Yields the forms in which papers can be given: what it is, its content, and the words that it needs."""
    ward, once = ["--seats", "4", "--name", "Quay"], [(1, named) for named in papers]
    named = [word for name in names for word in ("--candidate", name)]
    for what, bundles in (("lists", sorted((count, named) for named, count in collections.Counter(papers).items())), ("papers", once)):
        yield f"BLT, a line for each of the {what}", written(blt(4, bundles, names, [0] * 5, "Quay")), []
    ranks = [",".join([*map(str, named), *[""] * (7 - len(named))]) for named in papers]
    yield "a rank in each column", written([",".join(f"rank{rank}" for rank in range(1, 8)), *ranks]), ward + named
    marks = [",".join(str(named.index(c) + 1) if c in named else "" for c in range(1, len(names) + 1)) for named in papers]
    yield "a candidate in each column", written([",".join(names), *marks]), ward

def costs(*words):
    """Returns what a program prints, its processor time in seconds, and its memory in MB."""
    printed = ran("time", "-f", "%U %S %M", *words, text=False)
    wrong_if(printed.status, f"{words}: status {printed.status}")
    user, system, memory = map(float, printed.err.split()[-3:])
    return printed.out, user + system, memory / 1024

def bench_ballots(room, lines=1000000, lists=73000, *, other=""):
    """Measures counts of ballots without an office, and prints a table: the least processor time of five runs, and the memory.

    The papers come from a fixed generator: as many as LINES, of LISTS different lists of 12 candidates. They are counted in each form
    that is read. --other names another program, which gets the path of each file, with the words that its form needs, and must print
    the same sheet. It needs GNU's `time`.
    """
    needs("time")
    table, texts = Table(f"{lines:,} papers, {lists:,} lists", "file, MB", "seconds", "memory, MB"), set()
    for what, content, words in record_files(*cast(lines, lists, random.Random(7))):
        (room / "ballots").write_bytes(content)
        calls = {what: [program_of("CHECK_COUNT"), "--count", str(room / "ballots"), *words]}
        if other:
            calls[f"{what}, by {os.path.basename(other)}"] = [other, str(room / "ballots"), *words]
        for who, call in calls.items():
            runs = [costs(*call) for _ in range(RUNS)]
            texts.update(out for out, *_ in runs)
            table.row(who, f"{len(content) / 1e6:.1f}", f"{min(run[1] for run in runs):.2f}", f"{max(run[2] for run in runs):.0f}")
    wrong_if(len(texts) > 1, f"{len(texts)} sheets of the same papers")

RECORDED, RECOVERED = 1.5, 3

def recovery(room, count):
    """Measures `journal`, and how a new office is made from what it prints: the least processor time of five runs."""
    town, script = keyed_office(room / "large", count), room / "town.script"
    journals = [costs(program_of(), str(town.folder / TOWN), "journal") for _ in range(RUNS)]
    script.write_bytes(journals[0][0])
    news = [Office(room / f"new-{run}").begin().folder / TOWN for run in range(RUNS)]
    replays = [costs(program_of(), str(new), "replay", str(script)) for new in news]
    seconds = [costs(program_of(), str(news[0]), "second", str(script)) for _ in range(RUNS)]
    wrong_if(not seconds[0][0].startswith(f"{script} and this office hold the same".encode()), f"second: {seconds[0][0]}")
    table = Table(f"{count:,} papers, keyed twice, {script.stat().st_size / 1e6:.1f} MB", "seconds", "memory, MB")
    for what, runs in (("`journal`", journals), ("`replay` of that in a new office", replays), ("`second`, which compares both", seconds)):
        table.row(what, f"{min(run[1] for run in runs):.2f}", f"{max(run[2] for run in runs):.0f}")
    wrong_if(min(run[1] for run in replays) > RECOVERED * min(run[1] for run in journals), f"`replay` takes more than {RECOVERED} times as long")

def bench_second(room, rounds=200, papers=100000):
    """Times keyings of an office that is served with a second record, and without; and how a new office is made from a large one's record.

    One clerk keys ROUNDS batches of five papers over HTTP, one after the other; both files are in one folder, on one disk. One more
    keying comes first and isn't timed, since `serve` has just begun: with a record it then finds out how much room is left. The middle
    of five turns with a record takes at most 1.5 times as long as without. Then the journal of an office of so many PAPERS is printed, and
    replayed in a new office, which takes at most three times the processor time of that. It needs GNU's `time`.
    """
    needs("time")
    found = {(): [], ("--second", "town.script"): []}
    for turn in range(TURNS):
        for words, times in found.items():
            made, requests = office_to_key(room / f"{turn}-{len(words)}", rounds + 1, 5)
            with made.serve(*words).wait() as serving:
                keyed(serving, [requests[1][:1]])
                times.append(1000 / keyed(serving, [requests[1][1:]])[0])
    alone, recorded = (sorted(times)[TURNS // 2] for times in found.values())
    Table("A keying of five papers", "without a second record", "with one").row("takes", f"{alone:.1f} ms", f"{recorded:.1f} ms")
    recovery(room, papers)
    wrong_if(recorded > RECORDED * alone, f"with a second record a keying takes more than {RECORDED} times as long")

# The modules that the check makes of one function; what comes before them in a file's name is the function's path.
OF_FUNCTION = ("Answers", "Code", "Given", "Goals", "Invariants", "Key", "Kinds", "Layout", "Lts", "Met", "Named", "Proof", "Reads", "Statement",
               "Symbol", "TheImpl", "TheLink", "TheVariants", "Tie")

def proved_path(stem):
    """Returns the path of the function, type or file of proofs that a checked module is of."""
    path = re.sub(r"^.*?-(proofs|specs)\.((contracts|declared)\.)?", "", stem).split(".")
    return ".".join(itertools.takewhile(lambda part: part not in OF_FUNCTION, path))

def bench_proofs(crate, most=40):
    """Says which proofs of a crate took longest, by what its last check kept, and prints a table.

    First type `rt check --jobs 1` in the crate's folder, with no out/ there (`--test` for a crate of tests): it writes a file for each module
    that it has checked, and the time between two files is that of the second one's module. MOST is how many rows the table has. A pause of
    more than two minutes is left out, since the check then began anew.
    """
    kept = sorted((path.stat().st_mtime, path.stem) for path in (ROOT / "crates" / crate / "out/incremental").rglob("*.oantt"))
    wrong_if(len(kept) < 2, f"no check of {crate} kept anything: type rt check --jobs 1 in crates/{crate}")
    found = collections.Counter()
    for (before, _), (after, stem) in itertools.pairwise(kept):
        found[proved_path(stem)] += after - before if after - before < 120 else 0
    table = Table(f"{crate}: {len(found)} parts", f"Seconds, {sum(found.values()):.0f} in all")
    table.rows({f"`{path}`": f"{seconds:.1f}" for path, seconds in found.most_common(most)})
