"""The folder in which the results of an election are published: what is in it, and what may disturb or stop it."""
import contextlib, functools, hashlib, json, os, random, re, shutil, time
from concurrent.futures import ThreadPoolExecutor

from office_tools.election import HOSTILE, Ward, ward_orders
from office_tools.office import Office, Table, about, checker, ended, expect, needs, ran, timed, waited, wrong_if
from office_tools.recount import Ballots, Count
from office_tools.trials import NOT_WRITTEN
from office_tools.tries.ballots import compare, play
from office_tools.tries.stops import full_disk

RESULTS, PART, SUMS, TAKEN, TITLE = "out/results", "out/results.part", "SHA256SUMS", "fault 109: copy is there already", 'Spring <b>&"'
# How the names of a ward's files end, and which orders print them; and what only the pages in the folder have.
TEXTS = {".html": "page", "-sheet.txt": "sheet", "-declaration.txt": "result", "-table.csv": "table", "-ballots.txt": "ballots"}
LINKS = re.compile(rb'<style>\n@media print [^\n]*\n</style>\n<nav class="links">\n.*?</nav>\n', re.S)
LINK, BLOCK, CASES = re.compile(r'\b(?:href|src|action)="([^"]*)"'), 4096, [("",), ("", "--ballots"), (TITLE,), (TITLE, "--ballots")]
# What another program does, and where; and whether the order has made FOLDER.part by then, after which it waits for 50 milliseconds.
FOREIGN = ["cp theirs/notes {}", "cp -r theirs {}", "mkdir {}", "ln -s nothing {}", "ln -s {}/theirs/notes {}", "ln -s {}/theirs {}"]
PLACES = [(RESULTS, False), (RESULTS, True), (PART, False), *((f"{PART}/{name}", True) for name in ("index.html", "check.html", SUMS))]
SLOWLY = "strace -D -f --quiet=all -o/dev/null -etrace=mkdir,mkdirat -einject=mkdir,mkdirat:delay_exit=50000".split()

def tree(folder):
    """Returns what is at each path in a folder: where a link leads, or the mode and a file's bytes."""
    return {str(path.relative_to(folder)): os.readlink(path) if path.is_symlink() else
            (path.stat().st_mode, path.read_bytes() if path.is_file() else b"") for path in folder.rglob("*")}

class Publication:
    """An office of made-up wards that are declared; and, from 97 on, one without a poll, one that waits for a lot, and one in keying."""

    def __init__(self, folder, wards, chance):
        self.office, self.chance, self.out, made = Office(folder), chance, folder / "out", [Ward(chance) for _ in range(wards)]
        Office(folder / "theirs").write("notes", ["theirs"])
        for number, ward in enumerate(made, 1):
            ward.number, ward.name = number, HOSTILE[number % len(HOSTILE)]
        play(made, folder)
        others = [order for ward, seats in ((97, 3), (98, 1), (99, 1)) for order in ward_orders(ward=ward, seats=seats)]
        self.office.replay([*others, "seal 98 --id s98", "count 98 --id a98"])
        self.printed = functools.cache(lambda *words: self.office.do(*words).encode())
        self.counts = {number: Count(Ballots(self.printed("ballots", number))) for number in (*range(1, wards + 1), 97, 98)}
        self.rows, self.start = self.office.rows(), functools.partial(self.office.start, "publish", RESULTS, umask=0o77)

    def published(self, title, *options):
        """Publishes the results, and compares the folder with what orders print, and with the recount. Returns whether there was room."""
        words = ["--title", title] * bool(title)
        printed, self.seconds = timed(ended, self.start(*words, *options))
        if printed.status:
            return expect("what is printed and left", (printed, tree(self.out)), ((3, "", NOT_WRITTEN + "\n"), {}))
        texts = {"index.html": self.printed("index", *words)} | {
            f"ward-{number}{ending}": self.printed(order, number, *words if order == "page" else [])
            for number in self.counts for ending, order in TEXTS.items()
            if (order != "result" or number < 97) and (order != "ballots" or options)}
        folder, names, self.whole = self.out / "results", [*texts, "results.json", "check.html"], tree(self.out)
        found = {path.name: path.read_bytes() for path in folder.iterdir()}
        sums = "".join(f"{hashlib.sha256(found[name]).hexdigest()}  {name}\n" for name in names)
        expect("names and modes", ({*found}, {mode for mode, _ in self.whole.values()}), ({*names, SUMS}, {0o100644, 0o40755}))
        expect("digests", (found[SUMS].decode(), ran("sha256sum", "-c", "--strict", "--quiet", SUMS, cwd=folder)), (sums, (0, "", "")))
        for name, text in texts.items():
            compare(name, LINKS.sub(b"", found[name]), text)
        results = [json.loads(count.results()) | {"declared": number < 97} for number, count in self.counts.items()]
        expect("results.json", json.loads(found["results.json"]), {"title": title, "wards": results})
        for name in filter(lambda name: name.endswith(".html"), names):
            linked, others = {*LINK.findall(found[name].decode())} - {"data:,"}, {*found} - {name}
            expect(f"links of {name}", linked, others if name == "index.html" else linked & others | {"index.html"})
        return not expect("the reply", printed, (0, f"published {len(self.counts)} wards, {len(found)} files\n", ""))

    def disturbed(self, place, is_late, command):
        """Publishes while another program has something at a path, or puts it there meanwhile. That has to stay as it is."""
        def disturb():
            waited(lambda: not is_late or (self.office.folder / PART).exists())
            ran(*command.replace("{}/", f"{self.office.folder}/").format(place).split(), cwd=self.office.folder)
            return {name: what for name, what in tree(self.out).items() if f"out/{name}/".startswith(place + "/")}
        with ThreadPoolExecutor(1) as pool:
            theirs = pool.submit(disturb)
            printed = ended(self.start(under=SLOWLY) if is_late else theirs.result() and self.start())
        left = theirs.result() | ({"results.part": (0o40700, b"")} if place.startswith(PART + "/") else {})
        fault, at_links = TAKEN if place == RESULTS else NOT_WRITTEN, [*tree(self.out.with_name("theirs"))]
        expect("what is printed and left", (printed, tree(self.out), at_links), ((3, "", fault + "\n"), left, ["notes"]))

    def killed(self, is_served):
        """Kills the order, or the `serve` that carries it out, at a random moment. Returns whether the folder is there."""
        with self.office.serve().wait() if is_served else contextlib.nullcontext() as serving:
            process = self.start("--title", TITLE, "--ballots")
            time.sleep(self.chance.uniform(0, 1.2 * self.seconds))
            (serving.process if is_served else process).kill()
            printed, left = ended(process), tree(self.out)
        expect("rows", self.office.rows(), self.rows)
        if "results" in left:
            return not expect("the folder", left, self.whole)
        is_begun = all(self.whole[name.replace(".part", "")][1].startswith(text) for name, (_, text) in left.items())
        is_open = 0 < len(left) < len(self.whole) and left["results.part"][0] != 0o40700
        return wrong_if(printed.out or not is_begun or is_open, f"{printed}, and there is {[*left]}")

    def noticed(self, _):
        """Changes a byte of a file of the folder, which the check of the folder has to find."""
        self.published(TITLE, "--ballots")
        path = self.chance.choice(sorted((self.out / "results").iterdir()))
        whole, text = checker(path.parent), bytearray(path.read_bytes())
        text[self.chance.randrange(len(text))] ^= self.chance.randrange(1, 256)
        path.write_bytes(text)
        changed = checker(path.parent)
        return not wrong_if((whole.status, changed.status) != (0, 1), f"{path.name} is changed: {changed}; and before: {whole}")

def try_published(room, wards=5, runs=100, seed=1):
    """Publishes the results of made-up wards: the folder is there, whole, or not at all, and nothing of another program is overwritten.

    Each file is what its order prints, but for the links, which lead to files of the folder; results.json is what `tools/try recount` makes
    of the ballots; SHA256SUMS lists all files. What another program has at FOLDER, at FOLDER.part or in it, or puts there, stays as it is,
    and the order prints fault 109 or 110. The order, and `serve`, are killed RUNS times: FOLDER is there, whole; or only its owner may open
    FOLDER.part. Given by root, FOLDER is also on disks that are too small. Last `- check FOLDER` finds each of 5 RUNS changed bytes."""
    needs("strace")
    here, table = Publication(room / "office", wards, random.Random(seed)), Table(f"{wards} wards, seed {seed}", "runs", "folder is there")

    def row(what, act, words, least=0):
        found = []
        for each in words:
            shutil.rmtree(here.out, ignore_errors=True)
            here.out.mkdir()
            found.append(about(f"{what}: {each}")(act)(*each))
        table.row(what, len(found), there := sum(map(bool, found)))
        wrong_if(there < least, f"{what}: it isn't published, although it could be")
    row("typed alone", here.published, CASES, len(CASES))
    with here.office.serve().wait():
        row("typed while the office is served", here.published, CASES, len(CASES))
    row("something of another program is there", here.disturbed, [(*place, command) for place in PLACES for command in FOREIGN])
    for is_served, what in ((False, "the order is killed"), (True, "`serve` is killed")):
        row(what, here.killed, [(is_served,)] * runs)
    sizes = range(1, 2 + sum(-(-len(text) // BLOCK) for _, text in here.whole.values()) if os.geteuid() == 0 else 1)
    row("the disk is too small, or just large enough",
        lambda size: full_disk(here.out, size * BLOCK)(here.published)(TITLE, "--ballots"), [(size,) for size in sizes], len(sizes) > 0)
    row("a byte is changed, and `- check FOLDER` finds it", here.noticed, [(number,) for number in range(5 * runs)])
