"""The sources of the crates, read as text: compared with the pages that name them and with the house rules; and the code of the tools."""
import collections, importlib.machinery, importlib.util, itertools, os, re, shutil, subprocess, sys, time

from office_tools.office import ROOT, needs, side_by_side, wrong_if

NOISE = re.compile(r'//[^\n]*|b?"(?:\\.|[^"\\])*"|b?\'(?:\\.[^\'\n]*|[^\'\\\n])\'', re.S)
TESTS = re.compile(r"#\[cfg\(test\)\]\s*mod tests \{|\Z")
# As `rt fmt` lays a function out, its clauses are deeper than it is, and its body begins and ends just there.
FUNCTION = re.compile(r"^( *)(?:pub |pub\(\w+\) )?(?:const )?(fn (\w+)[^{]*?(?:^ *(?:ensures|requires)\b.*?(?=^\1\{|;$(?!\n\1 )))?)"
                      r" *(?:;|(\{\}|\{\n.*?^\1\}))$", re.M | re.S)
CLAUSE = re.compile(r"^ *(ensures|requires)\b\*? *(\w*)\*? *\{\W*(\w*)", re.M)
BLOCK = re.compile(r"^ *(?:pub |pub\(\w+\) )?((impl|trait)\b[^{};]*)\{", re.M)
# Words of specs/ that say what several clauses say, each with its record, whose fields those are.
WORDS = {"Migrates": "Migrates", "CopiesTo": "CopiesTo", "Loads": "LoadsAt", "Alters": "Alters"}

def owners_of(head):
    """Returns the types whose functions are in the block that begins so: of a trait's impl, type and trait."""
    head = head.replace("->", "")
    while (plain := re.sub(r"<[^<>]*>", "", head)) != head:
        head = plain
    head = head.split(":")[0] if head.startswith("trait") else head
    parts = [re.findall(r"\w+", part) for part in re.split(r"\bfor\b", head.split(" where ")[0])]
    return [words[-1] for words in reversed(parts) if words]

class Function:
    """A function of a crate: its file below the crate's folder, where it begins and ends there, the types and the trait of its block.

    It has the comment above it, the names of its clauses, and the first word of each of `ensures` by its name. Its head, from `fn` to the
    contract, and its body are without comments and literals."""

    def __init__(self, path, source, found):
        blanks, told, self.name, body = found.groups()
        self.path, self.start, self.end, self.body = path, found.start(2), found.end(), body or ""
        # The last block that begins before it is its own, unless it is in none.
        block, kind = BLOCK.findall(found.string, 0, found.start())[-1] if blanks else ("", "")
        self.owners, self.in_trait_impl = owners_of(block), kind == "impl" and " for " in block
        self.title = f"{self.owners[0]}::{self.name}" if self.owners else self.name
        self.head, clauses = re.split(r"^ *(?:ensures|requires)\b", told, flags=re.M)[0], CLAUSE.findall(told)
        self.ensures, self.requires = ([name for kind, name, _ in clauses if kind == own] for own in ("ensures", "requires"))
        self.words = {name: word for kind, name, word in clauses if kind == "ensures"}
        self.module, self.line = path[4:].removesuffix(".rt").split("/"), source.count("\n", 0, self.start) + 1
        # The comment right above it, past its attributes.
        above = itertools.takewhile(lambda it: it.startswith(("//", "#[")), map(str.strip, reversed(source.split("\n")[:self.line - 1])))
        self.comment = "\n".join(reversed([it.lstrip("/").strip() for it in above if it.startswith("//")]))

class Crate:
    """A crate's sources: texts by path below its folder, functions, the fields of each record of specs/, and wrong bodies by name."""

    def __init__(self, folder):
        self.name, self.folder = folder.name, folder
        self.texts = {str(path.relative_to(folder)): path.read_text() for path in sorted((folder / "src").rglob("*.rt"))}
        self.functions = []
        for path, source in self.texts.items():
            # Comments and literals are blanked, each in its length, and `mod tests` at the end is left out.
            text = NOISE.sub(lambda found: re.sub(r"[^\n]", " ", found[0]), source)
            self.functions += [Function(path, source, found) for found in FUNCTION.finditer(text[:TESTS.search(text).start()])]
        specs = "\n".join(path.read_text() for path in sorted(folder.glob("specs/**/*.antt"))) + "\n"
        records = re.findall(r"^( *)pub record (\w+)[^\n]* where\n((?:\1  [^\n]*\n)+)", specs, re.M)
        self.records = {name: re.findall(rf"^{blanks}  pub (\w+) :", lines, re.M) for blanks, name, lines in records}
        edits = (path for part in ("must-fail", "wrong-bodies") for path in sorted(folder.glob(part + "/*.edit")))
        self.edits = {path.stem: path.read_text() for path in edits}

    def text_at(self, path):
        return (self.folder / path).read_text() if (self.folder / path).is_file() else ""

    def functions_of(self, edit):
        found = []
        for path, old, _ in changes_of(edit):
            place = self.text_at(path).find(old)
            found += [f for f in self.functions if f.path == path and f.start <= place < f.end][-1:]
        return list(dict.fromkeys(found))

def changes_of(edit):
    """Returns [(file, old text, new text)] of an edit."""
    parts = re.split(r"^file: *(.*?) *\n", edit, flags=re.M)[1:]
    changes = ((path, re.findall(r"^old:.?(.*)\n(?:new:.?(.*))?", lines, re.M)) for path, lines in zip(parts[::2], parts[1::2]))
    return [(path, old, new) for path, found in changes for old, new in found]

def crates():
    """Returns all crates in the order of crates.txt, lowest first."""
    names = re.findall(r"^([^#:\n]*):", (ROOT / "crates.txt").read_text(), re.M)
    found = [Crate(ROOT / "crates" / name.strip()) for name in names]
    records = {name: fields for crate in found for name, fields in crate.records.items()}
    for function in (function for crate in found for function in crate.functions):
        # The fields of a record stand in the place of a clause that says no more than that record.
        function.ensures = [part for name in function.ensures for part in records.get(WORDS.get(function.words.get(name)), [name])]
    return found

# What shellcheck doesn't report: words in single quotes that look like the shell's own, since they are another program's.
QUOTED = "SC2016,SC1003"
PARAMETERS, LINES, CHARACTERS = 5, 40, 200
# The functions that are larger; and a line that is two characters too long since something in it was renamed.
LARGE = {
    "checker": "flaw_remedy", "count": "figured lost_from", "sheet": "style write_row", "tables": "select_text",
    "desk": "begin_steps count_stages follow_recorded in_office mend_open perform_recorded replay run run_part run_script run_steps "
            "second_in second_open send_all tell_numbered",
    "store_tests": "are_refused give",
    "count_office": "fill fill_mended fill_open finish finish_mended mend_served dispatch_order perform_locked",
    "wire": "proofs/answering/answer_reading/Answers.antt:35",
}
PARAMETER, FIXED = re.compile(r"[(,]\s*(?:mut )?(?!alloc:)(?:\([^()]*\)|[a-z_]\w*):(?!:)"), re.compile(r'.*"[^"]{60,}')
BOUND = re.compile(r"\b(?:calls? itself|recurses)\b[^.]*\bat most\b", re.I)

def broken_rules():
    for crate in crates():
        for f in crate.functions:
            before = r"\b(?:self\.|Self::)" if f.owners else r"(?<![\w.:])"
            calls_itself = not f.in_trait_impl and re.search(rf"{before}{f.name}(?:::<[^;{{}}()]*>)?\(", f.body)
            if calls_itself and not BOUND.search(" ".join(f.comment.split())):
                yield f"crates/{crate.name}/{f.path}:{f.line}: {f.title} calls itself: no bound is stated"
        large = {f.name for f in crate.functions if len(PARAMETER.findall(f.head)) > PARAMETERS or f.body.count("\n") - 1 > LINES}
        written = ("src/**/*.rt", "specs/**/*.antt", "proofs/**/*.antt")
        paths = [] if crate.name.endswith("_tests") else [path for part in written for path in crate.folder.glob(part)]
        lines = ((f"{path.relative_to(crate.folder)}:{number}", line) for path in paths for number, line in enumerate(path.open(), 1))
        large |= {place for place, line in lines if len(line.rstrip("\n")) > CHARACTERS and not FIXED.match(line)}
        most = f"{PARAMETERS} parameters, {LINES} lines or {CHARACTERS} characters"
        yield from (f"{crate.name}: {place} has more than {most}, and isn't among LARGE; or needn't be"
                    for place in sorted(large ^ set(LARGE.get(crate.name, "").split())))

def check_code():
    """Reads all code of this repository for what a linter sees, and for the house rules of CONTRIBUTING.md on sizes.

    pyflakes reads all Python, and shellcheck all shell; they find nothing. A function has at most five parameters besides itself and the
    allocator, and 40 lines; those that have more are named here, and one that needn't be is reported too. A line has at most 200
    characters, but for texts that are fixed. The comment above a function that calls itself by its own name states a bound, as
    `Recurses at most 30 times.`, which is one of the program's own; methods of a trait, and functions that call each other, aren't seen."""
    needs("pyflakes3", "shellcheck")
    listed = subprocess.run(["git", "ls-files", "-co", "--exclude-standard"], cwd=ROOT, capture_output=True, text=True, check=True).stdout
    found = collections.defaultdict(list)
    for path in filter(lambda path: path.is_file(), map(ROOT.joinpath, listed.split("\n"))):
        # A file is known by its ending, or by its first line.
        first = re.match(rb"#!.*?(python|sh)[0-9]*$", path.read_bytes().split(b"\n")[0].rstrip())
        found[{".py": "python", ".sh": "sh", ".bash": "sh"}.get(path.suffix) or first and first[1].decode()].append(path)
    checked = [subprocess.run(["pyflakes3", *found["python"]]), subprocess.run(["shellcheck", "-x", "-e", QUOTED, *found["sh"]], cwd=ROOT)]
    return list(broken_rules()) or max(run.returncode for run in checked)

HAND, MESSAGES = [ROOT / f"docs/engineering/{name}.md" for name in ("proofs", "limits")], ROOT / "docs/officer/when-it-says-no.md"
PAGES = ("officer/rules", "formats/orders", "formats/sheets", "formats/ballots", "formats/records", "officer/glossary")
DEFINED = [ROOT / f"docs/{name}.md" for name in PAGES]
# What the program prints before a number, the file of definitions, and the definitions of the number and of the text after it.
NUMBERED = [
    ("refused {}: ", "register/specs/Reasons.antt", "reason_number", "reason_words"),
    ("file fault {} at record R: ", "keyfile/specs/Faults.antt", "flaw_number", "flaw_words"),
    ("fault {}: ", "tables/specs/Faults.antt", "fault_number", "fault_text"),
    ("fault {}: ", "desk/specs/Pages.antt", "failure_number", "failure_text"),
    ("codes fault {} at line L: ", "codes/specs/Faults.antt", "flaw_number", "flaw_text"),
    ("codes fault {}: ", "codes/specs/Faults.antt", "fault_number", "fault_text"),
]
OF = re.compile(r"((?:`\w+`(?:, | and ))*`\w+`) of ((?:`[\w:]+`(?:, | and ))*`[\w:]+`)")
QUOTES = re.compile(r"`([^`]*)`")

def clauses_of(crates):
    """Returns {name of a function, with its type and without: its clauses}"""
    found = {}
    for function in (function for crate in crates for function in crate.functions):
        for title in {f"{owner}::{function.name}" for owner in function.owners} | {function.name}:
            found.setdefault(title, set()).update(function.ensures + function.requires)
    return found

def missing_of_row(crates, name, where):
    clauses = clauses_of([crate for crate in crates if crate.name == name.strip("`")])
    if not clauses:
        yield f"no crate {name}"
        return
    # The colons of a name in backticks part nothing.
    for part in re.sub("`[^`]*`", lambda found: found[0].replace("::", "%"), where).split(";"):
        functions, _, names = part.partition(":")
        for function in (function.replace("%", "::") for function in QUOTES.findall(functions)):
            if function not in clauses:
                yield f"no function {function} in {name}"
            yield from (f"no clause {it} of {function} in {name}" for it in QUOTES.findall(names) if it not in clauses.get(function, [it]))

def missing_of_text(line, clauses, words):
    for names, functions in OF.findall(line):
        for function in QUOTES.findall(functions):
            yield from (f"no clause {it} of {function}" for it in QUOTES.findall(names) if it not in clauses.get(function, [it]))
    for name in QUOTES.findall(line):
        parts = {name} if name.startswith("Rattle.") else set(re.findall(r"\w+", name))
        if re.fullmatch(r"[\w:.]+", name) and not parts <= words:
            yield f"no {name} in the sources"

def faults_of(crates):
    """Yields what the pages that are written by hand name and the sources don't have, and edits whose old text isn't just once there."""
    words, clauses = set(re.findall(r"\w+", (ROOT / "crates.txt").read_text())), clauses_of(crates)
    for crate in crates:
        words.update(crate.edits, *(re.findall(r"\w+", text) for text in crate.texts.values()))
        for path in crate.folder.glob("specs/**/*.antt"):
            text, name = path.read_text(), ".".join(["Rattle", crate.name, *path.relative_to(crate.folder).with_suffix("").parts])
            defined = re.findall(r"^(?:\w+ )?pub (?:\w+ )?(\w+)", text, re.M)
            words.update(re.findall(r"\w+", text), [name], (f"{name}.{own}" for own in defined))
        for name, path, old in ((name, *change[:2]) for name, edit in crate.edits.items() for change in changes_of(edit)):
            if (times := crate.text_at(path).count(old)) != 1:
                yield f"{crate.name}/{name}.edit: its old text stands {times} times in {path}"
    for page in [*HAND, *DEFINED]:
        for number, line in enumerate(page.read_text().splitlines(), 1):
            faults, cells = [], [cell.strip() for cell in re.split(r"(?<!\\)\|", line)[1:-1]]
            if page in HAND and len(cells) == 3 and cells[0] != "crate" and not set(cells[0]) <= set("-: "):
                faults = missing_of_row(crates, cells[0], cells[2])
            elif page in HAND or line.startswith(("- Definition", "The definition")) or page.stem == "glossary" and line.startswith("|"):
                faults = missing_of_text(line, clauses, words)
            yield from (f"{page.name}:{number}: {fault}" for fault in faults)

def check_proofs():
    """Compares what the pages of docs/ name of the sources with them.

    Each row of a table | crate | promise | where | of docs/engineering/proofs.md and limits.md names in its last column functions of the
    crate and, after a colon, clauses of each, in parts like `Office::run`: `headline`, `answers`; `order`: `ok`. In their text, and in
    lines about definitions of PAGES, `opened`, `told` of `Store::open_from` names clauses of a function, and each word in backticks is one
    of the sources. Each refusal and fault has its heading in docs/officer/when-it-says-no.md, each edit's old text is once in its file."""
    yield from faults_of(crates())
    headings, wanted = re.findall(r"^### `(.*)`$", MESSAGES.read_text(), re.M), []
    for front, file, number, text in NUMBERED:
        definitions = (ROOT / "crates" / file).read_text()
        texts = dict(re.findall(rf'^{text} \(?(\w+)[^=\n]*= codes "([^"]*)"$', definitions, re.M))
        wanted += [front.format(own) + texts[name] for name, own in re.findall(rf"^{number} \(?(\w+)[^=\n]*= (\d+)$", definitions, re.M)]
    found = [[heading for heading in headings if heading == it or it[-1] == " " and heading.startswith(it)] for it in wanted]
    yield from (f"{MESSAGES.name}: no heading {message}" for message, own in zip(wanted, found) if len(own) != 1)
    yield from (f"{MESSAGES.name}: no message of the sources is {heading}" for heading in headings if [heading] not in found)

# What a check may take, the crates in which the functions to prove are most of the crate, and the others that take longest.
MEMORY, DEAREST, LONGEST = 5 << 30, ("count_office", "desk", "office", "store"), ("wire", "server")
HIDDEN, REACHED = re.compile(r"no proof: it calls .* not proved$"), re.compile(r"^only=\d+ proved=\d+", re.M)
# A text that can't be read shows nothing of a contract, nor does a proof that names what the edit took away.
UNREAD = re.compile(r"^\S*(?:src|specs)/\S+: error: (?!`)", re.M)
GONE = re.compile(r"^(?:\./)?proofs/(\S+)/\w+\.antt:.*(?:has no field|is not in scope|has no `|was not admitted)", re.M)

def kit():
    """Returns the command rt as a module. It checks a copy of a crate over what is built, as for the edits of must-fail/."""
    path = os.path.realpath(shutil.which("rt") or sys.exit("this needs rt, the toolchain"))
    loader = importlib.machinery.SourceFileLoader("rt_command", path)
    rt = importlib.util.module_from_spec(importlib.util.spec_from_loader("rt_command", loader))
    sys.dont_write_bytecode = True
    loader.exec_module(rt)
    if not all(hasattr(rt, name) for name in ("checked", "free")) or not hasattr(rt.rtlib, "crates_below"):
        sys.exit("this kit's rt has no part that checks an edited copy: put the edits into must-fail/, and try them by rt must-fail")
    return rt

def path_of(function):
    """Returns the end of a function's name in a check. A method stands below its type, or its type and trait in one, wherever that is."""
    owners = ["".join(function.owners)] if function.owners else [part for part in function.module if part != "lib"]
    return "::".join([*owners, function.name])

def verdict(said, crate, edit):
    """Returns what a check says of an edit: "refused", "hidden" by another one, or why it shows nothing."""
    functions = crate.functions_of(edit)
    reports = [rf"^fn {crate.name}::(?:\S+::)?{re.escape(path_of(function))}: (.*)$" for function in functions]
    lines = [line for report in reports for line in re.findall(report, said, re.M)]
    if UNREAD.search(said) or not REACHED.search(said):
        return "no contract was tried: the check ended before its proofs"
    if not lines:
        return "it changes no function that a check reports"
    if all(line == "proved" for line in lines):
        return "not refused"
    if all(line == "proved" or HIDDEN.match(line) for line in lines):
        return "hidden"
    gone = any(folder.startswith("/".join(f.module)) and folder.endswith("/" + f.name) for folder in GONE.findall(said) for f in functions)
    return "refused" + ", only because a proof names what it takes away" * gone

def tried(rt, crate, edits):
    """Tries edits of a crate, all at once. Returns {its name: the outcome}."""
    changed = {path_of(function) for edit in edits.values() for function in crate.functions_of(edit)}
    built = next(it for it in rt.rtlib.crates_below(os.getcwd()) if it.name == crate.name)
    flags, texts = ["--jobs", "1", *(word for path in sorted(changed) for word in ("--only", path))], {}
    # `tools/check proofs` sees that each old text is there once.
    for path, old, new in (change for edit in edits.values() for change in changes_of(edit)):
        texts[path] = texts.get(path, crate.text_at(path)).replace(old, new)
    said = rt.checked(built, texts, flags, None).stdout
    found = {name: verdict(said, crate, edit) for name, edit in edits.items()}
    if any(result != "hidden" and not result.startswith("refused") for result in found.values()):
        print(said, end="", file=sys.stderr)
    return found

def results(rt, crate, edits):
    """Tries all edits of a crate at once that change different functions; then, each by itself, the others and those that these hide."""
    together, changed = {}, set()
    for name, edit in edits.items():
        functions = set(map(path_of, crate.functions_of(edit)))
        if not functions & changed:
            together[name], changed = edit, changed | functions
    found = {name: result for name, result in tried(rt, crate, together).items() if result != "hidden"}
    for name in [name for name in edits if name not in found]:
        found |= tried(rt, crate, {name: edits[name]})
    return found

def check_wrong_bodies(*crates, built=False, gate=False, minutes: int = None):
    """Tries the wrong bodies that `rt ci` leaves out: the contract of its own crate has to refuse each.

    All of a crate's wrong-bodies/ are put into one copy of it, and one check proves the functions that they change: a function is proved by
    its own body and the contracts of what it calls, so each of them has to be refused by itself. If one calls another, the check says no
    more than that it calls what isn't proved: then it is tried once more without the other. Two that change one function are tried apart.

    A crate and those below it are built first if they aren't, and so the crate is known to be proved as it is. --built takes the crates as
    `rt ci` leaves them in out/, and tries several side by side. --gate does this with all crates but count_office, desk, office and store,
    which cost a whole proof. Prints a line for each wrong body, and ends with status 1 if one wasn't refused. With --minutes N it begins
    with no crate once N minutes have passed, and names the crates that it had no time for."""
    end = time.monotonic() + 60 * minutes if minutes is not None else float("inf")
    os.chdir(ROOT)
    edits = collections.defaultdict(dict)
    for path in sorted(ROOT.glob("crates/*/wrong-bodies/*.edit")):
        name = path.parts[-3]
        if name in crates if crates else not (gate and name in DEAREST):
            edits[name][path.stem] = path.read_text()
    wrong_if(empty := set(crates) - set(edits), f"no wrong bodies in {empty}")
    rt, counts, left_out = kit(), [0, 0], []
    rt.rtlib.guarded()  # it handles a signal, which only the first thread may

    def try_crate(name):
        if time.monotonic() >= end:
            return name, {}
        if not (built or gate):
            quiet = {"stdout": subprocess.DEVNULL, "stderr": subprocess.DEVNULL}
            subprocess.run(["rt", "lib", "--jobs", "1"], cwd=ROOT / "crates" / name, check=True, **quiet)
        return name, results(rt, Crate(ROOT / "crates" / name), edits[name])

    # One crate a processor, as far as memory lets.
    lanes = max(1, min(len(os.sched_getaffinity(0)), rt.free() // MEMORY)) if built or gate else 1
    for name, found in side_by_side(try_crate, sorted(edits, key=lambda it: (it not in DEAREST, it not in LONGEST, it)), lanes):
        left_out += [name] * (not found)
        for edit, result in found.items():
            print(f"{name}/{edit}: {result}", flush=True)
            counts = [counts[0] + result.startswith("refused"), counts[1] + 1]
    print(f"{counts[0]} of {counts[1]} refused")
    if left_out:
        print(f"not tried, since the {minutes} minutes were over: {', '.join(left_out)}")
    return counts[0] != counts[1]
