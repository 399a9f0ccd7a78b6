"""The pages of docs/: their links, their sentences, and what they say of orders, of tools and of nginx."""
import itertools, re, shlex

from office_tools.command import tools
from office_tools.election import ELECTION, READS, REPLAY
from office_tools.office import ROOT, SCRIPT, Office, program, ran
from office_tools.releasing import listed, orders_of, slug

GUIDE, MESSAGES = [ROOT / f"docs/officer/{name}.md" for name in ("by-words", "putting-right")], "when-it-says-no.md#"
FENCED = re.compile(r"^(```|~~~)([^\n]*)\n(.*?)^\1[^\n]*$", re.S | re.M)
LINK, PRINTED = re.compile(r"\]\(([^)\s]+)\)"), re.compile(r"^(refused \d+|file fault \d+|fault \d+)\b", re.M)

def pages():
    return [ROOT / name for name in ("README.md", "CHANGELOG.md", "CONTRIBUTING.md")] + sorted((ROOT / "docs").glob("**/*.md"))

def headings(page):
    """Returns the names of a page's headings, as links have them: one that comes again has a number after it."""
    found = re.findall(r"^#{1,6} +(.*)$", FENCED.sub("", page.read_text(encoding="utf-8")), re.M)
    names = [slug(re.sub(r"\[([^]]*)\]\([^)]*\)", r"\1", heading)) for heading in found]
    return {f"{name}-{names[:place].count(name)}".removesuffix("-0") for place, name in enumerate(names)}

def check_links():
    """Compares the links of the pages with what they lead to.

    A link within the repository leads to a file that is there, and what comes after its # is a heading of that page. Each refusal, file
    fault and fault that the pages of GUIDE show as printed has a link there to its own heading in docs/officer/when-it-says-no.md."""
    for page in pages():
        for target in LINK.findall(re.sub(r"`[^`\n]*`", "code", FENCED.sub("", page.read_text(encoding="utf-8")))):
            file, _, heading = target.partition("#")
            to = (page.parent / file).resolve() if file else page
            is_there = to.exists() and (not heading or to.suffix == ".md" and heading in headings(to))
            if not is_there and not re.match(r"[a-z]+:", target):
                yield f"{page.relative_to(ROOT)}: no file or heading of {target}"
    text = "\n".join(page.read_text(encoding="utf-8") for page in GUIDE)
    linked = [target.removeprefix(MESSAGES) for target in LINK.findall(text) if target.startswith(MESSAGES)]
    for found in sorted({found for block in FENCED.findall(text) for found in PRINTED.findall(block[2])}):
        if not any(heading.startswith(found.replace(" ", "-") + "-") for heading in linked):
            yield f"the guide: no link for {found}"

MOST, LEAST, MOST_IN_COMMENTS = 30, 4, 40
SHARES, OTHERS = {5: "README evening by-words when-it-says-no putting-right tellers agents installing network rules glossary",
                  20: "proofs limits", 10: "orders files sheets ballots records http console-api screen-api tables faults"}, 15
SIGN = r"^[ \t]*(?:///|//!|//|--)(?: |$)"
COMMENTS = re.compile(rf"(?:{SIGN}.*\n?)+", re.M)

# Idioms, and what to write instead. What is in backticks or fences isn't searched.
IDIOMS = {
    r"he|she|him|his|guests?|comers?|visitors?": "the client, the connection, they",
    r"(?:is|are|was|were|be|been) told(?! apart)|(?:clerk|client|teller)s? (?:is|are|was|were) answered": "the program prints, sends",
    r"lets? go|leaves? the room|has (?:his|its|their) turn": "is closed, is processed",
    r"wanting|want of": "missing, out of memory",
    r"(?-i:Where)(?= [^.|\n]{3,90}, )|(?<!path\s)where (?:no|nothing|memory|there)": "if, when",
    r"(?<!leave\s)(?<!leave\s\s)(?<!left\s)(?<!left\s\s)behind(?! (?:nginx|(?:a|the) proxy))": "after, follows",
    r"(?:text|file|row|line|name|word|number|page|it|that|which)s? (?:stands?|stood|lies?|lay)": "is, appears, is stored",
    r"(?:comes?|came) (?:to (?:nothing|the same|this|that)|of (?:it|this|that))|what (?:comes|came) (?:of|to)": "results in",
    r"(?:go|goes|going|went) on(?! to)": "continues, resumes",
    r"at whatever (?:moment|time)": "at any time",
    r"none states|no clause says": "nothing guarantees, no clause guarantees",
    r"each for (?:him|her|it)self": "independently",
    r"takes? (?:a|the|an|one|two|any|no) (?:file|word|code|path)s?": "accepts, reads",
    r"gives (?:the|a|an|no) (?:number|text|word|list|state|row|line|reply|status)s?": "returns",
    r"the same again": "the same request, repeated",
    r"a yes|a no": "confirms, rejects",
    r"whoever": "anyone who, the caller",
    r"beside": "next to, along with",
    r"over (?:a|an|the|any|every|each|no) (?:state|store|office)s?": "for, on, at",
}
# What the program prints, to the letter; and a term of design.
ALLOWED = {"docs/formats/ballots.md": ("a line behind the ward's name", "the line 0 behind the papers"),
           "crates/tables/src/walking.rt": ("visitor",), "crates/tables/specs/Walking.antt": ("visitor",)}
TABLES, BOOKS = "results.md", {"officer": ["officer/"], "formats": ["formats/"], "engineering": ["engineering/", "DECISIONS"]}
PLACES = "crates/*/src/**/* crates/*/specs/**/* crates/**/*.edit tools/**/* examples/**/* release/package/**/* count-office".split()
SUFFIXES = (".rt", ".antt", ".edit", ".py", ".sh", ".bash", ".fish", ".zsh", ".service", ".js")
SPOKEN = re.compile(r'^[ \t]*"""((?s:.*?))"""|^(?:new: )?[ \t]*(?:///|//!|//|--|#)( .*|$)|.+', re.M)

def idioms(path):
    text, blank = path.read_text(encoding="utf-8"), lambda found: re.sub(r"[^\n]", " ", found[0])
    text = FENCED.sub(blank, text) if path.suffix == ".md" else SPOKEN.sub(lambda found: found[1] or found[2] or "", text)
    text, lines, name = re.sub(r"`[^`\n]*`", blank, text), text.split("\n"), str(path.relative_to(ROOT))
    for idiom, instead in IDIOMS.items():
        for found in re.finditer(rf"(?i)\b(?:{idiom})\b".replace(" ", r"\s+"), text):
            line = text.count("\n", 0, found.start())
            if not any(part in lines[line] for part in ALLOWED.get(name, ())):
                yield f"{name}:{line + 1}: {' '.join(found[0].split())}: write {instead}"

def sentences(text):
    """Yields (the number of words, the sentence) of a page."""
    # A line of its own for each paragraph, item, heading and cell.
    text = re.sub(r"(?m)^\s*\|(.*)$", lambda row: "\n\n" + re.sub(r"(?<!\\)\|", "\n\n", row[1]), FENCED.sub("\n", text))
    text = re.sub(r"(?m)^\s*(?:[-*+]|\d+\.|#+|>)\s+", "\n\n", re.sub(r"(?m)^(#.*)$", r"\1\n", text))
    for block in re.split(r"\n\s*\n", text):
        block = re.sub(r"`[^`]*`", "code", re.sub(r"\]\([^)]*\)", "]", " ".join(block.split())))
        for sentence in re.split(r"(?<=[.!?])[*_)\"']*\s+", block):
            words = re.findall(r"[^\W_][\w'’.-]*", sentence)
            if len(words) >= LEAST:
                yield len(words), sentence

def is_over(what, texts, most, allowed):
    found = [sentence for text in texts for sentence in sentences(text)]
    long = sorted((it for it in found if it[0] > most), reverse=True)
    share = 100 * len(long) / max(1, len(found))
    print(f"{what}: {len(long)} of {len(found)} sentences have more than {most} words, {share:.1f} in a hundred; {allowed} may be")
    print(*(f"    {count}: {sentence[:300]}\n" for count, sentence in long * (share > allowed)), sep="", end="")
    return share > allowed

def check_plain():
    """Counts the words of each book and the long sentences of pages and comments, and names idioms that no native speaker writes.

    A sentence ends at a full stop, a question mark or an exclamation mark before a blank; so does the cell of a table, an item of a list,
    and a heading. Those of fewer than 4 words and code in fences aren't counted. Each page has a share of sentences of more than 30 words
    that it may have, in a hundred; no sentence of a comment in src/ and specs/ may have more than 40. Each of IDIOMS is printed with its
    line and what to write instead; a line that may have one is named in ALLOWED, by a part of it."""
    allowed = {name: share for share, names in SHARES.items() for name in names.split()}
    found = [is_over(page.relative_to(ROOT), [page.read_text()], MOST, allowed.get(page.stem, OTHERS)) for page in pages()]
    for crate in sorted((ROOT / "crates").iterdir()):
        sources = [path.read_text() for path in (*crate.glob("src/**/*.rt"), *crate.glob("specs/**/*.antt"))]
        texts = [re.sub(SIGN, "", comment, flags=re.M) for source in sources for comment in COMMENTS.findall(source)]
        found.append(is_over(crate.name, texts, MOST_IN_COMMENTS, 0))
    sources = [path for place in PLACES for path in sorted(ROOT.glob(place)) if path.suffix in ("", *SUFFIXES) and path.is_file()]
    named = [line for path in (*pages(), *sources) if path.name != TABLES for line in idioms(path)]
    print(*named, sep="\n", end="\n" * bool(named))
    for book, parts in BOOKS.items():
        texts = [FENCED.sub("", it.read_text()) for part in parts for it in pages() if f"docs/{part}" in str(it) and it.name != TABLES]
        count = sum(1 for word in " ".join(texts).split() if re.search(r"\w", word))
        print(f"{book}: {count} words")
    return any(found) or bool(named)

RESULTS, LAST = ROOT / "docs/engineering/results.md", "**Last run**"

def section(tool, result):
    """Returns the section of a tool, such as `tools/try killed`, or nothing if there is none of that name."""
    kind, name = re.fullmatch(r"tools/(\w+) ?(\S*)", tool).groups()
    if not result or name not in (known := tools(kind)):
        return None
    path, documentation = known[name]
    about = f"{documentation.splitlines()[0]} ([its conditions](../../{path.relative_to(ROOT)}))"
    return f"\n## `{tool}`\n\n{about}\n\n{LAST}\n\n{result}\n"

def replaced(result, printed):
    """Returns the result of a tool with other tables: its lines that aren't of tables stay, in front of these."""
    notes = [block for block in re.split(r"\n{2,}", result) if not block.startswith("|")]
    tables = re.split(r"\n{2,}", "\n".join(line for line in printed.split("\n") if line.startswith("|") or not line).strip("\n"))
    return "\n\n".join(notes + tables)

def check_results(*, write=False, of=""):
    """Compares docs/engineering/results.md with the tools whose results it has.

    Each of its sections is of one tool: its name, the first sentence of its documentation, and from **Last run** on what it printed last,
    with what has to be known of that run. --write makes the names and sentences anew. With --of, as in `tools/try killed | tools/check
    results --write --of killed`, the tables that it reads replace those of that tool; lines that aren't of tables are left out."""
    there = RESULTS.read_text(encoding="utf-8")
    head, *sections = re.split(r"^## `([^`]*)`\n", there, flags=re.M)
    results = {tool: text.partition(LAST)[2].strip() for tool, text in zip(sections[::2], sections[1::2])}
    named = [tool for tool in results if tool.endswith(f" {of}")]
    lost = [tool for tool, result in results.items() if not section(tool, result)] or [of] * (of != "" and not named)
    if lost:
        return [f"{RESULTS.name}: {tool} is no tool, or has no result" for tool in lost]
    if of:
        results[named[0]] = replaced(results[named[0]], open(0).read())
    made = head.rstrip("\n") + "\n" + "".join(section(*found) for found in results.items())
    if write:
        RESULTS.write_text(made, encoding="utf-8")
    return [f"{RESULTS.name}: not what the tools say; run tools/check results --write"] * (made != there and not write)

RANGE = re.compile(r"\d+ to \d+")

class Order:
    def __init__(self, told):
        self.has_id, self.has_many = "--id <ID>" in told.usage, told.usage.endswith("...")
        self.name, *self.words = re.sub(r" --id <ID>| \[OPTIONS\]|[<>]", "", told.usage).split()
        self.typed = " ".join([self.name, *self.words, *["--id ID"] * self.has_id])
        self.options = [re.sub("[<>]", "", option.name) for option in told.long_options() if option.name != "--id <ID>"]
        self.example = shlex.split(told.example.removeprefix("count-office town.db "))
        named = [(re.search(r"[<[](\w+)", item.name), item.text) for item in told.words + told.options]
        self.ranges = {found[1]: RANGE.findall(text)[:1] for found, text in named if found}

    def takes(self, words):
        """Returns whether the words are of its form; some may be left out, and the last one may be there any number of times."""
        needed = [word for word in self.words if word[0] != "["]
        given = list(itertools.takewhile(lambda word: not word.startswith("--"), words[1:]))
        is_enough = len(needed) <= len(given) and (self.has_many or len(given) <= len(self.words))
        return words[:1] == [self.name] and is_enough and ("--id" in words) == self.has_id

def unlike(place, found, wanted):
    """Yields the names that are in only one of two lists, and whether one is there twice."""
    yield from (f"{place}: {name} {'is no order there' if name in found else 'is missing'}" for name in sorted(set(found) ^ set(wanted)))
    if len(set(found)) < len(found):
        yield f"{place}: an order stands twice"

def unlike_in_pages(orders, scripted):
    text, where = (ROOT / "docs/formats/orders.md").read_text(encoding="utf-8"), "formats/orders.md"
    rows = re.findall(r"^\| `([a-z-]+)([^`]*)` \| (.*)$", text.split("\n## All orders\n")[1].split("\n## ")[0], re.M)
    yield from unlike(where, [name for name, _, _ in rows], orders)
    for order, words, rest in ((orders[name], words, rest) for name, words, rest in rows if name in orders):
        yield from [f"{where}: {order.name + words} is not {order.typed}"] * (order.name + words != order.typed)
        yield from (f"{where}: {order.name}: {option} is missing" for option in order.options if f"`{option}`" not in rest)
    table = re.findall(r"^\| ([A-Z_, ]+) \| (.*) \|$", text.split("| Word | Range |")[1].split("\n\n")[0], re.M)
    ranges = {name: RANGE.findall(told)[:1] for names, told in table for name in names.split(", ")}
    named = ((order.name, *range_of) for order in orders.values() for range_of in order.ranges.items())
    yield from (f"{where}: {word} of {name}: {ranges.get(word)} is not {told}" for name, word, told in named if ranges.get(word) != told)
    files = (ROOT / "docs/formats/files.md").read_text(encoding="utf-8").split("- *Orders.* These")[1].split("\n")[0]
    yield from unlike("formats/files.md, scripts", re.findall(r"`([a-z-]+)`", files), scripted)
    played = (ROOT / "examples/help.sh").read_text(encoding="utf-8").split("for order in ")[1].split("; do")[0]
    yield from unlike("examples/help.sh", played.replace("\\\n", " ").split(), orders)

def check_orders(room):
    """Compares what names the orders of the program with the program's own help.

    These are what `--help` tells of the words of orders, and their examples; the tables of orders and of words, with their ranges, in
    docs/formats/orders.md; the orders that a script may have, in docs/formats/files.md; the orders that examples/help.sh plays; and the
    election of tools/try, which has each order that a script may have. Which these are, the program tells of a script of one line."""
    commands, lists = listed(program())
    orders = {told.name: Order(told) for told in orders_of(program())}
    yield from unlike("--help", [*commands, *(name for name, _ in lists)], orders)
    yield from (f"--help: the help of {name}, or its example, is of other words" for name, order in orders.items()
                if order.name != name or not order.takes(order.example))
    typed = ((f"{name} {words}".strip(), orders[name].typed) for name, words in lists)
    yield from (f"--help: {found} is not {wanted}" for found, wanted in typed if found != wanted)
    office, scripted = Office(room).begin(), set()
    for name, order in orders.items():
        office.write(SCRIPT, [shlex.join(order.example)])
        if order.example and "can't be used in a script" not in office.run("replay", SCRIPT).err:
            scripted.add(name)
    yield from unlike_in_pages(orders, scripted)
    played = [order.words for order in (*ELECTION, REPLAY, *(order for _, order in READS))]
    yield from (f"election.py: {words} is no order" for words in played if words[0] not in orders or not orders[words[0]].takes(words))
    yield from (f"election.py: {name} is missing" for name in sorted((scripted | {"init"}) - {words[0] for words in played}))

NAME, NETWORK = "count.example.org", "192.0.2.0/24"
OWN = re.compile(rf"/etc/nginx/count-office-lan/{re.escape(NAME)}-\d{{8}}\.(pem|key);")
DOCUMENTED = {"pem": "/etc/ssl/certs/count.pem;", "key": "/etc/ssl/private/count.key;"}
ACCEPTED = ["count", "Count.Example.Org", "192.168.7.5", "xn--bro-hoa.example", "a1.b-2.c3", f"{'a' * 63}.org"]
REFUSED = ["", "https://count.example.org", "count.example.org:8443", "count/", "count example", "count;", "count\nexample", "$(id)",
           "büro.example", "-count", "count-", ".count", "count.", "count..org", "a_b", "192.168.7", "192.168.7.256", "192.168.07.5",
           "1.2.3.4.5", "count.5", "0x7f", "fd00::5", "[fd00::5]", "localhost", "127.0.0.1", "a" * 64, ".".join(["a" * 50] * 5)]
NETWORKS = {"192.168.7.20": True, "10.0.0.0/8": True, "FD00:7::/64": True, "192.168.7.0/33": False, "192.168.7/24": False, "all": False,
            "": False, "fd00::/129": False, "unix:": False, "0/0": False, "192.168.7.0/24;": False}
PORTS = {"1": True, "65535": True, "0": False, "65536": False, "080": False, "8080;": False, "": False}

def printed_by(*words):
    return ran(ROOT / "release/package/count-office-lan", "--print", *words)

def check_lan():
    """Compares the configuration of nginx that count-office-lan writes with that of docs/officer/network.md, and tries wrong words.

    Both have to be the same but for the paths of the certificate and its key. What is refused ends with status 2 and a sentence."""
    page = re.search(r"```nginx\n(.*?)```", (ROOT / "docs/officer/network.md").read_text(encoding="utf-8"), re.DOTALL)[1]
    own = OWN.sub(lambda path: DOCUMENTED[path[1]], printed_by(NAME, "--network", NETWORK, "--port", "8080").out)
    differing = [lines for lines in itertools.zip_longest(page.split("\n"), own.split("\n")) if len(set(lines)) > 1][:1]
    yield from (f"docs/officer/network.md has the line {theirs!r}, and count-office-lan {ours!r}" for theirs, ours in differing)
    cases = [((name, "--network", NETWORK), name in ACCEPTED) for name in ACCEPTED + REFUSED]
    cases += [((NAME, "--network", network), is_one) for network, is_one in NETWORKS.items()]
    cases += [((NAME, "--network", NETWORK, "--port", port), is_one) for port, is_one in PORTS.items()]
    cases += [((NAME, *words), False) for words in ([], ["other", "--network", NETWORK], ["--remove"], ["--more"], ["--port"])]
    for words, is_accepted in cases:
        status, out, err = printed_by(*words)
        if (status, bool(out)) != ((0, True) if is_accepted else (2, False)) or is_accepted == err.startswith("count-office-lan: "):
            yield f"count-office-lan --print {' '.join(words)}: status {status}, {err}"
