"""What a release is made from: archives, whose bytes depend on their contents alone; docs/ as one HTML file; manual pages; completions."""
import hashlib, html, io, lzma, posixpath, re, subprocess, tarfile
from collections import namedtuple
from pathlib import PurePosixPath

from office_tools.office import ROOT, wrong_if

PROGRAMS = {"count-office": "count_office", "check-count": "check_count"}
PACKAGE, VERSION, BUILT_FROM = ROOT / "release/package", "crates/desk/src/version.rt", "lib/count-office/BUILT-FROM"

def said(*words, **how):
    """Returns what a command prints; it has to end with status 0."""
    return subprocess.run(words, cwd=ROOT, check=True, stdout=subprocess.PIPE, text=True, **how).stdout.strip()

def sha256(content):
    return hashlib.sha256(content).hexdigest()

def told(text, name):
    """Returns what a line of BUILT-FROM says."""
    return re.search(f"^{re.escape(name)}: (.*)$", text, re.M)[1]

def filled(name, **texts):
    """Returns a file of release/package/ with texts in place of their names: `NAME` in a line, or a line of its own that is `# NAME`."""
    names, frame = "|".join(texts), (PACKAGE / name).read_text(encoding="utf-8")
    return re.sub(rf"^ *# ({names})\n|\b({names})\b", lambda found: texts[found[1] or found[2]], frame, flags=re.M)

def version():
    """Returns the number in the sources, which CHANGELOG.md has to begin with; above it only what comes next may be listed."""
    own = re.search(r'^pub const VERSION: &str = "(\d+\.\d+\.\d+)";$', (ROOT / VERSION).read_text(encoding="utf-8"), re.M)
    newest = re.search(r"^## (?!Next$)(\S+)", (ROOT / "CHANGELOG.md").read_text(encoding="utf-8"), re.M)
    wrong_if(newest[1] != own[1], f"CHANGELOG.md begins with version {newest[1]}, and {VERSION} has {own[1]}")
    return own[1]

def tar_bytes(files, time):
    """Returns a tar archive of {path: (mode, bytes)}, each entry at the same time. A path that ends in / is a folder."""
    plain = io.BytesIO()
    with tarfile.open(fileobj=plain, mode="w", format=tarfile.USTAR_FORMAT) as tar:
        for path, (mode, text) in sorted(files.items()):
            entry = tarfile.TarInfo(path.rstrip("/"))
            entry.type = tarfile.DIRTYPE if path.endswith("/") else tarfile.REGTYPE
            entry.size, entry.mode, entry.mtime = len(text), mode, time
            entry.uname = entry.gname = "root"
            tar.addfile(entry, io.BytesIO(text))
    return plain.getvalue()

def xzed(plain):
    return lzma.compress(plain, preset=9 | lzma.PRESET_EXTREME)

def files_of(archive):
    with tarfile.open(fileobj=io.BytesIO(archive)) as tar:
        entries = [entry for entry in tar if entry.isfile()]
        return {entry.name.partition("/")[2]: (entry.mode, tar.extractfile(entry).read()) for entry in entries}, entries[-1].mtime

def with_folders(files):
    """Returns the files of a tar archive by the names that dpkg expects, with each folder that they are in."""
    folders = {folder for path in files for folder in PurePosixPath(path).parents if folder.name}
    return {"./": (0o755, b""), **{f"./{path}/": (0o755, b"") for path in folders}, **{"./" + path: value for path, value in files.items()}}

def plain_parts(files, version, time):
    """Returns {name: bytes} of the package's two archives, as yet unpacked. The files go below /usr."""
    size = sum(len(text) for _, text in files.values()) // 1024 + 1
    about = {"control": (0o644, filled("debian/control", VERSION=version, KILOBYTES=str(size)).encode())}
    about.update({name: (0o755, (PACKAGE / "debian" / name).read_bytes()) for name in ("postinst", "prerm", "postrm")})
    data = {"etc/count-office/": (0o755, b""), **{"usr/" + path: value for path, value in files.items()}}
    return {"control.tar": tar_bytes(with_folders(about), time), "data.tar": tar_bytes(with_folders(data), time)}

def package(files, version, time):
    """Returns the package's bytes, of {path: (mode, bytes)} below /usr."""
    made, parts = b"!<arch>\n", plain_parts(files, version, time)
    for name, text in {"debian-binary": b"2.0\n", **{name + ".xz": xzed(plain) for name, plain in parts.items()}}.items():
        made += b"%-16s%-12d%-6d%-6d%-8s%-10d`\n" % (name.encode(), time, 0, 0, b"100644", len(text)) + text + b"\n" * (len(text) % 2)
    return made

# The pages in their order, by their paths below docs/.
PAGES = ["officer/README", "officer/evening", "officer/by-words", "officer/when-it-says-no", "officer/putting-right",
         "officer/disk-gone", "officer/tellers", "officer/agents", "officer/installing", "officer/network", "officer/rules", "officer/glossary",
         "formats/README", "formats/orders", "formats/files", "formats/sheets", "formats/ballots", "formats/records",
         "formats/results", "formats/publication", "formats/http", "formats/console-api", "formats/screen-api", "formats/tables", "formats/faults"]

def slug(text):
    """Returns the name of a heading in links, as the pages use it: lower case, hyphens for blanks, no other signs."""
    plain = html.unescape(re.sub(r"<[^>]+>", "", text))
    return re.sub(r"[^\w\- ]", "", plain.lower()).replace(" ", "-")

def own_name(page):
    return page.lower().replace("/", "-")

def with_names(name, page):
    """Returns the page with a name for each heading, and its headings: (level, name, text)."""
    used, headings = [], []

    def named(found):
        level, own = found[1], slug(found[2])
        used.append(own)
        own += f"-{used.count(own) - 1}" if used.count(own) > 1 else ""
        headings.append((level, own_name(name) if level == "1" else f"{own_name(name)}-{own}", found[2]))
        return '<h{0} id="{1}">{2}</h{0}>'.format(*headings[-1])

    return re.sub(r"<h([1-6])>(.*?)</h\1>", named, page, flags=re.S), headings

def with_links(name, page):
    """Returns the page with its links led to the other pages of the book; a link to anything else is left as its text."""
    def led(found):
        file, _, heading = html.unescape(found[1]).partition("#")
        to = posixpath.normpath(posixpath.join(posixpath.dirname(name), file)).removesuffix(".md") if file else name
        return f'<a href="#{own_name(to)}{"-" + heading if heading else ""}">{found[2]}</a>' if to in PAGES else found[2]

    return re.sub(r'<a href="([^"]*)">(.*?)</a>', led, page, flags=re.S)

def book(docs, version):
    """Returns the book's text, of the pages in a folder, as Debian's cmark-gfm reads them. Each of its links leads somewhere."""
    text, contents = "", ""
    for name in PAGES:
        read = subprocess.run(["cmark-gfm", "--extension", "table", f"{docs}/{name}.md"], check=True, stdout=subprocess.PIPE, text=True)
        # Pictures are files of their own, and the book is one file.
        page, headings = with_names(name, re.sub(r"<p><img [^>]*></p>\n", "", read.stdout))
        text += with_links(name, page)
        contents += "".join('<li class="l{}"><a href="#{}">{}</a></li>\n'.format(*found) for found in headings if found[0] in "12")
    text = filled("book.html", VERSION=version, CONTENTS=contents, PAGES=text)
    lost = set(re.findall(r' href="#([^"]+)"', text)) - set(re.findall(r' id="([^"]+)"', text))
    wrong_if(lost, f"links of the pages that lead nowhere: {', '.join(sorted(lost))}")
    return text

Item = namedtuple("Item", "name text")

class Order(namedtuple("Order", "name about example usage words options")):
    """An order of the program; all but its name is as its help has it, its words and options as items."""

    def takes_file(self):
        return any(re.search(r"\b(FILE|NEW)\b", item.name) for item in self.words + self.options)

    def long_options(self):
        return [option for option in self.options if option.name.startswith("--")]

def sections(text):
    """Returns {heading: its text} of a help; what stands before the first heading is under ''."""
    parts = re.split(r"^(Commands|Arguments|Options|Usage):", text, flags=re.M)
    return dict(zip(["", *parts[1::2]], (part.strip("\n") for part in parts[::2])))

def items(text):
    """Returns the words or options of a section: a name, two blanks or more, and a text that may continue below."""
    found = re.findall(r"^ {2,6}(\S.*?)(?:  +(\S.*(?:\n {8}.*)*))?$", text.partition("\n\n")[0], re.M)
    return [Item(name, " ".join(said_of.split())) for name, said_of in found]

def listed(program):
    """Returns the orders that the help of the whole program names: under its commands, and in its lists, these with their words."""
    commands, end = said(program, "--help").split("\nCommands:\n")[1].split("\nOptions:\n")
    lists = re.findall(r"^  ([a-z-]+)((?: [A-Z]+| \[[A-Z]+\])*)  +\S", end.split("\nAn example stands")[0], re.M)
    return re.findall(r"^  ([a-z-]+)  ", commands, re.M), [(name, words.strip()) for name, words in lists]

def orders_of(program):
    commands, lists = listed(program)
    for name in dict.fromkeys([*commands, *(name for name, _ in lists)]):
        parts = sections(said(program, "DB", name, "--help"))
        about, example = parts[""].rsplit("\n", 1)
        usage = parts["Usage"].removeprefix(" count-office DB ")
        yield Order(name, about.replace("\n", " ").rstrip(":"), example, usage, items(parts.get("Arguments", "")), items(parts["Options"]))

SIGNS = str.maketrans({"\\": "\\e", "-": "\\-", "'": "\\(aq", "`": "\\(ga", "^": "\\(ha", "~": "\\(ti"})

def escaped(text):
    """Returns a text as roff reads it: nothing in it is a command, and an empty line begins a paragraph."""
    return "\n".join("\\&" + line if line[:1] in (".", "'") else line or ".PP" for line in text.translate(SIGNS).split("\n"))

def told_items(found):
    return "".join(f".TP\n\\fB{escaped(item.name)}\\fR\n{escaped(item.text)}\n" for item in found)

def described(order):
    head = f".SS {escaped(order.name)}\n{escaped(order.about)}.\n.PP\n\\fBcount\\-office\\fR DB {escaped(order.usage)}\n"
    return head + told_items(order.words + order.long_options()) + f".PP\n.nf\n.RS 4\n{escaped(order.example)}\n.RE\n.fi"

def manual_pages(office, orders, check, script, **fields):
    """Returns {path: text} of the manual pages of the program, checks, counts and the script, with version and date."""
    told, found, lan = (sections(said(program, "--help")) for program in (office, check, script))
    counted = sections(said(check, "--count", "--help"))
    words, _, statuses = found["Arguments"].partition("\n\n")
    count_options, count_statuses = counted["Options"].split("\n\n")
    about, sample = lan[""].replace(":", ".").split("\n")
    options, does, lan_statuses = lan["Options"].split("\n\n")
    made = {
        "count-office": {"ABOUT": escaped(told[""].partition("\n\n")[2]), "LISTED": "\n".join(map(described, orders))},
        "count-office-check": {"ABOUT": escaped(found[""]), "LISTED": told_items(items(words)).rstrip(), "STATUSES": escaped(statuses)},
        "count-office-count": {"ABOUT": escaped(counted[""]), "STATUSES": escaped(count_statuses),
                               "LISTED": told_items(items(counted["Arguments"]) + items(count_options)).rstrip()},
        "count-office-lan": {"ABOUT": escaped(f"{about}\n{does}"), "LISTED": told_items(items(lan["Arguments"]) + items(options)).rstrip(),
                             "SAMPLE": escaped(sample), "STATUSES": escaped(lan_statuses)},
    }
    return {f"share/man/man1/{name}.1": filled(f"manual/{name}.1", **texts, **fields) for name, texts in made.items()}

PATHS = {"bash": "share/bash-completion/completions/{}", "zsh": "share/zsh/vendor-completions/_{}",
         "fish": "share/fish/vendor_completions.d/{}.fish"}
LAN = "count-office-lan"

def name_of(option):
    return option.name.split("--")[1].split()[0]

def names_of(options):
    return " ".join(f"--{name_of(option)}" for option in options)

def in_quotes(text):
    """Returns a text in the single quotes of zsh and fish."""
    return "'" + text.replace("\\", "\\\\").replace("'", "'\\''") + "'"

def bash(orders, counts):
    cases = (f'        {order.name}) options="{names_of(order.options)}" files={"yes" * order.takes_file()} ;;\n' for order in orders)
    return filled("completions/count-office.bash", CASES="".join(cases), ORDERS=" ".join(order.name for order in orders),
                  COUNT_OPTIONS=names_of(counts))

def zsh(orders, counts):
    names = "".join(f"        {in_quotes(order.name + ':' + order.about.replace(':', chr(92) + ':'))}\n" for order in orders)
    options = "".join(f"            ({order.name}) compadd -- {names_of(order.options)} ;;\n" for order in orders)
    with_files = "|".join(order.name for order in orders if order.takes_file())
    return filled("completions/count-office.zsh", ORDERS=names, OPTIONS=options, FILES=with_files, COUNT_OPTIONS=names_of(counts))

def fish_options(command, options):
    return "".join(f"complete -c {command} -l {name_of(option)} {'-x ' if '<' in option.name else ''}-d {in_quotes(option.text)}\n"
                   for option in options)

def fish(orders, counts):
    offered = "complete -c count-office -n '__count_office_words 2; and not __count_office_checks' -f -a"
    lines = "".join(f"{offered} {order.name} -d {in_quotes(order.about)}\n" for order in orders)
    for order in orders:
        given = f"count-office -n '__count_office_gives {order.name}'"
        lines += "" if order.takes_file() else f"complete -c {given} -f\n"
        lines += fish_options(given, order.options[-1:] + order.long_options())
    counting = fish_options("count-office -n __count_office_counts", counts)
    return filled("completions/count-office.fish", ORDERS=lines, COUNT_OPTIONS=counting)

def completions(orders, check, script):
    """Returns {path: text} of the completions of both. Of the script, the options alone are offered."""
    options, counts = (items(sections(said(*words, "--help"))["Options"]) for words in ([script], [check, "--count"]))
    own = {"bash": bash(orders, counts), "zsh": zsh(orders, counts), "fish": fish(orders, counts)}
    lan = {"bash": f"# What bash offers after `{LAN}`.\ncomplete -W '{names_of(options)}' {LAN}\n",
           "zsh": f"#compdef {LAN}\n# What zsh offers after `{LAN}`.\ncompadd -- {names_of(options)}\n",
           "fish": f"# What fish offers after `{LAN}`.\n" + fish_options(f"{LAN} -f", options)}
    return {path.format(name): texts[shell] for name, texts in (("count-office", own), (LAN, lan)) for shell, path in PATHS.items()}
