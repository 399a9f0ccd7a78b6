"""The pages that the program serves: what they may run, and what their scripts do without a browser."""
import base64, hashlib, json, os, random, re, subprocess
from pathlib import Path

from office_tools.election import CODES, OFFICE_CODE, Ward, evening_office
from office_tools.office import ROOT, basic, needs, request, temporary_folder, wrong_if
from office_tools.recount import blt, counts

CONSTANT, FORMAT = re.compile(r'const (\w+): &str =\s+r#"(.*?)"#;', re.S), re.compile(r'format!\(in alloc;\s*"(.*?)"\s*\)', re.S)
HASHED = re.compile(r"let (\w+) = hash_source\(alloc, (\w+)\.as_bytes\(\)\)")
PAGES = KEYING, CONSOLE, SCREEN = "keying_page", "console_page", "screen_page"
PARTS, CLERK = ("script", "style"), 4
# The address at which a program serves each page, and to whom: the last one to anyone.
SERVED = {KEYING: (f"/clerks/{CLERK}/", CLERK, CODES[CLERK]), CONSOLE: ("/office/", "office", OFFICE_CODE), SCREEN: ("/screen", "", "")}
FORBIDDEN = {
    "a text from elsewhere": r"""(?i)\b(src|href)\s*=(?!\s*["']?data:,)|@import|\burl\(|https?://""",
    "markup made of a text": r"innerHTML|outerHTML|insertAdjacentHTML|document\.write|\beval\b|new Function|DOMParser",
    "a style or a handler in an attribute": r"""(?i)<[^>]*\s(style|on[a-z]+)\s*=|setAttribute\('(style|on)""",
}

def hash_source(text):
    return "'sha256-" + base64.b64encode(hashlib.sha256(text.encode()).digest()).decode() + "'"

def page_of_sources(crate=KEYING):
    """Returns the page that the code of a crate makes, byte for byte, and its policy."""
    source = "\n".join(path.read_text("utf-8") for path in sorted((ROOT / "crates" / crate / "src").rglob("*.rt")))
    texts = dict(CONSTANT.findall(source))

    def made_by(function, texts):
        form = FORMAT.search(source, source.index(f"fn {function}("))[1]
        return re.sub(r"\{(\w+)\}", lambda found: texts[found[1]], re.sub(r"\\\n\s*", "", form))

    parts = {"style": texts["STYLE"], "script": made_by("script_text", texts)}
    hashed = {name: hash_source(parts["style" if text == "STYLE" else "script"]) for name, text in HASHED.findall(source)}
    return made_by("page_around", {**texts, **parts}), made_by("policy_text", hashed)

def inner(page, name):
    """Returns the text of the one element of a page that has this name, or None if there isn't exactly one."""
    found = re.findall(rf"<{name}>(.*?)</{name}>", page, re.DOTALL)
    return found[0] if len(found) == len(re.findall(rf"(?i)<{name}\b", page)) == len(re.findall(rf"(?i)</{name}\b", page)) == 1 else None

def wrong_in(page, policy):
    if lacking := [name for name in PARTS if inner(page, name) is None]:
        return [f"the page has not one {name}" for name in lacking]
    wrong = [f"the policy has another {name}" for name in PARTS if f"{name}-src {hash_source(inner(page, name))};" not in policy]
    wrong += ["the page isn't ASCII"] * (not page.isascii())
    return wrong + [f"{what}: {found[0]!r}" for what, pattern in FORBIDDEN.items() for found in re.finditer(pattern, page)]

def wrong_served(crate, target, name, code):
    codes, headers = CODES | {"office": OFFICE_CODE}, [f"Authorization: {basic(name, code)}"] if name else []
    with temporary_folder() as folder, evening_office(folder, codes).serve("--codes", "codes.txt", "--public") as serving:
        head, _, served = serving.ask(request(target, *headers)).decode().partition("\r\n\r\n")
    found = served, re.search(r"(?i)^content-security-policy: (.*?)\r?$", head, re.M)[1]
    pairs = zip(("page", "policy"), found, page_of_sources(crate))
    return [f"the {part} that is served isn't that of the sources: {own[:300]!r}" for part, own, wanted in pairs if own != wanted]

def check_page():
    """Checks that the pages for clerks, for the returning officer and for the hall may run their own script and style, and nothing else.

    A page is ASCII, has one script and one style, loads nothing from elsewhere, makes no markup of a text, and has no style or handler in
    an attribute. Its policy has the SHA-256 of script and style. If COUNT_OFFICE names a program, the pages that it serves and the policies
    of their responses are compared with the sources, byte for byte."""
    wrong = [f"{crate}: {fault}" for crate in PAGES for fault in wrong_in(*page_of_sources(crate))]
    served = SERVED.items() if os.environ.get("COUNT_OFFICE") else ()
    return wrong or [f"{crate}: {fault}" for crate, where in served for fault in wrong_served(crate, *where)]

MODULES, PLAYS = Path("/usr/share/nodejs"), ROOT / "examples/pages"
# Wards for the screen: number, name, seats, names, papers with their preferences, and rejected papers.
HARBOUR, TIED = [(4, (1, 2)), (2, (1, 3)), (1, (2,)), (2, (3,))], [(6, (1,)), (4, (2,)), (2, (3, 1)), (1, (3,)), (1, (4, 3, 1)), (1, (5,))]
WARDS = [
    (7, "Harbour", 2, ["Ann", "Bob", "Cy"], HARBOUR, [0] * 5),
    (8, "Old Town", 1, ["Ann", "Bob", "Cy", "Dee", "Eve"], TIED, [0, 2, 0, 0, 1]),
    (9, "Quay", 3, ["Ina", "Jo"], [], None),
    (7, "Old Town <i>&", 2, ["Ann", "Bob & <b>Cy</b>", "<img src=x onerror=alert(1)>"], HARBOUR, [0] * 5),
]

def counted(ward, name, seats, names, *papers):
    """Returns what the screen may show of a ward, counted apart from the program, and of whom lots were drawn, by the stage."""
    lines = blt(seats, papers[0], names, papers[1] or [], name, ward, *papers[2:])[:None if papers[1] else -1]
    *waiting, count = counts(lines, min)
    head, *stages = re.split("(?m)^(?=Stage )", count.sheet().decode())
    sheets = [head + "".join(stages[:number]) for number in range(len(stages) + 1)]
    return {"ward": ward, "name": name, "names": names, "sheets": sheets, "declaration": count.declaration().decode(),
            "drawn": [each.waits for each in waiting]}

def made_up(chance):
    """Returns the same of a made-up ward that has a poll."""
    while not (ward := Ward(chance)).is_contested:
        pass
    names, (bundles, rejected) = [ward.names.get(number, "gone") for number in range(1, max(ward.names) + 1)], ward.judged()
    gone = [number for number, name in enumerate(names, 1) if number not in ward.names]
    return counted(ward.number, ward.name, ward.seats, names, bundles, rejected, gone)

def check_script(room, file: Path = None):
    """Runs the scripts of the pages without a browser, and checks what they show, send and store.

    A clerk is denied, lists batches, keys papers and sends them, and the office accepts the keying, refuses it, fails or doesn't answer.
    The screen in the hall shows wards of an office that changes, and that may be down. The officer at the console seals a ward, is warned
    of batches that have the same papers, puts orders right in a new office, publishes the results, and downloads forms; `tools/try
    console-evening` plays whole evenings there. Then faults are planted in the pages, and each must be noticed. FILE is a page for clerks as a program serves it."""
    needs("node")
    wrong_if(not (MODULES / "jsdom").exists(), "jsdom is missing; on Debian: apt-get install node-jsdom")
    chance, clerks = random.Random(11), file.read_text(encoding="utf-8") if file else page_of_sources()[0]
    counts = [*(counted(*ward) for ward in WARDS), *(made_up(chance) for _ in range(12))]
    pages = {"clerks": clerks, "console": page_of_sources(CONSOLE)[0], "screen": page_of_sources(SCREEN)[0]}
    (room / "counts").write_text(json.dumps(counts), encoding="utf-8")
    how = {"env": os.environ | {"NODE_PATH": str(MODULES)}, "text": True, "check": False}
    return max(subprocess.run(["node", PLAYS / f"{name}.js", room / "counts"], input=page, **how).returncode for name, page in pages.items())
