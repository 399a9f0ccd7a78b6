"""The package of a release: what shells offer of its words, and its script count-office-lan on a machine of its own."""
import contextlib, hashlib, itertools, os, re, shlex, shutil, ssl, subprocess
from pathlib import Path

from office_tools.election import CODES, evening_office
from office_tools.office import ROOT, needs, ran, temporary_folder, waited, wrong_if

OFFICE, CLIENT = MACHINES = [f"{name}-{os.getpid()}" for name in ("office", "client")]
HERE, TELLER, STRANGER = "192.168.7.1", "192.168.7.20", "192.168.8.20"
LAN, WORK, BATCH, ALLOWED, OTHER = "count-office-lan", "/clerks/4/work", "/clerks/4/batches/14", "192.168.7.0/24", "192.168.8.0/24"

def see(what, done, status, *texts):
    """Prints what was seen, if a command ended with a status and printed these texts; returns all that it printed."""
    printed = done.out + done.err
    wrong_if(done.status != status or any(text not in printed for text in texts), f"{what}: {done.status}, {printed}")
    print(f"seen: {what}", flush=True)
    return printed

@contextlib.contextmanager
def network():
    """Makes the machines, and a line between them with both networks; at the end it ends what runs there, and removes them."""
    lines = [*(f"netns add {machine}" for machine in MACHINES), f"-n {OFFICE} link add line type veth peer name line netns {CLIENT}"]
    for machine, addresses in ((OFFICE, (HERE, "192.168.8.1")), (CLIENT, (TELLER, STRANGER))):
        lines += [f"-n {machine} address add {address}/24 dev line" for address in addresses]
        lines += [f"-n {machine} link set {link} up" for link in ("lo", "line")]
    try:
        for line in lines:
            subprocess.run(["ip", *line.split()], check=True)
        yield
    finally:
        for machine in MACHINES:
            ran("kill", "-KILL", *ran("ip", "netns", "pids", machine).out.split())
            ran("ip", "netns", "delete", machine)

class Debian:
    def __init__(self, folder):
        self.root = folder / "root"
        made = ran("mmdebstrap", "--quiet", "--variant=apt", "--include=nginx,openssl,curl", "bookworm", self.root)
        see("a clean root of Debian with nginx", made, 0)
        shutil.copy(next((ROOT / "release").glob("*.deb")), self.root / "package.deb")
        see("the package is installed", self.run("env", "PATH=/usr/sbin:/usr/bin:/sbin:/bin", "dpkg", "-i", "/package.deb"), 0)
        shutil.copy(ROOT / "release/package" / LAN, self.root / "usr/bin")

    def words(self, *words):
        # The PATH is that of a shell of `su`.
        return ["ip", "netns", "exec", OFFICE, "chroot", self.root, "/usr/bin/env", "-i", "PATH=/usr/bin:/bin", "LC_ALL=C.UTF-8", *words]

    def run(self, *words):
        return ran(*self.words(*words))

    def files(self):
        paths = (path for top in ("etc", "root", "tmp", "usr") for path in (self.root / top).rglob("*"))
        return {path: path.is_file() and path.read_bytes() for path in paths}

    def compare(self, before):
        found = {path for path, _ in set(self.files().items()) ^ set(before.items())}
        wrong_if(found, f"these aren't as they were before: {found}")

    def trusting(self, printed):
        """Returns the words by which curl trusts the certificate of a report, and nothing else, and sends clerk 4's code."""
        path = self.root / re.search(r"^    /(\S+\.pem)$", printed, re.M)[1]
        digest = hashlib.sha256(ssl.PEM_cert_to_DER_cert(path.read_text(encoding="ascii"))).digest().hex(":").upper()
        rights = {file.suffix: file.stat().st_mode & 0o777 for file in path.parent.iterdir()}
        wrong_if(f"\n    {digest}\n" not in printed or rights != {".key": 0o600, ".pem": 0o644},
                 f"it is another certificate, {digest}, or its folder has other files: {rights}; printed was {printed}")
        return "--cacert", str(path), "-u", f"4:{CODES[4]}"

def curl(source, *words, at=f"https://{HERE}"):
    how = ["curl", "-s", "--max-time", "20", "--path-as-is", "--interface", source, "-w", " %{http_code}"]
    return ran("ip", "netns", "exec", CLIENT, *how, *words[:-1], at + words[-1])

def key(secret):
    page = ("-H", f"Origin: https://{HERE}", "-H", "Sec-Fetch-Site: same-origin", "-d", '{"id":"k1","round":1,"papers":["1,2,,,"]}')
    see("a teller keys a batch", curl(TELLER, *secret, *page, f"{BATCH}/keying"), 0, "batch 14 round 1 keyed", " 200")
    see("not without a code", curl(TELLER, *secret[:2], WORK), 0, "unauthorized", " 401")
    see("a stranger's machine is denied, with the code", curl(STRANGER, *secret, WORK), 0, "nginx", " 403")
    for target in ("/office/", "/office/../clerks/4/work", "/wards/7/sheet", "/"):
        see(f"{target} isn't handed on", curl(TELLER, *secret, target), 0, "nginx", " 404")
    see("without TLS nginx names the address with TLS", curl(TELLER, "-i", WORK, at=f"http://{HERE}"), 0, f"https://{HERE}{WORK}", " 301")

def change(debian, secret):
    """Calls the script again, once so that it has to fail."""
    other, before = debian.root / "etc/nginx/conf.d/other.conf", debian.files()
    see("called again without words, it changes nothing", debian.run(LAN), 0, "nothing was changed", HERE)
    other.write_text("nonsense;\n", encoding="ascii")
    see("nginx refuses the configuration", debian.run(LAN, "--network", OTHER), 1, "nonsense", "as it was before")
    other.unlink()
    debian.compare(before)
    see("the teller is answered as before", curl(TELLER, *secret, WORK), 0, '"batch":14,"columns":[1,2,3,4,5],"keyed":true', " 200")
    see("another network is let in", debian.run(LAN, "--network", ALLOWED, "--network", OTHER), 0, f"{ALLOWED} and {OTHER}. ")
    see("its machines are answered", curl(STRANGER, *secret, WORK), 0, " 200")

def try_lan():
    """Sets nginx up by count-office-lan in a clean Debian root, and keys through it from another machine.

    The machines are network namespaces: the office's, with the package of release/ and these sources' script in that root; a client's, with
    a teller's address, and one of a network that isn't let in. Needs root, mmdebstrap, iproute2 and curl, and a mirror of Debian."""
    needs("mmdebstrap", "ip", "curl", "chroot")
    with temporary_folder() as folder, network():
        debian = Debian(folder)
        before = debian.files()
        printed = see("nginx is set up, and isn't running", debian.run(LAN, HERE, "--network", ALLOWED), 0, "nginx is not running")
        see("it starts by the words that are printed", debian.run(*re.search("type: (.*)", printed)[1].split()), 0)
        evening_office(debian.root / "elections")
        serve = f"cd /elections && exec count-office town.db serve 8080 --codes codes.txt {re.search('--origin .*', printed)[0]}"
        subprocess.Popen(debian.words("sh", "-c", serve))
        waited(lambda: "unauthorized" in debian.run("curl", "-s", f"http://127.0.0.1:8080{WORK}").out)
        secret = debian.trusting(printed)
        key(secret)
        change(debian, secret)
        see("everything is removed", debian.run(LAN, "--remove"), 0, "removed")
        debian.compare(before)
        see("nothing is left, and nothing answers with TLS", curl(TELLER, "-k", WORK), 7)

# What is typed, the word that the tab key makes of its last one, and what that is. None: nothing is offered, so it stays.
CASES = [
    ("count-office tow", "town.db", "an office's file"),
    ("count-office --ver", "--version", "an option of the program"),
    ("count-office town.db decl", "declare", "an order"),
    ("count-office town.db import-keying 4 12 1 cle", "clerk4.csv", "an order's file"),
    ("count-office town.db import-keying 4 12 1 clerk4.csv --i", "--id", "an order's option"),
    ("count-office town.db serve 8080 9 --ori", "--origin", "an option of one order"),
    ("count-office town.db declare cle", None, "no file for an order without one"),
    ("count-office town.db declare --ori", None, "no option of another order"),
    ("count-office - che", "check", "the checker"),
    ("count-office - cou", "count", "the count of ballots"),
    ("count-office - decl", None, "no order in place of the checker"),
    ("count-office - check bal", "ballots.txt", "the checker's file"),
    ("count-office - count bal", "ballots.txt", "the file to count"),
    ("count-office - count ballots.txt --decl", "--declaration", "an option of the count"),
    ("count-office-lan --net", "--network", "an option of the script for local networks"),
]
STARTS = {"bash": "source /usr/share/bash-completion/bash_completion", "zsh": "autoload -U compinit; compinit -u -D"}
PRINTING = "".join(f'{name}() {{ echo "told: {name} $*"; }}\n' for name in ("count-office", "count-office-lan"))

def completed(shell, root, folder):
    """Yields the line that each case becomes."""
    home = f"/{folder.relative_to(root)}"
    clean = ["PATH=/usr/sbin:/usr/bin:/sbin:/bin", "LC_ALL=C.UTF-8", "TERM=dumb", f"HOME={home}"]
    inside = ["chroot", str(root), "/usr/bin/env", "-i", "-C", home, *clean, shell]
    if shell == "fish":
        for typed, _, _ in CASES:
            words = [line.split("\t")[0] for line in ran(*inside, "-c", 'complete -C "$argv"', typed).out.splitlines()]
            yield f"{typed.rpartition(' ')[0]} {' or '.join(words)}" if words else typed
        return
    (folder / f".{shell}rc").write_text(f"{STARTS[shell]}\n{PRINTING}", encoding="ascii")
    terminal = ["script", "-qec", shlex.join([*inside, "-i"]), "/dev/null"]
    typed = "".join(f"{typed}\t\n" for typed, _, _ in CASES) + "exit\n"
    yield from re.findall("^told: (.*)$", ran(*terminal, input=typed).out, re.M)

def try_completions(root=Path("/")):
    """Tries what bash, zsh and fish offer after `count-office`, in a root folder where the package and the three shells are installed.

    bash and zsh are asked at a terminal, as by a person: a line is typed, and the tab and return keys pressed; a function in the program's
    place prints the words that it gets. fish is asked by its own `complete -C`. Needs root, and Debian's bsdutils for `script`."""
    needs("script")
    with temporary_folder(dir=root / "tmp", prefix="completed here ") as folder:
        for name in ("town.db", "clerk4.csv", "ballots.txt"):
            (folder / name).touch()
        for shell in ("fish", *STARTS):
            for (typed, word, what), found in itertools.zip_longest(CASES, completed(shell, root, folder)):
                wanted = f"{typed.rpartition(' ')[0]} {word}" if word else typed
                wrong_if(found != wanted, f"{shell} doesn't offer {what}: {typed}, told {found!r}")
                print(f"seen: {shell} offers {what}: {typed}", flush=True)
