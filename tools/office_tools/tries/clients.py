"""Clients that mean harm, are slow, or guess codes, at `serve` and at nginx before it."""
import contextlib, functools, random, socket, ssl, subprocess, time
from collections import Counter
from concurrent.futures import ThreadPoolExecutor

from office_tools.election import CODES, evening_office, ward_orders
from office_tools.office import (
    HERE, ROOT, SECONDS, Office, Table, answer, ask, basic, crowd, ended, expect, free_port, is_free, listens, needs, open_many_files,
    received, request, side_by_side, status, temporary_folder, timed, waited, wrong_if)

# The work of this clerk is more than sockets take of an answer that nobody reads, if they are small.
READER, BATCHES, MANY, FEW = 5, 800, 1000, 30
READER_CODES = {**CODES, READER: "hh3m-7wpn-4kfr"}
# How long a crowd is there, and how long a good client may wait meanwhile for the whole of its answer, in seconds.
CROWDED, SLOWEST = 12, 3

def of(clerk, target="work", *headers, body="", code=""):
    return request(f"/clerks/{clerk}/{target}", f"Authorization: {basic(clerk, code or READER_CODES[clerk])}", *headers, body=body)

# The crowds: what they do, how many they are, what they send, and how.
CROWDS = [
    ("say nothing", MANY, b"", {}),
    ("half a request, and nothing more", MANY, of(9, "batches/99/keying", body='{"id":"h1","round":1,"papers":["1,2,","9"]}')[:-9], {}),
    ("ask, and go at once", MANY, of(9), {"goes": True}),
    ("ask for more than sockets take, and never read it", FEW, of(READER), {"reads": False}),
]

def try_hostile_clients(room):
    """Meets `serve` with a thousand clients at once that mean harm, are slow, or go away, and prints how long another one waits.

    One that is disconnected comes again. Meanwhile a good client, with clerk 4's code, gets the same response each time, within three
    seconds. The others ask under another clerk's number, with that clerk's code as far as they send it whole. At the end the office holds
    the rows that it held, and `serve` has printed nothing. All takes a minute."""
    open_many_files()
    office = Office(room).begin(ward_orders((12, 2, 4, 9), *((1000 + number, 2, READER, 9) for number in range(BATCHES))))
    office.write_codes(READER_CODES)
    rows, heads = office.rows(), ("at once", f"came in {CROWDED} seconds", "answers of another", "the slowest, seconds")
    with office.serve("--codes", "codes.txt") as serving:
        table, ask_well = Table("Clients who", *heads, "memory so far, MB"), functools.partial(serving.ask, of(4, ""), shut=True)
        wrong_if(status(good := ask_well()) != 200, f"the good client gets {good}")
        for what, count, sends, how in CROWDS:
            times, ends = [], time.monotonic() + CROWDED
            with crowd(serving.port, count, sends, **how) as came:
                while time.monotonic() < ends:
                    text, seconds = timed(ask_well)
                    times.append(seconds)
                    wrong_if(text != good or seconds > SLOWEST, f"beside clients who {what}: {text} after {seconds:.1f} seconds")
                    time.sleep(0.05)
            table.row(what, count, len(came), len(times), f"{max(times):.2f}", f"{serving.memory():.0f}")
        wrong_if(serving.kill() != (-9, "", "") or office.rows() != rows, "serve printed something, or the rows aren't as before")

BOTH, TAKEN = (HERE, "::1"), (3, "", "fault 107: socket or output\n")
ASKS, WORK = request("/clerks/4/work", "Host: localhost"), b'{"clerk":4,"work":[]}'
PATIENCE, FEW_FILES = 10, ["prlimit", "--nofile=64"]

def are_good(port, *hosts):
    """Returns whether a client gets its answer at each of these hosts soon."""
    with contextlib.suppress(OSError):
        answers = [timed(ask, port, ASKS, host, PATIENCE) for host in hosts]
        return all(text.startswith(b"HTTP/1.1 200 OK\r\n") and text.endswith(WORK) and took < PATIENCE for text, took in answers)
    return False

def holds(office):
    """Asks at both addresses and by name, and tries to take the port at each address, and at all of them."""
    with office.serve().wait() as serving:
        is_taken = any(is_free(serving.port, host) for host in (*BOTH, "", "::"))
        return not is_taken and are_good(serving.port, *BOTH, "localhost")

def taken(office):
    found = []
    for host, dual in (("::1", False), (HERE, False), ("::", False), ("", False), ("::", True)):
        port, family = free_port(), socket.AF_INET6 if ":" in host else socket.AF_INET
        with socket.create_server((host, port), family=family, dualstack_ipv6=dual):
            found.append(ended(office.serve(port=port).process))
    return found == [TAKEN] * 5

def crowded(office, count, **how):
    """Has a crowd of silent connections at each address, and clients at both."""
    with office.serve(**how).wait() as serving, crowd(serving.port, count, host=BOTH[0]), crowd(serving.port, count, host=BOTH[1]):
        time.sleep(0.5)
        return are_good(serving.port, *BOTH)

def without_ipv6(office, call, error):
    """Has a call for IPv6 fail: the third of its kind."""
    under = ["strace", "-D", "-o", office.folder / "trace", "-e", f"trace={call}", "-e", f"inject={call}:error={error}:when=3"]
    with office.serve(under=under).wait() as serving:
        is_refused = any("AF_INET6" in line and "(INJECTED)" in line for line in (office.folder / "trace").open())
        return is_refused and are_good(serving.port, HERE)

# What is tried, and a function of the office. The last two are of a machine that hasn't [::1], and of systemd's RestrictAddressFamilies.
CASES = {
    "127.0.0.1, [::1] and localhost answer, and nobody else takes the port meanwhile": holds,
    "another process has [::1], 127.0.0.1, or all addresses of IPv6, of IPv4 or of both": taken,
    "300 silent connections at each address, and clients at both": functools.partial(crowded, count=300),
    "64 descriptors, 50 silent connections at each address": functools.partial(crowded, count=50, under=FEW_FILES),
    "a machine without [::1]": functools.partial(without_ipv6, call="bind", error="EADDRNOTAVAIL"),
    "a program that is kept from IPv6": functools.partial(without_ipv6, call="socket", error="EAFNOSUPPORT"),
}

def try_both_addresses(room):
    """Tries that `serve` holds its port at both loopback addresses, or serves nobody.

    A request at 127.0.0.1, at `[::1]` and at `localhost` is answered, and no other process can bind the port meanwhile. If one has the port
    before, at one of the addresses or at all, `serve` ends with fault 107. With silent connections at each address, which come again when
    they are closed, a client at each is answered within ten seconds, also if `serve` may have 64 open files. If the machine has no `[::1]`,
    or the program is kept from IPv6, the office is served at 127.0.0.1; a machine without [::1] has the last one alone."""
    needs("strace")
    open_many_files()
    table = Table("What is tried", "Seconds")
    for number, (what, is_so) in list(enumerate(CASES.items()))[0 if is_free(0, "::1") else -1:]:
        found, seconds = timed(is_so, Office(room / str(number)).begin())
        wrong_if(not found, f"otherwise than it must be: {what}")
        table.row(what, f"{seconds:.1f}")

MOST, MINUTE, SENDERS, DENIED, BODY = 6000, 60, 4, 1000, 200_000
# The letters of codes, but for the x of wrong ones; the tellers, and a number that no line of the file has.
LETTERS, TELLERS, NOBODY = "abcdefghjkmnprstuwy2347", range(1, 41), 999

def shown(said):
    return ", ".join(f"{count} got {one}" for one, count in sorted(said.items()))

def check_limit(told, codes):
    """Checks that from 6,000 wrong codes within a minute on they are answered 429, and the right ones as ever."""
    def guessed(turn):
        return status(told(of(TELLERS[turn % len(TELLERS)], code="x" * 14)))

    began = time.monotonic()
    said = Counter(side_by_side(guessed, range(MOST), SENDERS))
    took = time.monotonic() - began
    is_wrong = said != {401: MOST} or took > MINUTE - 5
    wrong_if(is_wrong, f"of {MOST} wrong codes within {took:.0f} seconds {shown(said)}; a slow machine doesn't reach the limit")
    for clerk in (TELLERS[0], NOBODY):
        text, without = told(of(clerk, code="x" * 14)), told(request(f"/clerks/{clerk}/work"))
        is_right = status(text) == 429 and b"\r\nRetry-After: 60\r\n" in text and status(without) == 401
        wrong_if(not is_right, f"clerk {clerk}, after {MOST} wrong codes: {text[:200]}, and without a code {without[:200]}")
    good = Counter(status(told(of(clerk, code=codes[clerk]))) for clerk in TELLERS)
    expect(f"tellers, after {MOST} wrong codes", good, {200: len(TELLERS)})
    while guessed(0) == 429 and time.monotonic() < began + 2 * MINUTE:
        time.sleep(0.25)
    lasted = time.monotonic() - began
    print(f"{MOST} wrong codes came within {took:.0f} seconds. From then on one got 429, until {lasted:.0f} seconds after the first.\n")
    wrong_if(not MINUTE - 2 < lasted < MINUTE + 2, "the limit should have lasted for a minute from the first wrong code on")

def try_hostile_codes(seed=7):
    """Asks an office with codes for what is a clerk's, mostly without the code, and prints its answers.

    First 6,000 wrong codes come as fast as possible, under the numbers of all forty tellers in turn. The next one gets 429, also under a
    number that the file has no line for, and all tellers are let in. When the minute is over, a wrong code gets 401 again. At last a
    thousand requests without a code come, with bodies of 200,000 bytes, more than a socket holds: each is read whole, and gets 401."""
    chance, sends, said = random.Random(seed), request("/clerks/4/batches/14/keying", body="x" * BODY), Counter()
    codes = {clerk: "-".join("".join(chance.choices(LETTERS, k=4)) for _ in range(3)) for clerk in TELLERS} | CODES
    with temporary_folder() as folder, evening_office(folder, codes).serve("--codes", "codes.txt").wait() as serving:
        check_limit(functools.partial(serving.ask, shut=True), codes)
        for _ in range(DENIED):
            line = serving.connect()
            line.sendall(sends)
            said[status(received(line))] += 1
    print(f"\nOf {DENIED} requests without a code, with bodies of {BODY} bytes each: {shown(said)}.", flush=True)
    wrong_if(said != {401: DENIED}, "a denied request with a body doesn't get 401")

NAME, LAN, STRANGER, OUTSIDER = "count.example.org", "127.0.1.", "127.0.2.1", 200
CERTIFICATE = f"openssl req -x509 -newkey ed25519 -nodes -subj / -addext subjectAltName=DNS:{NAME} -keyout count.key -out count.pem"
ROOMS = "".join(f"{kind}_temp_path {kind};" for kind in ("client_body", "proxy", "fastcgi", "uwsgi", "scgi"))

@contextlib.contextmanager
def nginx(folder, port):
    """Runs nginx before an office, and gives a function that asks from an address with a code, and returns the status."""
    tls, page = free_port(), (ROOT / "docs/officer/network.md").read_text(encoding="utf-8")
    text = page.split("```nginx\n")[1].split("# send a browser")[0]
    for old, new in (("443", f"{HERE}:{tls}"), ("/etc/ssl/certs/", ""), ("/etc/ssl/private/", ""), ("192.0.2.", LAN), ("8080", str(port))):
        wrong_if(text.count(old) != 1, f"docs/officer/network.md has another configuration: {old} is in it {text.count(old)} times")
        text = text.replace(old, new)
    (folder / "nginx.conf").write_text(f"daemon off; pid pid; error_log errors; events {{}} http {{ {ROOMS} {text} }}", encoding="utf-8")
    subprocess.run(CERTIFICATE.split(), cwd=folder, check=True, capture_output=True)
    trusting = ssl.create_default_context(cafile=folder / "count.pem")

    def asked(address, clerk, code):
        line = trusting.wrap_socket(socket.create_connection((HERE, tls), SECONDS, (address, 0)), server_hostname=NAME)
        return status(answer(line, of(clerk, "work", f"Host: {NAME}", "Connection: close", code=code)))
    with subprocess.Popen(["nginx", "-p", folder, "-c", folder / "nginx.conf"]) as process:
        try:
            wrong_if(not waited(lambda: listens((HERE, tls)), 10), "nginx doesn't start")
            yield asked
        finally:
            process.terminate()

def try_behind_nginx(*, seconds=180):
    """Guesses codes through nginx, as docs/officer/network.md configures it, while forty tellers ask with theirs.

    Only ports, certificate and network are changed. Each teller has an address of their own, and asks twice a second. For three minutes (or
    --seconds N) an outsider at another address of the same network guesses ten codes a second, under all forty numbers in turn. At least 99
    of 100 requests of tellers get 200, and each wrong code 401, or 503 of nginx. Then the right code from another network gets 403."""
    needs("nginx", "openssl")
    codes = {clerk: f"kf7m-2wxt-h{clerk:02}n" for clerk in TELLERS}

    def answers(asked, machine, rate, *logins):
        """Asks with these logins in turn, so many times a second, and counts the answers."""
        said, began = Counter(), time.monotonic()
        while (passed := time.monotonic() - began) < seconds:
            time.sleep(max(0, said.total() / rate - passed))
            said[asked(f"{LAN}{machine}", *logins[said.total() % len(logins)])] += 1
        return said
    with temporary_folder() as folder, ThreadPoolExecutor(len(TELLERS) + 1) as pool:
        folder.chmod(0o755)  # The workers of nginx are another user's.
        serving = evening_office(folder / "office", codes).serve("--codes", "codes.txt", "--origin", f"https://{NAME}")
        with serving.wait(), nginx(folder, serving.port) as asked:
            guesses = pool.submit(answers, asked, OUTSIDER, 10, *((clerk, code[:-1] + "x") for clerk, code in codes.items()))
            good = sum(pool.map(lambda clerk: answers(asked, clerk, 2, (clerk, codes[clerk])), TELLERS), Counter())
            wrong = guesses.result()
            print(f"Within {seconds} seconds, of wrong codes under forty numbers {shown(wrong)}; of requests of tellers {shown(good)}.")
            is_right = {401} <= set(wrong) <= {401, 503} and wrong.total() >= 9 * seconds and good[200] >= 0.99 * good.total()
            wrong_if(not is_right, "tellers aren't let in while an outsider guesses codes; or wrong codes aren't denied, or too few")
            expect("the right code from a machine of another network", asked(STRANGER, 4, codes[4]), 403)
