#!/usr/bin/env python3
"""Plays the transcripts in examples/transcripts/: asks the program what each transcript asks, and compares what it prints.

usage: examples/play_transcripts.py [NAME..]        the transcripts of these names, or all; prints a line for each
       COUNT_OFFICE names the program, and CHECK_COUNT the checker, or they are those of `./count-office`

transcript.py says what a transcript is. If a play left an office that orders made, its journal is then sent to a new file: it makes
the same rows there. Ends with status 1 where the program prints anything else.
"""
import contextlib
import json
import os
import pathlib
import re
import shutil
import socket
import sqlite3
import subprocess
import sys
import tempfile
import time
from concurrent.futures import ThreadPoolExecutor

HERE = pathlib.Path(__file__).resolve().parent
TOWN, COPY, FILE, CODES = "town.db", "copy.db", "FILE", "codes.txt"
SECONDS = 60

sys.path.insert(0, str(HERE.parent / "tools"))
from office_tools.tries.files import try_older_office  # noqa: E402
from transcript import read  # noqa: E402


class Wrong(Exception):
    """The program printed something else than the transcript has, or the transcript can't be read."""


def program(named):
    """The program that a variable names, or the one of this clone."""
    path = os.environ.get(named)
    if path:
        return os.path.realpath(path)
    subprocess.run([HERE.parent / "count-office", "--help"], stdout=subprocess.DEVNULL, check=True)
    return str(HERE.parent / "out" / named.lower().replace("_", "-"))


PROGRAM, CHECKER = program("COUNT_OFFICE"), program("CHECK_COUNT")


def copied(folder, other):
    """A copy of the office of one folder in another, and nothing else."""
    other.mkdir()
    for name in (TOWN, TOWN + "-wal"):
        if (folder / name).exists():
            shutil.copyfile(folder / name, other / name)
    return other


def rows(folder, name=TOWN):
    """Every row of every table, as the stock SQLite reads a copy of the files."""
    if not (folder / name).exists():
        return None
    with tempfile.TemporaryDirectory() as copy:
        for ending in ("", "-wal"):
            if (folder / (name + ending)).exists():
                shutil.copyfile(folder / (name + ending), os.path.join(copy, TOWN + ending))
        with contextlib.closing(sqlite3.connect(os.path.join(copy, TOWN))) as base:
            tables = [table for (table,) in base.execute("SELECT name FROM sqlite_schema WHERE type = 'table' ORDER BY name")]
            return {table: sorted(base.execute(f"SELECT * FROM {table}").fetchall()) for table in tables}


def change(folder, statements):
    with contextlib.closing(sqlite3.connect(folder / TOWN)) as base:
        base.execute("PRAGMA journal_mode = wal")
        base.executescript(f"BEGIN; {statements}; COMMIT;")


def files(folder):
    """The files that an order may not leave if it fails; a log next to a file that exists is no such one."""
    names = {path.name for path in folder.iterdir()}
    return {name for name in names if name.removesuffix("-wal") not in names or not name.endswith("-wal")}


def give(folder, words):
    """Gives an order: its status, and what it printed."""
    before = files(folder)
    done = subprocess.run([PROGRAM, TOWN, *words], cwd=folder, stdin=subprocess.DEVNULL, capture_output=True, timeout=SECONDS)
    if done.returncode and files(folder) != before:
        raise Wrong(f"behind status {done.returncode} there are other files: {sorted(files(folder) ^ before)}")
    return done.returncode, done.stdout.decode(), done.stderr.decode()


def check(folder, asked):
    """Asks the checker of ballots and a text, of which one has some words replaced by others."""
    for name in ("ballots", "text"):
        shutil.copyfile(folder / name, folder / f"checked {name}")
    if asked.line:
        changed = folder / ("checked ballots" if asked.kind == "%" else "checked text")
        words = [json.loads(word) for word in re.findall(r'"(?:[^"\\]|\\.)*"', asked.line)]
        old, new = (word.encode() for word in words)
        if old not in changed.read_bytes():
            raise Wrong("there is nothing to replace")
        changed.write_bytes(changed.read_bytes().replace(old, new, 1))
    done = subprocess.run([CHECKER, "checked ballots", "checked text"], cwd=folder, stdin=subprocess.DEVNULL, capture_output=True,
                          timeout=SECONDS)
    return done.returncode, done.stdout.decode(), done.stderr.decode()


def connected(server, port):
    """A line to a program that serves; nothing where it ended before."""
    while server.poll() is None:
        try:
            return socket.create_connection(("127.0.0.1", port), timeout=SECONDS)
        except ConnectionRefusedError:
            time.sleep(0.002)
    return None


def received(line, sends):
    """What is sent back until the line ends."""
    text = b""
    with line:
        line.sendall(sends)
        line.shutdown(socket.SHUT_WR)
        while piece := line.recv(65536):
            text += piece
    return text


def ask(folder, sends):
    """Serves one client, which sends these bytes, and returns the response. If there is a file of codes, the office has these codes."""
    codes = ["--codes", CODES] if (folder / CODES).exists() else []
    for _ in range(10):
        with socket.socket() as listener:
            listener.bind(("127.0.0.1", 0))
            port = listener.getsockname()[1]
        server = subprocess.Popen([PROGRAM, TOWN, "serve", str(port), "1", *codes], cwd=folder, stdin=subprocess.DEVNULL,
                                  stdout=subprocess.PIPE, stderr=subprocess.PIPE)
        line = connected(server, port)
        answer = received(line, sends) if line else None
        out, err = server.communicate(timeout=SECONDS)
        told = (server.returncode, out, err)
        if answer is not None and told == (0, b"", b""):
            return answer.decode()
        # somebody else may have taken the port meanwhile
        if told != (3, b"", b"fault 107: socket or output\n"):
            raise Wrong(f"the office that serves: {told}")
    raise Wrong("no port is free")


def answer_of(told):
    """The answer of which the status and the body stand in a transcript."""
    phrase, body = told.split("\n", 1)
    phrase, named = re.match(r"(.*?)(?: \((.*)\))?$", phrase).groups()
    kind = "text/plain; charset=utf-8"
    if body.endswith("}\n"):
        kind, body = "application/json", body.rstrip()
    line = ""
    if named:
        line = f'WWW-Authenticate: Basic realm="{named}", charset="UTF-8"\r\n' if phrase.startswith("401 ") else f"Allow: {named}\r\n"
    return f"HTTP/1.1 {phrase}\r\nContent-Type: {kind}\r\nContent-Length: {len(body.encode())}\r\n{line}Connection: close\r\n\r\n{body}"


def work_of(folder, clerk):
    """The work of a clerk: a line a batch."""
    told = json.loads(ask(folder, f"GET /clerks/{clerk}/work HTTP/1.1\r\n\r\n".encode()).split("\r\n\r\n", 1)[1])
    if "refusal" in told:
        return f"refused {told['refusal']}: {told['text']}\n"
    if told.get("clerk") != int(clerk):
        raise Wrong(f"prints {told}")
    return "".join(
        f"batch {one['batch']} ward {one['ward']} {one['columns']} size {one['size']} round {one['round']}: "
        f"{'keyed' if one['keyed'] else 'to key'}\n" for one in told["work"])


def compare(asked, told):
    """Compares a status, the output and the error output with what a transcript has."""
    status, out, err = told
    if asked.within is not None:
        text, other = (err, out) if asked.status else (out, err)
        begins, within = asked.within
        if status != asked.status or not text.startswith(begins) or within not in text or other:
            raise Wrong(f"prints {told}")
    elif told != (asked.status, asked.out, asked.err):
        raise Wrong(f"prints {told}, and not {(asked.status, asked.out, asked.err)}")


def play_one(folder, asked):
    if asked.kind == "=":
        (folder / asked.line).write_bytes(asked.file or b"")
        (folder / asked.line).chmod(0o600)
    elif asked.kind == "#":
        change(folder, asked.line)
    elif asked.kind == "@":
        compare(asked, (0, work_of(folder, asked.line), ""))
    elif asked.kind in ("%", "%%"):
        compare(asked, check(folder, asked))
    elif asked.kind == ">":
        told, wanted = ask(folder, asked.file), answer_of(asked.out)
        if told != wanted:
            raise Wrong(f"is answered {told!r}, and not {wanted!r}")
    else:
        (folder / FILE).unlink(missing_ok=True)
        if asked.file is not None:
            (folder / FILE).write_bytes(asked.file)
            (folder / FILE).chmod(0o600)
        compare(asked, give(folder, asked.words()))


def play_all(folder, all_asked):
    for asked in all_asked:
        with blamed(asked):
            play_one(folder, asked)


@contextlib.contextmanager
def blamed(asked):
    """Says of which line it is what is wrong."""
    try:
        yield
    except (Wrong, sqlite3.Error, OSError, ValueError, subprocess.SubprocessError) as error:
        raise Wrong(f"line {asked.number}: {asked.kind} {asked.line}\n    {type(error).__name__}: {error}") from error


def must_be(before, after, asked, what="the rows"):
    if before != after:
        with blamed(asked):
            raise Wrong(f"{what} are others")


def play_act(folder, act, all_asked):
    """Plays what is asked under a line `== ..`."""
    before = rows(folder)
    if act == "may change":
        play_all(folder, all_asked)
    elif act == "changes nothing":
        play_all(folder, all_asked)
        must_be(before, rows(folder), all_asked[-1])
    elif act == "copied":
        play_all(folder, all_asked)
        must_be(before, rows(folder), all_asked[-1])
        must_be(before, rows(folder, COPY), all_asked[-1], "the rows of the copy")
        for path in (folder / TOWN, folder / (TOWN + "-wal"), folder / (COPY + "-wal")):
            path.unlink(missing_ok=True)
        (folder / COPY).rename(folder / TOWN)
    elif act.startswith("damage: "):
        for asked in all_asked:
            with blamed(asked):
                damage(folder, asked, act.removeprefix("damage: ").split(" "))
    elif act == "older office" and not all_asked:
        try_older_office(folder / TOWN)
    else:
        raise Wrong(f"no act: {act}")


def damage(folder, asked, words):
    """Makes a change in a copy, and gives an order there; where it fails, it leaves each row."""
    other = folder / "damaged"
    try:
        copied(folder, other)
        change(other, asked.line)
        before = rows(other)
        told = give(other, words)
        compare(asked, told)
        if told[0]:
            must_be(before, rows(other), asked)
    finally:
        shutil.rmtree(other)


def is_made_by_orders(one):
    """Whether orders alone make the office of a play: it isn't an older one, and no statement changes it. (Damage is done in copies.)"""
    acts = [(act, asked) for act, asked in one.acts if not act.startswith("damage: ")]
    return not any(act == "older office" or any(line.kind == "#" for line in asked) for act, asked in acts)


def journalled(folder):
    """Sees that the journal of an office makes the same rows in a new file."""
    if not (folder / TOWN).exists() or give(folder, ["wards"])[0]:
        return
    status, text, err = give(folder, ["journal"])
    if status or err:
        raise Wrong(f"its journal: {status} {err}")
    other = folder / "journalled"
    other.mkdir()
    give(other, ["init"])
    (other / FILE).write_bytes(text.encode())
    status, _, err = give(other, ["replay", FILE])
    if status or err or rows(other) != rows(folder):
        raise Wrong(f"its journal makes another office: {status} {err}")
    shutil.rmtree(other)


def play(root, one, made_otherwise):
    """Plays a play in its folder: what is wrong in it, if anything is. Some were made otherwise than by orders, and it may continue with those."""
    folder = root / one.name
    try:
        if one.begins_with:
            copied(root / one.begins_with, folder)
        else:
            folder.mkdir()
        for act, asked in one.acts:
            play_act(folder, act, asked)
        if is_made_by_orders(one) and one.begins_with not in made_otherwise:
            journalled(folder)
        else:
            made_otherwise.add(one.name)
    except (Wrong, OSError) as error:
        return f"{one.name}, {error}"
    return None


def play_transcript(path):
    """Plays a transcript: how much was asked, and what is wrong in it."""
    plays, made_otherwise = read(path), set()
    with tempfile.TemporaryDirectory() as root:
        wrong = [found for one in plays if (found := play(pathlib.Path(root), one, made_otherwise))]
    return path.stem, len(plays), sum(len(asked) for one in plays for _, asked in one.acts), wrong


def main():
    named = sys.argv[1:]
    paths = [path for path in sorted((HERE / "transcripts").glob("*.txt")) if not named or path.stem in named]
    is_right = True
    with ThreadPoolExecutor(max_workers=4) as pool:
        for name, plays, count, wrong in pool.map(play_transcript, paths):
            print(f"{name}: {plays} plays, {count} asked, {len(wrong)} not told what they should")
            for found in wrong:
                is_right = False
                print(f"{name}.txt: {found}", file=sys.stderr)
    sys.exit(0 if is_right else 1)


if __name__ == "__main__":
    main()
