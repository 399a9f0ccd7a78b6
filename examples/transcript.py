"""Reads a transcript of examples/transcripts/, for play_transcripts.py.

A transcript has plays, each over a new file, in a folder of its own:

    == play NAME[, from OTHER]     it continues with the office as the play OTHER of this file left it
    == part NAME                   what is asked and printed in several plays: `== may change, part NAME`
    == changes nothing             of what follows: no row of any table is another then
    == may change
    == damage: WORDS               each change that follows is made alone, in a copy, and the words then print what stands
                                   below; after a status that isn't 0 all rows are as they were
    == copied                      of the two orders that follow, both copies to copy.db: the same rows are in both, and it continues
                                   with that file
    == older office                the file of an office that an earlier program made

    $ import-keying 4 12 1 FILE --id k1    words after DB, each parted from the next by one space; `$$ ..` as a shell parts them
    < paper,1,2,3                          a line of the file that the words name (after `<<` without the line's end, `~` for a byte
    < 1,1,2,                               that is no UTF-8; after `<\\ ` without it too, with \\r, \\t, \\n and \\xff; after
                                           `<* 100 ` so many times)
    batch 12 round 1 keyed                 what goes to the output
    = names.csv                            lines of a file that stays there for the play; with one codes.txt, these are the codes
                                           of those who ask over HTTP
    $ declare 7 --id d1
    1| refused 9: wrong phase              with a status that isn't 0, what goes to the error output (`0| ..` to the output)
    !| note: b1 was kept ..                what goes to the error output where the status is 0
    2~ error: .. 'now'                     that it begins so, and what stands in it
    # UPDATE ward SET phase = 2            statements, by the stock SQLite
    @ 4                                    the work of a clerk, asked for over HTTP; below it a line a batch
    % "3 2\\n" "3 0\\n"                    the checker, on the files `ballots` and `text`, where the first words in the ballots are
                                           replaced by the second; `%% ..` in the text, `%` alone nowhere
    > GET /clerks/1000/work HTTP/1.1       what a client sends, parted by line ends of HTTP, and the status and body of the answer
    >
    >
    409 Conflict
    {"refusal":3,"text":"number out of range"}
                                           (after `405 Method Not Allowed` the methods, in parentheses; after `401 Unauthorized` the realm)
    -- a note

After a status that isn't 0 there is no file that wasn't there before.
"""
import re
import shlex


class Asked:
    """What a line of a transcript asks, and what the program must print of it."""

    def __init__(self, number, kind, line):
        self.number, self.kind, self.line = number, kind, line
        self.file, self.status, self.out, self.err, self.within = None, 0, "", "", None
        self.is_told = False

    def add(self, piece):
        self.file = (self.file or b"") + piece

    def take(self, line):
        """Takes one more of the lines below it."""
        if line.startswith("<\\ "):
            self.add(line[3:].encode("ascii").decode("unicode_escape").encode("latin-1"))
        elif found := re.match(r"<\* (\d+) (.*)$", line):
            self.add(bytes_of(found[2]) * int(found[1]))
        elif line.startswith("<<"):
            self.add(bytes_of(line[2:].lstrip()))
        elif line == "<" or line.startswith("< "):
            self.add(bytes_of(line[2:] + "\n"))
        elif found := re.match(r"(\d+)~ (.*) \.\. (.*)$", line):
            self.status, self.within = int(found[1]), found.groups()[1:]
        elif found := re.match(r"(\d+)\| ?(.*)$", line):
            self.tell(int(found[1]), found[2])
        elif line.startswith("!| "):
            self.is_told, self.err = True, self.err + line[3:] + "\n"
        else:
            self.tell(0, line)

    def tell(self, status, line):
        self.is_told = True
        if status:
            self.status, self.err = status, self.err + line + "\n"
        else:
            self.out += line + "\n"

    def words(self):
        return shlex.split(self.line) if self.kind == "$$" else self.line.split(" ")


def bytes_of(text):
    return text.encode().replace(b"~", b"\xff")


class Play:
    """A play of a transcript: its acts, each what is asked under one line `== ..`."""

    def __init__(self, name, begins_with):
        self.name, self.begins_with, self.acts = name, begins_with, [("may change", [])]


BEGINNINGS = ("$$", "$", "#", "@", "=", "%%", "%")


def read_line(asked, number, line):
    """Reads a line below a line `== ..`."""
    for beginning in BEGINNINGS:
        if line == beginning or line.startswith(beginning + " "):
            asked.append(Asked(number, beginning, line[len(beginning) + 1:]))
            return
    if line.startswith(">"):
        line = line[1:].removeprefix(" ")
        if asked and asked[-1].kind == ">" and not asked[-1].is_told:
            asked[-1].add(b"\r\n" + bytes_of(line))
        else:
            asked.append(Asked(number, ">", line))
            asked[-1].add(bytes_of(line))
    else:
        asked[-1].take(line)


def read(path):
    """The plays of a transcript."""
    plays, parts, acts = [], {}, None
    for number, line in enumerate(path.read_text(encoding="utf-8").split("\n")[:-1], 1):
        if found := re.match(r"== play (.*?)(?:, from (.*))?$", line):
            plays.append(Play(found[1], found[2]))
            acts = plays[-1].acts
        elif found := re.match(r"== part (.*)$", line):
            acts = [("part", parts.setdefault(found[1], []))]
        elif found := re.match(r"== (.*), part (.*)$", line):
            acts.append((found[1], parts[found[2]]))
        elif line.startswith("== "):
            acts.append((line[3:], []))
        elif line and not line.startswith("-- "):
            read_line(acts[-1][1], number, line)
    return plays
