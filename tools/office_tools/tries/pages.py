"""The office's pages in Chromium: the console, the page for clerks, the screen in the hall; pages from elsewhere; and a picture."""
import json, random, re, time
from pathlib import Path

from office_tools.election import CODES, HOSTILE, TITLE, keyed, marks_of, ward_orders
from office_tools.office import HERE, ROOT, TOWN, Office, Proxy, Table, Wrong, temporary_folder, waited, wrong_if
from office_tools.players import SECTIONS, Browser, Officer, Player, Screen, Teller, keys_of, played

NAMES = ["ward,candidate,name", "7,2,Bob", "7,3,Cy", "7,4,Dee", "7,5,Gil", '8,1,"Eve, jr"', "8,2,Fay"]
HEAD = {batch: {clerk: f"paper {batch}/{clerk},1,2,3,4" for clerk in (4, 5, 9)} for batch in (12, 13)}
TWELVE = ["1,1,2,,", "2,1,2,,", "3,1,2,,", "4,1,,2,", "5,1,,,2", "6,D,,,", "7,1,,,", "8,,,,"]
THIRTEEN = ["1,,1,,", "2,,1,,", "3,,1,,", "4,,,1,", "5,,,2,1", "6,D,,,"]
OTHER = [*THIRTEEN[:4], "5,,,1,2", THIRTEEN[5]]
# The guide's orders as they are typed: the console has to make the same office.
TYPED = """ward 7 2 Harbour; ward 8 2 Quay; candidate 7 1 Ann; candidate 7 2 Bob; candidate 7 3 Cy; candidate 7 4 Dee; candidate 7 5 Gil;
candidate 8 1 'Eve, jr'; candidate 8 2 Fay; withdraw 7 5; close 7; close 8; batch 12 7 8 4 9; batch 13 7 6 4 9; key 4 12 1 TWELVE;
key 4 13 1 THIRTEEN; key 9 13 1 OTHER; key 9 12 1 TWELVE; again 13; key 4 13 2 THIRTEEN; key 9 13 2 OTHER; third 13 5;
key 5 13 2 THIRTEEN; judge 12 6 accept:1,,,; judge 13 6 reject:4; seal 7; advance 7; advance 7; lot 7 3 4; advance 7; advance 7;
declare 7; declare 8""".replace("\n", " ").split("; ")

def quiet(officer):
    asked = officer.go("overview").evening.line.asked
    time.sleep(4)
    del asked[:]
    time.sleep(8)
    wrong_if(set(asked) != {"GET /office/wards HTTP/1.1"}, f"while nothing changed the console asked {asked}")

def compare(found, wanted):
    """Compares all rows of two offices, except for the ids of receipts."""
    for rows in (found, wanted):
        rows["receipt"] = sorted((actor, subject, reply) for actor, _, subject, reply in rows["receipt"])
    wrong_if(differing := [name for name in wanted if found[name] != wanted[name]], f"the console's office has other rows of {differing}")

def put_right(officer, paper, verdict, picture):
    """Replaces the verdict on a paper, which was rejected, in a new office."""
    told = f"batch {paper.replace(' ', ' paper ')} rejected 4"
    officer.go("journal").type("receipt-search", f"judge {paper}").shows("1 order", "receipts").shows(told, "receipts")
    name = officer.value("document.querySelector('#receipts button').dataset.key").removeprefix("right ")
    officer.click(f"right {name}").shows("Leave it out", "mending").tab_to(f"leave {name}").keys("Down").type(f"rest {name}", verdict)
    officer.type("mended-name", "mended.db").pictured(picture).click("make-mended")
    officer.yes(told, f"replaced by judge {paper} {verdict}", said="make the new office mended.db")

def going_over(officer, teller):
    """Goes over to an office in which a verdict is put right, while a teller has a draft, and has sent a keying that has no reply yet."""
    line, office = officer.evening.line, officer.evening.office
    teller.log_in().keys("Enter").views("start").keys("Enter", at=1).papers("1,2,", at=2)
    put_right(officer.log_in(), "12 1", "accept:1,,", "32-putting-right")
    officer.pictured("33-report").click("go-over").asked("mended-2.db", "judge 12 1 accept:1,,").pictured("34-ask-switch")
    teller.anew(f"{teller.page}#14").views("start").keys("Enter", at=1).papers("2,1,").views("end")
    line.cuts = 1
    teller.keys("s").shows("is not responding", "said").pictured("63-waits")
    officer.keys("y").shows("The office is now mended-2.db").shows("Updated at", "health").pictured("35-switched")
    before = office.rows()
    teller.shows("batch 14 round 1 keyed", "said").pictured("64-kept").anew(f"{teller.page}#13").shows("Go on at paper 2", "notice")
    teller.pictured("65-draft").papers(",1,").views("end").keys("s").shows("batch 13 round 1 keyed", "said")
    for batch, papers in ((13, ["1,2,", ",1,"]), (14, ["2,1,"])):
        office.do(*keyed(batch, papers, [4])[0].split(), town="mended-2.db")
    officer.go("count", 7).click("seal").yes("Seal Ward 7", said="ward 7 sealed: 5 valid, 0 rejected").pictured("36-sealed")
    wanted = [*(line.replace("reject:4", "accept:1,,") for line in PUT_RIGHT), *keyed(14, ["2,1,"]), *keyed(13, ["1,2,", ",1,"])]
    compare(office.rows("mended-2.db"), Office(officer.evening.folder / "typed").begin([*wanted, "seal 7 --id s"]).rows())
    wrong_if(office.rows() != before, "the office before a switch has changed after it")

PUT_RIGHT = [*ward_orders((12, 2, 4, 9), (13, 2, 4, 9), (14, 1, 4, 9)), *keyed(12, ["D", "1,2,"]), "judge 12 1 reject:4 --id v2"]

def nominations(officer):
    officer.click("step none")
    for number, name in ((7, "Harbour"), (8, "Quay")):
        officer.type("ward-number", number).keys("Enter").until("document.activeElement.id === 'ward-seats'")
        officer.fill("ward", seats=2, name=name).send()
        if number == 7:
            officer.asked("Add ward 7").pictured("2-ask-ward")
        officer.yes(f"Add ward {number}", name, "2 seats")
    officer.go("nominations", 7).fill("candidate", number=1, name="Ann").reload()
    officer.shows("Updated at", "health").until("document.getElementById('candidate-name').value === 'Ann'")
    officer.fill("candidate", name="Ann").send().shows("candidate 1 of ward 7 added")
    officer.drop("drop-candidates", names=[*NAMES[:3], "7,3,Dee", *NAMES[4:]]).shows("This number is in the file twice", "preview")
    officer.pictured("3-preview-wrong").drop("drop-candidates", names=NAMES).shows("Will be added", "preview")
    officer.evening.line.cuts = 1
    officer.click("send-file").shows("Not confirmed yet", "unsent").pictured("4-not-confirmed").shows("candidates from names.csv")
    officer.click("withdraw 5").yes("Withdraw 5 Gil?").pictured("5-nominations")
    for ward, names, outcome in ((7, ("1 Ann", "4 Dee"), "will be a poll"), (8, ("1 Eve, jr", "2 Fay"), "no poll")):
        officer.go("nominations", ward).shows(f"Ward {ward}", "nominated").click("close")
        officer.yes(f"Ward {ward}", *names, outcome, said="close nominations")

def key_at_page(teller, papers):
    """Keys a batch. The page is loaded again, the server is gone, a paper is left out and put in, one is mended, and the line breaks."""
    teller.log_in().pictured("60-batches").keys("Enter").views("start").keys("Enter", at=1)
    teller.papers(*papers[:2]).keys(*keys_of(papers[2])[:-1]).reload()
    teller.views("papers").shows("Go on at paper 3", "notice").keys("Enter", at=4).evening.server.kill()
    teller.papers(papers[4], at=5).keys("g", "4", "Enter", at=4).keys("Insert").papers(papers[3]).keys("End", at=6)
    teller.papers("1,,,").keys("Up", "Delete").papers(papers[5], at=7).pictured("61-papers").evening.start()
    teller.papers(*papers[6:]).views("end").pictured("62-end").evening.line.cuts = 1
    teller.keys("s").shows("is not responding", "said").shows("batch 12 round 1 keyed", "said")
    wrong_if(teller.value("Object.keys(localStorage).length"), "something of the keying stays in the browser")
    # A clerk who signed out isn't let in again.
    teller.log_in().value("document.getElementById('go-away').click()")
    teller.until("document.body.innerText.includes('Clerk 9 has left')")
    teller.open(teller.evening.address(teller.page))
    if not any("status of 401" in line for line in teller.said()) or "lerk" in teller.text():
        raise Wrong(f"clerk 9 has left, and the page shows {teller.text()!r}")

def marks_in(lines):
    return ["D" if "D" in line else line.split(",", 1)[1] for line in lines]

def papers(officer, teller):
    officer.go("overview").type("expected 7", 14).go("batches", 7).until("document.getElementById('give').open")
    officer.fill("give", **{"from": 12}, count=2, size=8, last=6, clerks="4 9").shows("14 of 14 expected papers", "give-preview")
    officer.pictured("6-giving-out").send()
    officer.yes("2 batches, 14 papers", "Batch 12", "8 papers", "Batch 13", "6 papers", "Tellers 4 and 9")
    saved(officer, ("form covers", "covers-7.html", ["forms", "covers", 7]))
    officer.tab_to("bring").keys("Enter").drop("drop-keyings", k4_12=[HEAD[12][4], *TWELVE[:3], "4,1,,2", *TWELVE[4:]])
    officer.shows("file fault 2 at record 4", "brought").pictured("7-file-fault")
    officer.drop("drop-keyings", k4_12=[HEAD[12][4], *TWELVE], k9_13=[HEAD[13][9], *OTHER], nobody=["paper,1,2", "1,1,"])
    officer.shows("Not imported. The file doesn\u2019t name its batch and teller", "brought")
    officer.until("document.getElementById('brought').innerText.split('accepted').length === 3")
    # The console shows an order that was typed in a terminal, and a keying from a teller's page.
    officer.pictured("8-batches").evening.office.do("key", 4, 13, 1, *marks_in(THIRTEEN), "--id", "typed")
    key_at_page(teller, marks_in(TWELVE))
    officer.shows("Agreed", "batch-list").go("overview").shows("1 batch differs", "steps").pictured("9-overview-differs")
    officer.click("step batches 7").click("where 13").shows("paper 5", "batch-list").pictured("10-where")
    officer.click("again 13").yes("round 2", "tellers 4 and 9")
    # No file says which round it is of: the console asks before it sends one for round 2.
    officer.drop("drop-keyings", k4_13=[HEAD[13][4], *THIRTEEN]).asked("teller 4", "batch 13 for round 2", "k4-13.csv").keys("Escape")
    officer.shows("round 2: canceled", "brought").drop("drop-keyings", k4_13=[HEAD[13][4], *THIRTEEN], k9_13=[HEAD[13][9], *OTHER])
    officer.yes("teller 4", "round 2", said="by teller 4").yes("teller 9", "round 2", said="by teller 9")
    officer.shows("teller 9, round 2: accepted", "brought").click("third 13").asked("third teller").keys("9").pictured("11-third")
    officer.keys("Enter").shows("doesn\u2019t key this batch yet")
    # The third teller is added on a second console, while the first one shows the batch.
    with officer.another():
        officer.load("#batches/7").click("third 13").asked("third teller").keys("5", "Enter").shows("batch 13 third clerk 5")
    officer.until("![...document.querySelectorAll('[data-key]')].some((it) => it.dataset.key === 'third 13')")
    officer.drop("drop-keyings", k5_13=[HEAD[13][5], *THIRTEEN]).yes("teller 5", "round 2").shows("teller 5, round 2: accepted", "brought")
    officer.click("papers 12").shows("Rejected: no first preference", "batch-list").pictured("12-read-back")

def adjudication(officer):
    """Judges by keyboard alone. The server stops for a while, and the page is reloaded while a verdict is being sent."""
    officer.leave_field().keys("1").shows("2 doubtful papers to judge", "steps").pictured("13-overview-doubtful")
    officer.click("step doubtful 7").shows("Batch 12, paper 6", "judging").keys("2").shows("Bob", "judging").keys("Backspace", "1")
    officer.pictured("14-judging").leave_field().keys("Enter")
    officer.asked("Batch 12, paper 6", "First preference: 1 Ann").pictured("15-ask-verdict")
    officer.evening.server.kill()
    officer.forget().keys("y").shows("Not confirmed yet", "unsent").pictured("16-server-gone").evening.start()
    officer.shows("batch 12 paper 6 accepted").keys("r").evening.line.cuts = 1
    officer.keys("4").asked("Batch 13, paper 6", "voter identifiable").keys("y").shows("Not confirmed yet", "unsent").reload()
    officer.shows("batch 13 paper 6 rejected 4").shows("All 2 doubtful papers of this ward are judged", "judging").pictured("17-judged")
    saved(officer, ("form adjudication", "adjudication-7.html", ["forms", "adjudication", 7]))

def counting(officer):
    officer.leave_field().keys("6").click("copy").shows("copied 2 wards").pictured("18-journal")
    officer.leave_field().keys("5").shows("Next: the seal", "count-now").pictured("19-seal")
    officer.click("seal").asked("All expected papers were given out: 14").pictured("20-ask-seal")
    officer.yes("Seal Ward 7", said="ward 7 sealed: 12 valid, 2 rejected, quota 5.00000").shows("Next: stage 1", "count-now")
    officer.click("advance").yes("the first preferences", said="ward 7 stage 1 first preferences")
    in_two_consoles(officer)
    saved(officer.shows("Next: a lot", "count-now").pictured("22-lot"), ("form lots", "lots-7.html", ["forms", "lots", 7]))
    officer.tab_to("lot 3").keys("Down").click("lot")
    officer.yes("3 Cy and 4 Dee", "4 Dee is excluded", said="lot at ward 7 stage 3: candidate 4")
    officer.shows("Next: stage 3", "count-now").pictured("23-stage").click("advance")
    officer.yes("4 Dee has the fewest votes", said="ward 7 stage 3 exclusion of 4")
    officer.click("count").yes("Count from stage 4 on", said="count finished")

def in_two_consoles(officer):
    """Confirms stage 2 on two consoles at once, and checks that it is counted once."""
    with officer.another():
        officer.load("#count/7")
        for window in (-1, 0):
            officer.show(window)
            officer.shows("Next: stage 2", "count-now").click("advance").asked("Count stage 2", "the surplus of 1 Ann")
        officer.pictured("21-ask-stage")
        for window in (0, -1):
            officer.show(window)
            officer.yes(said="ward 7 stage 2 surplus of 1")
    wrong_if(" 2 stages" not in (printed := officer.evening.office.do("wards")), f"two consoles: {printed}")

def declaring(officer):
    officer.shows("Next: the declaration", "count-now").pictured("24-finished")
    officer.click("declare").yes("1 Ann", "2 Bob", said="ward 7 declared: 1, 2")
    officer.shows("duly elected for Harbour", "count-now").pictured("25-declared")
    printed(officer)
    officer.go("count", 8).shows("uncontested", "count-now").pictured("26-uncontested")
    officer.click("declare").yes("1 Eve, jr", "2 Fay", said="ward 8 declared: 1, 2")
    officer.go("overview").shows("All wards are declared", "steps").pictured("27-overview-declared")
    officer.go("journal").type("receipt-search", "judge 13").shows("batch 13 paper 6 rejected 4", "receipts").pictured("28-search")
    saved(officer, ("save-journal", "journal.txt", ["journal"]), ("file-ballots", "ballots-7.txt", ["ballots", 7]),
          ("file-table", "stages-7.csv", ["table", 7]), ("index", "index.html", ["index", "--title", TITLE]))

def printed(officer):
    """Prints the declaration and the sheet, and checks that they are what the orders print and that the page is as before."""
    officer.driver.execute_script("window.print = () => { window.printed = document.querySelector('#paper pre').textContent; };")
    for order in ("result", "sheet"):
        officer.click(f"print-{order}").until(f"window.printed === {json.dumps(officer.evening.office.do(order, 7))}")
        officer.value("dispatchEvent(new Event('afterprint'))")
    officer.until("!document.getElementById('paper').children.length && !document.body.classList.contains('printing')")
    officer.type("title page", TITLE)
    saved(officer, ("page", "result-7.html", ["page", 7, "--title", TITLE]), ("save-sheet", "sheet-7.txt", ["sheet", 7]),
          ("form declaration", "declaration-7.html", ["forms", "declaration", 7]))

def saved(officer, *files):
    (folder := officer.evening.folder / "saved").mkdir(exist_ok=True)
    officer.call("Browser.setDownloadBehavior", {"behavior": "allow", "downloadPath": str(folder)})
    for key, name, words in files:
        path, wanted = folder / name, officer.click(key).evening.office.do(*words)
        wrong_if(not waited(lambda: path.exists() and path.read_text(encoding="utf-8") == wanted), f"{name} isn't what the order prints")

def file_gone(officer):
    """While the office's file is gone, the console says so and what to do, and sends again. Once it is back, what was sent is done."""
    town = officer.evening.office.folder / TOWN
    away = town.rename(town.with_suffix(".away"))
    officer.go("nominations").fill("ward", number=9, seats=2, name="Shore").send().asked("Add ward 9").keys("y")
    officer.shows("fault 113", "unsent").pictured("31-file-gone").click("send-again").shows("fault 113", "unsent")
    away.rename(town)
    officer.shows("ward 9 added")

def try_console_evening(pictures: Path = None):
    """Plays the guide's evening on the officer's console in Chromium, partly by keyboard alone, and compares the result with typed orders.

    - At the end the office has the rows that the typed orders make, except for the ids. Each order is done once, though the connection
      breaks after it was done, the server stops and starts again, the page is reloaded while an order is sent, or two consoles confirm the
      same stage. A teller keys a batch at the page for that, by keys alone, which asks nothing but what is its clerk's.
    - What was typed is still there after a reload. Enter in a field sends nothing. A teller's file for a round after the first is sent only
      if the officer confirms it. Each file that is downloaded or printed, forms included, is what the order prints.
    - In another evening a verdict is put right in a new office, and the office goes over to it, which has the rows that the typed orders
      make; the old one stays as it is. Officer and teller continue there; a draft and a keying without a reply are kept.
    - While nothing changes, the console requests nothing but the list of wards, and never what isn't in docs/formats/console-api.md. If the
      office's file is gone, it says so. The browser reports nothing but what failed on purpose. Nothing is wider than the window."""
    people = Officer, lambda evening: Teller(evening, clerk=9)
    with played(pictures, *people, office=lambda folder: Office(folder).begin(PUT_RIGHT)) as [officer, teller]:
        going_over(officer, teller)
    with played(pictures, *people) as [officer, teller]:
        nominations(officer.log_in().pictured("1-empty"))
        papers(officer, teller)
        for play in (adjudication, counting, declaring):
            play(officer)
        lines = [re.sub("[A-Z]{5,}", lambda name: " ".join(marks_in(globals()[name[0]])), line) for line in TYPED]
        typed = Office(officer.evening.folder / "typed").begin([f"{line} --id i{number}" for number, line in enumerate(lines)])
        compare(officer.evening.office.rows(), typed.rows())
        file_gone(officer)
        quiet(officer)

# Puts 9,000 batches into what the page has read of ward 1.
FAKE = """const batches = Array.from({length: 9000}, (_, place) => ({
    batch: place + 1, clerks: [{clerk: 4, keyed: true}, {clerk: 9, keyed: place % 3 > 0}], doubtful_open: 0, round: 1, size: 75,
    standing: ['waiting', 'differing', 'taken'][place % 3], twin: 0}));
    office.reads.set('wards/1/batches', Promise.resolve({says: {batches, ward: 1}}));"""
# How long a section takes to draw, in milliseconds, when all that it shows was read before.
DRAWN = """(async () => { await draw(); const began = performance.now(); await draw(); document.body.offsetHeight;
    return performance.now() - began; })()"""
SETTLED = "document.getElementById('count-now').innerText.match(/Next:|duly elected/)?.[0] ?? ''"
STEPS = (("the seal", "seal"), ("a lot", "lot"), ("the declaration", "declare"), ("stage", "count"))

def numbered(count):
    return [f"Candidate {number}" for number in range(1, count + 1)]

def names(officer, screen):
    """Shows names that look like markup, change the direction of writing or have 120 bytes: as names, and within the window.

    There are thirty candidates for fifteen seats. The screen shows each phase and each stage."""
    name, chance = HOSTILE[0] + HOSTILE[1], random.Random(3)
    nominated = HOSTILE + [f"{number} {'Featherstonehaugh-Marjoribanks ' * 4}"[:120].strip() for number in range(9, 31)]
    ranked = [sorted(chance.sample(range(30), 20), key=lambda place: place + chance.randrange(30)) for _ in range(300)]
    valid, ward = [marks_of(order, 30) for order in ranked], ward_orders((1, 302, 4, 9), candidates=nominated, seats=15, ward=9, name=name)
    officer.evening.another([*ward_orders(candidates=numbered(3), ward=1, name="Old"), ward[0]], "before")
    screen.begin().look(9, "Nominations are open", picture="60-nominations").look(0, "Nominations are open", picture="60-list")
    officer.log_in().type("expected 1", 30).type("expected 9", 302).go("nominations", 9).fill("candidate", name="Ann").open("about:blank")
    officer.evening.another([*ward, *keyed(1, ["D", "D", *valid])])
    screen.begin().look(9, "Votes are being entered", picture="61-keying")
    officer.load("#nominations/9").shows("This isn\u2019t the office that this browser used last", "other").pictured("39-other-office")
    if "expected in ward 1" not in (text := officer.value("document.getElementById('other').innerText")) or "ward 9" in text:
        raise Wrong(f"what is discarded: {text!r}")
    officer.click("right-office").until("document.getElementById('other').hidden")
    kept = officer.value("[stored('expected 1'), stored('expected 9'), document.getElementById('candidate-name').value]")
    wrong_if(kept != [None, 302, "Ann"], f"of what was typed the console kept {kept}")
    for part, words, where in (("nominations", "AAAA", "nominated"), ("doubtful", "Batch 1, paper 1", "judging")):
        officer.go(part, 9).shows(words, where).pictured(f"40-names-{part}")
    # A 1 or a 2 may be the first digit of another candidate's number, so Enter ends it.
    officer.leave_field().keys("1", "Enter", "2", "Enter", *"12", "Enter").asked("First preference: 1", "Third preference: 12")
    officer.pictured("41-names-ask").yes(said="batch 1 paper 1 accepted").keys("7", "Enter")
    officer.yes("First preference: 7", "2 Bob", said="batch 1 paper 2 accepted").pictured("42-names-judged")
    officer.go("count", 9).click("seal").yes("All expected papers were given out: 302", said="ward 9 sealed")
    screen.look(9, "Valid papers 302", "Rejected papers 0", "Quota 19.00000", picture="62-sealed")
    counted(officer)
    officer.pictured("44-names-declared").go("overview").shows("All wards are declared", "steps").pictured("45-names-overview")
    last = screen.look(9, "1 of 1 ward declared").value("lastPart(9)")
    for part in range(1, last):
        screen.look(9, f"Stage {part} of {last - 1}: ", part=part, picture=f"63-stage-{part}" * (part % 9 == 1))
    result = re.sub("[\u202e\u2066]", "", officer.evening.office.do("result", 9)).replace("\x85", "\ufffd")
    elected = [line.strip() for line in result.split("\n")[2:]]
    screen.look(9, "Elected", *elected, part=last, picture="64-declared")
    for page in (officer, screen):
        marked = "document.querySelectorAll('img, main i b, main script, #view script').length || document.title === 'marked'"
        wrong_if(page.value(marked), "a name is markup")

def counted(officer):
    officer.until(SETTLED)
    while "duly elected" not in (text := officer.value("document.getElementById('count-now').innerText")):
        step = next(key for word, key in STEPS if f"Next: {word}" in text)
        if step == "lot":
            officer.tab_to(officer.value("document.querySelector('#count-now input[type=radio]').dataset.key")).keys(" ").pictured("43-lot")
        officer.click(step).yes(said="Done").until(SETTLED)

def refused(officer, _):
    """A script of batches is refused halfway, and the rest goes to the tellers whose turn it is. A file is too large."""
    officer.evening.another(ward_orders((3, 10, 4, 9), candidates=numbered(4), ward=1, name="A"))
    officer.log_in().go("batches", 1).value("(document.getElementById('give').open = true)")
    officer.fill("give", **{"from": 1}, count=4, size=10, last=7, clerks="4 9 5 6 7 8").send()
    officer.yes("4 batches, 37 papers", said="line 3: refused 8: batch exists").pictured("46-refused")
    officer.until("document.getElementById('give-clerks').value === '7 8 4 9 5 6'")
    left = [officer.value(f"document.getElementById('give-{field}').value") for field in ("from", "count", "size", "last")]
    wrong_if(left != ["3", "2", "10", "7"], f"the rest to give out is {left}")
    officer.value("(document.getElementById('bring').open = true)")
    officer.drop("drop-keyings", large=["paper 3/4,1,2,3,4", *["1,1,2,3,4"] * 120000]).shows("not sent", "brought")
    officer.shows("too large for the console").pictured("47-too-large").tab_to("sign-out").keys("Enter")
    officer.until("document.body.innerText.includes('You have signed out')")
    officer.anew("office/")
    wrong_if("Count office" in officer.text(), "an officer who signed out isn't asked for the code")

def large(officer, screen):
    """Shows 99 wards and 9,999 batches, then a ward of 9,000: each section is drawn within a second, at most 300 rows at once."""
    # Nine wards have no poll: they take turns on the screen, while the others wait.
    batches = {ward: [(it, 500, it % 20 * 2 + 1, it % 20 * 2 + 2) for it in range(ward, 10000, 90) if ward < 91] for ward in range(1, 100)}
    officer.evening.another([line for ward, given in batches.items() for line in ward_orders(
        *given, candidates=numbered(5 if given else 2), seats=3, ward=ward, name=f"Ward name {ward}")])
    officer.log_in()
    pages = screen.begin().value("turns().filter((it) => it.ward === 0).length")
    for page in range(pages):
        screen.look(0, f"Wards {24 * page + 1} to {min(24 * page + 24, 99)}", part=page, picture=f"65-many-{page + 1}")
    wrong_if((found := screen.value("turns().length")) != pages + 9, f"{found} turns")
    time.sleep(60)
    read = officer.value("office.wards.filter((it) => !isStale(it)).length")
    officer.shows("Teller ", "waiting").pictured("50-large-overview")

    def drawn(part):
        return officer.go(part, 1 if part not in ("overview", "journal") else 0).value(DRAWN)
    table, spent = Table("section", "milliseconds to draw"), {part: drawn(part) for part in SECTIONS}
    officer.go("batches", 1).driver.execute_script(FAKE)
    spent["batches, 9,000 in the ward"] = drawn("batches")
    officer.shows("Page 1 of 225", "batch-more").pictured("51-large-batches")
    most = officer.value("document.querySelectorAll('tr').length")
    for part, took in spent.items():
        table.row(part, f"{took:.0f}")
    table.row("wards whose batches were read in the first minute", read)
    wrong_if(max(spent.values()) > 1000 or most > 300, f"{spent}; {most} rows")

def try_console_hostile(pictures: Path = None, *, only: str = ""):
    """Plays the officer's console and the screen in the hall in Chromium with hostile names, refusals, and the largest office.

    - *Names* that look like markup, that change the direction of writing, or that have 120 bytes are shown as names, break no line's
      direction, and aren't cut off. Before that, another office is served at the same address: the console asks whether it is the right
      one, sends nothing, and keeps what was typed and still fits. Papers of thirty candidates are judged by keyboard, and each lot is
      recorded. What the screen says of lots and of wards without a poll, and what keys do there, `tools/check script` shows.
    - *Refused*: a script of batches stops halfway; the rest goes to those whose turn it is. A file is too large. One signs out, and is out.
    - *Large*: 99 wards and 9,999 batches. Each section is drawn within a second, with at most 300 rows at once.

    --only PLAY plays one of names, refused and large. Pictures, at 1280, 800 and 400 pixels and of the screen at 1920, go into PICTURES."""
    words = ["--codes", "codes.txt", "--public", "--title", "Election to the council of " + HOSTILE[4]]
    for play in [globals()[only]] if only else [names, refused, large]:
        with played(pictures, Officer, Screen, words=words) as [officer, screen]:
            play(officer, screen)

CLERK, BATCHES, ELSEWHERE = 4, range(100, 150), "elsewhere.example"
# Words for Chromium: the name leads to this machine, and no newer guard of its own stands before that of the office.
LOOSE = ("--disable-features=LocalNetworkAccessChecks,BlockInsecurePrivateNetworkRequests", f"--host-resolver-rules=MAP {ELSEWHERE} {HERE}")

def is_of_office(text):
    return any(word in text for word in ('"work"', '"reply"', '"refusal"', "atch", "lerk"))

class Stranger(Player):
    """A browser with pages from elsewhere, at an office with a batch for each of their tries; and the table of their outcomes."""

    FLAGS, SIZES, EXPECTED, ASKED = LOOSE, ((1280, 800),), "", re.compile(".*")

    def __init__(self, evening):
        super().__init__(evening)
        self.first, self.table = BATCHES[0], Table("A page of", "tries", "kept", "read")
        self.login = f"{CLERK}:{CODES[CLERK]}@" if evening.words else ""

    def typed(self, host, port):
        """Types the address of the clerk's work, with the login if the office asks for it. The browser must show the work."""
        self.open(f"http://{self.login}{host}:{port}/clerks/{CLERK}/work")
        wrong_if(not is_of_office(self.text()), f"typed, the work at {host} isn't shown")
        self.table.row(f"no page: typed, at {host}", "the work", "", "read")

    def opened(self, what, page, office, meanwhile=lambda: None, must_pass=False):
        """Opens a page at a host and a port, which looks for the office at others. None of its tries may pass; or some must."""
        setting = {"office": "http://%s:%d" % office, "batch": self.first, "turns": 3}
        self.first += 10
        with self.another():
            self.open("http://%s:%d/page" % page)
            meanwhile()
            script = (ROOT / "tools/office_tools/elsewhere.js").read_text(encoding="utf-8")
            tried = self.value(script.replace("SETTING", json.dumps(setting)))
        receipts = {receipt[1] for receipt in self.evening.office.rows()["receipt"]}
        kept, read = [own in receipts for _, own, _ in tried], [is_of_office(text) for *_, text in tried]
        for (name, *_), is_kept, is_read in zip(tried, kept, read):
            self.table.row(what, name, "kept" if is_kept else "–", "read" if is_read else "–")
        wrong_if(not (any(kept) and any(read)) if must_pass else any(kept + read), f"{what}: otherwise than it must be")

def try_foreign_pages(*, codes=False):
    """Opens pages from elsewhere in Chromium, which try to key and to read at an office on this machine.

    The office keeps none of their keyings, and the pages read nothing. A request that is typed, and a page of the origin that `serve` was
    given by `--origin`, which keys and reads through a proxy, are answered. With --codes the office asks for codes, and the browser is
    logged in as the clerk whose batches they are: the pages still read nothing, and the office keeps nothing of theirs."""
    orders, words = ward_orders(*((batch, 1, CLERK, 9) for batch in BATCHES)), ["--codes", "codes.txt"] if codes else []
    with played(None, Stranger, office=lambda folder: Office(folder).begin(orders), words=words) as [browser]:
        evening, own, front = browser.evening, browser.evening.line.office, browser.evening.line.port
        browser.typed(HERE, own)
        for what, page, office in (("another port", HERE, HERE), ("a name that leads here", ELSEWHERE, HERE),
                                   ("a name that leads here, at that name", ELSEWHERE, ELSEWHERE)):
            browser.opened(what, (page, front), (office, own))
        evening.server.kill()
        other = Proxy(port=own)

        def changes():
            other.__exit__()
            evening.start()
        # The page comes from the very address that the office has afterwards.
        browser.opened("the office's own address, by another name", (ELSEWHERE, own), (ELSEWHERE, own), changes)
        evening.server.kill()
        # The work is opened by another name, and a page of the origin that `serve` is given: these are answered.
        evening.words = [*words, "--origin", f"http://{ELSEWHERE}:{front}"]
        evening.start()
        for host, port in (("localhost", own), (ELSEWHERE, front)):
            browser.typed(host, port)
        browser.opened("the origin that was given, through a proxy", (ELSEWHERE, front), (ELSEWHERE, front), must_pass=True)

PAPERS = ["1,2,"] * 4 + ["1,,2"] * 2 + [",1,"] + [",,1"] * 2
COUNTED = ["seal 7 --id s1", *(f"advance 7 --id a{stage}" for stage in (1, 2, 3)), "declare 7 --id d1"]

def try_page_picture(file=ROOT / "docs/page-7.png"):
    """Makes docs/page-7.png, the picture in README of the page of a ward, from a real office.

    It plays the ward of docs/formats/sheets.md, and compares its stage sheet with the one there. Chromium draws the page of that ward, 1120
    pixels wide; the picture ends below the stages. FILE is another file in its place."""
    with temporary_folder() as folder, Browser(["--hide-scrollbars"]) as browser:
        office = Office(folder).begin([*ward_orders((12, len(PAPERS), 4, 9)), *keyed(12, PAPERS), *COUNTED])
        page = (ROOT / "docs/formats/sheets.md").read_text(encoding="utf-8")
        wrong_if(f"```text\n{office.do('sheet', 7)}```" not in page, "docs/formats/sheets.md shows another sheet than the one of this ward")
        office.write("page.html", office.do("page", 7, "--title", TITLE).splitlines())
        browser.resize(1120, 3000)
        browser.open(f"file://{folder}/page.html")
        browser.resize(1120, browser.value("17 + Math.ceil([...document.querySelectorAll('table')].at(-1).getBoundingClientRect().bottom)"))
        Path(file).write_bytes(browser.picture())
