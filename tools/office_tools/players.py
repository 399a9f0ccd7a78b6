"""People at pages of the office in Chromium, which Debian's python3-selenium drives: officer, tellers, screen in the hall; an evening."""
import contextlib, json, re, sys, time

from office_tools.election import CODES, OFFICE_CODE
from office_tools.office import HERE, SECONDS, Office, Proxy, Wrong, about, free_port, needs, temporary_folder, waited, wrong_if

WORDS = ["--headless=new", "--no-sandbox", "--disable-gpu", "--no-first-run", "--disable-background-networking"]

class Browser(contextlib.AbstractContextManager):
    def __init_subclass__(cls):
        """Makes each step of a class that returns nothing return its object, so that a play is read as a row of steps."""
        def returning(step):
            def taken(self, *words, **how):
                found = step(self, *words, **how)
                return self if found is None else found
            return taken
        for name, step in list(vars(cls).items()):
            if not name.startswith("_") and callable(step):
                setattr(cls, name, returning(step))

    def __init__(self, words=()):
        needs("chromium", "chromedriver")
        # Where Debian has its modules: Python may be another one.
        sys.path.append("/usr/lib/python3/dist-packages")
        with about("on Debian: apt-get install python3-selenium", ImportError):
            from selenium import webdriver
        options = webdriver.ChromeOptions()
        for word in (*WORDS, *words):
            options.add_argument(word)
        options.set_capability("goog:loggingPrefs", {"browser": "ALL"})
        self.driver = webdriver.Chrome(options=options)
        self.driver.set_script_timeout(10 * SECONDS)
        self.open, self.reload, self.picture = self.driver.get, self.driver.refresh, self.driver.get_screenshot_as_png
        self.call, self.windows = self.driver.execute_cdp_cmd, self.driver.window_handles
        self.show(0)

    def __exit__(self, *_):
        self.driver.quit()

    def show(self, number):
        """Brings the window of this number to the front, where alone keys are taken. What is called next is of that window."""
        self.driver.switch_to.window(self.windows[number])
        self.call("Page.bringToFront", {})
        self.call("Emulation.setFocusEmulationEnabled", {"enabled": True})

    @contextlib.contextmanager
    def another(self):
        self.driver.switch_to.new_window("window")
        self.windows.append(self.driver.current_window_handle)
        yield self.show(-1)
        self.show(-1)
        self.driver.close()
        self.windows.pop()
        self.show(0)

    def value(self, expression):
        return self.driver.execute_script(f"return (\n{expression}\n)")

    def until(self, expression):
        if not waited(lambda: self.value(expression), pause=0.05):
            raise Wrong(f"never: {expression}; the page shows {self.text()!r}")

    def text(self):
        return self.value("document.body ? document.body.innerText : ''")

    def resize(self, width, height):
        self.call("Emulation.setDeviceMetricsOverride", {"width": width, "height": height, "deviceScaleFactor": 1, "mobile": False})

    def press(self, *keys):
        """Presses keys, each a character or a name of WebDriver's, such as Enter."""
        from selenium.webdriver.common.action_chains import ActionChains
        from selenium.webdriver.common.keys import Keys
        ActionChains(self.driver).send_keys(*(key if len(key) == 1 else getattr(Keys, key.upper()) for key in keys)).perform()

    def said(self):
        return [entry["message"] for entry in self.driver.get_log("browser")]

SECTIONS = ["overview", "nominations", "batches", "doubtful", "count", "journal"]
# What has the focus: its key, its id, and the id of the list that it opens.
FOCUSED = """(({id, dataset, tagName, parentElement}) => [dataset?.key, id, tagName === 'SUMMARY' && parentElement.id].filter(Boolean))(
    document.activeElement ?? {})"""

class Player(Browser):
    FLAGS, keys = (), Browser.press

    def __init__(self, evening):
        super().__init__(self.FLAGS)
        self.evening = evening
        self.resize(*self.SIZES[0])

    def enter(self, page, login):
        """Opens a page. The browser has the login from then on, as if it had been typed when the browser asked for it."""
        self.open(self.evening.address(page, login))

    def anew(self, page):
        for address in ("about:blank", self.evening.address(page)):
            self.open(address)

    def shows(self, words, part="result"):
        self.until(f"document.getElementById('{part}')?.innerText.includes({json.dumps(words)})")

    def pictured(self, name):
        """Writes pictures of the whole page, if they are asked for. Nothing is wider than the window."""
        for width, height in self.SIZES if self.evening.pictures else ():
            self.resize(width, height)
            time.sleep(0.15)
            self.resize(width, min(2400, max(height, self.value("document.documentElement.scrollHeight"))))
            time.sleep(0.1)
            (self.evening.pictures / f"{name}-{width}.png").write_bytes(self.picture())
            wrong_if((wide := self.value("document.documentElement.scrollWidth")) > width, f"{name}: {wide} pixels wide at {width}")
        self.resize(*self.SIZES[0])

class Officer(Player):
    SIZES, EXPECTED = ((1280, 800), (800, 600), (400, 800)), "ERR_|status of (401|503)|Clear-Site-Data"
    # What the page may ask for: docs/formats/console-api.md.
    ASKED = re.compile(r"(GET /office/(|leave|wards(/\d+(/batches|/doubtful)?)?|batches/\d+/(differences|papers)|receipts(\?actor=\d+)?)"
                       r"|POST /office/orders) HTTP/1.1")

    def log_in(self):
        self.enter("office/", f"office:{OFFICE_CODE}@").load()

    def load(self, part=""):
        self.anew(f"office/{part}").shows("Updated at", "health")

    def go(self, part, ward=0):
        """Opens a section by its number, and chooses a ward from the list. The first Escape leaves a field, the next one the section."""
        self.press("Escape", "Escape", str(1 + SECTIONS.index(part)))
        chosen = f"location.hash === '#{part}/{ward}'"
        self.until(f"location.hash.startsWith('#{part}')")
        if ward and not self.value(chosen):
            self.tab_to(f"ward {part}").press(*str(ward))
            self.until(chosen)
        # The section and the ward that were chosen last are shown.
        self.until("!document.body.classList.contains('stale')")

    def found(self, key):
        return f"[...document.querySelectorAll('[data-key]')].find((it) => it.dataset.key === {json.dumps(key)} && it.offsetParent)"

    def has(self, key):
        self.until(f"Boolean({self.found(key)}) && !{self.found(key)}.disabled")

    def click(self, key):
        self.has(key).tab_to(key).press("Enter")

    def tab_to(self, name):
        """Reaches an element with the Tab key alone: by its key, its id, or that of the list that it opens."""
        for _ in range(150):
            if name in self.value(FOCUSED):
                return
            self.press("Tab")
        raise Wrong(f"Tab doesn't reach {name}")

    def type(self, name, text):
        """Types into a field. The Tab key selects what it held before."""
        self.tab_to(name).press(*str(text))

    def fill(self, form, **fields):
        for field, text in fields.items():
            self.type(f"{form}-{field}", text)

    def send(self):
        """Leaves a form's last field by Enter, which sends nothing, and presses the button that this reaches."""
        self.press("Enter")
        self.until("document.activeElement.type === 'submit' && !document.getElementById('ask').open")
        self.press("Enter")

    def drop(self, place, **files):
        given = json.dumps([[name.replace("_", "-") + ".csv", "".join(f"{line}\n" for line in lines)] for name, lines in files.items()])
        self.driver.execute_script(f"""const data = new DataTransfer();
            for (const [name, text] of {given}) data.items.add(new File([text], name));
            const event = new DragEvent('drop', {{dataTransfer: data, bubbles: true, cancelable: true}});
            document.getElementById('{place}').dispatchEvent(event);""")

    def asked(self, *words):
        self.until("document.getElementById('ask').open")
        text = self.value("document.getElementById('ask').innerText")
        wrong_if(missing := [word for word in words if word not in text], f"the dialog lacks {missing}: {text!r}")

    def yes(self, *words, said="Done"):
        self.asked(*words).forget().keys("y").shows(said).until("!document.body.classList.contains('busy')")

    def forget(self):
        self.value("document.getElementById('result').hidden = true")

    def leave_field(self):
        self.value("document.activeElement.blur()")

def keys_of(text):
    """Returns the keys of a paper on the page on which clerks key."""
    fields = text.rstrip(",").split(",")
    keys = ["d"] if text == "D" else [key for field in fields for key in ("0" if not field else field if len(field) == 1 else "." + field)]
    return [*keys, "Enter"]

class Teller(Player):
    SIZES, EXPECTED = ((1024, 768), (400, 800)), "ERR_"
    ASKED = re.compile(r"(GET /clerks/\d+/(work|leave|batches/\d+/(candidates|keyed))?|POST /clerks/\d+/batches/\d+/keying) HTTP/1.1")

    def __init__(self, evening, clerk):
        super().__init__(evening)
        self.clerk, self.page = clerk, f"clerks/{clerk}/"

    def log_in(self):
        self.enter(self.page, f"{self.clerk}:{CODES[self.clerk]}@").open(self.evening.address(self.page))
        self.until("!document.getElementById('batches').hidden && document.activeElement.tagName === 'BUTTON'")

    def keys(self, *keys, at=0):
        """Presses keys. Then the cursor must be at this paper."""
        self.press(*keys)
        if at and not self.shown("paper").startswith(f"Paper {at} of "):
            raise Wrong(f"clerk {self.clerk} is at {self.shown('paper')!r}, and not at paper {at}: {self.shown('notice')!r}")

    def papers(self, *papers, at=0):
        self.keys(*(key for text in papers for key in keys_of(text)), at=at)

    def views(self, part):
        self.until(f"!document.getElementById('{part}').hidden")

    def shown(self, part):
        return self.value(f"document.getElementById('{part}').textContent")

# The elements that are wider or taller than their places.
CUT = """[...document.querySelectorAll(':root, #which, #title, #view, #view > *, .name, .state, .standing, .votes, .change')]
    .filter((it) => it.scrollWidth > it.clientWidth + 1
        || it.className === 'name' && it.firstChild.getBoundingClientRect().height > it.clientHeight
        || !/state|standing|votes|change/.test(it.className) && it.scrollHeight > it.clientHeight + 1)
    .map((it) => `${it.tagName} ${it.id || it.className}: ${it.textContent.slice(0, 60)}`)"""

class Screen(Player):
    """A screen in the hall, which stays where it is until `look` changes it."""

    FLAGS, SIZES, EXPECTED = ["--hide-scrollbars"], ((1920, 1080),), "ERR_"
    ASKED = re.compile(r"GET (/screen(/wards)?|/wards/\d+/(sheet|result)) HTTP/1.1")

    def begin(self):
        self.open(self.evening.address("screen"))
        self.until("office.text !== null && office.wards.filter(isCounted).every((it) => office.counts.has(it.ward))")

    def look(self, ward, *words, part=None, picture=""):
        """Lets the screen look at the office, and show a ward, or the list, or a part. It shows these words, and no name is cut off."""
        self.driver.execute_async_script("const done = arguments[0]; look(() => { meetChange(); draw(); }).then(() => done())")
        part_of = "" if part is None else f"showPart({part});"
        self.value(f"""(() => {{ shown.hold = 'part'; showTurn({{ward: {ward}, part: 0}}); {part_of} draw();
            document.getElementById('keys').hidden = true; }})()""")
        text = " ".join(self.text().split())
        wrong_if(missing := [word for word in words if word not in text], f"the screen lacks {missing}: {text!r}")
        self.until("document.getAnimations().length === 0")
        wrong_if(cut := self.value(CUT), f"ward {ward}, {words}: cut off: {cut and cut[:5]}")
        if picture:
            self.pictured(picture)

class Evening:
    """An office and its pages, the proxy through which browsers reach it, and the folder for pictures."""

    def __init__(self, folder, pictures, office, words):
        self.folder, self.pictures, self.words = folder, pictures, words
        self.office, self.line = office(folder / "office"), Proxy(free_port())
        self.start()

    def start(self):
        self.office.write_codes(CODES | {"office": OFFICE_CODE})
        self.server = self.office.serve(*self.words, port=self.line.office).wait()

    def address(self, part, login=""):
        return f"http://{login}{HERE}:{self.line.port}/{part}"

    def another(self, orders, folder="another"):
        """Serves another office, of these orders, at the same address."""
        self.server.kill()
        self.office = Office(self.folder / folder).begin(orders, seconds=900)
        self.start()

@contextlib.contextmanager
def played(pictures, *players, office=lambda folder: Office(folder).begin(), words=("--codes", "codes.txt")):
    """Begins an evening with people at browsers, each made from the evening, and checks how it ended."""
    if pictures:
        pictures.mkdir(parents=True, exist_ok=True)
    with temporary_folder() as folder, contextlib.ExitStack() as open_browsers:
        evening = Evening(folder, pictures, office, words)
        with evening.line:
            try:
                there = [open_browsers.enter_context(player(evening)) for player in players]
                yield there
                asked = {line for line in evening.line.asked if not any(player.ASKED.fullmatch(line) for player in there)}
                wrong_if(asked, f"a page asked {asked}")
                for player in there:
                    strange = [line for line in player.said() if not re.search(player.EXPECTED, line)]
                    wrong_if(strange, f"the browser said {strange[:5]}")
            finally:
                evening.server.kill()
