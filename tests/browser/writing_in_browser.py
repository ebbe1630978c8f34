"""Writes an agent in headless Chromium on the page of a hall, as two members of a team.

    /usr/bin/python3 -m tests.browser.writing_in_browser PROGRAM [FOLDER]

- One member runs the kit, makes a mistake and sees it at its line, takes the earlier
  version back, tries every schedule, stops a check, and hands in.
- The network is lost while the member writes. Both members write at the same time, and
  run at the same time.
- The page is used by the keyboard alone, in three languages, dark, and on a phone.
- A guest does an exercise. A program writes what would be a script if the page took it
  for one.

The browser's console must show no error. Screenshots go to the folder. `tools/nightly`
installs what it needs.
"""
import os
import pathlib
import sys
import tempfile
from typing import Any

from selenium import webdriver
from selenium.webdriver.common.action_chains import ActionChains
from selenium.webdriver.common.keys import Keys
from selenium.webdriver.support.ui import WebDriverWait

from tests.browser.hall_in_browser import PHONE, WIDE, Walk
from tests.browser.watch_in_browser import SECONDS, browser
from tests.support import halls

EDITOR = 'editor = { languages = ["python", "javascript", "c"], guests = 9 }'
EVIL = "<img src=x onerror='window.evil=1'><script>window.evil = 1</script>"
# whether an element is seen without scrolling
SHOWS = """
const { top, bottom, width } = document.getElementById(arguments[0]).getBoundingClientRect();
return width > 0 && top >= 0 && bottom <= innerHeight;"""
RIGHT = "agent.accuse(ahead)"
WRONG = "agent.accuse(1 - ahead)"


class Writing(Walk):
    """A member of a team who writes."""

    def begin(self, name: str) -> None:
        self.log_in(name)
        self.open("/write")
        self.waits("return editor.current", "agent.py")

    def waits(self, script: str, expectation: Any) -> None:
        """Waits until a script gives what is wanted."""
        results = []

        def holds(_: Any) -> bool:
            results[:] = [self._page.execute_script(script)]
            return bool(results[0] == expectation)

        try:
            WebDriverWait(self._page, SECONDS).until(holds)
        except Exception:
            raise SystemExit(
                f"{script}: {results} and not {expectation!r}: {self.text()}"
            )

    def state(self, word: str) -> None:
        """Waits until a trial has ended so."""
        self.until(word)
        self.waits("return document.getElementById('play').disabled", False)

    def change(self, old: str, new: str) -> int:
        """Changes the agent as one who types does; gives the line."""
        text = str(self._page.execute_script("return editor.mirror.getValue()"))
        line = text[: text.index(old)].count("\n")
        column = len(text[: text.index(old)].rpartition("\n")[2])
        self._page.execute_script(
            "editor.mirror.setSelection({line: arguments[0], ch: arguments[1]},"
            " {line: arguments[0], ch: arguments[2]}); editor.mirror.focus()",
            line,
            column,
            column + len(old),
        )
        self.press(new)
        return line + 1

    def press(self, *keys: str) -> None:
        ActionChains(self._page).send_keys(*keys).perform()

    def run_by_keys(self) -> None:
        chain = ActionChains(self._page).key_down(Keys.CONTROL).send_keys(Keys.ENTER)
        chain.key_up(Keys.CONTROL).perform()

    def save(self) -> None:
        self.waits("return document.getElementById('saved').textContent", "saved")

    def marks(self) -> Any:
        """The lines with a mark."""
        return self._page.execute_script(
            "return editor.marks.map(([, , line]) => line.lineNo() + 1)"
        )

    def first_match(self) -> None:
        """The kit is played, and shown beside its lines."""
        self.find("#play").click()
        self.state("\u2713 solved")
        self.shoot("solved")
        self.waits("return editor.sent.length > 0", True)
        frame = self.find("#watch")
        self._page.switch_to.frame(frame)
        if self._page.execute_script("return document.body.className") != "inside":
            raise SystemExit("the match in the frame does not know that it is inside")
        self._page.switch_to.default_content()

    def mistake(self) -> None:
        """A mistake stands at its line, and its event is shown."""
        line = self.change(RIGHT, WRONG)
        self.save()
        self.run_by_keys()
        self.state("\u2717")
        if line not in self.marks():
            raise SystemExit(f"line {line} is not marked, but {self.marks()}")
        self.wants("leads to a safe node")
        self.shoot("mistake")
        self.find("#explore").click()
        self.state("To mend first")
        self.wants("leads to a safe node")
        self.shoot("explored")

    def earlier(self) -> None:
        """The version that was right is taken back."""
        options = self._page.execute_script(
            "return [...document.getElementById('earlier').options].map((it) =>"
            " [it.value, it.text])"
        )
        number = next(value for value, text in options if "solved" in text)
        self._page.execute_script(
            "const list = document.getElementById('earlier'); list.value = arguments[0];"
            " list.dispatchEvent(new Event('change'))",
            number,
        )
        self.state("\u2713 solved")
        self.waits(f"return editor.mirror.getValue().includes('{RIGHT}')", True)
        self.save()

    def stop(self) -> None:
        self.find("#check").click()
        self.waits("return document.getElementById('stop').hidden", False)
        self.find("#stop").click()
        self.state("stopped")

    def waits_for(self, other: "Writing") -> None:
        """Runs while a program of another member is being tried: it waits, and runs then
        by itself."""
        other.find("#check").click()
        other.until("checks ..")
        self.find("#play").click()
        self.until("waits for its turn: a program of your team is being tried")
        other.find("#stop").click()
        other.state("stopped")
        self.state("\u2713 solved")

    def hand_in(self, folder: pathlib.Path) -> None:
        self.find(".hand-in").click()
        self.until("handed in as")

    def offline(self, is_off: bool) -> None:
        """Takes the network away, or gives it back."""
        values = {"latency": 0, "downloadThroughput": -1, "uploadThroughput": -1}
        self._page.execute_cdp_cmd("Network.enable", {})
        self._page.execute_cdp_cmd(
            "Network.emulateNetworkConditions", {"offline": is_off, **values}
        )

    def lost_network(self) -> None:
        """Text written without a network survives a reload and is saved."""
        self.offline(True)
        self.change("import os", "import os  # offline")
        self.until("not saved yet")
        self.offline(False)
        self._page.refresh()
        self.waits("return editor.mirror.getValue().includes('# offline')", True)
        self.save()

    def log_out(self) -> None:
        """What the hall did not have yet goes to it, and leaves the browser."""
        self.offline(True)
        self.change("import os", "import os  # last")
        self.until("not saved yet")
        self.offline(False)
        self.open("/matches")
        self.waits("return Object.keys(localStorage).length", 1)
        self.find(".who button").click()
        self.waits("return document.querySelector('.who')", None)
        self.waits("return Object.keys(localStorage).length", 0)
        token = self._hall.tokens()["amber"]
        draft = self._hall.ask("GET", "/api/drafts/python", token).json()
        if "# last" not in draft["files"]["agent.py"]:
            raise SystemExit("what was written without a network is lost at log-out")

    def log_in_over(self) -> None:
        """Another team logs in at the same browser without a log-out before: it finds
        nothing there, nothing is lost, and what still comes into the browser goes."""
        self.begin("amber")
        self.offline(True)
        self.change("import os", "import os  # over")
        self.until("not saved yet")
        self.offline(False)
        self.open("/login")
        self.find("input[name=token]").send_keys(self._tokens["birch"])
        self.find("form.login button").click()
        self.until("Your matches")
        self.waits("return Object.keys(localStorage).length", 0)
        token = self._hall.tokens()["amber"]
        draft = self._hall.ask("GET", "/api/drafts/python", token).json()
        if "# over" not in draft["files"]["agent.py"]:
            raise SystemExit("what amber wrote is lost as birch logs in")
        self._page.execute_script("localStorage.setItem('draft amber c', 'secret')")
        self.open("/write")
        self.waits("return Object.keys(localStorage).length", 0)

    def looks(self) -> None:
        """Languages, a dark page, and the way out of the editor by keys."""
        for language, word in (("de", "Starten"), ("fr", "Lancer"), ("en", "Run")):
            self.find(f"button[value={language}]").click()
            self.until(word)
        self.open("/write")
        self.waits("return editor.current", "agent.py")
        scheme = [{"name": "prefers-color-scheme", "value": "dark"}]
        self._page.execute_cdp_cmd("Emulation.setEmulatedMedia", {"features": scheme})
        self.shoot("dark")
        self._page.set_window_size(*PHONE)
        for name in ("play", "language"):
            where = self._page.execute_script(SHOWS, name)
            if not where:
                raise SystemExit(f"a phone does not show {name} at first sight")
        self.wants("begins with the exercises")
        self._page.set_window_size(*WIDE)
        self._page.execute_script("editor.mirror.focus()")
        self.press(Keys.ESCAPE)
        self.waits("return document.activeElement.id", "play")

    def begin_as_guest(self) -> None:
        """Opens an exercise without a token."""
        self._page.delete_all_cookies()
        self.open("/write")
        self.shoot("guest")
        self.find("main form button").click()
        self.waits("return editor.current", "agent.py")
        self.open("/write?language=1-enter-and-look")
        self.waits("return editor.current", "agent.py")
        self.shoot("exercise")
        self.find("#play").click()
        self.state("\u2717 to mend")
        self.wants("your agent never entered")
        self.change(
            "# enter, look, leave", "agent.enter(key)\nagent.look()\nagent.leave()"
        )
        self.run_by_keys()
        self.state("\u2713 right")
        self.wants("Right in its match.", "2. A departure is answered twice")
        self.shoot("done")

    def hostile(self) -> None:
        """What programs say is text: of the source, on whiteboards and in errors."""
        self.change(
            "agent.leave()",
            f"import sys; here = agent.look(); agent.write(here.board, {EVIL!r});"
            f" print({EVIL!r}, file=sys.stderr); raise ValueError({EVIL!r})",
        )
        self.run_by_keys()
        self.state("\u2717")
        self.wants("ValueError: <img src=x")
        self.waits("return window.evil === undefined", True)
        self._page.switch_to.frame(self.find("#watch"))
        self.press(Keys.END)
        self.waits("return window.evil === undefined", True)
        self._page.switch_to.default_content()

    def quiet(self, but: str = "") -> None:
        """Checks that the console has no error except the expected ones."""
        for entry in self._page.get_log("browser"):
            is_error = entry["level"] == "SEVERE"
            if is_error and (not but or but not in entry["message"]):
                raise SystemExit(f"the console says {entry['message']}")


def conflict(first: Writing, other: Writing) -> None:
    """Of two members who write at the same time nobody loses a line."""
    other.begin("amber")
    first.change("import sys", "import sys  # mine")
    first.save()
    other.change("import sys", "import sys  # theirs")
    other.until("somebody of your team has changed it meanwhile")
    other.shoot("conflict")
    other.find("#saved button:last-of-type").click()
    other.save()
    first.open("/write")
    first.waits("return editor.mirror.getValue().includes('# theirs')", True)


def main(program: str, folder: pathlib.Path) -> int:
    os.environ["ARENA_PROGRAM"] = program
    folder.mkdir(parents=True, exist_ok=True)
    with halls.serve_hall(EDITOR) as hall:
        page = browser()
        second: webdriver.Chrome = browser()
        try:
            first = Writing(hall, page, folder)
            other = Writing(hall, second, folder)
            first.begin("amber")
            first.shoot("write")
            first.first_match()
            first.mistake()
            first.earlier()
            first.stop()
            first.hand_in(folder)
            first.quiet()
            first.lost_network()
            first.quiet("ERR_INTERNET_DISCONNECTED")
            conflict(first, other)
            other.quiet("409")
            other.waits_for(first)
            other.quiet("429")
            first.looks()
            first.log_out()
            first.log_in_over()
            first.quiet("ERR_INTERNET_DISCONNECTED")
            first.begin_as_guest()
            first.hostile()
            first.quiet()
        finally:
            page.quit()
            second.quit()
    print("1 passed, 0 failed")
    return 0


if __name__ == "__main__":
    if len(sys.argv) not in (2, 3):
        sys.exit((__doc__ or "").strip())
    shots = sys.argv[2] if len(sys.argv) == 3 else tempfile.mkdtemp()
    sys.exit(main(sys.argv[1], pathlib.Path(shots)))
