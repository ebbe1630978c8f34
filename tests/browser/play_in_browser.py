"""Writes agents in headless Chromium on the page that has no server, opened from a file.

    /usr/bin/python3 -m tests.browser.play_in_browser [FOLDER]

- The kit is played under every schedule that the page has, and every schedule is tried.
- A wrong agent is written: its line is marked, a schedule that fails is found and shown.
- An agent is checked that is right on one numbering of ports alone.
- A module is played, searched and checked.
- A link is followed in a fresh profile, and runs nothing. A strange one is refused.
- Agents that never end, print or send without end, or fill the memory are ended.
- The exercises are done, and wrong answers are not called right.
- All at 1200 and 400 pixels, by the keyboard, in three languages, without a network.

Nothing may be requested of another host, and the console must show no error. Screenshots
go to the folder. The last line reads `N passed, M failed`.
"""
import json
import os
import pathlib
import sys
import tempfile
import time
from typing import Any, List

from selenium import webdriver
from selenium.webdriver.common.action_chains import ActionChains
from selenium.webdriver.common.keys import Keys
from selenium.webdriver.support.ui import WebDriverWait

from arena_lab.pages.links import replay_link
from arena_lab.support.built import TOP
from tests.browser.contrast import pale_texts
from tests.browser.play_answers import EXERCISES, WRONG_ANSWERS
from tests.browser.watch_in_browser import browser
from tests.support.counts import report_counts
from tools.play import folder

SECONDS = 120
# a program that never ends is ended within this time; the page's clock is slower on a busy machine
ENDED_WITHIN = 2.0
RIGHT = "if (mine + theirs === nodes - 2)"
WRONG = "if (mine + theirs === nodes - 3)"
ENDLESS = {
    "a loop": "for (;;) { mine = mine; }",
    "a loop without braces": "while (mine < 50) ;",
    "calls without end": "const f = () => { try { f(); } catch { f(); } }; f();",
    "lines without end": "for (;;) agent.look();",
    "text without end": 'for (;;) console.log("x".repeat(1e6));',
    "memory": "const all = []; for (;;) all.push(new Array(1e6).fill(1));",
}
AFTER = "        mine += 1;\n"
# goes on by a port of its own number, as if both ends of a link had the same
ONWARDS = "here = await agent.depart(1 - here.came);"
BY_NUMBER = "here = await agent.depart(port);"
# what a stranger may put into a link
STRANGE_LINKS = (
    "null",
    "{version: 2, start: 'javascript', files: {}, fields: {}}",
    "{version: 1, start: 'python', files: {}, fields: {}}",
    "{version: 1, start: 'javascript', files: {'../x': ''}, fields: {}}",
    "{version: 1, start: 'javascript', files: JSON.parse('{\"__proto__\": \"\"}'), fields: {}}",
    "{version: 1, start: 'javascript', files: {'careful.js': 7}, fields: {}}",
    "{version: 1, start: 'javascript', files: {}, fields: {network: 'ring:99999999'}}",
    "{version: 1, start: 'javascript', files: {}, fields: {play: 'x'}}",
    "{version: 1, start: 'javascript', files: null, fields: {}}",
)
# what fields refuse that a link may fill, and a part of the sentence
STRANGE_FIELDS = (
    ("agents", "1000000000", "1 to 64 agents"),
    ("text", "nodes = 999999999\nlinks = [[0,0,1,0]]", "at most 4096 nodes"),
    ("text", "nodes = 3\nlinks = [[0,0,7000,0]]", "link 0 is no [v, p, w, q]"),
    ("text", "nodes = 3\nlinks = [[0,0,", "`nodes = N` and `links"),
)
NETWORK = "version = 1\nnodes = 3\nlinks = [[0,0,1,0],[1,1,2,0],[2,1,0,1]]\n"
UNNAMED = """
const controls = [...document.querySelectorAll('button, select, input, textarea, iframe')];
return controls.filter((one) =>
    one.offsetParent !== null && !(one.textContent.trim() || one.labels?.length || one.getAttribute('aria-label')))
    .map((one) => one.outerHTML.slice(0, 80))"""


# texts whose contrast with the background is below 4.5, the limit of WCAG 2.1 AA
class Counts:
    """Counts the checks that passed and failed, and prints each failure."""

    def __init__(self) -> None:
        self.passed = 0
        self.failed = 0

    def check(self, name: str, holds: bool, details: object = "") -> None:
        self.passed += bool(holds)
        self.failed += not holds
        if not holds:
            print(f"FAILED {name}: {details}", flush=True)


class Page:
    """The page in a browser."""

    def __init__(self, driver: webdriver.Chrome, address: str) -> None:
        self.driver = driver
        self.address = address

    def open(self, fragment: str = "") -> None:
        self.driver.get("about:blank")
        self.driver.get(self.address + fragment)
        self.wait(
            "return typeof editor !== 'undefined' && Object.keys(editor.docs).length > 0"
        )

    def wait(self, script: str) -> None:
        WebDriverWait(self.driver, SECONDS, poll_frequency=0.05).until(
            lambda _: self.js(script)
        )

    def js(self, script: str, *given: object) -> Any:
        return self.driver.execute_script(script, *given)

    def choose(self, field: str, value: str) -> None:
        self.js(
            "const one = byId(arguments[0]); one.value = arguments[1]; one.dispatchEvent(new Event('change'))",
            field,
            value,
        )

    def source(self) -> str:
        return str(self.js("return editor.mirror.getValue()"))

    def change(self, old: str, new: str) -> int:
        """Changes the program; returns the line of the change."""
        text = self.source()
        if old not in text:
            raise SystemExit(f"the program has no {old!r}")
        self.js("editor.mirror.setValue(arguments[0])", text.replace(old, new, 1))
        return text[: text.index(old)].count("\n") + 1

    def run(self, button: str = "play") -> str:
        """Plays the program; returns the last state that the page shows."""
        self.js("byId(arguments[0]).click()", button)
        self.wait("return !byId('play').disabled")
        return str(self.js("return byId('state').textContent"))

    def messages(self) -> List[str]:
        return list(
            self.js("return [...byId('said').children].map((one) => one.textContent)")
        )

    def marks(self) -> List[List[Any]]:
        return list(
            self.js(
                "return editor.marks.map(([, widget, line]) => [line.lineNo() + 1, widget.node.textContent])"
            )
        )

    def anew(self) -> None:
        """Gives up what is written, and begins with the kit."""
        self.js("begin(textsOf(startNow()))")

    def kit(self) -> None:
        self.js("localStorage.clear()")
        self.open()
        self.choose("start", "javascript")

    def replay(self, script: str) -> Any:
        """What a script gives in the page of the match."""
        self.driver.switch_to.frame(self.driver.find_element("id", "watch"))
        try:
            return self.js(script)
        finally:
            self.driver.switch_to.default_content()


def plays(page: Page, counts: Counts) -> None:
    """The kit is played and explored."""
    start = time.monotonic()
    page.open()
    state = page.run()
    counts.check("the first replay", state.startswith("\u2713 solved"), state)
    print(f"{time.monotonic() - start:.1f} s from the address to the first replay")
    page.wait("return !byId('watch').hidden")
    WebDriverWait(page.driver, SECONDS).until(
        lambda _: page.replay("return document.querySelectorAll('#eyes option').length")
        == 3
    )
    for scheduler in page.js("return SCHEDULERS"):
        page.choose("scheduler", scheduler)
        state = page.run()
        counts.check(scheduler, state.startswith("\u2713 solved"), state)
    page.js("byId('held').value = '0.1'")
    state = page.run()
    # nobody arrives over it, so the other agent cannot know
    counts.check("a held link", state.startswith("\u2717 silent"), state)
    page.js("byId('held').value = ''")
    for small in ("ring:3", "ring:4", "ring:5"):
        page.choose("small", small)
        state = page.run("explore")
        counts.check(
            f"every schedule of {small}",
            state.startswith("\u2713 every schedule solves"),
            state,
        )
    page.choose("network", "own")
    page.js("byId('text').value = arguments[0]", NETWORK)
    state = page.run()
    counts.check("a network from a text", state.startswith("\u2713 solved"), state)
    page.js("byId('text').value = arguments[0]", NETWORK.replace(",[2,1,0,1]", ""))
    state = page.run()
    counts.check("a network that is none", state.startswith("\u2717"), state)


def fails(page: Page, counts: Counts) -> None:
    """A wrong agent is marked, and so is a file that is no network."""
    page.kit()
    page.change(RIGHT, WRONG)
    state = page.run()
    marks = page.marks()
    counts.check(
        "a wrong accusation",
        state.startswith("\u2717") and any("safe node" in text for _, text in marks),
        (state, marks),
    )
    page.choose("small", "ring:4")
    state = page.run("explore")
    counts.check(
        "a schedule that fails", state.startswith("\u2717 a schedule fails"), state
    )
    counts.check(
        "its turns are told",
        any("The turns of the agents" in text for text in page.messages()),
        page.messages(),
    )
    counts.check("its line is marked", len(page.marks()) > 0, page.marks())
    page.anew()
    line = page.change('if (here.board !== "")', 'if (here.board !== ""')
    state = page.run()
    counts.check(
        "a misspelled text",
        [line] == [mark[0] for mark in page.marks()],
        (line, state, page.marks()),
    )
    page.anew()
    page.change("agent.depart(ahead);", "agent.depart(7);")
    state = page.run()
    counts.check(
        "a port that is not there",
        any("no such port" in text for _, text in page.marks()),
        page.marks(),
    )


def checks(page: Page, counts: Counts) -> None:
    """The kit passes a check; an agent that trusts in the numbers of ports does not,
    though it solves the match that is chosen."""
    page.kit()
    state = page.run("check")
    messages = page.messages()
    counts.check("the kit is checked", state.startswith("\u2713"), (state, messages))
    counts.check(
        "what is left out is told", "Left out: " in messages[-1], messages[-1:]
    )
    page.kit()
    page.change(ONWARDS, BY_NUMBER)
    state = page.run()
    counts.check("a plain ring is solved", state.startswith("\u2713"), state)
    state = page.run("check")
    counts.check(
        "drawn ports are not",
        state.startswith("\u2717") and "ring:" in page.messages()[0],
        (state, page.messages()),
    )


def modules(page: Page, counts: Counts) -> None:
    """A module that was built elsewhere is played, searched and checked; a file that is
    none is refused."""
    page.kit()
    page.choose("start", "module")
    state = page.run()
    counts.check("without a file", "module (.wasm)?" in state, state)
    upload = page.driver.find_element("id", "file")
    upload.send_keys(str(TOP / "examples" / "triangle.toml"))
    page.wait("return byId('file-name').textContent !== ''")
    state = page.run()
    counts.check("a file that is no module", state.startswith("\u2717"), state)
    upload.send_keys(str(TOP / "examples" / "agents" / "wasm" / "ring.wasm"))
    page.wait("return byId('file-name').textContent.startsWith('ring.wasm')")
    for small, button in (("", "play"), ("ring:4", "explore"), ("", "check")):
        if small:
            page.choose("small", small)
        state = page.run(button)
        counts.check(f"a module: {button}", state.startswith("\u2713"), state)


def ends(page: Page, counts: Counts) -> None:
    """Programs that never end, and that fill what they can."""
    for name, text in ENDLESS.items():
        page.kit()
        page.js("loading.then(() => { window.isLoaded = true; })")
        page.wait("return window.isLoaded")
        page.change(AFTER, f"{AFTER}        {text}\n")
        start = time.monotonic()
        page.js("byId('play').click()")
        alive = page.js("return 1 + 1") == 2
        page.wait("return !byId('play').disabled")
        took = time.monotonic() - start
        state = page.js("return byId('state').textContent")
        messages = [state, *page.messages()]
        counts.check(f"{name}: the page lives", alive)
        if os.getloadavg()[0] < (os.cpu_count() or 1):
            counts.check(f"{name} is ended soon", took < ENDED_WITHIN, took)
        print(f"{name}: ended after {took:.1f} s: {messages[:2]}", flush=True)
        counts.check(
            f"{name} is ended",
            not state.startswith("\u2713") or name == "text without end",
            messages,
        )


def shares(page: Page, counts: Counts, fresh: Page) -> None:
    """A link in a fresh profile."""
    page.kit()
    page.change("const boardOf", "// of a link \u2665\nconst boardOf")
    page.choose("scheduler", "slow-links")
    page.js("share()")
    page.wait("return location.hash.length > 2")
    fragment = page.js("return location.hash")
    counts.check("a link is short", len(fragment) < 8000, len(fragment))
    fresh.open(fragment)
    fresh.wait("return byId('saved').textContent === words.from_link")
    counts.check("its text is there", "of a link \u2665" in fresh.source())
    counts.check(
        "its fields are there",
        fresh.js("return byId('scheduler').value") == "slow-links",
    )
    counts.check(
        "nothing of it has run", fresh.js("return byId('state').textContent") == ""
    )
    counts.check("it runs", fresh.run().startswith("\u2713 solved"))
    for strange in (
        "#damaged",
        "#" + "A" * 300000,
        "#%3Cscript%3E",
        f"{fragment[:-9]}",
    ):
        fresh.open(strange)
        fresh.wait("return byId('saved').textContent === words.bad_link")
        counts.check(
            f"{strange[:20]} is refused",
            fresh.js("return byId('state').textContent") == "",
        )
    refuses(fresh, counts)
    replays(fresh, counts)


def replays(page: Page, counts: Counts) -> None:
    """A replay in a link is shown, and nothing else of it is taken."""
    text = (TOP / "examples" / "first0.jsonl").read_bytes()
    link = replay_link(page.address, text)
    counts.check("a replay is a short link", len(link) < 2000, len(link))
    page.open(link[len(page.address) :])
    page.wait("return byId('state').className !== ''")
    state = page.js("return byId('state').textContent")
    counts.check("a replay is judged", state.startswith("\u2713 solved"), state)
    WebDriverWait(page.driver, SECONDS).until(
        lambda _: page.replay("return document.querySelectorAll('#eyes option').length")
        == 3
    )
    for strange in (b"", b"x", b'{"nodes":3}\n', text[:-20], text.replace(b"5", b"7")):
        page.open("#" + replay_link("", strange)[1:])
        page.wait("return byId('state').className !== ''")
        state = page.js("return byId('state').textContent")
        counts.check(
            f"{strange[:20]!r} is no replay", "this is no replay: " in state, state
        )


def refuses(page: Page, counts: Counts) -> None:
    """Links of a stranger, and fields that a link fills: each is refused by a sentence."""
    for strange in STRANGE_LINKS:
        fragment = page.driver.execute_async_script(
            f"fragmentOf({strange}).then(arguments[arguments.length - 1])"
        )
        page.open(f"#{fragment}")
        page.wait("return byId('saved').textContent === words.bad_link")
        counts.check(
            f"{strange} is refused", page.js("return byId('state').textContent") == ""
        )
    page.open()
    page.js("begin(textsOf(startNow()))")
    for field, value, sentence in STRANGE_FIELDS:
        page.choose("network", "own" if field == "text" else "ring:8")
        old = page.js("return byId(arguments[0]).value", field)
        page.js("byId(arguments[0]).value = arguments[1]", field, value)
        state = page.run()
        counts.check(f"{field} {value[:20]}", sentence in state, state)
        page.js("byId(arguments[0]).value = arguments[1]", field, old)


def exercises(page: Page, counts: Counts) -> None:
    """Each exercise fails with its first program and passes with the mended one."""
    for name, changes in EXERCISES.items():
        page.kit()
        page.choose("start", name)
        state = page.run()
        counts.check(f"{name}, as it begins", state.startswith("\u2717"), state)
        counts.check(f"{name}: what is wrong is told", page.messages() != [])
        # the first program of this one is right in the matches that are played
        if name == "9-every-schedule":
            counts.check(f"{name}: the schedule", "a schedule fails" in state, state)
        for old, new in changes.items():
            page.change(old, new)
        state = page.run()
        counts.check(
            f"{name}, {'done' if changes else 'still'}",
            state.startswith("\u2713" if changes else "\u2717"),
            (state, page.messages()),
        )
    for name, old, new, sentence in WRONG_ANSWERS:
        page.kit()
        page.choose("start", name)
        page.change(old, new)
        state = page.run()
        counts.check(
            f"{name}, by {new or 'less'}",
            state.startswith("\u2717") and sentence in "".join(page.messages()),
            (state, page.messages()),
        )
    page.kit()
    names = page.js(
        "return EXERCISES.map((one) => [one.name, Boolean(one.title && one.text && one.hint)])"
    )
    counts.check(
        "all exercises are there", names == [[name, True] for name in EXERCISES], names
    )


def is_usable(page: Page, counts: Counts) -> None:
    """The keyboard, names, contrast and languages."""
    page.kit()
    page.js("editor.mirror.focus()")
    chain = ActionChains(page.driver).key_down(Keys.CONTROL).send_keys(Keys.ENTER)
    chain.key_up(Keys.CONTROL).perform()
    page.wait("return byId('state').textContent.startsWith('\\u2713')")
    page.js("editor.mirror.focus()")
    ActionChains(page.driver).send_keys(Keys.ESCAPE).perform()
    counts.check(
        "Esc leaves the editor", page.js("return document.activeElement.id") == "play"
    )
    counts.check("each control has a name", page.js(UNNAMED) == [], page.js(UNNAMED))
    for scheme in ("dark", "light"):
        features = [{"name": "prefers-color-scheme", "value": scheme}]
        page.driver.execute_cdp_cmd(
            "Emulation.setEmulatedMedia", {"features": features}
        )
        pale = pale_texts(page.driver)
        counts.check(f"{scheme}: contrast", pale == [], pale)
    for tongue, word in (("de", "Starten"), ("fr", "Lancer"), ("en", "Run")):
        page.choose("tongue", tongue)
        counts.check(tongue, word in page.js("return byId('play').textContent"))
        counts.check(
            f"{tongue}: every word",
            page.js(
                "return [...document.querySelectorAll('[data-word]')].every((one) => one.textContent.length > 1)"
            ),
        )


def is_narrow(page: Page, counts: Counts, shots: pathlib.Path) -> None:
    """A phone of 400 pixels."""
    metrics = {"width": 400, "height": 850, "deviceScaleFactor": 1, "mobile": True}
    page.driver.execute_cdp_cmd("Emulation.setDeviceMetricsOverride", metrics)
    page.kit()
    counts.check("a phone plays", page.run().startswith("\u2713 solved"))
    page.js("byId('match').open = true")
    width = page.js("return document.documentElement.scrollWidth")
    counts.check("no wider than 400 pixels", width <= 400, width)
    page.driver.save_screenshot(str(shots / "play-400.png"))
    page.js("byId('play').scrollIntoView()")
    time.sleep(1)
    page.driver.save_screenshot(str(shots / "play-400-match.png"))
    page.driver.execute_cdp_cmd("Emulation.clearDeviceMetricsOverride", {})


def requests_of(driver: webdriver.Chrome) -> List[str]:
    """The addresses that the page requested."""
    messages = [
        json.loads(line["message"])["message"] for line in driver.get_log("performance")
    ]
    return [
        message["params"]["request"]["url"]
        for message in messages
        if message["method"] == "Network.requestWillBeSent"
    ]


def is_offline(
    driver: webdriver.Chrome, page_folder: pathlib.Path, counts: Counts
) -> None:
    """Nothing was requested but the page's own files, and no error was shown."""
    prefixes = (page_folder.as_uri(), "blob:", "data:", "about:", "chrome:")
    away = [
        address for address in requests_of(driver) if not address.startswith(prefixes)
    ]
    counts.check("nothing is requested of another host", away == [], away)
    errors = [
        line["message"]
        for line in driver.get_log("browser")
        if line["level"] == "SEVERE"
    ]
    # agents that end by a fault are told by the browser, too
    errors = [line for line in errors if "blob:" not in line]
    counts.check("no error in the console", errors == [], errors)


def main() -> int:
    if len(sys.argv) > 2 or sys.argv[1:] in (["-h"], ["--help"]):
        sys.exit((__doc__ or "").strip())
    shots = pathlib.Path(sys.argv[1] if len(sys.argv) > 1 else "tests/out/play")
    shots.mkdir(parents=True, exist_ok=True)
    counts = Counts()
    with tempfile.TemporaryDirectory(prefix="play-") as name:
        page_folder = pathlib.Path(name)
        folder.write(page_folder)
        drivers = [browser("--window-size=1200,900"), browser("--window-size=1200,900")]
        try:
            for driver in drivers:
                driver.set_script_timeout(SECONDS)
                driver.execute_cdp_cmd("Network.enable", {})
                offline = {
                    "offline": True,
                    "latency": 0,
                    "downloadThroughput": 0,
                    "uploadThroughput": 0,
                }
                driver.execute_cdp_cmd("Network.emulateNetworkConditions", offline)
            page, fresh = [
                Page(driver, (page_folder / "index.html").as_uri())
                for driver in drivers
            ]
            plays(page, counts)
            fails(page, counts)
            checks(page, counts)
            modules(page, counts)
            time.sleep(1)
            page.driver.save_screenshot(str(shots / "play-1200.png"))
            ends(page, counts)
            shares(page, counts, fresh)
            exercises(page, counts)
            is_usable(page, counts)
            is_narrow(page, counts, shots)
            for driver in drivers:
                is_offline(driver, page_folder, counts)
        finally:
            for driver in drivers:
                driver.quit()
    return report_counts(counts.passed, counts.failed)


if __name__ == "__main__":
    sys.exit(main())
