"""Opens pages of matches in headless Chromium and compares them with the replays.

    /usr/bin/python3 -m tests.browser.match_in_browser [FOLDER]

Steps each page to its end, compares each step's line with the replay and the last with
`arena judge`, looks through the eyes of agents, and finds no error in the console.
Screenshots go to the folder. The last line reads `N passed, M failed`: of what was
compared. `tools/nightly` installs what it needs.
"""
import pathlib
import random
import subprocess
import sys
import tempfile
import time
from typing import List

from selenium.webdriver.common.keys import Keys

from arena_lab.rules.engines import program_output, program_at
from arena_lab.rules.model import Match, Setup
from arena_lab.rules.networks import hypercube
from bench import replays
from tests.browser.watch_in_browser import browser
from tests.support.counts import report_counts
from tests.support.matches import MAP, RING, fixture, play_fixture, ring_fixture

TOP = pathlib.Path(__file__).resolve().parents[2]
WIDE = (1200, 1000)
PHONE = (390, 844)
SECONDS_TO_OPEN = 10
MILLISECONDS_OF_A_STEP = 50
HOSTILE = [
    "</script><script>document.title='broken'</script>",
    "<b>bold</b> & \"quotes\" 'more' {{title}} {{data}}",
    "right \u202eto left\u202c \u05e9\u05dc\u05d5\u05dd",
    "nul \u0000 bell \u0007 delete \u007f next \u0085 line \u2028 end",
    "zero\u200bwidth \ufeff \U000e0041 \U0001f600",
    "\\u{202e} ${1} `x`",
]


def cube_replay() -> str:
    """Five agents with a map on the hypercube."""
    return play_fixture(fixture(hypercube(4), 11, 5), MAP, 3).replay.decode()


def dark_replay() -> str:
    """Two black holes and a dark link on a ring of six nodes with a chord, and agents
    that end in every way."""
    links = [(v, 0, (v + 1) % 6, 1) for v in range(6)] + [(0, 2, 3, 2)]
    match = Match(Setup(6, links, 0, [2, 5], 6, 20, 40, [(3, 2)]))
    for agent in range(5):
        match.reply_to(agent, {"do": "enter"})
    for agent, port in ((0, 0), (1, 1), (2, 2), (3, 0)):
        match.reply_to(
            agent,
            {"do": "write", "expect": "", "put": f"port {port} was tried by {agent}"},
        )
        match.reply_to(agent, {"do": "depart", "port": port})
        match.deliver(agent)
    match.reply_to(0, {"do": "depart", "port": 0})
    match.deliver(0)
    match.reply_to(0, {"do": "look"})
    match.reply_to(3, {"do": "write", "expect": "?", "put": "x" * 41})
    match.reply_to(3, {"do": "bad"})
    match.reply_to(3, {"do": "depart", "port": 7})
    match.reply_to(3, {"do": "accuse", "port": 0})
    match.reply_to(4, {"do": "leave"})
    match.close()
    return match.replay()


def hostile_replay() -> str:
    """Whiteboards with texts that would break a careless page."""
    match = Match(
        Setup(3, [(0, 0, 1, 0), (1, 1, 2, 0), (2, 1, 0, 1)], 0, [2], 2, 100, 400)
    )
    match.reply_to(0, {"do": "enter"})
    match.reply_to(1, {"do": "enter"})
    board = ""
    for text in HOSTILE:
        match.reply_to(0, {"do": "write", "expect": board, "put": text})
        match.reply_to(1, {"do": "look"})
        match.reply_to(1, {"do": "write", "expect": text + "\u202e", "put": ""})
        board = text
    match.reply_to(0, {"do": "depart", "port": 0})
    match.deliver(0)
    match.reply_to(0, {"do": "write", "expect": "", "put": HOSTILE[0]})
    match.close()
    return match.replay()


class Browser:
    """Chromium, the pages that it opens and what went wrong."""

    def __init__(self, folder: pathlib.Path, pictures: pathlib.Path) -> None:
        self.driver = browser("--force-device-scale-factor=1")
        self.folder = folder
        self.pictures = pictures
        self.faults: List[str] = []
        self.right = 0

    def check(self, right: bool, what: str) -> None:
        self.right += right
        if not right:
            self.faults.append(what)
            print(f"FAULT {what}", flush=True)

    def open(self, page: pathlib.Path) -> None:
        self.driver.get(page.as_uri())

    def text(self, element: str) -> str:
        return self.driver.execute_script(
            "return document.getElementById(arguments[0]).textContent", element
        )

    def press(self, *keys: str) -> None:
        self.driver.find_element("tag name", "body").send_keys(*keys)

    def look(self, agent: int) -> None:
        self.driver.execute_script("look(arguments[0])", agent)

    def size(self, size: tuple, dark: bool = False) -> None:
        """Resizes the window. The page's width is set too, because a window may refuse
        the size."""
        width, height = size
        values = {
            "width": width,
            "height": height,
            "deviceScaleFactor": 1,
            "mobile": width < 500,
        }
        self.driver.execute_cdp_cmd("Emulation.setDeviceMetricsOverride", values)
        scheme = [
            {"name": "prefers-color-scheme", "value": "dark" if dark else "light"}
        ]
        self.driver.execute_cdp_cmd("Emulation.setEmulatedMedia", {"features": scheme})

    def picture(self, name: str) -> None:
        path = self.pictures / f"{name}.png"
        self.driver.save_screenshot(str(path))
        wide = self.driver.execute_script(
            "return document.documentElement.scrollWidth > window.innerWidth"
        )
        self.check(not wide, f"{name}: the page is wider than its window")

    def console(self, name: str) -> None:
        for entry in self.driver.get_log("browser"):
            self.check(False, f"{name}: the console says {entry['message']}")


def page_of(browser: Browser, name: str, replay: str, *words: str) -> pathlib.Path:
    """Writes the replay and its page."""
    source = browser.folder / f"{name}.jsonl"
    source.write_text(replay, encoding="utf-8", newline="\n")
    page = browser.folder / f"{name}.html"
    tool = [
        sys.executable,
        "-m",
        "arena_lab",
        "page",
        str(source),
        "--out",
        str(page),
        *words,
    ]
    subprocess.run(tool, cwd=TOP, check=True)
    return page


def judge_page(browser: Browser, name: str) -> str:
    return program_output(
        program_at(None), "judge", str(browser.folder / f"{name}.jsonl")
    ).strip()


def steps(browser: Browser, name: str, replay: str) -> None:
    """Each step shows the replay's line, and the page the verdict."""
    lines = replay.split("\n")[1:-2]
    view = browser.driver.execute_script(
        "return arguments[0].map((line) => shown(line))", lines
    )
    browser.check(
        browser.text("count") == f"event 0 of {len(lines)}"
        and "Play" in browser.text("says"),
        f"{name} opens at {browser.text('count')}: {browser.text('says')}",
    )
    for index, line in enumerate(view, 1):
        browser.press(Keys.ARROW_RIGHT)
        browser.check(
            browser.text("line") == line,
            f"{name}: event {index} is shown as {browser.text('line')}",
        )
    browser.check(
        browser.text("count") == f"event {len(lines)} of {len(lines)}",
        f"{name}: {browser.text('count')}",
    )
    browser.check(
        browser.text("verdict") == f"Verdict: {judge_page(browser, name)}.",
        f"{name}: {browser.text('verdict')}",
    )


def matches(browser: Browser, name: str, replay: str, agent: int = 1) -> None:
    """One page: all steps, then pictures of the whole and through the eyes of an agent
    that plays."""
    browser.size(WIDE)
    browser.open(page_of(browser, name, replay))
    steps(browser, name, replay)
    browser.picture(f"{name}-end")
    browser.press(Keys.HOME)
    browser.check(
        browser.text("count").startswith("event 0 "),
        f"{name}: Home leads to {browser.text('count')}",
    )
    browser.look(agent)
    browser.press("n")
    browser.check(
        browser.text("past").startswith("\u25cf"),
        f"{name}: N leads to {browser.text('past')}",
    )
    browser.press(Keys.END)
    browser.picture(f"{name}-eyes")
    browser.size(PHONE, dark=True)
    browser.look(agent)
    browser.picture(f"{name}-phone-eyes")
    browser.look(-1)
    browser.picture(f"{name}-phone")
    browser.check(
        browser.driver.title == f"{name}.jsonl",
        f"{name}: the title is {browser.driver.title}",
    )
    browser.console(name)


def twins(browser: Browser) -> None:
    """A guess and its twin: each agent's eyes see the same in both at each step."""
    ring = Match(
        Setup(8, [(v, 0, (v + 1) % 8, 1) for v in range(8)], 0, [5], 2, 100, 64)
    )
    for agent, port, count in ((0, 0, 3), (1, 1, 2)):
        ring.reply_to(agent, {"do": "enter"})
        for _ in range(count):
            ring.reply_to(
                agent,
                {"do": "write", "expect": "", "put": f"{agent} went on by {port}"},
            )
            ring.reply_to(agent, {"do": "depart", "port": port})
            ring.deliver(agent)
    ring.reply_to(0, {"do": "depart", "port": 0})
    ring.reply_to(1, {"do": "accuse", "port": 1})
    ring.close()
    browser.size(WIDE)
    browser.open(page_of(browser, "twin", ring.replay(), "--twin", "4"))
    last = int(browser.driver.execute_script("return last"))
    for agent in (0, 1):
        browser.look(agent)
        browser.press(Keys.HOME)
        for index in range(1, last + 1):
            browser.press(Keys.ARROW_RIGHT)
            browser.check(
                browser.text("same") == "Both pictures are the same.",
                f"twin: agent {agent} at {index}",
            )
    browser.picture("twin-eyes")
    browser.look(-1)
    browser.picture("twin-whole")
    browser.size(PHONE)
    browser.look(1)
    browser.picture("twin-phone")
    browser.console("twin")


def largest(browser: Browser) -> None:
    """The largest log that the limits allow opens, and steps within a tenth of a
    second."""
    source = browser.folder / "source.jsonl"
    with open(source, "w", encoding="utf-8") as out:
        replays.write_replay(out, replays.hole_of_moves(1000), replays.moves(1000))
    start = time.monotonic()
    page = page_of(browser, "largest", source.read_text(encoding="utf-8"))
    writing = time.monotonic()
    browser.size(WIDE)
    browser.open(page)
    opened_value = time.monotonic()
    rng = random.Random(1)
    places = [rng.randrange(128_129) for _ in range(100)] + list(range(5000, 5100))
    times = sorted(
        browser.driver.execute_script(
            "return arguments[0].map((to) => { const at = performance.now(); go(to); return performance.now() - at; })",
            places,
        )
    )
    print(
        f"largest: {page.stat().st_size} bytes, written in {writing - start:.1f} s, "
        f"opened in {opened_value - writing:.1f} s; 200 steps, half of them far: median {times[100]:.1f} ms, "
        f"at most {times[-1]:.1f} ms"
    )
    browser.check(opened_value - writing < SECONDS_TO_OPEN, "largest: it opens slowly")
    browser.check(times[100] < MILLISECONDS_OF_A_STEP, "largest: it steps slowly")
    browser.picture("largest")
    browser.look(3)
    browser.picture("largest-eyes")
    browser.console("largest")


def course(browser: Browser) -> None:
    """The league table of the example course and pages of its teams, all links of which
    lead to files."""
    out = browser.folder / "course"
    words = [
        sys.executable,
        "-m",
        "arena_lab",
        "grade",
        "examples/course/course.toml",
        "--out",
        str(out),
    ]
    subprocess.run(words, cwd=TOP, check=True, stdout=subprocess.DEVNULL)
    for name in ("league", "team-cedar", "team-amber"):
        for view, size, dark in (
            ("light", WIDE, False),
            ("dark", WIDE, True),
            ("phone", PHONE, False),
        ):
            browser.size(size, dark)
            browser.open(out / f"{name}.html")
            browser.picture(f"{name}-{view}")
        for link in browser.driver.execute_script(
            "return [...document.links].map((link) => link.pathname)"
        ):
            browser.check(
                pathlib.Path(link).is_file(),
                f"{name}: a link leads to {link}, and there is no such file",
            )
        browser.console(name)


def refuse_replay(browser: Browser) -> None:
    """A replay that is cut is refused with the line and the status of `arena judge`,
    and no page is written."""
    source = browser.folder / "cut.jsonl"
    source.write_text(
        "".join(line + "\n" for line in dark_replay().split("\n")[:-2]),
        encoding="utf-8",
    )
    tool = [sys.executable, "-m", "arena_lab", "page", str(source)]
    result = subprocess.run(tool, cwd=TOP, stderr=subprocess.PIPE, text=True)
    is_said = result.stderr.startswith(f"{source}: end: ")
    right = (
        result.returncode == 3 and is_said and not source.with_suffix(".html").exists()
    )
    browser.check(right, f"cut: status {result.returncode}, {result.stderr}")


def main() -> int:
    pictures = pathlib.Path(sys.argv[1] if len(sys.argv) == 2 else tempfile.mkdtemp())
    pictures.mkdir(parents=True, exist_ok=True)
    with tempfile.TemporaryDirectory() as name:
        browser = Browser(pathlib.Path(name), pictures)
        try:
            matches(
                browser,
                "ring",
                play_fixture(
                    ring_fixture(8, 5, random.Random(1)), RING, 5
                ).replay.decode(),
            )
            matches(browser, "cube", cube_replay())
            matches(browser, "dark", dark_replay())
            matches(browser, "hostile", hostile_replay())
            for example in ("first0", "guess0", "triangle0"):
                matches(
                    browser,
                    example,
                    (TOP / "examples" / f"{example}.jsonl").read_text(encoding="utf-8"),
                    agent=0,
                )
            twins(browser)
            largest(browser)
            refuse_replay(browser)
            course(browser)
        finally:
            browser.driver.quit()
    print(f"pictures are in {pictures}")
    return report_counts(browser.right, len(browser.faults))


if __name__ == "__main__":
    sys.exit(main())
