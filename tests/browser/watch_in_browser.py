"""Shows a contest of the sample agents in headless Chromium while it goes on, and looks
at what the pages say.

    /usr/bin/python3 -m tests.browser.watch_in_browser PROGRAM [FOLDER]

Starts the server PROGRAM and `./arena-lab watch` on examples/contest.toml, plays the
sample agents, and compares the standings with the server's table. Opens a page of a
match once all are over, plays it to its end, and finds no error in the console.
Screenshots go to the folder. `tools/nightly` installs what it needs.
"""
import contextlib
import os
import pathlib
import subprocess
import sys
import tempfile
import time
from typing import List

from selenium import webdriver
from selenium.common.exceptions import WebDriverException
from selenium.webdriver.support.ui import WebDriverWait

from examples import contest
from tests.support.counts import report_counts
from tests.support.servers import Server

TOP = pathlib.Path(__file__).resolve().parents[2]
SIZES = {"wide": (1600, 1000), "tablet": (800, 1000), "phone": (400, 850)}
# how long a page may take, and how often the browser is started
SECONDS = 180
STARTS = 3
# options of `arena serve` and of the page: the turns of a match, and the milliseconds
# between two turns
PLAYED = ("--turns", "20000", "--pause", "2")


def browser(*extra: str) -> webdriver.Chrome:
    options = webdriver.ChromeOptions()
    for word in ("--headless=new", "--no-sandbox", "--disable-gpu", *extra):
        options.add_argument(word)
    options.set_capability(
        "goog:loggingPrefs", {"browser": "ALL", "performance": "ALL"}
    )
    for _ in range(STARTS - 1):
        # on a busy machine Chromium may not answer within the driver's minute
        with contextlib.suppress(WebDriverException):
            return webdriver.Chrome(options=options)
    return webdriver.Chrome(options=options)


def rows(page: webdriver.Chrome) -> List[List[str]]:
    """The cells of each match: number, team, network, outcome, agents, moves, lost.
    Headings have fewer."""
    return page.execute_script(
        "return [...document.querySelectorAll('#rows tr')].map(line => "
        "[...line.children].map(cell => cell.textContent)).filter(row => row.length === 7)"
    )


def shoot(page: webdriver.Chrome, folder: pathlib.Path, name: str) -> None:
    for size, (width, height) in SIZES.items():
        page.set_window_size(width, height)
        page.save_screenshot(str(folder / f"{name}-{size}.png"))
        if page.execute_script(
            "return document.documentElement.scrollWidth > document.documentElement.clientWidth"
        ):
            sys.exit(f"{name}: the page is wider than {width} pixels")
    for scheme in ("dark", "light"):
        page.execute_cdp_cmd(
            "Emulation.setEmulatedMedia",
            {"features": [{"name": "prefers-color-scheme", "value": scheme}]},
        )
        page.save_screenshot(str(folder / f"{name}-{scheme}.png"))


def main() -> int:
    if len(sys.argv) not in (2, 3):
        sys.exit((__doc__ or "").strip())
    program = str(pathlib.Path(sys.argv[1]).resolve())
    shots = pathlib.Path(sys.argv[2] if len(sys.argv) == 3 else tempfile.mkdtemp())
    shots.mkdir(parents=True, exist_ok=True)
    with tempfile.TemporaryDirectory() as name:
        folder = pathlib.Path(name)
        web = contest.free_port()
        subprocess.run(
            ["cc", "-O2", "-o", folder / "ring", contest.AGENTS / "ring.c"], check=True
        )
        server = Server(
            [
                program,
                "serve",
                contest.TOURNAMENT,
                "--sessions",
                100,
                *PLAYED,
                "--replay",
                folder / "m",
                "--gather",
                10_000,
                "--early",
            ]
        )
        watches = [
            sys.executable,
            "-m",
            "arena_lab",
            "watch",
            contest.TOURNAMENT,
            str(folder / "m"),
            "--port",
            str(web),
            *PLAYED,
        ]
        watch = subprocess.Popen(watches, cwd=TOP, stdout=subprocess.PIPE, text=True)
        assert watch.stdout is not None
        address = watch.stdout.readline().split()[-1]
        page = browser()
        try:
            page.get(address)
            WebDriverWait(page, SECONDS).until(lambda it: len(rows(it)) == 4)
            shoot(page, shots, "begins")
            commands = [
                contest.command_of(agent, f"{team}-{number}", server.port, folder)
                for team, members in contest.TEAMS.items()
                for number, agent in enumerate(members)
            ]
            agents = [*map(subprocess.Popen, commands[:-1])]
            # the last match waits for its last agent, so that the page shows it however
            # fast the others are
            size = len([*contest.TEAMS.values()][-1])
            WebDriverWait(page, SECONDS).until(
                lambda it: any(row[4] == f"{size - 1} of {size}" for row in rows(it))
            )
            shoot(page, shots, "runs")
            agents.append(subprocess.Popen(commands[-1]))
            WebDriverWait(page, SECONDS).until(
                lambda it: "4 of 4" in it.find_element("id", "about").text
            )
            shoot(page, shots, "over")
            table = [
                line.split()
                for line in server.wait_for_end().texts()[1].splitlines()[1:]
            ]
            results = sorted(
                [row[1], *row[3].split(), row[5], row[6]] for row in rows(page)
            )
            if results != sorted(row[1:] for row in table):
                sys.exit(f"the page shows {results}, and the table is {table}")
            time.sleep(1)
            page.find_element("css selector", "#rows a").click()
            page.execute_script("document.getElementById('speed').value = '20'")
            page.find_element("id", "play").click()
            WebDriverWait(page, SECONDS).until(
                lambda it: it.find_element("id", "play").text == "Play"
            )
            shoot(page, shots, "reveal")
            errors = [
                entry["message"]
                for entry in page.get_log("browser")
                if entry["level"] == "SEVERE"
            ]
            if any("favicon" not in error for error in errors):
                sys.exit(f"the console says {errors}")
            for agent in agents:
                agent.wait()
        finally:
            page.quit()
            for child in (watch, server.child):
                child.kill()
                child.wait()
    print(f"the standings are those of the table; screenshots are in {shots}")
    return report_counts(1, 0)


if __name__ == "__main__":
    os.chdir(TOP)
    sys.exit(main())
