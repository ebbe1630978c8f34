"""Plays a match as a person does, on the page of `./arena-lab play`, in headless
Chromium and by the keyboard alone.

    /usr/bin/python3 -m tests.browser.person_in_browser [FOLDER]

Two agents search a ring of four nodes. Until the match is over no answer of the page's
server may tell more than the agents have seen; then the page of the whole match opens.
Screenshots go to the folder, at several widths, light and dark. `tools/nightly`
installs what it needs.
"""
import json
import pathlib
import subprocess
import sys
import tempfile
import urllib.error
import urllib.request
from typing import Any

from selenium.webdriver.common.action_chains import ActionChains
from selenium.webdriver.common.by import By
from selenium.webdriver.common.keys import Keys
from selenium.webdriver.support.ui import WebDriverWait

from examples.contest import free_port
from tests.browser.watch_in_browser import SECONDS, browser, shoot
from tests.support.counts import report_counts

TOP = pathlib.Path(__file__).resolve().parents[2]
# keys that a page may receive about an agent before the match ends
KNOWN = {"standing", "ports", "came", "board", "lines"}


class Person:
    """Who plays by the keyboard."""

    def __init__(self, page: Any) -> None:
        self._page = page

    def press(self, *keys: str) -> None:
        for key in keys:
            ActionChains(self._page).send_keys(key).perform()

    def tab_to(self, name: str) -> None:
        """Goes by the tabulator to the element with this id."""
        for _ in range(60):
            if self._page.switch_to.active_element.get_attribute("id") == name:
                return
            self.press(Keys.TAB)
        sys.exit(f"the tabulator does not lead to {name}")

    def sees(self, text: str, where: str = "where") -> None:
        WebDriverWait(self._page, SECONDS).until(
            lambda it: text in it.find_element(By.ID, where).text,
            f"{text!r} is not seen",
        )


def check_secrets(url: str) -> None:
    """Before the end the server tells what agents have seen, and shows no page of the
    match."""
    by_token = url.replace("?", "{}?")
    with urllib.request.urlopen(by_token.format("seen")) as answer:
        observations = json.load(answer)
    if set(observations) != {"over", "agents"} or any(
        set(agent) != KNOWN for agent in observations["agents"]
    ):
        sys.exit(f"the page is told more than agents see: {observations}")
    try:
        urllib.request.urlopen(by_token.format("match"))
    except urllib.error.HTTPError as fault:
        if fault.code == 404:
            return
    sys.exit("the page of the match opens before its end")


def search(person: Person, url: str) -> None:
    """The first agent enters, writes, and goes into the black hole; the second accuses
    it."""
    person.tab_to("enter")
    person.press(Keys.ENTER)
    person.sees("agent 0", "node")
    person.tab_to("put")
    person.press("gone by 0", Keys.ENTER)
    person.sees("gone by 0", "text")
    person.tab_to("end")
    person.press("0")
    person.sees("nothing is heard of it")
    person.press("t", "t")
    check_secrets(url)
    person.press("n")
    person.tab_to("enter")
    person.press(Keys.ENTER)
    person.sees("gone by 0", "text")
    person.tab_to("end")
    for _ in range(2):
        person.press("1")
        person.sees("nothing is heard of it")
        person.press(*"tttttttttt")
        person.sees("is at a node")


def main() -> int:
    if len(sys.argv) > 2:
        sys.exit((__doc__ or "").strip())
    shots = pathlib.Path(sys.argv[1] if len(sys.argv) == 2 else tempfile.mkdtemp())
    shots.mkdir(parents=True, exist_ok=True)
    port = free_port()
    words = [
        "play",
        "--network",
        "ring:4",
        "--hole",
        "1",
        "--seed",
        "1",
        "--page",
        "--port",
        str(port),
    ]
    server = subprocess.Popen(
        [sys.executable, "-m", "arena_lab", *words],
        cwd=TOP,
        stdout=subprocess.PIPE,
        text=True,
    )
    assert server.stdout is not None
    url = server.stdout.readline().split()[-1]
    page = browser()
    try:
        page.get(url)
        person = Person(page)
        person.sees("has not entered yet")
        search(person, url)
        shoot(page, shots, "play")
        person.press("a")
        person.sees("accuse 1", "ports")
        person.press("1")
        person.sees("has ended")
        person.tab_to("end")
        person.press(Keys.ENTER)
        person.sees("The match is over", "over")
        page.find_element(By.CSS_SELECTOR, "#over a").send_keys(Keys.ENTER)
        WebDriverWait(page, SECONDS).until(
            lambda it: "solved moves 3 lost 1" in it.page_source, "no verdict"
        )
        errors = [
            it for it in page.get_log("browser") if "favicon" not in it["message"]
        ]
        if errors:
            sys.exit(f"the console has {errors}")
    finally:
        page.quit()
        server.terminate()
        server.wait()
    print(f"played by the keyboard alone; screenshots in {shots}")
    return report_counts(1, 0)


if __name__ == "__main__":
    sys.exit(main())
