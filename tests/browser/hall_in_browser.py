"""Goes through a hall in headless Chromium as a team, as another team and as the
teacher, and looks at what pages say.

    /usr/bin/python3 -m tests.browser.hall_in_browser PROGRAM [FOLDER]

Logs in by a token, practises, watches the match afterwards, hands in a program, and
looks at the standings before and after they freeze, in three languages, on a projector
and on a phone. Finds no error in the console. Screenshots go to the folder.
`tools/nightly` installs what it needs.
"""
import datetime
import os
import pathlib
import sys
import tempfile
import time
from typing import Any, List

from selenium import webdriver
from selenium.webdriver.support.ui import WebDriverWait

from arena_lab.hall import packing
from tests.browser.contrast import pale_texts
from tests.browser.watch_in_browser import SECONDS, browser
from tests.support import halls

WIDE = (1200, 900)
PHONE = (400, 850)


class Walk:
    """A walk through a hall."""

    def __init__(
        self, hall: halls.ServedHall, page: webdriver.Chrome, shots: pathlib.Path
    ) -> None:
        self._hall = hall
        self._page = page
        self._shots = shots
        self._tokens = hall.tokens()
        self._address = f"http://127.0.0.1:{hall.port}"

    def open(self, path: str) -> None:
        self._page.get(self._address + path)

    def find(self, what: str) -> Any:
        return self._page.find_element("css selector", what)

    def text(self) -> str:
        return str(self.find("body").text)

    def until(self, says: str) -> None:
        """Waits until the page says something; it may be loaded again meanwhile."""
        WebDriverWait(self._page, SECONDS, ignored_exceptions=[Exception]).until(
            lambda _: says in self.text()
        )

    def wants(self, *texts: str) -> None:
        for it in texts:
            if it not in self.text():
                raise SystemExit(
                    f"{self._page.current_url} does not say {it!r}: {self.text()}"
                )

    def shoot(self, name: str) -> None:
        """Screenshots; a page is not wider than a phone."""
        for size, (width, height) in (("phone", PHONE), ("wide", WIDE)):
            self._page.set_window_size(width, height)
            self._page.save_screenshot(str(self._shots / f"{name}-{size}.png"))
            if self._page.execute_script(
                "return document.documentElement.scrollWidth > window.innerWidth"
            ):
                raise SystemExit(f"{name}: the page is wider than {width} pixels")

    def log_in(self, name: str) -> None:
        self._page.delete_all_cookies()
        self.open("/login")
        self.find("input[name=token]").send_keys(self._tokens[name])
        self.find("form.login button").click()
        self.until("Your matches")

    def ask(self) -> int:
        """Asks for a match on the first network, and plays it."""
        self.open("/matches")
        self.find("table.offers button").click()
        WebDriverWait(self._page, SECONDS, ignored_exceptions=[Exception]).until(
            lambda _: self.find("code.key")
        )
        number = int(self._page.current_url.rpartition("/")[2])
        self.wants("What your agents were told", "ring of 5")
        self.shoot("running")
        self._agents = halls.play(self._hall.attempt(self._tokens["amber"], number))
        self.until("solved")
        for agent in self._agents:
            agent.wait()
        return number

    def practise(self) -> None:
        """A match of practice, and its page afterwards."""
        number = self.ask()
        self.wants("Black hole: node")
        self.shoot("over")
        page = (
            self._hall.folder / "attempts" / str(number) / "run1" / "match0" / "m0.html"
        )
        self._hall.wait(lambda: packing.packed_path(page).exists(), "the page is made")
        self.open(f"/matches/{number}/0/page")
        self._page.execute_script("document.getElementById('speed').value = '20'")
        self.find("#play").click()
        WebDriverWait(self._page, SECONDS).until(
            lambda _: self.find("#play").text == "Play"
        )
        self.wants("Verdict: solved")
        # the page may reach nothing, not even its cookies
        if (
            self._page.execute_script(
                "try { return document.cookie } catch (fault) { return 'refused' }"
            )
            != "refused"
        ):
            raise SystemExit("the page of a match may read cookies")
        self.open(f"/matches/{number}")

    def hand_in(self, folder: pathlib.Path) -> None:
        """A program that is handed in and graded."""
        path = folder / "program.zip"
        path.write_bytes(halls.sample_program())
        self.open("/hand-ins")
        self.find("input[type=file]").send_keys(str(path))
        self.find("form.take button").click()
        self.until("1 of 1")
        self.shoot("hand-ins")
        self.find("table.hand-ins a").click()
        self.until("client.py")
        self.shoot("sources")
        self.find("main p a").click()
        self.until("solved 1 of 1")

    def languages(self) -> None:
        for language, word in (
            ("de", "Tabelle"),
            ("fr", "Classement"),
            ("en", "Standings"),
        ):
            self.open("/")
            self.find(f"button[value={language}]").click()
            self.until(word)

    def teach(self) -> None:
        """The teacher's pages."""
        self._page.delete_all_cookies()
        self.open("/teacher/")
        self.find("#id_username").send_keys("teacher")
        self.find("#id_password").send_keys(
            (self._hall.folder / "password.txt").read_text().strip()
        )
        self.find("input[type=submit]").click()
        self.until("Teams")
        self.shoot("teacher")
        for path in (
            "teams/team/",
            "attempts/attempt/",
            "teams/entry/",
            "handins/grading/",
        ):
            self.open(f"/teacher/{path}")
            self.wants("amber")
            self.reads()

    def reads(self) -> None:
        """Each text has the contrast of AA, by day and by night."""
        for scheme in ("dark", "light"):
            features = [{"name": "prefers-color-scheme", "value": scheme}]
            self._page.execute_cdp_cmd(
                "Emulation.setEmulatedMedia", {"features": features}
            )
            # colours of links change slowly
            time.sleep(0.5)
            pale = pale_texts(self._page)
            if pale:
                raise SystemExit(f"{self._page.current_url}, {scheme}: pale are {pale}")

    def check_console(self) -> None:
        errors: List[str] = [
            entry["message"]
            for entry in self._page.get_log("browser")
            if entry["level"] == "SEVERE" and "document.cookie" not in entry["message"]
        ]
        if errors:
            raise SystemExit(f"the console says {errors}")


def walk(hall: halls.ServedHall, page: webdriver.Chrome, shots: pathlib.Path) -> None:
    """Walks through all parts in order."""
    walk = Walk(hall, page, shots)
    walk.open("/")
    walk.shoot("login")
    walk.log_in("amber")
    walk.practise()
    walk.open("/matches")
    walk.shoot("attempts")
    with tempfile.TemporaryDirectory() as name:
        walk.hand_in(pathlib.Path(name))
    walk.open("/")
    walk.wants("1 of 1", "<script>alert(1)</script> Łódź", "absent")
    walk.shoot("standings")
    walk.languages()
    # the teacher has changed the course's file, and starts the hall anew
    hall.stop()
    hall.write(f'freeze = "{datetime.datetime.now(datetime.timezone.utc).isoformat()}"')
    hall.start()
    walk.log_in("birch")
    with tempfile.TemporaryDirectory() as name:
        walk.hand_in(pathlib.Path(name))
    walk.open("/")
    walk.wants("Frozen since", "amber")
    if walk.text().count("1/1") != 1:
        raise SystemExit(f"the freeze hides nothing: {walk.text()}")
    walk.open("/screen")
    walk.wants("Frozen since")
    walk.shoot("screen")
    walk.teach()
    walk.open("/")
    if walk.text().count("1/1") != 2:
        raise SystemExit(
            f"the teacher does not see what the freeze hides: {walk.text()}"
        )
    walk.check_console()


def main(program: str, shots: pathlib.Path) -> int:
    shots.mkdir(parents=True, exist_ok=True)
    os.environ["ARENA_PROGRAM"] = program
    with halls.serve_hall() as hall:
        page = browser()
        try:
            walk(hall, page, shots)
        finally:
            page.quit()
    print(f"all pages say what they should; screenshots are in {shots}")
    return 0


if __name__ == "__main__":
    if len(sys.argv) not in (2, 3):
        sys.exit((__doc__ or "").strip())
    sys.exit(
        main(
            str(pathlib.Path(sys.argv[1]).resolve()),
            pathlib.Path(sys.argv[2] if len(sys.argv) == 3 else tempfile.mkdtemp()),
        )
    )
