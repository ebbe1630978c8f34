"""`arena-lab try` serves the page on which one writes, and nothing else is needed."""
import contextlib
import http.cookiejar
import json
import pathlib
import sqlite3
import subprocess
import sys
import tempfile
import time
import unittest
import urllib.error
import urllib.parse
import urllib.request
from typing import Any

from arena_lab.support.built import TOP
from arena_lab.support.ports import free_port
from tests.support.halls import SECONDS
from tests.support.matches import program


class Try(unittest.TestCase):
    def setUp(self) -> None:
        self.folder = pathlib.Path(self.enterContext(tempfile.TemporaryDirectory()))
        self.port = free_port()
        words = ["--folder", self.folder / "mine", "--port", self.port, "--no-browser"]
        child = subprocess.Popen(
            [
                *(sys.executable, "-m", "arena_lab", "try", "--program", program()),
                *map(str, words),
            ],
            cwd=TOP,
            stdin=subprocess.DEVNULL,
            stdout=subprocess.PIPE,
            stderr=subprocess.DEVNULL,
            text=True,
        )
        self.addCleanup(child.communicate)
        self.addCleanup(child.terminate)
        assert child.stdout is not None
        line = child.stdout.readline()
        self.assertIn(f"try http://127.0.0.1:{self.port}/mine/", line)
        self.own_page = urllib.parse.urlsplit(line.split()[1]).path
        self.new_browser()

    def new_browser(self) -> None:
        """Goes on without cookies."""
        self.jar = http.cookiejar.CookieJar()
        keeps = urllib.request.HTTPCookieProcessor(self.jar)
        self.browser = urllib.request.build_opener(keeps)

    def status(self, path: str, body: Any = None) -> int:
        try:
            self.request(path, body)
        except urllib.error.HTTPError as fault:
            return fault.code
        return 200

    def secret(self) -> str:
        """Returns the secret of forms that the browser has, or nothing."""
        return next((it.value or "" for it in self.jar if "csrf" in it.name), "")

    def request(self, path: str, body: Any = None) -> str:
        """Returns the body of a response, to a GET or to a POST with an object."""
        secret = self.secret()
        kind = "application/json" if isinstance(body, dict) else "text/plain"
        data = None if body is None else json.dumps(body).encode()
        head = {"X-CSRFToken": secret, "Content-Type": kind}
        request = urllib.request.Request(
            f"http://127.0.0.1:{self.port}{path}", data, head
        )
        with self.browser.open(request) as answer:
            return str(answer.read().decode())

    def waits(self, path: str, *texts: str) -> str:
        """Waits until an answer says something."""
        until = time.monotonic() + SECONDS
        while time.monotonic() < until:
            with contextlib.suppress(urllib.error.URLError, ConnectionError):
                reply = self.request(path)
                if any(it in reply for it in texts):
                    return reply
            time.sleep(0.2)
        raise AssertionError(f"{path} does not say {texts}")

    def test_one_writes_and_plays_without_a_course(self) -> None:
        self.assertIn("Compare and write", self.waits(self.own_page, "Compare"))
        draft = json.loads(self.request("/api/drafts/python"))
        request = {**draft, "kind": "play", "network": "ring of 5"}
        made = json.loads(self.request("/api/trials", request))
        path = f"/api/trials/{made['id']}"
        report = json.loads(self.waits(path, '"over"', '"lost"'))
        self.assertTrue(report["found"] and report["found"]["right"], report)
        # another browser of the same person finds what was written, whenever it comes
        draft["files"]["agent.py"] = "# mine"
        secret = self.secret()
        body = json.dumps(draft).encode()
        head = {"X-CSRFToken": secret, "Content-Type": "application/json"}
        address = f"http://127.0.0.1:{self.port}/api/drafts/python"
        self.browser.open(urllib.request.Request(address, body, head, method="PUT"))
        path = self.folder / "mine" / "hall" / "hall.sqlite3"
        with contextlib.closing(sqlite3.connect(path, timeout=60)) as database:
            database.execute("UPDATE drafts_draft SET at = datetime(at, '-9 days')")
            database.commit()
        self.new_browser()
        self.request(self.own_page)
        self.assertIn("# mine", self.request("/api/drafts/python"))

    def test_another_user_of_the_machine_runs_nothing(self) -> None:
        """Who reaches the port and does not know the secret."""
        page = self.waits("/write", "Token")
        self.assertNotIn("Begin as a guest", page)
        self.assertIn(self.status("/write/guest", ""), (403, 404))
        self.assertEqual(self.status(f"/mine/{'0' * 64}"), 404)
        self.assertIn(self.status("/api/drafts"), (401, 403))
        for path in self.folder.rglob("*"):
            if path.name != "try.toml":
                self.assertEqual(path.stat().st_mode & 0o077, 0, path)
