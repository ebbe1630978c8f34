"""`./arena-lab watch` over files that grow as those of a server do: what its pages tell
while matches run, and once they are over."""
import http.client
import json
import os
import pathlib
import subprocess
import sys
import time
from typing import Any, Callable, Dict, List

from arena_lab.pages.web_pages import cookie_of
from arena_lab.rules.engines import TOP
from arena_lab.rules.model import Match, spell
from arena_lab.rules.networks import ring
from arena_lab.support.ports import listen
from examples.contest import free_port
from tests.support.matches import InFolder
from tests.support.tournaments import match, write_cup

SECONDS = 20.0
TEXT = "</script><b>bold</b>"


class Watching(InFolder):
    def setUp(self) -> None:
        super().setUp()
        fixtures = [
            match(team, ring(4), [2], quota=100, board=40) for team in ("red", "blue")
        ]
        write_cup(self.folder, fixtures, name="ring")
        self.matches = [Match(fixture.setup) for fixture in fixtures]
        self.written = [0, 0]
        self.port = free_port()

    def watch(self, *extra: str) -> None:
        words = [
            sys.executable,
            "-m",
            "arena_lab",
            "watch",
            "cup.toml",
            "m",
            "--port",
            str(self.port),
            *extra,
        ]
        child = subprocess.Popen(
            words,
            cwd=self.folder,
            stdout=subprocess.PIPE,
            text=True,
            env={**os.environ, "PYTHONPATH": str(TOP)},
        )
        self.addCleanup(child.stdout.close)
        self.addCleanup(child.wait)
        self.addCleanup(child.kill)
        line = child.stdout.readline()
        self.assertRegex(
            line, rf"^watch http://127\.0\.0\.1:{self.port}/\?token=[\w-]{{24}}\n$"
        )
        self.token = line.strip().rpartition("=")[2]

    def part(self, number: int) -> pathlib.Path:
        return self.folder / f"m{number}.jsonl.part"

    def write(self, number: int, cut: int = 0) -> None:
        """Appends to a part what has happened, but for some bytes of the last line."""
        match = self.matches[number]
        text = "".join(
            spell(line) + "\n" for line in [match.head(), *match.log]
        ).encode()
        with self.part(number).open("ab") as file:
            file.write(text[self.written[number] : len(text) - cut])
        self.written[number] = len(text) - cut

    def end(self, number: int) -> None:
        """The replay of a match takes the place of its part."""
        (self.folder / f"m{number}.jsonl").write_text(
            self.matches[number].replay(), encoding="utf-8"
        )
        self.part(number).unlink()

    def request(self, path: str, **headers: str) -> "http.client.HTTPResponse":
        """Asks as a browser does that has opened the page by its token."""
        cookie = f"{cookie_of(self.token)}={self.token}"
        return self.ask(path, Cookie=cookie, **headers)

    def ask(self, path: str, **headers: str) -> "http.client.HTTPResponse":
        connection = http.client.HTTPConnection("127.0.0.1", self.port, timeout=SECONDS)
        self.addCleanup(connection.close)
        connection.request(
            "GET",
            path,
            headers={name.replace("_", "-"): value for name, value in headers.items()},
        )
        return connection.getresponse()

    def status(self, path: str) -> int:
        return self.request(path).status

    def rows_where(
        self, holds: Callable[[List[Dict[str, Any]]], bool]
    ) -> List[Dict[str, Any]]:
        """The rows of the first standings of which this holds."""
        return list(self.standings(holds)["rows"])

    def standings(
        self, holds: Callable[[List[Dict[str, Any]]], bool]
    ) -> Dict[str, Any]:
        """The first standings whose rows are so, read as a page reads them."""
        stream = self.request("/standings")
        while True:
            line = stream.readline()
            self.assertTrue(line, "the standings have ended")
            if line.startswith(b"data: "):
                message: Dict[str, Any] = json.loads(line[6:])
                if holds(message["rows"]):
                    return message

    def test_a_port_that_is_taken_is_told(self) -> None:
        with listen("127.0.0.1", self.port):
            for words in (["watch", "cup.toml", "m"], ["play", "--page"]):
                result = subprocess.run(
                    [
                        sys.executable,
                        "-m",
                        "arena_lab",
                        *words,
                        "--port",
                        f"{self.port}",
                    ],
                    cwd=self.folder,
                    env={**os.environ, "PYTHONPATH": str(TOP)},
                    capture_output=True,
                    text=True,
                )
                text = f"arena-lab: 127.0.0.1:{self.port}: another program listens"
                self.assertEqual((result.returncode, result.stdout), (2, ""))
                self.assertIn(text, result.stderr.splitlines()[0])

    def test_who_has_no_token_sees_nothing(self) -> None:
        self.watch()
        for path in ("/", "/standings", "/match/0", "/watch.js", "/?token=x"):
            reply = self.ask(path)
            self.assertEqual(reply.status, 403, path)
            self.assertIn(b"its token is missing", reply.read())
        # a browser keeps the token, and shows it no more
        reply = self.ask(f"/?token={self.token}")
        self.assertEqual((reply.status, reply.headers["Location"]), (303, "/"))
        cookie = reply.headers["Set-Cookie"]
        self.assertRegex(cookie, "HttpOnly.*SameSite=Lax")
        self.assertEqual(self.ask("/", Cookie=cookie.partition(";")[0]).status, 200)

    def test_a_contest_from_its_beginning_to_its_end(self) -> None:
        self.watch()
        self.assertEqual(
            [row["state"] for row in self.rows_where(lambda rows: True)],
            ["has not begun"] * 2,
        )
        red_team = self.matches[0]
        for number in (0, 1):
            self.write(number)
        red_team.reply_to(0, {"do": "enter"})
        red_team.reply_to(0, {"do": "write", "expect": "", "put": TEXT})
        red_team.reply_to(0, {"do": "depart", "port": 0})
        self.write(0, cut=5)
        rows = self.rows_where(lambda rows: any(row.get("entered") for row in rows))
        self.assertEqual(
            [
                (row["team"], row["state"], row["entered"], row["agents"], row["page"])
                for row in rows
            ],
            [
                ("red", "waits for its agents", 1, 2, False),
                ("blue", "waits for its agents", 0, 2, False),
            ],
        )
        self.assertEqual(
            [(row["match"], row["network"]) for row in rows], [(0, "ring"), (1, "ring")]
        )
        paths = [
            f"/match/{number}{rest}"
            for number in (0, 1, 7)
            for rest in ("", "/data", "/news")
        ]
        self.assertEqual([self.status(path) for path in paths], [404] * 9)
        red_team.deliver(0)
        red_team.reply_to(0, {"do": "accuse", "port": 0})
        red_team.close()
        self.write(0)
        rows = self.rows_where(
            lambda rows: any(row["state"] == "is over" for row in rows)
        )
        self.assertEqual(
            (rows[0]["outcome"], rows[0]["moves"], rows[0]["page"]), ("guess", 1, False)
        )
        self.matches[1].close()
        self.write(1)
        rows = self.rows_where(lambda rows: all(row.get("page") for row in rows))
        self.assertEqual(rows[0]["outcome"], "guess 3")
        self.end(0)
        time.sleep(1)
        page = self.request("/match/0")
        text = page.read().decode()
        self.assertIn("default-src 'none'", page.headers["Content-Security-Policy"])
        self.assertIn("guess 3 moves 1 lost 0", text)
        self.assertNotIn(TEXT, text)
        self.assertEqual(
            [
                self.status(path)
                for path in ("/cup.toml", "/m0.jsonl", "/../cup.toml", "/match/00x")
            ],
            [404] * 4,
        )

    def test_another_contest_with_the_same_names_begins_anew(self) -> None:
        self.matches[0].reply_to(0, {"do": "enter"})
        self.write(0)
        self.watch()
        self.rows_where(lambda rows: any(row.get("entered") for row in rows))
        self.part(0).rename(self.folder / "m0.jsonl.part.old")
        self.matches[0] = Match(self.matches[0].setup)
        self.written[0] = 0
        self.write(0)
        self.rows_where(lambda rows: any(row.get("entered") == 0 for row in rows))

    def test_pages_elsewhere_read_nothing(self) -> None:
        """A page whose name leads to this machine, and one that asks from another
        origin."""
        self.matches[0].reply_to(0, {"do": "enter"})
        self.write(0)
        self.watch("--open", "--host", "Projector.example")
        self.rows_where(lambda rows: any(row.get("entered") for row in rows))
        here = f"127.0.0.1:{self.port}"
        for status, arguments in (
            (403, {"Host": f"evil.example:{self.port}"}),
            (403, {"Host": "evil.example"}),
            (403, {"Host": "127.0.0.1.evil.example"}),
            (403, {"Origin": "http://evil.example"}),
            (403, {"Origin": "null"}),
            (403, {"Sec_Fetch_Site": "cross-site"}),
            (403, {"Sec_Fetch_Site": "same-site", "Sec_Fetch_Mode": "no-cors"}),
            (200, {}),
            (200, {"Host": f"localhost:{self.port}"}),
            (200, {"Host": "[::1]:80"}),
            (200, {"Host": "projector.example"}),
            (200, {"Origin": f"http://{here}", "Host": here}),
            (200, {"Sec_Fetch_Site": "same-origin"}),
            (200, {"Sec_Fetch_Site": "cross-site", "Sec_Fetch_Mode": "navigate"}),
        ):
            for path in ("/match/0/data", "/", "/standings"):
                with self.subTest(given=arguments, path=path):
                    self.assertEqual(self.request(path, **arguments).status, status)

    def test_nothing_is_sent_while_nothing_new_is_shown(self) -> None:
        """What an agent does in a match that runs moves no heartbeat either."""
        for number in (0, 1):
            self.matches[number].reply_to(0, {"do": "enter"})
            self.write(number)
        self.watch()
        stream = self.request("/standings")
        while stream.readline().count(b'"entered": 1') < 2:
            pass
        self.assertEqual(stream.readline(), b"\n")
        for _ in range(3):
            self.matches[0].reply_to(0, {"do": "look"})
            self.write(0)
            time.sleep(0.7)
        stream.fp.raw._sock.settimeout(1)  # type: ignore[union-attr]
        with self.assertRaises(TimeoutError):
            stream.readline()

    def test_the_page_of_a_closed_match_waits_for_the_others(self) -> None:
        self.matches[0].close()
        for number in (0, 1):
            self.write(number)
        self.watch()
        self.rows_where(lambda rows: any(row["state"] == "is over" for row in rows))
        self.assertEqual(self.status("/match/0"), 404)

    def begin_with_turns(self, *extra: str) -> Dict[str, Any]:
        """The standings of a match of which the server has written turn 522, long after
        its agents have entered."""
        for agent in (0, 1):
            self.matches[0].reply_to(agent, {"do": "enter"})
        (self.folder / "m0.turns.part").write_text("0\n522\n")
        for number in (0, 1):
            self.write(number)
        self.watch("--turns", "6000", "--pause", "10", *extra)
        return self.standings(lambda rows: any(row["state"] == "runs" for row in rows))

    def test_a_turn_is_one_that_the_server_wrote(self) -> None:
        begin = self.begin_with_turns("--open")
        self.assertEqual([row.get("turn") for row in begin["rows"]], [522, None])
        self.assertEqual((begin["turns"], begin.get("pause")), (6000, None))

    def test_no_turn_is_shown_where_agents_must_not_see_when_others_act(self) -> None:
        begin = self.begin_with_turns()
        self.assertEqual([row.get("turn") for row in begin["rows"]], [None, None])
        self.assertNotIn("pause", begin)

    def test_news_are_those_of_the_match(self) -> None:
        for number in (0, 1):
            self.matches[number].reply_to(0, {"do": "enter"})
            self.write(number)
        self.watch("--open")
        self.rows_where(lambda rows: all(row.get("entered") for row in rows))
        stream = self.request("/match/1/news")
        first = stream.readline()
        self.matches[1].reply_to(0, {"do": "look"})
        self.write(1)
        while not (line := stream.readline()).startswith(b"data: "):
            pass
        self.assertNotEqual(
            json.loads(first[6:])["grown"], json.loads(line[6:])["grown"]
        )

    def test_an_open_match_has_its_page_at_once(self) -> None:
        self.matches[0].reply_to(0, {"do": "enter"})
        self.write(0)
        self.watch("--open")
        self.rows_where(lambda rows: any(row.get("entered") for row in rows))
        data = json.loads(self.request("/match/0/data").read())
        self.assertEqual(
            (data["verdict"], data["news"]), ("the match goes on", "/match/0")
        )
        self.assertEqual(data["match"]["events"], "e0")
        stream = self.request("/match/0/news")
        before = stream.readline()
        self.matches[0].reply_to(1, {"do": "enter"})
        self.write(0)
        while not (line := stream.readline()).startswith(b"data: ") or line == before:
            pass
        self.assertEqual(
            json.loads(self.request("/match/0/data").read())["match"]["events"], "e0,e1"
        )
