"""A hall that is served: matches from the request to the page, hand-ins, and processes
that are killed."""
import concurrent.futures
import contextlib
import os
import pathlib
import signal
import socket
import sqlite3
import subprocess
import sys
from typing import Any, List

from arena_lab.hall import packing
from arena_lab.rules.engines import TOP
from arena_lab.rules.model import replay_match
from arena_lab.sandbox.processes import below, is_alive, process_numbers, command_words
from tests.integration.hall import served_hall
from tests.integration.hall.served_hall import Halls
from tests.support import halls
from tests.support.halls import play, replies_to

# a program that is handed in: it tries to talk to the hall, and then searches its ring
NOSY = """
import os, pathlib, socket, sys
sys.path.insert(0, "{agents}")
found = []
for port in [{ports}]:
    try:
        socket.create_connection(("127.0.0.1", port), 1).close()
        found.append(port)
    except OSError:
        pass
for name in ("{folder}", "{folder}/hall.sqlite3", "/proc/1/environ"):
    try:
        found.append(os.listdir(name) if os.path.isdir(name) else open(name, "rb").read(10))
    except OSError:
        pass
if found:
    sys.exit("found: " + repr(found))
"""

setUpModule = served_hall.setUpModule


class Matches(Halls):
    def test_a_match_from_the_request_to_its_page(self) -> None:
        token = self.tokens["amber"]
        number = self.hall.request_attempt(token)
        message = self.hall.begins(token, number)
        agents = play(message)
        self.end_agents(agents)
        self.assertEqual(len(self.hall.servers(number)), 1)
        message = self.hall.over(token, number)
        self.assertEqual(
            [verdict["outcome"] for verdict in message["verdicts"]], ["solved"]
        )
        replay = self.hall.ask(
            "GET", f"/api/matches/{number}/replays/0", token
        ).body.decode()
        match = replay_match(replay)
        self.assertEqual(match.replay(), replay)
        self.assertEqual(match.setup.holes, message["matches"][0]["after"]["holes"])
        # its server has ended, and its port is given back
        self.assertFalse(self.hall.is_left(number))
        with socket.create_server(("127.0.0.1", message["matches"][0]["port"])):
            pass
        page = (
            self.hall.folder / "attempts" / str(number) / "run1" / "match0" / "m0.html"
        )
        self.hall.wait(lambda: packing.packed_path(page).exists(), "the page is made")
        health = self.hall.ask("GET", "/health")
        self.assertEqual((health.status, health.json()["waiting"]), (200, 0))
        self.assertNotIn("ERROR", self.hall.faults())

    def test_a_team_with_a_map_is_told_the_map_and_no_black_hole(self) -> None:
        token = self.tokens["cedar"]
        number = self.hall.request_attempt(token, "torus with a map")
        message = self.hall.begins(token, number)["matches"][0]
        self.assertEqual(sorted(message["map"]), ["home", "links", "nodes"])
        # keys of another match are none here
        self.assertEqual(
            replies_to(
                message["host"], message["port"], [{"do": "enter", "key": "ka"}]
            ),
            [{"no": "key"}],
        )
        self.hall.ask("POST", f"/api/matches/{number}/close", token)
        self.assertEqual(
            self.hall.over(token, number)["verdicts"],
            [{"outcome": "absent", "moves": 0, "lost": 0}],
        )

    def test_a_match_whose_program_was_killed_is_played_again(self) -> None:
        token = self.tokens["amber"]
        number = self.hall.request_attempt(token)
        keys = [begin["keys"] for begin in self.hall.begins(token, number)["matches"]]
        for server in self.hall.servers(number):
            os.kill(server, signal.SIGKILL)
        message = self.hall.begins(token, number, keys)
        self.end_agents(play(message))
        self.assertEqual(self.hall.over(token, number)["solved"], 1)

    def test_requests_at_the_same_time_win_nothing(self) -> None:
        """Of twenty that are sent at once as many are taken as a team may have."""
        token = self.tokens["cedar"]
        with concurrent.futures.ThreadPoolExecutor(20) as pool:
            message = list(
                pool.map(
                    lambda _: self.hall.ask(
                        "POST", "/api/matches", token, {"network": "ring of 5"}
                    ),
                    range(20),
                )
            )
            self.assertEqual(
                sorted(it.status for it in message), [201] * 2 + [429] * 18
            )
            cookie = self.session(token)
            request = list(
                pool.map(
                    lambda _: self.post("/messages", "text=why", cookie).status,
                    range(20),
                )
            )
        self.assertEqual(sorted(request), [302] * 5 + [429] * 15)
        for it in message:
            if it.status == 201:
                number = it.json()["id"]
                self.hall.ask("POST", f"/api/matches/{number}/close", token)
                self.assertIn(
                    self.hall.over(token, number)["state"], ("over", "cancelled")
                )

    def session(self, token: str) -> str:
        """Logs a team in on the page, and returns its cookie."""
        secret = str(self.hall.ask("GET", "/login").headers["Set-Cookie"]).partition(
            ";"
        )[0]
        return f"{secret}; {self.post('/login', f'token={token}', secret).headers['Set-Cookie'].partition(';')[0]}"

    def post(self, path: str, form: str, cookie: str) -> halls.Response:
        """What a form is answered, whose secret is in a cookie."""
        headers = {
            "Cookie": cookie,
            "X-CSRFToken": cookie.partition("=")[2].partition(";")[0],
            "Content-Type": "application/x-www-form-urlencoded",
        }
        return halls.told_by(self.hall.port, "POST", path, headers, form.encode())


class HandIns(Halls):
    def test_a_program_is_graded_and_meets_nobody(self) -> None:
        token = self.tokens["amber"]
        agents = TOP / "examples" / "agents"
        nosy = NOSY.format(
            agents=agents,
            ports=f"{self.hall.port}, 5432, 8786",
            folder=self.hall.folder,
        )
        ring = (agents / "ring.py").read_text().partition('"""\n')[2]
        client = (agents / "client.py").read_text()
        from tests.lab.submissions.test_uploads import zip_of

        payload = zip_of(
            {"top/agent.py": (nosy + ring).encode(), "top/client.py": client.encode()}
        )
        number = self.hand_in(token, payload)
        result = self.grade(token, number)
        out = self.hall.folder / "hand-ins" / str(number) / "public"
        self.assertEqual(
            (result["solved"], result["matches"]), (1, 1), (out / "log.txt").read_text()
        )
        page = (
            self.hall.folder
            / "hand-ins"
            / str(number)
            / "public"
            / "out"
            / "team-amber.html"
        )
        self.assertIn("solved 1 of 1", page.read_text())
        # a wrong one
        number = self.hand_in(token, b"print('hello')")
        self.assertEqual(self.grade(token, number)["solved"], 0)

    def test_a_grading_whose_processes_are_killed_is_run_again_and_none_is_left(
        self,
    ) -> None:
        token = self.tokens["birch"]
        for name in ("a grading", "worker 0"):
            with self.subTest(name):
                number = self.hand_in(token, b"import time; time.sleep(1000)")
                folder = self.hall.folder / "hand-ins" / str(number)
                self.hall.wait(lambda: within(folder), "it is graded")
                before = within(folder)
                score = pathlib.Path(f"/proc/{before[0]}/oom_score_adj").read_text()
                self.assertEqual(score, "1000\n")
                os.kill(
                    before[0] if name == "a grading" else self.hall.processes()[name],
                    signal.SIGKILL,
                )
                self.hall.wait(
                    lambda: not set(before) & set(within(folder)),
                    "all that was killed has ended",
                    20,
                )
                message = self.hall.wait(lambda: within(folder), "it is graded again")
                self.hall.stop()
                self.assertFalse(any(map(is_alive, message)))
                self.hall.start()
                again = self.hall.wait(lambda: within(folder), "it is graded again")
                self.assertFalse(set(again) & set(message))
                # its program never ends: another one that does takes its place
                self.hall.stop()
                with contextlib.closing(
                    sqlite3.connect(self.hall.folder / "hall.sqlite3")
                ) as database, database:
                    database.execute(
                        "UPDATE handins_grading SET state = 'lost' WHERE hand_in_id = ?",
                        (number,),
                    )
                self.hall.start()

    def hand_in(self, token: str, payload: bytes) -> int:
        return int(self.hall.hand_in(token, payload).json()["id"])

    def grade(self, token: str, number: int) -> Any:
        return self.hall.wait(
            lambda: self.hall.ask("GET", f"/api/hand-ins/{number}", token).json()[
                "result"
            ],
            f"hand-in {number} is graded",
        )


class Processes(Halls):
    """Whatever is killed: no attempt that is over is lost, no server is left, and no
    work is stuck."""

    def test_each_process_is_killed_while_a_match_goes_on(self) -> None:
        token = self.tokens["amber"]
        first = self.hall.request_attempt(token)
        self.end_agents(play(self.hall.begins(token, first)))
        before = self.hall.over(token, first)
        for name, is_anew in (("web", False), ("worker 0", True)):
            with self.subTest(name):
                number = self.hall.request_attempt(token)
                message = self.hall.begins(token, number)
                keys = [match["keys"] for match in message["matches"]]
                servers = self.hall.servers(number)
                self.hall.kill(name)
                if is_anew:
                    message = self.hall.begins(token, number, keys)
                    self.assertFalse(set(servers) & set(self.hall.servers(number)))
                self.assertEqual(
                    [
                        match["keys"]
                        for match in self.hall.attempt(token, number)["matches"]
                    ]
                    == keys,
                    not is_anew,
                )
                self.end_agents(play(message))
                self.assertEqual(self.hall.over(token, number)["solved"], 1)
                self.assertFalse(self.hall.is_left(number))
        self.assertEqual(
            halls.result_of(self.hall.over(token, first)), halls.result_of(before)
        )

    def test_a_match_is_played_however_often_its_worker_is_killed(self) -> None:
        token = self.tokens["birch"]
        number = self.hall.request_attempt(token)
        keys: Any = None
        for _ in range(3):
            message = self.hall.begins(token, number, keys)
            keys = [match["keys"] for match in message["matches"]]
            self.hall.kill("worker 0")
        self.end_agents(play(self.hall.begins(token, number, keys)))
        self.assertEqual(self.hall.over(token, number)["solved"], 1)
        self.assertFalse(self.hall.is_left(number))

    def test_a_script_goes_on_when_the_hall_is_stopped_and_started_again(self) -> None:
        """A stop gives matches back: they are played again, with other keys."""
        agents = str(TOP / "examples" / "agents" / "ring.py")
        address = f"http://127.0.0.1:{self.hall.port}"
        script = subprocess.Popen(
            [
                sys.executable,
                str(TOP / "examples" / "hall" / "practise.py"),
                address,
                "ring of 5",
                "/bin/sleep",
                "60",
            ],
            env={**os.environ, "ARENA_TOKEN": self.tokens["birch"]},
            stdout=subprocess.PIPE,
            text=True,
        )
        self.end_agents([script])
        number = self.hall.wait(
            lambda: [
                it["id"]
                for it in self.hall.ask(
                    "GET", "/api/matches", self.tokens["birch"]
                ).json()
                if it["state"] == "running"
            ],
            "the script plays",
        )[0]
        keys = [
            begin["keys"]
            for begin in self.hall.begins(self.tokens["birch"], number)["matches"]
        ]
        self.hall.stop()
        self.assertEqual(self.hall.servers(), [])
        self.hall.start()
        message = self.hall.begins(self.tokens["birch"], number, keys)
        self.end_agents(
            [
                subprocess.Popen(
                    [
                        sys.executable,
                        agents,
                        match["host"],
                        str(match["port"]),
                        key,
                        "5",
                    ]
                )
                for match in message["matches"]
                for key in match["keys"]
            ]
        )
        self.assertEqual(self.hall.over(self.tokens["birch"], number)["solved"], 1)
        self.assertIn(
            f"attempt {number} on ring of 5: solved",
            script.communicate(timeout=halls.SECONDS)[0],
        )

    def test_the_whole_hall_is_killed_and_started_again(self) -> None:
        token = self.tokens["cedar"]
        number = self.hall.request_attempt(token)
        keys = [begin["keys"] for begin in self.hall.begins(token, number)["matches"]]
        processes = self.hall.processes()
        assert self.hall.child is not None
        os.kill(self.hall.child.pid, signal.SIGKILL)
        self.hall.child.wait()
        self.hall.wait(
            lambda: not self.hall.servers()
            and not any(map(is_alive, processes.values())),
            "all processes have ended",
            20,
        )
        self.hall.start()
        message = self.hall.begins(token, number, keys)
        self.end_agents(play(message))
        self.assertEqual(self.hall.over(token, number)["solved"], 1)


def within(path: pathlib.Path) -> List[int]:
    """The processes of a grading: `grade` and all below it, itself first."""
    results: List[int] = []
    for process in process_numbers():
        with contextlib.suppress(OSError):
            if "grade" in command_words(process)[1:] and os.readlink(
                f"/proc/{process}/cwd"
            ).startswith(str(path)):
                results += below(process)
    return list(filter(is_alive, dict.fromkeys(results)))
