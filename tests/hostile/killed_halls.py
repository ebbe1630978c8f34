"""Kills processes of a hall at drawn moments while teams play, and looks whether
anything is lost, left or stuck.

    /usr/bin/python3 -m tests.hostile.killed_halls PROGRAM [--seconds 120] [--seed S] [--workers 2]

Three teams ask for attempts again and again and play them with the sample agents.
Meanwhile the web server, workers and servers of matches are killed by a signal that
nobody can catch, one every second or two. Then the killing stops. Each attempt must be
played to its end, and some at all; what was over when it was first seen so must be the
same then; each replay must be a match by the rules with the verdict that the hall
tells; and no server may be left. The last line reads `N passed, M failed`, and the exit
status is 1 if one failed.
"""
import argparse
import contextlib
import http.client
import os
import pathlib
import random
import signal
import sys
import threading
import time
from collections import Counter
from typing import Any, Dict, List

from arena_lab.rules.model import judge, replay_match
from tests.support import halls
from tests.support.counts import report_counts
from tests.support.halls import ServedHall, play

ENDED = ("over", "lost", "cancelled")
NAMES = ("web", "worker 0", "worker 1")


class Team:
    """A team that asks for attempts and plays them, whatever happens to the hall."""

    def __init__(self, hall: ServedHall, token: str) -> None:
        self._hall = hall
        self._token = token
        self.numbers: List[int] = []
        self.over: Dict[int, Any] = {}

    def request(self, how: str, path: str, body: Any = None) -> Any:
        """What the hall answers, or nothing if it does not answer."""
        with contextlib.suppress(OSError, http.client.HTTPException):
            reply = self._hall.ask(how, path, self._token, body)
            return reply.json() if reply.status in (200, 201) else None
        return None

    def play(self, is_over: threading.Event) -> None:
        while not is_over.is_set():
            reply = self.request("POST", "/api/matches", {"network": "ring of 5"})
            if reply is None:
                time.sleep(0.3)
                continue
            self.numbers.append(reply["id"])
            self.end(reply["id"], is_over)

    def end(self, number: int, is_over: threading.Event) -> None:
        """Plays an attempt to its end, again if it begins anew."""
        keys: Any = None
        while not is_over.is_set():
            reply = self.request("GET", f"/api/matches/{number}")
            if reply is not None and reply["state"] in ENDED:
                self.over[number] = halls.result_of(reply)
                return
            now = (
                [match["keys"] for match in reply["matches"]]
                if reply is not None
                else []
            )
            if now and now != keys:
                keys = now
                with contextlib.suppress(OSError):
                    play(reply)
            time.sleep(0.2)

    def faults(self) -> List[str]:
        """What is wrong with the team's attempts at the end."""
        results = []
        for number in self.numbers:
            reply = self._hall.over(self._token, number)
            if number in self.over and halls.result_of(reply) != self.over[number]:
                results.append(
                    f"attempt {number} has changed: {self.over[number]} and {halls.result_of(reply)}"
                )
            for it in reply["matches"] if reply["state"] == "over" else []:
                replay = self._hall.ask(
                    "GET", f"/api/matches/{number}/replays/{it['number']}", self._token
                ).body
                match = replay_match(replay.decode())
                verdict = judge(match)._asdict()
                told_of_it = {name: it["verdict"][name] for name in verdict}
                # verdicts of a match without an agent, or after a fault
                is_empty = it["verdict"]["outcome"] in ("absent", "cut")
                if (
                    match.replay().encode() != replay
                    or not is_empty
                    and verdict != told_of_it
                ):
                    results.append(
                        f"attempt {number} has the verdict {it['verdict']}, and its replay {verdict}"
                    )
        return results


def kill_one(hall: ServedHall, rng: random.Random) -> str:
    """Kills a process that is drawn; gives its name."""
    servers = hall.servers()
    name = rng.choice([*NAMES, *(["a server"] if servers else [])])
    number = rng.choice(servers) if name == "a server" else hall.processes().get(name)
    with contextlib.suppress(ProcessLookupError, TypeError):
        os.kill(number, signal.SIGKILL)
    return name


def main() -> int:
    parser = argparse.ArgumentParser(
        "python3 -m tests.hostile.killed_halls",
        description=__doc__,
        formatter_class=argparse.RawDescriptionHelpFormatter,
    )
    parser.add_argument("program", metavar="PROGRAM")
    parser.add_argument(
        "--seconds", metavar="N", type=float, default=120, help="how long to kill (120)"
    )
    parser.add_argument("--seed", metavar="S", type=int, default=1)
    words = parser.parse_args()
    os.environ["ARENA_PROGRAM"] = str(pathlib.Path(words.program).resolve())
    rng = random.Random(words.seed)
    counts = Counter()
    is_over = threading.Event()
    with halls.serve_hall(workers=2) as hall:
        teams = [Team(hall, token) for token in hall.tokens().values()]
        threads = [
            threading.Thread(target=team.play, args=(is_over,)) for team in teams
        ]
        for thread in threads:
            thread.start()
        limit = time.monotonic() + words.seconds
        while time.monotonic() < limit:
            counts[kill_one(hall, rng)] += 1
            time.sleep(rng.uniform(0.2, 3))
        is_over.set()
        for thread in threads:
            thread.join()
        hall.wait(hall.answers, "the hall answers again")
        faults = [fault for team in teams for fault in team.faults()]
        states = Counter(
            hall.over(team._token, number)["state"]
            for team in teams
            for number in team.numbers
        )
        hall.wait(lambda: not hall.servers(), "all servers have ended", 30)
    if not states["over"] or states["lost"]:
        faults.append(f"matches were lost, or none was played: {dict(states)}")
    for fault in faults:
        print(f"FAILED {fault}")
    print(f"killed {dict(counts)}; attempts {dict(states)}")
    return report_counts(sum(states.values()) - len(faults), len(faults))


if __name__ == "__main__":
    sys.exit(main())
