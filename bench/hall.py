"""How a hall stands a course: many teams that ask for attempts, play them and hand in
programs, while one more team floods it. Or how it stands a class that writes.

    /usr/bin/python3 -m bench.hall [--teams 60] [--attempts 600] [--hand-ins 60] [--minutes 60] [--no-flood]
        [--writers 0] [--program PATH]

Starts a hall with its usual limits. The teams ask for their attempts at times that are
drawn over the minutes, and play each with two sample agents on a ring of 8 nodes. They
hand in the sample agent at times that are drawn too; each is graded in a sandbox.
Meanwhile one more team asks for the standings as fast as it can, by eight connections
at a time. Prints how many attempts were solved; how long it took from the request until
the keys were there, and how long requests of the other teams took; how many programs
solved their networks, and how long they waited for it; what the flood was answered; and
the hall's processor seconds. A course has 600 attempts an hour; fewer minutes are a
heavier load. Writers are teams that have their program tried every 20 seconds, or once
the trial before is over, as by the page on which one writes; as many programs are tried
at a time as there are processors.
"""
import argparse
import contextlib
import http.client
import os
import pathlib
import random
import statistics
import tempfile
import threading
import time
from collections import Counter
from typing import Any, Callable, Dict, Iterator, List

from arena_lab.rules.engines import program_at
from arena_lab.sandbox import processes
from tests.support.halls import ServedHall, play, sample_program

# seconds between two looks at a match, and at a program that is to be graded: a team
# has 120 requests a minute
SECRET_SEED = 5
FLOODS = 8
EVERY = 1.0
# seconds between two trials of a team that writes
WRITES = 20.0
SELDOM = 5.0
# tests of processes that are killed take workers for gone earlier
DEFAULT_LEASE = "30"
COURSE = """
title = "A load"
ports = [{first}, {last}]
[[network]]
name = "ring of 8"
network = "ring:8"
[hand_ins]
command = "python3 agent.py {{host}} {{port}} {{key}} {{nodes}}"
networks = ["ring:8"]
[editor]
trials = {trials}
a_day = 100000
"""


class Load:
    """The load on a hall: its teams, and the times measured."""

    def __init__(self, hall: ServedHall, tokens: Dict[str, str]) -> None:
        self._hall = hall
        self._tokens = tokens
        self.asked: List[float] = []
        self.waited: List[float] = []
        self.graded: List[float] = []
        self.tried: List[float] = []
        self.outcomes: "Counter[str]" = Counter()
        self.flooded: "Counter[int]" = Counter()
        self.is_over = threading.Event()

    def request(self, how: str, path: str, name: str, body: object = None) -> Any:
        """A request of a team, whose time is noted."""
        began = time.monotonic()
        response = self._hall.ask(how, path, self._tokens[name], body)
        self.asked.append(time.monotonic() - began)
        return (
            response.json()
            if response.status in (200, 201)
            else {"state": f"refused {response.status}"}
        )

    def at(self, moment: float, does: Callable[[str], None], name: str) -> None:
        """Runs an action of a team at a given moment."""
        time.sleep(max(0.0, moment - time.monotonic()))
        try:
            does(name)
        except (OSError, http.client.HTTPException) as fault:
            self.outcomes[f"not answered: {fault}"] += 1

    def hand_in(self, name: str) -> None:
        """Hands in the sample agent, and waits until it is graded."""
        began = time.monotonic()
        hand = self._hall.hand_in(self._tokens[name], sample_program())
        if hand.status != 201:
            self.outcomes[f"hand-in refused {hand.status}"] += 1
            return
        path = f"/api/hand-ins/{hand.json()['id']}"
        reply = hand.json()
        while reply["state"] not in ("over", "lost"):
            time.sleep(SELDOM)
            reply = self.request("GET", path, name)
        self.graded.append(time.monotonic() - began)
        result = reply["result"] or {}
        self.outcomes[f"program {result.get('solved')} of {result.get('matches')}"] += 1

    def write(self, name: str, moments: List[float]) -> None:
        """Requests trials of the kit at these moments; a trial waits for the previous
        one, as on the page, where Run is disabled meanwhile."""
        for moment in moments:
            self.at(moment, self.try_once, name)

    def try_once(self, name: str) -> None:
        """Has the kit tried, and waits for what is found."""
        began = time.monotonic()
        kit = self.request("GET", "/api/drafts/python", name)
        trial_request = {**kit, "kind": "play", "network": "ring of 8"}
        reply = self.request("POST", "/api/trials", name, trial_request)
        while reply["state"] in ("waiting", "held", "running"):
            # as arena_lab/hall/static/write.js does
            took = time.monotonic() - began
            time.sleep(0.3 if took < 4 else 1 if took < 15 else 2)
            reply = self.request("GET", f"/api/trials/{reply['id']}", name)
        if reply["state"] == "over":
            self.tried.append(time.monotonic() - began)
        self.outcomes[f"tried: {reply.get('verdict') or reply['state']}"] += 1

    def ask_and_play(self, name: str) -> None:
        """Asks for an attempt and plays it."""
        began = time.monotonic()
        reply = self.request("POST", "/api/matches", name, {"network": "ring of 8"})
        while reply["state"] in ("waiting", "held", "running") and not reply["matches"]:
            time.sleep(EVERY / 10)
            reply = self.request("GET", f"/api/matches/{reply['id']}", name)
        if "id" not in reply:
            self.outcomes[reply["state"]] += 1
            return
        self.waited.append(time.monotonic() - began)
        agents = play(reply)
        while reply["state"] in ("waiting", "held", "running"):
            time.sleep(EVERY)
            reply = self.request("GET", f"/api/matches/{reply['id']}", name)
        for agent in agents:
            agent.wait()
        outcome = (
            reply["verdicts"][0]["outcome"]
            if reply["verdicts"]
            else f"{reply['state']} {reply['fault']}"
        )
        self.outcomes[outcome] += 1

    def flood(self, name: str) -> None:
        """Requests of a team as fast as they are answered."""
        while not self.is_over.is_set():
            with contextlib.suppress(OSError, http.client.HTTPException):
                self.flooded[
                    self._hall.ask("GET", "/api/standings", self._tokens[name]).status
                ] += 1


def seconds_of(hall: ServedHall) -> float:
    """The processor seconds that the hall has taken, with what it has started."""
    total = 0
    for process in processes.below(hall.child.pid) if hall.child else []:
        with contextlib.suppress(OSError):
            text = pathlib.Path(f"/proc/{process}/stat").read_text()
            total += sum(map(int, text.rpartition(")")[2].split()[11:15]))
    return total / os.sysconf("SC_CLK_TCK")


@contextlib.contextmanager
def serve_hall(teams: int) -> Iterator[ServedHall]:
    """A hall with this number of teams, and one more."""
    with tempfile.TemporaryDirectory(prefix="hall-") as name:
        hall = ServedHall(pathlib.Path(name), workers=2)
        hall.lease = DEFAULT_LEASE
        hall.course.write_text(
            COURSE.format(first=21_000, last=21_199, trials=os.cpu_count())
            + "".join(
                f'[[team]]\nname = "team{number}"\n' for number in range(teams + 1)
            )
        )
        try:
            hall.start()
            yield hall
        finally:
            hall.stop()


def quantiles(values: List[float]) -> str:
    """The median, the ninety-ninth of a hundred, and the most, in milliseconds."""
    ascending = sorted(values)
    figures = [
        statistics.median(ascending),
        ascending[int(len(ascending) * 0.99)],
        ascending[-1],
    ]
    return " | ".join(f"{value * 1000:.0f} ms" for value in figures)


def run(args: argparse.Namespace) -> None:
    rng = random.Random(SECRET_SEED)
    with serve_hall(args.teams) as hall:
        load = Load(hall, hall.tokens())
        began = time.monotonic()
        names = [f"team{number % args.teams}" for number in range(args.attempts)]
        submitting_teams = [
            f"team{number % args.teams}" for number in range(args.hand_ins)
        ]
        teams = [
            threading.Thread(
                target=load.at,
                args=(began + rng.uniform(0, args.minutes * 60), does, name),
            )
            for does, those in (
                (load.ask_and_play, names),
                (load.hand_in, submitting_teams),
            )
            for name in those
        ]
        rounds = int(args.minutes * 60 / WRITES)
        for number in range(args.writers):
            first = began + rng.random() * WRITES
            moments = [first + turn * WRITES for turn in range(rounds)]
            teams.append(
                threading.Thread(target=load.write, args=(f"team{number}", moments))
            )
        floods = [
            threading.Thread(target=load.flood, args=(f"team{args.teams}",))
            for _ in range(0 if args.no_flood else FLOODS)
        ]
        for thread in [*teams, *floods]:
            thread.start()
        for thread in teams:
            thread.join()
        took = time.monotonic() - began
        load.is_over.set()
        for thread in floods:
            thread.join()
        print(
            f"{args.attempts} attempts and {args.hand_ins} programs of {args.teams} teams in {took / 60:.1f} "
            f"minutes: {dict(load.outcomes)}"
        )
        for what, values in (
            ("from the request to the keys", load.waited),
            ("from a hand-in to its grade", load.graded),
            ("from a program that is written to its match", load.tried),
        ):
            if values:
                print(f"{what}, median, 99 of 100, most: {quantiles(values)}")
        print(
            f"{len(load.asked)} requests of these teams, median, 99 of 100, most: {quantiles(load.asked)}"
        )
        print(f"the flood: {dict(load.flooded)}")
        print(
            f"the hall took {seconds_of(hall):.0f} processor seconds; servers left: {len(hall.servers())}"
        )


def main() -> None:
    parser = argparse.ArgumentParser(
        "python3 -m bench.hall",
        description=__doc__,
        formatter_class=argparse.RawDescriptionHelpFormatter,
    )
    parser.add_argument(
        "--teams", metavar="N", type=int, default=60, help="how many teams (60)"
    )
    parser.add_argument(
        "--attempts",
        metavar="N",
        type=int,
        default=600,
        help="how many attempts in all (600)",
    )
    parser.add_argument(
        "--hand-ins",
        metavar="N",
        type=int,
        default=60,
        help="how many programs in all (60)",
    )
    parser.add_argument(
        "--minutes",
        metavar="N",
        type=float,
        default=60,
        help="in how many minutes they begin (60)",
    )
    parser.add_argument(
        "--writers",
        metavar="N",
        type=int,
        default=0,
        help="how many of the teams write, and try a program every 20 seconds (0)",
    )
    parser.add_argument(
        "--no-flood", action="store_true", help="without the team that floods"
    )
    parser.add_argument(
        "--program", metavar="PATH", help="the program (the proved one if it is built)"
    )
    words = parser.parse_args()
    os.environ["ARENA_PROGRAM"] = program_at(words.program)
    run(words)


if __name__ == "__main__":
    main()
