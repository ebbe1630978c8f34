"""Measures what teams gain that take an agent for lost after a timeout, beside teams
that decide nothing by time.

    tools/build               # proves and builds the program, if that is not done yet
    python3 -m bench.timeouts [--contests N] [--nodes N] [--turns K] [--pause MS] [--schedule NAME]
        [--timeouts TURNS ..] [--traps]

Each contest has a match of the honest search `examples/agents/ring.py` and one match
for each timeout of 1, 8, 64 and 512 turns (or those of --timeouts), all on a ring and
with the black hole opposite the home base. In a timed team one agent steps to the next
node and comes back, node after node; the other waits behind it, and if its companion
has not come back in time, it takes the node ahead for the black hole, visits all
others, and accuses it from behind. Such a team needs about three moves a node, and
honest agents need some log n times as many. With --traps hasty teams play too, which
accuse at once, and each team also plays a match without a black hole, in which nobody
arrives at that node and at the next (`./arena-lab tournament --traps`). As many
contests are played in one as a tournament of 64 matches has room for. The program is
./arena, or what ARENA names.
"""
import argparse
import collections
import importlib
import pathlib
import sys
import tempfile
import threading
import time
from typing import Callable, Counter, Dict, List, NamedTuple, Sequence

from bench.servers import MAX_SESSIONS, prepare, serving
from arena_lab.play.agent_files import client_module
from arena_lab.rules import networks
from arena_lab.rules.delays import Delays
from arena_lab.rules.fixtures import Fixture
from tests.support.counts import FailedCheckError
from tests.support.tournaments import match, write_cup

client = client_module()
search = importlib.import_module("ring").search

TIMEOUTS = (1, 8, 64, 512)
MAX_MATCHES = 64
# in a team's name, of a match that is a trap
TRAP = "t"
# accuses as soon as its time is up, and visits no other node before
HASTY = "hasty"
QUOTA = 1000
BOARD = 64
SCHEDULES = {"adaptive": None, "oblivious": Delays(10, 32)}
SEED = "07" * 32
OUTCOMES = ("solved", "guess", "unfinished", "silent", "wrong")
BACK = 1
AHEAD = 0


class Rules(NamedTuple):
    """Settings shared by all matches."""

    nodes: int
    turns: int
    pause: int
    schedule: str
    timeouts: Sequence[int]
    has_traps: bool

    def kinds(self) -> List[str]:
        """The teams of a contest: `honest`, `timeout-8` and so on, and again in traps
        as `honest-t`."""
        names = ["honest", *(f"timeout-{turns}" for turns in self.timeouts)]
        if not self.has_traps:
            return names
        names += [f"{HASTY}-{turns}" for turns in self.timeouts]
        return names + [f"{kind}-{TRAP}" for kind in names]


def teams(rules: Rules, contests: int) -> List[str]:
    """The teams of some contests: `honest-0`, `timeout-8-0` and so on."""
    return [f"{kind}-{number}" for number in range(contests) for kind in rules.kinds()]


def fixtures(rules: Rules, names: List[str]) -> List[Fixture]:
    """The matches of these teams."""
    network = networks.ring(rules.nodes)
    node = rules.nodes // 2
    ends = networks.places_into(network.links, (node, node + 1))
    return [
        match(
            name,
            network,
            [] if is_trap else [node],
            quota=QUOTA,
            board=BOARD,
            held=ends if is_trap else [],
        )
        for name in names
        for is_trap in [f"-{TRAP}-" in name]
    ]


def step_out(agent: client.Agent, nodes: int) -> None:
    """Steps to the next node, comes back, says so and follows, node after node."""
    for _ in range(nodes - 2):
        agent.depart(AHEAD)
        agent.depart(BACK)
        agent.write("", "ok")
        agent.depart(AHEAD)


def watch(
    agent: client.Agent, nodes: int, seconds: float, every: float, is_hasty: bool
) -> None:
    """Follows while the other comes back in time; else visits the nodes that are left,
    and accuses from behind, or accuses at once."""
    safe = 0
    while is_back(agent, seconds, every):
        agent.depart(AHEAD)
        safe += 1
    if is_hasty:
        return agent.accuse(AHEAD)
    for _ in range(nodes - 2):
        agent.depart(BACK)
    agent.accuse(BACK)


def is_back(agent: client.Agent, seconds: float, every: float) -> bool:
    until = time.monotonic() + seconds
    while time.monotonic() < until:
        time.sleep(every)
        if agent.look().board == "ok":
            return True
    return False


def plays(port: int, rules: Rules, name: str, number: int) -> Callable[[], None]:
    """Returns the function that plays one agent of a team."""
    key = f"{name}-{number}"
    pause = rules.pause / 1000

    def play() -> None:
        agent = client.Agent.connect("127.0.0.1", port)
        try:
            if name.startswith("honest"):
                search(agent, key, rules.nodes)
                return
            agent.enter(key)
            if number == 0:
                step_out(agent, rules.nodes)
            else:
                timeout = int(name.split("-")[1])
                every = max(1, timeout // 8) * pause / 2
                watch(
                    agent, rules.nodes, timeout * pause, every, name.startswith(HASTY)
                )
        except client.Refused:
            pass
        finally:
            agent.close()

    return play


def table_of(text: str) -> Dict[str, str]:
    """The outcome of each team, by the table that the server prints."""
    rows = [line.split() for line in text.splitlines()[1:]]
    return {row[1]: row[2] for row in rows}


def contest(rules: Rules, contests: int) -> Dict[str, str]:
    """Plays several contests as one, and returns the outcomes of its teams."""
    names = teams(rules, contests)
    with tempfile.TemporaryDirectory() as folder_name:
        folder = pathlib.Path(folder_name)
        write_cup(folder, fixtures(rules, names), SCHEDULES[rules.schedule], SEED)
        with serving(
            folder,
            2 * len(names),
            rules.turns,
            rules.pause,
            "--early",
            "--gather",
            10_000,
        ) as server:
            for name in names:
                for number in range(2):
                    threading.Thread(
                        target=plays(server.port, rules, name, number), daemon=True
                    ).start()
            return table_of(server.child.stdout.read().decode())


def main(arguments: List[str]) -> int:
    parser = argparse.ArgumentParser(
        description=__doc__, formatter_class=argparse.RawDescriptionHelpFormatter
    )
    parser.add_argument(
        "--contests",
        type=int,
        default=20,
        help="how many matches each team plays (default: 20)",
    )
    parser.add_argument(
        "--nodes", type=int, default=64, help="nodes of the ring (default: 64)"
    )
    parser.add_argument(
        "--turns", type=int, default=20_000, help="turns of a match (default: 20,000)"
    )
    parser.add_argument(
        "--pause",
        type=int,
        default=4,
        help="milliseconds before each turn (default: 4)",
    )
    parser.add_argument(
        "--timeouts",
        type=int,
        nargs="+",
        default=TIMEOUTS,
        help="in turns (default: 1 8 64 512)",
    )
    parser.add_argument(
        "--traps", action="store_true", help="each team also plays a trap"
    )
    parser.add_argument(
        "--schedule",
        choices=sorted(SCHEDULES),
        default="oblivious",
        help="(default: oblivious)",
    )
    args = parser.parse_args(arguments)
    prepare(MAX_SESSIONS)
    rules = Rules(
        args.nodes,
        args.turns,
        args.pause,
        args.schedule,
        args.timeouts,
        args.traps,
    )
    outcomes: Dict[str, Counter[str]] = collections.defaultdict(collections.Counter)
    contests_left = args.contests
    while contests_left:
        some = min(contests_left, MAX_MATCHES // len(rules.kinds()))
        try:
            for name, outcome in contest(rules, some).items():
                outcomes[name.rpartition("-")[0]][outcome] += 1
        except (FailedCheckError, OSError) as fault:
            print(fault, file=sys.stderr)
            return 1
        contests_left -= some
    print(f"| team | {' | '.join(OUTCOMES)} |\n| --- |{' --- |' * len(OUTCOMES)}")
    for name in rules.kinds():
        print(
            f"| {name} | {' | '.join(str(outcomes[name][outcome]) for outcome in OUTCOMES)} |"
        )
    return 0


if __name__ == "__main__":
    sys.exit(main(sys.argv[1:]))
