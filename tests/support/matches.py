"""What the tests that play share: the program, and matches of the sample agents."""
import contextlib
import os
import random
from typing import Any, List, Sequence

from arena_lab.play import schedulers
from arena_lab.play.matches import PlayedMatch, play
from arena_lab.play.teams import INSIDE, AgentWords, Together
from arena_lab.rules.engines import TOP, program_at
from arena_lab.rules.fixtures import Fixture, fixture_of
from arena_lab.rules.model import Setup
from arena_lab.rules.networks import Network, draw_network, ring
from arena_lab.rules.rehearsal import Rehearsal
from tests.support.output import InTemporary

AGENTS = TOP / "examples" / "agents"
RING = AgentWords(INSIDE, f"{AGENTS / 'ring.py'} {{nodes}}")
# the same search, written as a step
RING_STEP = AgentWords(INSIDE, f"{AGENTS / 'ring_step.py'} {{nodes}}")
MAP = AgentWords(INSIDE, f"{AGENTS / 'map.py'} {{nodes}} {{links}}")
KNOWN_MAP = AgentWords(INSIDE, str(AGENTS / "known_map.py"))
RING3 = AgentWords(INSIDE, f"{AGENTS / 'ring3.py'} {{nodes}}")

# agents with a fault each, which several tests play: the text of a file
FAULTY = """
from client import MatchOver


def raises(agent, key):
    agent.enter(key)
    raise KeyError("west")


def refused(agent, key):
    agent.enter(key)
    while True:
        try:
            agent.depart(9)
        except Exception:
            pass


def sleeps(agent, key, sleep):
    agent.enter(key)
    while True:
        sleep(1)
        agent.look()


def crashes_when_it_is_over(agent, key, port):
    agent.enter(key)
    try:
        agent.depart(port)
    except MatchOver:
        raise AttributeError("nothing was seen")
"""


def program() -> str:
    """The built program: ARENA_PROGRAM names it, as tests/runners/integration_tests.py
    does."""
    return program_at(os.environ.get("ARENA_PROGRAM"))


def two(name: str, *words: str) -> List[AgentWords]:
    """A sample agent, once for each side."""
    return [
        AgentWords(INSIDE, " ".join([str(AGENTS / name), *words, str(side)]))
        for side in (0, 1)
    ]


def fixture(
    network: Network, hole: int, agents: int = 2, board: int = 4096, home: int = 0
) -> Fixture:
    return fixture_of(
        Setup(network.nodes, network.links, home, [hole], agents, 1000, board)
    )


def flipped_ring(nodes: int, rng: random.Random) -> Network:
    """A ring at whose nodes, the home base aside, the two ports may stand the other way
    round."""
    flips = [0] + [rng.randrange(2) for _ in range(1, nodes)]
    return Network(
        nodes,
        [
            (v, flips[v], (v + 1) % nodes, 1 - flips[(v + 1) % nodes])
            for v in range(nodes)
        ],
    )


def ring_fixture(nodes: int, hole: int, rng: random.Random) -> Fixture:
    """A ring whose labels agree around it, or are mixed."""
    return fixture(
        ring(nodes) if rng.random() < 0.5 else flipped_ring(nodes, rng),
        hole,
        board=32,
    )


def network_fixture(rng: random.Random) -> Fixture:
    """A network by chance, with more agents than its greatest degree."""
    network = draw_network(rng)
    home, hole = rng.sample(range(network.nodes), 2)
    return fixture(network, hole, max(network.degrees()) + 1, home=home)


def play_fixture(
    fixture: Fixture,
    agent: AgentWords,
    seed: int,
    maker: schedulers.Maker = schedulers.slow_agents,
    engine: Any = Rehearsal,
) -> PlayedMatch:
    """A match of agents that are alike."""
    return under(maker(seed), fixture, [agent] * fixture.setup.agents, engine)


def under(
    scheduler: schedulers.Scheduler,
    fixture: Fixture,
    agents: Sequence[AgentWords],
    engine: Any = Rehearsal,
    seconds: float = 5,
) -> PlayedMatch:
    """A match under a scheduler, by an engine that is made of a fixture."""
    return play(engine(fixture), Together(agents, fixture, seconds), scheduler, fixture)


class InFolder(InTemporary):
    """Tests that run at the top of the repository, each with a folder of its own."""

    def setUp(self) -> None:
        super().setUp()
        self.enterContext(contextlib.chdir(TOP))
