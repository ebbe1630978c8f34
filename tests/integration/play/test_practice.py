"""The match for practice of `examples/practice.toml`: a team that takes a long silence
for the black hole is wrong, and one that decides nothing by time is silent. Without the
held link no team is wrong."""
from typing import List

from arena_lab.play.schedulers import Oblivious
from arena_lab.play.teams import INSIDE, AgentWords
from arena_lab.rules.delays import Delays
from arena_lab.rules.engines import Program
from arena_lab.rules.fixtures import Fixture, read_tournament
from arena_lab.rules.rehearsal import Rehearsal
from tests.support.matches import RING, InFolder, program, under

# One agent steps to the next node and comes back, node after node. The other waits
# behind it, and takes it for destroyed if it stays away for a long time.
TIMED = """
NAPS = 200

def search(agent, key, nodes, sleep):
    agent.enter(key)
    (step_out if agent.write("", "first").written else watch)(agent, sleep)

def step_out(agent, sleep):
    while True:
        agent.depart(0)
        agent.depart(1)
        agent.write(agent.look().board, "ok")
        agent.depart(0)

def watch(agent, sleep):
    while is_back(agent, sleep):
        agent.depart(0)
    agent.accuse(0)

def is_back(agent, sleep):
    for _ in range(NAPS):
        sleep(1)
        if agent.look().board == "ok":
            return True
    return False
"""
SEEDS = 5


class Practice(InFolder):
    def setUp(self) -> None:
        super().setUp()
        tournament = read_tournament("examples/practice.toml")
        self.fixture = tournament.fixtures[0]._replace(naps=1000)
        self.delays: Delays = tournament.delays or self.fail(
            "the schedule is not the oblivious one"
        )
        (self.folder / "timed.py").write_text(TIMED)
        self.timed = AgentWords(INSIDE, f"{self.folder / 'timed.py'} {{nodes}}")

    def outcomes(self, team: AgentWords, fixture: Fixture) -> List[str]:
        """What a team's matches come to, by the model and by the program."""
        return [
            under(Oblivious(seed, self.delays), fixture, [team] * 2, engine)
            .verdict()
            .outcome
            for seed in range(SEEDS)
            for engine in (Rehearsal, lambda fixture: Program(fixture, program()))
        ]

    def test_a_timeout_takes_the_held_link_for_a_black_hole(self) -> None:
        self.assertEqual(self.outcomes(self.timed, self.fixture), ["wrong"] * 2 * SEEDS)

    def test_who_decides_nothing_by_time_is_silent(self) -> None:
        self.assertEqual(self.outcomes(RING, self.fixture), ["silent"] * 2 * SEEDS)

    def test_without_the_held_link_nobody_is_wrong(self) -> None:
        free = self.fixture._replace(held=[])
        self.assertEqual(self.outcomes(RING, free), ["solved"] * 2 * SEEDS)
        self.assertNotIn("wrong", self.outcomes(self.timed, free))
