"""Under the oblivious schedule a match of the lab is the contest's: the replay of a
served contest and that of `./arena-lab run --scheduler oblivious` are equal byte for
byte, of agents that answer within their turn. A picked agent, a delay, or a turn of
departure that is another one delivers in another order; so does the adaptive
schedule."""
import contextlib
import pathlib
import threading
import time
from types import ModuleType

from arena_lab.play.schedulers import Oblivious, Scheduler, fair
from arena_lab.play.teams import INSIDE, AgentWords
from arena_lab.rules.delays import Delays
from arena_lab.rules.networks import ring
from examples.agents import client
from tests.support.matches import InFolder, program, under
from tests.support.servers import serve
from tests.support.tournaments import match, write_cup

SEED = 7
DELAYS = Delays(3, 6)
# each agent goes to and fro; the third goes into the black hole, the last over the link
# that is held
STEPS = ["010101010101", "1001100110011001", "0w1w00w", "11"]
WALKS = f"""
STEPS = {STEPS}

def walks(agent, key, number):
    agent.enter(key)
    for step in STEPS[number]:
        if step == "w":
            agent.write("", "x")
        else:
            agent.depart(int(step))
    agent.leave()
"""
PAUSE = 40
TURNS = 220
# how long an agent may take until it is on a link, before the next is started
SETTLES = 0.3
# on a busy machine an agent may answer a turn late
TRIES = 3


def walks_of(agents: ModuleType, port: int, number: int, key: str) -> None:
    with contextlib.closing(
        client.Agent.connect("127.0.0.1", port)
    ) as agent, contextlib.suppress(client.Refused):
        agents.walks(agent, key, number)


class ObliviousTest(InFolder):
    def setUp(self) -> None:
        super().setUp()
        self.fixture = match(
            "red", ring(7), [2], len(STEPS), quota=100, board=8, held=[(6, 1)]
        )
        self.file = self.folder / "walks.py"
        self.file.write_text(WALKS)
        write_cup(self.folder, [self.fixture], DELAYS, f"{SEED:064x}")

    def serve(self) -> bytes:
        """The replay of a contest over TCP. Turns begin once the last agent has
        entered."""
        agents = ModuleType("walks")
        exec(WALKS, agents.__dict__)
        with serve(
            program(),
            self.folder,
            "--gather",
            30_000,
            turns=TURNS,
            pause=PAUSE,
            sessions=len(STEPS),
            grace=1000,
        ) as server:
            for number, key in enumerate(self.fixture.keys):
                threading.Thread(
                    target=walks_of,
                    args=(agents, server.port, number, key),
                    daemon=True,
                ).start()
                time.sleep(SETTLES if number + 1 < len(STEPS) else 0)
            server.wait_for_end()
        return pathlib.Path(self.folder, "match0.jsonl").read_bytes()

    def inside(self, scheduler: Scheduler) -> bytes:
        """The replay of a match in the lab."""
        agents = [
            AgentWords(INSIDE, f"{self.file}:walks {number}")
            for number in range(len(STEPS))
        ]
        return under(scheduler, self.fixture, agents).replay

    def test_a_served_contest_and_the_lab_write_one_replay(self) -> None:
        expectation = self.inside(Oblivious(SEED, DELAYS))
        self.assertIn(b'"do":"deliver","reply":null', expectation)
        for _ in range(TRIES):
            result = self.serve()
            if result == expectation:
                break
        self.assertEqual(result.decode(), expectation.decode())

    def test_another_schedule_writes_another(self) -> None:
        expectation = self.inside(Oblivious(SEED, DELAYS))
        for second in (
            fair(SEED),
            Oblivious(SEED + 1, DELAYS),
            Oblivious(SEED, Delays(0, 6)),
            Oblivious(SEED),
        ):
            self.assertNotEqual(self.inside(second), expectation)
