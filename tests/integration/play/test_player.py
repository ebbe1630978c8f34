"""Agents whose steps are proved, as clients: in matches of the lab they say what the
same searches in Python say, or come to what `arena explore` finds of their module, and
they solve the matches of a contest over TCP within the moves of the theorems."""
import json
import pathlib
import random
import subprocess
import unittest
from typing import Any, Dict, List, NamedTuple, Sequence

from arena_lab.play import schedulers
from arena_lab.play.repetitions import with_repeats
from arena_lab.play.schedulers import Choice, MatchView, Scheduler
from arena_lab.play.teams import INSIDE, OUTSIDE, AgentWords
from arena_lab.rules.fixtures import Fixture, fixture_of
from arena_lab.rules.model import Setup
from arena_lab.rules.networks import Network, draw_network as drawn_network, ring
from tests.integration.play.test_halves import SEARCHES, fixture
from tests.program.unmapped_networks import CUBIC, QUOTA, Search
from tests.support.matches import (
    AGENTS,
    TOP,
    InFolder,
    flipped_ring,
    program,
    two,
    under,
)
from tests.support.servers import HOST, Server
from tests.support.tournaments import write_cup

PLAYER = TOP / "crates" / "bhs_player" / "out" / "bhs_player"
MODULE = TOP / "examples" / "agents" / "wasm" / "ring.wasm"
SIZES = (3, 4, 5, 8, 13, 16)
# rings of which every schedule is tried
SMALL = (3, 4, 5, 8)
# how many matches of the lab are drawn for each search and each scheduler, and how many
# a contest has for each search
DRAWN = 12
SERVED = 28
# how many matches of each are played by modules, and by agents that draw a chart
MODULES = 4
CHARTS = 2
# the most nodes of a network that is searched by a chart: an agent sleeps for a second
CHARTED = 5
# schedulers that let agents on links arrive while another one wakes and looks each second
LETTING = ("fair", "slow-agents", "starved")
# the schedulers of `explore`
EXPLORED = ("fair", "slow-agents", "last-departed", "starved")
# seconds within which a contest must end
PATIENCE = 120


class Game(NamedTuple):
    """A match, its network, what its agents run, and how many moves they may need."""

    network: Network
    fixture: Fixture
    runs: List[str]
    moves: int


def agents(runs: Sequence[str]) -> List[AgentWords]:
    return [
        AgentWords(OUTSIDE, f"{PLAYER} {{host}} {{port}} {{key}} {words}")
        for words in runs
    ]


def ring_of(sizes: Sequence[int], rng: random.Random) -> Network:
    nodes = rng.choice(sizes)
    return flipped_ring(nodes, rng) if rng.random() < 0.5 else ring(nodes)


def search_game(name: str, rng: random.Random) -> Game:
    """A match on a ring with the least quota and the least whiteboards of the theorem
    on a search in Python."""
    network = ring_of(SIZES, rng)
    home, hole = rng.sample(range(network.nodes), 2)
    bounds = SEARCHES[name](network.nodes)
    runs = [f"{pathlib.PurePath(name).stem} {network.nodes} {side}" for side in (0, 1)]
    return Game(
        network, fixture(network, hole, home, bounds.commands), runs, bounds.moves
    )


def chart_game(rng: random.Random) -> Game:
    """A match on a drawn network, with the least whiteboards, and one agent more than
    the black hole has links. If no node has more than three links, the agents are told
    just that, or the number of links."""
    network = drawn_network(rng, CHARTED)
    home, hole = rng.sample(range(network.nodes), 2)
    is_cubic = max(network.degrees()) <= CUBIC
    links = rng.choice([len(network.links), 0][: 1 + is_cubic])
    search = Search(network, home, hole, links)
    count = search.degree + 1
    setup = Setup(
        network.nodes, network.links, home, [hole], count, QUOTA, search.board
    )
    runs = [f"chart {network.nodes} {search.links}"] * count
    return Game(network, fixture_of(setup), runs, search.most_moves(count))


def following(schedule: Sequence[int]) -> Scheduler:
    """Agents have their turns in this order."""
    turns = iter(schedule)

    def choose(choices: Sequence[Choice], _: MatchView) -> Choice:
        agent = next(turns, None)
        return next((choice for choice in choices if choice.agent == agent), choices[0])

    return choose


@unittest.skipUnless(
    PLAYER.exists(), "the agents' program is not built: `rt ci` builds it"
)
class Players(InFolder):
    def write(self, games: Sequence[Game]) -> None:
        write_cup(self.folder, [game.fixture for game in games], seed="7" * 64)

    def explore(self, game: Game, *words: str) -> Dict[str, Any]:
        """What `explore` finds of a match whose agents run the module."""
        self.write([game])
        word = f"{MODULE}:{game.network.nodes}"
        result = subprocess.run(
            [program(), "explore", "cup.toml", "0", "--module", word, *words],
            cwd=self.folder,
            capture_output=True,
            text=True,
        )
        report: Dict[str, Any] = json.loads(result.stdout.splitlines()[0])
        return report

    def explore_drawn(self, rng: random.Random) -> Game:
        """A match that the module solves under every schedule, within these moves."""
        network = ring_of(SMALL, rng)
        home, hole = rng.sample(range(network.nodes), 2)
        fixture = fixture_of(
            Setup(network.nodes, network.links, home, [hole], 2, 200, 48)
        )
        game = Game(network, fixture, [f"--module {MODULE}:{network.nodes}"] * 2, 0)
        result = self.explore(game)
        self.assertEqual(result["found"], "solves")
        return game._replace(moves=result["moves"])

    def test_they_say_what_the_searches_in_python_say(self) -> None:
        for name in SEARCHES:
            for scheduler, maker in sorted(schedulers.SCHEDULER_MAKERS.items()):
                for seed in range(DRAWN):
                    game = search_game(
                        name, random.Random(f"{name} {scheduler} {seed}")
                    )
                    with self.subTest(name, scheduler=scheduler, seed=seed):
                        result = under(
                            maker(seed), game.fixture, agents(game.runs), seconds=20
                        )
                        self.assertFalse(result.has_failed())
                        self.assertLessEqual(result.verdict().moves, game.moves)
                        self.assertEqual(
                            result.replay,
                            under(
                                maker(seed), game.fixture, two(name, "{nodes}")
                            ).replay,
                        )

    def test_charts_solve_networks_without_a_map(self) -> None:
        for scheduler in LETTING:
            for seed in range(CHARTS):
                game = chart_game(random.Random(f"chart {scheduler} {seed}"))
                with self.subTest(game.runs[0], scheduler=scheduler, seed=seed):
                    maker = schedulers.SCHEDULER_MAKERS[scheduler]
                    result = under(
                        maker(seed), game.fixture, agents(game.runs), seconds=20
                    )
                    self.assertFalse(result.has_failed(), result.faults)
                    self.assertLessEqual(result.verdict().moves, game.moves)
                    self.assertLess(result.verdict().lost, len(game.runs))

    def test_charts_say_what_the_agents_in_python_say(self) -> None:
        message = set()
        for scheduler, maker in sorted(schedulers.SCHEDULER_MAKERS.items()):
            game = chart_game(random.Random(f"told {scheduler}"))
            _, nodes, links = game.runs[0].split()
            message.add(links == "0")
            python = AgentWords(INSIDE, f"{AGENTS / 'chart.py'} {nodes} {links}")
            with self.subTest(game.runs[0], scheduler=scheduler):
                match = under(maker(0), game.fixture, [python] * len(game.runs))
                self.assertFalse(match.has_failed(), match.faults)
                # each agent of the program plays alone, and hears what the one in Python heard
                again = with_repeats(match, agents(game.runs), game.fixture, 20)
                self.assertEqual(again.faults, [])
        self.assertEqual(message, {False, True})

    def test_modules_solve_what_they_are_proved_to_solve(self) -> None:
        for scheduler, maker in sorted(schedulers.SCHEDULER_MAKERS.items()):
            for seed in range(MODULES):
                with self.subTest(scheduler=scheduler, seed=seed):
                    game = self.explore_drawn(random.Random(f"{scheduler} {seed}"))
                    result = under(
                        maker(seed), game.fixture, agents(game.runs), seconds=20
                    )
                    self.assertFalse(result.has_failed(), result.faults)
                    self.assertLessEqual(result.verdict().moves, game.moves)

    def test_modules_come_to_what_explore_says_of_a_schedule(self) -> None:
        for scheduler in EXPLORED:
            for seed in range(MODULES):
                with self.subTest(scheduler=scheduler, seed=seed):
                    game = self.explore_drawn(
                        random.Random(f"{scheduler} {seed} drawn")
                    )
                    draw = self.explore(
                        game,
                        "--draws",
                        "3",
                        "--scheduler",
                        scheduler,
                        "--seed",
                        str(seed),
                    )
                    result = under(
                        following(draw["schedule"]),
                        game.fixture,
                        agents(game.runs),
                        seconds=20,
                    )
                    self.assertEqual(
                        (result.verdict().moves, result.verdict().lost),
                        (draw["moves"], draw["lost"]),
                    )

    def test_they_solve_the_matches_of_a_contest(self) -> None:
        rng = random.Random("a contest of players")
        draw = [search_game(name, rng) for name in SEARCHES for _ in range(SERVED)]
        draw += [self.explore_drawn(rng) for _ in range(MODULES)]
        games = [
            game._replace(
                fixture=game.fixture._replace(
                    keys=[f"{number}-{key}" for key in game.fixture.keys]
                )
            )
            for number, game in enumerate(draw)
        ]
        self.write(games)
        self.serve(games)
        for number, game in enumerate(games):
            with self.subTest(game.runs[0], number=number):
                words = [program(), "judge", f"cup{number}.jsonl"]
                verdict = subprocess.run(
                    words, cwd=self.folder, capture_output=True, text=True, check=True
                ).stdout
                outcome, _, moves, _, lost = verdict.split()
                self.assertEqual(outcome, "solved")
                self.assertLessEqual(int(moves), game.moves)
                self.assertLessEqual(int(lost), 1)

    def serve(self, games: Sequence[Game]) -> None:
        """Serves the matches of a tournament to the agents' program. An agent that is
        not lost ends with 0."""
        with Server(
            [program(), "serve", "cup.toml", "--pause", 1], self.folder
        ) as server:
            processes = [
                subprocess.Popen([PLAYER, HOST, str(server.port), key, *runs.split()])
                for game in games
                for runs, key in zip(game.runs, game.fixture.keys)
            ]
            try:
                self.assertEqual(server.child.wait(PATIENCE), 0)
                self.assertEqual({child.wait(PATIENCE) for child in processes}, {0})
            finally:
                for child in processes:
                    child.kill()
