"""Checks the draws of matches, and that only one module makes them."""
import ast
import random
import unittest
from typing import Iterator

from arena_lab.play.teams import NUMBERINGS, AgentWords, Game
from arena_lab.rules import draws, networks
from arena_lab.rules.draws import DRAWN, Open
from arena_lab.support.built import LAB

RING = networks.network_named("ring:4")
# calls that draw nodes or seeds, and the modules that have other things to draw by them
CALLS = ("sample", "randrange", "getrandbits", "randbits")
OTHERS = {
    "rules/draws.py",
    # of networks that are drawn themselves
    "rules/networks.py",
    "sandbox/kernel_noise.py",
    # addresses, rows to verify, the order in which agents are repeated, whom a person
    # meets, and a generator of agents
    "hall/attempts/servers.py",
    "sweep/row_checks.py",
    "course/rounds.py",
    "play/human.py",
    "play/own_modules.py",
}


def drawing() -> Iterator[str]:
    """The modules of the lab that call what draws."""
    for path in LAB.rglob("*.py"):
        for node in ast.walk(ast.parse(path.read_text(encoding="utf-8"))):
            if isinstance(node, ast.Attribute) and node.attr in CALLS:
                yield path.relative_to(LAB).as_posix()


class Draws(unittest.TestCase):
    def test_nothing_else_draws_nodes_or_ports(self) -> None:
        self.assertEqual(set(drawing()) - OTHERS, set())

    def test_what_is_left_open_is_drawn_and_nothing_else(self) -> None:
        network = networks.network_named("hypercube:3")
        rng = random.Random(1)
        homes = set()
        holes = set()
        ports = set()
        for _ in range(300):
            match = draws.draw_match(network, rng, Open(holes=2, closed_pairs=1))
            self.assertNotIn(match.home, match.holes)
            self.assertEqual(len(set(match.holes)), 2)
            self.assertEqual(len(match.held), 3)
            homes.add(match.home)
            holes.update(match.holes)
            ports.add(match.ports)
        self.assertEqual((homes, holes), (set(range(8)), set(range(8))))
        self.assertEqual(len(ports), 300)
        match = draws.draw_match(network, rng, Open(3, ports=None))
        self.assertEqual((match.home, match.network), (3, network))

    def test_more_nodes_than_there_are(self) -> None:
        with self.assertRaisesRegex(networks.NetworkError, "only 3 nodes can be"):
            draws.draw_match(RING, random.Random(0), Open(holes=3, closed_pairs=1))

    def test_numbers_of_matches_go_through_all_places(self) -> None:
        results = [draws.of_number(RING, number, Open()) for number in range(12)]
        self.assertEqual(len({(result.home, *result.holes) for result in results}), 12)
        plain = [
            draws.of_number(RING, number, Open(0, ports=None)) for number in range(3)
        ]
        self.assertEqual([it.holes for it in plain], [[1], [2], [3]])

    def test_ports_in_words(self) -> None:
        for word, ports in (("drawn", DRAWN), ("given", None), ("shuffled:3", 3)):
            self.assertEqual(draws.ports_of(word), ports)
        for word in ("shuffled", "3", "Drawn", "shuffled:-1"):
            with self.assertRaisesRegex(networks.NetworkError, f"{word}: ports are "):
                draws.ports_of(word)

    def test_keys_are_those_of_a_number(self) -> None:
        keys = [key for number in range(50) for key in draws.keys_of(number, 2)]
        self.assertEqual(len(set(keys)), 100)
        sides = {draws.seed_of(key) % 2 for key in keys[::2]}
        self.assertEqual(sides, {0, 1})


class Games(unittest.TestCase):
    """What a game's seeds and its searches have of ports and home bases."""

    def game(self, **extra: object) -> Game:
        return Game("ring:4", RING, [AgentWords("agent", "a.py")] * 2)._replace(**extra)  # type: ignore[arg-type]

    def test_each_match_has_keys_of_its_own(self) -> None:
        fixtures = [self.game().fixture(seed) for seed in range(6)]
        self.assertEqual(len({key for fixture in fixtures for key in fixture.keys}), 12)
        self.assertEqual(
            {repr(fixture.setup.links) for fixture in fixtures}, {repr(RING.links)}
        )

    def test_every_numbering_goes_with_every_black_hole(self) -> None:
        games = self.game(ports=DRAWN).drawn_games()
        self.assertEqual(len(games), NUMBERINGS)
        self.assertIn("ring:4 with ports shuffled:", games[0].name)
        links = {repr(game.fixtures()[0].setup.links) for game in games}
        self.assertEqual(len(links), NUMBERINGS)
        for game in games:
            holes = [fixture.setup.holes for fixture in game.fixtures()]
            self.assertEqual(holes, [[1], [2], [3]])
            # its agents are taken for the same machines
            self.assertEqual(
                len({repr(fixture.keys) for fixture in game.fixtures()}), 1
            )
        self.assertEqual(len({repr(game.fixtures()[0].keys) for game in games}), 16)

    def test_every_home_base(self) -> None:
        games = self.game(home=None).drawn_games()
        self.assertEqual(
            [(game.name, game.home) for game in games],
            [(f"ring:4, home {home}", home) for home in range(4)],
        )
