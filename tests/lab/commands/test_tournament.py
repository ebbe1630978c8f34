"""Tournaments draw the numbers of ports, and another try of a match does too."""
from typing import Any, List

from arena_lab.__main__ import main
from arena_lab.rules import networks
from arena_lab.rules.fixtures import Fixture, read_tournament
from tests.support.output import InTemporary, run_call

# ports of so many nodes are drawn as they are once in 2^40 times
RING = networks.network_named("ring:40")


class Ports(InTemporary):
    def write_tournament(self, out: str, *words: str) -> List[Fixture]:
        """The matches of a tournament that is written."""
        result: Any = run_call(
            main, ["tournament", *words, "--out", str(self.folder / out)]
        )
        self.assertEqual(result.status, 0, result.errors)
        return read_tournament(str(self.folder / out / "tournament.toml")).fixtures

    def teams(self, out: str, *words: str) -> List[Fixture]:
        two = ("--team", "red", "--team", "blue", "--network", "ring:40")
        return self.write_tournament(out, *two, "--holes", "2", "--traps", "1", *words)

    def again(self, out: str, *words: str) -> Fixture:
        file = str(self.folder / "cup" / "tournament.toml")
        return self.write_tournament(out, "--again", file, "1", *words)[0]

    def test_ports_are_drawn_once_for_each_network(self) -> None:
        result = self.teams("cup")
        self.assertEqual(len({repr(result.setup.links) for result in result}), 1)
        self.assertNotEqual(result[0].setup.links, RING.links)
        self.assertEqual(len({key for result in result for key in result.keys}), 12)
        again = self.again("again").setup
        self.assertNotIn(again.links, (RING.links, result[0].setup.links))

    def test_ports_stay_if_that_is_said(self) -> None:
        result = self.teams("cup", "--ports", "given")
        self.assertEqual(
            {repr(result.setup.links) for result in result}, {repr(RING.links)}
        )
        setup = self.again("again", "--ports", "given").setup
        self.assertEqual(setup.links, RING.links)
        self.assertNotEqual(self.again("other").setup.links, RING.links)
