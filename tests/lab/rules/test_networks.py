"""Networks by name, and how their ports are numbered."""
import argparse
import pathlib
import random
import unittest
import warnings

from arena_lab.__main__ import main
from arena_lab.command_line.arguments import ports
from arena_lab.commands.tournament import file_of, number_or, team_name
from arena_lab.rules import draws, networks
from arena_lab.support.built import TOP
from arena_lab.support.missing import require
from tests.support.drawing import by_chance
from tests.support.needing import needs
from tests.support.output import InTemporary, run_call

NAMES = (
    "ring:5",
    "hypercube:3",
    "torus:3x4",
    "complete:5",
    "ccc:3",
    "ccc:5",
    "random:7",
    "grid:3x4",
    "grid:2x2",
    "wheel:3",
    "wheel:6",
    "petersen:5x2",
    "petersen:7x3",
    str(TOP / "examples/torus25.toml"),
)


def far_ends(network: networks.Network) -> dict:
    """Where each port leads."""
    ends = {(v, p): (w, q) for v, p, w, q in network.links}
    return {**ends, **{far: near for near, far in ends.items()}}


class Networks(InTemporary):
    def test_each_node_has_its_ports_in_a_row(self) -> None:
        for name in NAMES:
            network = networks.network_named(name)
            for made in (network, draws.renumber(network, 3)):
                with self.subTest(name):
                    expectation = [
                        (v, p)
                        for v, degree in enumerate(made.degrees())
                        for p in range(degree)
                    ]
                    self.assertEqual(sorted(far_ends(made)), expectation)

    def test_sizes(self) -> None:
        for name, nodes, degree in (
            ("ring:5", 5, 2),
            ("hypercube:3", 8, 3),
            ("torus:3x4", 12, 4),
            ("complete:5", 5, 4),
            (str(TOP / "examples/torus25.toml"), 25, 4),
        ):
            self.assertEqual(
                networks.network_named(name).degrees(), [degree] * nodes, name
            )

    def test_cube_connected_cycles(self) -> None:
        far = far_ends(networks.network_named("ccc:3"))
        self.assertEqual(far[3 * 5 + 2, 0], (3 * 5 + 0, 1))
        self.assertEqual(far[3 * 5 + 1, 2], (3 * 7 + 1, 2))
        self.assertEqual(far[3 * 5 + 0, 2], (3 * 4 + 0, 2))

    def test_grids_wheels_and_petersen_graphs(self) -> None:
        far = far_ends(networks.network_named("grid:2x3"))
        self.assertEqual([far[1, port] for port in range(3)], [(2, 0), (0, 0), (4, 2)])
        far = far_ends(networks.network_named("wheel:4"))
        self.assertEqual(
            [far[position] for position in ((0, 3), (4, 0), (4, 1))],
            [(4, 2), (1, 1), (3, 0)],
        )
        far = far_ends(networks.network_named("petersen:5x2"))
        self.assertEqual(
            [far[position] for position in ((4, 0), (4, 2), (9, 0))],
            [(0, 1), (9, 2), (6, 1)],
        )

    @needs("networkx")
    def test_a_graph_in_graphml(self) -> None:
        networkx = require("networkx")
        path = str(self.folder / "it.graphml")
        networkx.write_graphml(networkx.petersen_graph(), path)
        network = networks.check_biconnected(path)
        self.assertEqual((network.nodes, len(network.links)), (10, 15))
        networkx.write_graphml(networkx.path_graph(4), path)
        with self.assertRaisesRegex(
            networks.NetworkError, "without node 1 some other nodes are apart"
        ):
            networks.check_biconnected(path)
        pathlib.Path(path).write_text("nodes")
        with self.assertRaisesRegex(networks.NetworkError, "it is no GraphML"):
            networks.network_named(path)

    @needs("networkx")
    def test_graphml_that_is_to_fill_the_machine_is_refused_in_a_line_at_once(
        self,
    ) -> None:
        ring = "".join(
            f'<node id="{node}"/><edge source="{node}" target="{(node + 1) % 5}"/>'
            for node in range(5)
        )
        laughs = "".join(
            f'<!ENTITY l{first} "{f"&l{first - 1};" * 10}">' for first in range(1, 10)
        )
        data = '<key id="k" for="node" attr.name="c" attr.type="{}"/>'
        values = f'<node id="5"><data key="k">{"9" * 9_999}</data></node>'
        files = {
            "it declares entities": f'<!DOCTYPE x [<!ENTITY l0 "ha">{laughs}]>{{}}<node id="&l9;"/>',
            "it declares entities:": '<!DOCTYPE x [<!ENTITY l0 SYSTEM "file:///etc/hostname">]>{}<node id="&l0;"/>',
            "it has more than 4096 nodes": "{}"
            + "<node id='x'>" * 5_000
            + "</node>" * 5_000,
            "it has more than 16 MB": "{}" + " " * networks.MAX_GRAPHML,
            "unknown encoding": '<?xml version="1.0" encoding="no-such"?>{}',
            "4300 digits": data.format("int") + "{}" + values,
            "zork": data.format("zork") + "{}",
            "999": data.format("boolean") + "{}" + values,
        }
        head = '<graphml xmlns="http://graphml.graphdrawing.org/xmlns">'
        path = self.folder / "it.graphml"
        for why, text in files.items():
            before, _, behind = text.partition("{}")
            is_key = before.startswith("<key")
            path.write_text(
                f'{before * (not is_key)}{head}{before * is_key}<graph edgedefault="undirected">{ring}'
                f"{behind}</graph></graphml>"
            )
            with self.subTest(why), self.assertRaisesRegex(
                networks.NetworkError, f"it is no GraphML .*{why}"
            ) as message:
                networks.network_named(str(path))
            self.assertLess(len(str(message.exception)), 300)
        port = ring.replace('<node id="1"/>', '<node id="1"><port name="x"/></node>')
        path.write_text(
            f'{head}<graph edgedefault="undirected">{port}</graph></graphml>'
        )
        with warnings.catch_warnings():
            warnings.simplefilter("error")
            self.assertEqual(networks.network_named(str(path)).nodes, 5)

    @needs("networkx", "numpy", "scipy", "jinja2")
    def test_a_page_has_each_node_and_each_port(self) -> None:
        page, file = (self.folder / name for name in ("it.html", "it.toml"))
        status, output, _ = run_call(
            main, ["network", "petersen:5x2", "--page", str(page), "--out", str(file)]
        )
        self.assertEqual(status, 0)
        text = page.read_text()
        self.assertEqual(
            (text.count("<circle"), text.count("<line"), text.count('class="port"')),
            (10, 15, 30),
        )
        self.assertEqual(output.splitlines()[0], f"see it: {page}")
        self.assertIn("nodes = 10", file.read_text())

    def test_shuffled_ports_join_the_same_nodes_by_other_labels(self) -> None:
        network = networks.network_named("torus:4x4")
        first = draws.renumber(network, 1)
        two = draws.renumber(network, 2)
        pairs = [[(v, w) for v, _, w, _ in it.links] for it in (network, first, two)]
        self.assertEqual(pairs[0], pairs[1])
        self.assertEqual(pairs[0], pairs[2])
        self.assertEqual(first, draws.renumber(network, 1))
        self.assertEqual(len({tuple(it.links) for it in (network, first, two)}), 3)

    @by_chance(200)
    def test_drawn_networks_join_two_nodes_once_and_have_few_ports(
        self, rng: random.Random
    ) -> None:
        network = networks.draw_network(rng)
        pairs = {frozenset((v, w)) for v, _, w, _ in network.links}
        self.assertEqual(len(pairs), len(network.links))
        self.assertEqual({len(pair) for pair in pairs}, {2})
        self.assertLessEqual(max(network.degrees()), networks.LARGEST_DEGREE)
        self.assertGreaterEqual(min(network.degrees()), 2)
        self.assertTrue(3 <= network.nodes <= networks.LARGEST)

    def test_a_seed_draws_the_network_of_its_name(self) -> None:
        draw = [networks.draw_network(random.Random(seed)) for seed in range(9)]
        names = [networks.network_named(f"random:{seed}") for seed in range(9)]
        self.assertEqual(draw, names)

    def test_names_that_name_none(self) -> None:
        for name, message in (
            ("ccc:2", "cube-connected cycles 3 dimensions or more"),
            ("hypercube:40", "3 to 4096 nodes"),
            ("complete:100000", "3 to 4096 nodes"),
            ("ccc:9", "this one has 4608"),
            ("random:9:deg3:seed1", "N times K is even"),
            ("ring:8:deg2:seed1", "a network is ring:N"),
            ("random:5000:deg3:seed1", "3 to 4096 nodes"),
            ("grid:1x9", "a grid 2"),
            ("wheel:2", "around a hub 3 nodes"),
            ("petersen:4x2", "petersen:NxK"),
            ("ring", "there is no such file"),
            ("ring:2", "3 to 4096 nodes"),
            ("ring:x", "is ring:N"),
            ("torus:2x5", "a torus 3 rows"),
            ("torus:3", "is ring:N"),
            ("star:4", "is ring:N"),
            ("ring:4097", "3 to 4096 nodes"),
        ):
            with self.subTest(name), self.assertRaisesRegex(
                networks.NetworkError, message
            ):
                networks.network_named(name)


class Ranges(unittest.TestCase):
    def test_a_range_names_all_sizes(self) -> None:
        self.assertEqual(["ring:3", "ring:4", "ring:5"], networks.in_range("ring:3..5"))
        for name in ("torus:3x4", "random:6:deg3:seed1", "ring.toml"):
            self.assertEqual([name], networks.in_range(name))
        with self.assertRaisesRegex(networks.NetworkError, "as in ring:3..5"):
            networks.in_range("ring:5..3")

    def test_a_second_network_is_refused_and_not_taken_in_silence(self) -> None:
        words = [
            "run",
            "--network",
            "ring:3",
            "--network",
            "ring:4",
            "--agent",
            "examples/agents/ring.py 4",
        ]
        self.assertIn(
            "--network is given twice: name one", run_call(main, words).errors
        )


class Words(unittest.TestCase):
    def test_words_that_are_taken(self) -> None:
        self.assertEqual(ports("shuffled:17"), 17)
        self.assertEqual(team_name("red-2"), "red-2")
        self.assertEqual(
            [number_or("all")(word) for word in ("all", "12")], ["all", 12]
        )

    def test_words_that_are_refused(self) -> None:
        for duration, word in (
            (ports, "shuffled"),
            (ports, "3"),
            (team_name, "Red"),
            (team_name, "r" * 17),
            (number_or("all"), "0"),
            (number_or("all"), "few"),
        ):
            with self.subTest(word), self.assertRaises(argparse.ArgumentTypeError):
                duration(word)

    def test_the_file_of_a_network_has_its_name(self) -> None:
        for names, files in (
            (
                ["ring:8", "torus:5x5", "nets/own.toml"],
                ["ring-8.toml", "torus-5x5.toml", "own.toml"],
            ),
            (
                ["ring:8", "ring:8", "ring-8-1"],
                ["ring-8-0.toml", "ring-8-1.toml", "ring-8-1-2.toml"],
            ),
            (["tournament.toml"], ["tournament-0.toml"]),
        ):
            self.assertEqual(
                [file_of(names, number) for number in range(len(names))], files
            )
