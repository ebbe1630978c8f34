"""Plans of two agents that divide a network with a map."""
import random
import unittest
from typing import Iterator, List

from arena_lab.play.agent_files import AGENTS, load_module
from arena_lab.rules.networks import Network, draw_network, network_named
from tests.support.drawing import by_chance

dividing = load_module(AGENTS / "dividing.py")
dividing_plan = load_module(AGENTS / "dividing_plan.py")

NAMES = ("ring:7", "hypercube:3", "complete:6", "torus:3x3", "ccc:3")
# the plans of larger networks have too many stages to look at each
LARGEST = 9


def drawn_network(rng: random.Random) -> Network:
    """A named network, or a drawn one."""
    name = rng.choice((*NAMES, ""))
    return network_named(name) if name else draw_network(rng, LARGEST)


def stages(plan: "dividing_plan.Plan", divisions: tuple = ()) -> Iterator[tuple]:
    """The divisions of each stage that can occur."""
    yield divisions
    for side, itinerary in enumerate(plan.stage(divisions).itineraries):
        for step, action in enumerate(itinerary):
            if action.is_new and plan.remaining(divisions, side, step) >= 2:
                yield from stages(plan, (*divisions, (side, step)))


class Plans(unittest.TestCase):
    """Each stage has what `IsPlanned` and `IsDivided` of `bhs_protocols_divided` ask."""

    @by_chance(60)
    def test_stages_are_planned(self, rng: random.Random) -> None:
        network = drawn_network(rng)
        home = rng.randrange(network.nodes)
        plan = dividing_plan.Plan(network.links, home)
        for divisions in stages(plan):
            stage = plan.stage(divisions)
            self.assertFalse(stage.safe & {*stage.parts[0], *stage.parts[1]})
            sizes = [len(part) for part in stage.parts]
            larger = divisions[-1][0] if divisions else 0
            self.assertIn(sizes[larger] - sizes[1 - larger], (0, 1))
            for part, itinerary in zip(stage.parts, stage.itineraries):
                self.check_itinerary(plan, stage, part, itinerary)

    def check_itinerary(
        self,
        plan: "dividing_plan.Plan",
        stage: "dividing_plan.Stage",
        part: List[int],
        itinerary: "dividing_plan.Itinerary",
    ) -> None:
        """The itinerary is a closed walk that explores each node of its part once, and
        walks only to nodes that are safe by then."""
        node = stage.root
        safe = set(stage.safe)
        for action in itinerary:
            self.assertEqual(plan.ports[node][action.node], action.port)
            self.assertEqual(plan.ports[action.node][node], action.back)
            if action.is_new:
                self.assertNotIn(action.node, safe)
                safe.add(action.node)
            else:
                self.assertIn(action.node, safe)
                node = action.node
        self.assertEqual(node, stage.root)
        self.assertEqual(safe, stage.safe.union(part))
        walks = sum(not action.is_new for action in itinerary)
        self.assertLessEqual(walks, 2 * (len(plan.ports) - 2))

    @by_chance(60)
    def test_the_partner_goes_on_where_it_reads_a_division(
        self, rng: random.Random
    ) -> None:
        network = drawn_network(rng)
        plan = dividing_plan.Plan(network.links, rng.randrange(network.nodes))
        for divisions in stages(plan):
            if divisions:
                side, step = divisions[-1]
                before = plan.stage(divisions[:-1]).itineraries[side]
                after = plan.stage(divisions)
                self.assertEqual(after.itineraries[side][0], before[step])
                self.assertEqual(
                    {*after.parts[0], *after.parts[1]},
                    set(dividing_plan.new_nodes(before[step:])),
                )

    def test_a_network_with_a_cut_node_is_refused(self) -> None:
        bow = [
            (0, 0, 1, 0),
            (1, 1, 2, 0),
            (2, 1, 0, 1),
            (2, 2, 3, 0),
            (3, 1, 4, 0),
            (4, 1, 2, 3),
        ]
        with self.assertRaisesRegex(
            dividing_plan.NotBiconnectedError, "without node 2"
        ):
            dividing_plan.Plan(bow, 0)


class Boards(unittest.TestCase):
    def test_texts_of_whiteboards(self) -> None:
        board = dividing.Board((65, 2), 1)
        # the example of `worked_examples` in bhs_protocols_divided
        self.assertEqual([ord(letter) for letter in board.text()], [33, 33, 32, 34, 33])
        self.assertEqual(dividing.board_in(board.text()), board)
        self.assertEqual(dividing.board_in(""), dividing.Board())
        self.assertEqual(board.with_count(1, 4_095).counts, (65, 4_095))

    def test_bounds(self) -> None:
        self.assertEqual(
            [dividing_plan.max_moves(size) for size in (3, 4, 5, 64)],
            [10, 30, 44, 2_358],
        )
