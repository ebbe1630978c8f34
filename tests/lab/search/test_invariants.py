"""Files of candidate invariants, and what an agent holds after a history."""
import unittest

from arena_lab.rules.engines import TOP
from arena_lab.rules.model import Match, Setup
from arena_lab.rules.networks import ring
from arena_lab.search.invariants import Candidate, CandidateError, CandidateWrongError
from arena_lab.search.configurations import (
    After,
    At,
    Before,
    Bounds,
    Configuration,
    World,
    held_after,
)
from tests.support.output import InTemporary

NETWORK = ring(3)
WORLD = World(Match(Setup(3, NETWORK.links, 0, [1], 1, 10, 4)))
BLANK = Configuration(
    (Before(),), ((),), (0,), (0,), ("", "", ""), (None,), frozenset(), 0
)
# source of a candidate -> error when it is loaded
FILES = {
    "def hold(world, configuration): return True": "it has no function holds",
    "def holds(world): return True": "holds takes other values: write `def holds(world, configuration): ..`",
    "def holds(world, configuration): return True\n\n\ndef bounds(): pass": "bounds takes other values",
    "def holds(world, configuration) return True": "line 1: ",
    "import nowhere": "it raises ModuleNotFoundError: No module named 'nowhere'",
}
# source of a candidate -> error at a configuration
SAYS = {
    "def holds(world, configuration): pass": "holds gives None, and neither True nor False",
    "def holds(world, state):\n    return state.moves / 0 == 1": "holds raises ZeroDivisionError in line 2: ",
}


class Files(InTemporary):
    def candidate(self, text: str) -> Candidate:
        path = self.folder / "candidate.py"
        path.write_text(text, encoding="utf-8")
        return Candidate(path)

    def test_a_file_without_a_candidate_is_refused(self) -> None:
        for text, message in FILES.items():
            with self.subTest(text), self.assertRaises(CandidateError) as error:
                self.candidate(text)
            self.assertIn(message, str(error.exception))
        with self.assertRaises(CandidateError):
            Candidate(self.folder / "nothing.py")

    def test_what_is_no_answer_is_told(self) -> None:
        for text, message in SAYS.items():
            with self.subTest(text), self.assertRaises(CandidateWrongError) as error:
                self.candidate(text).holds(WORLD, BLANK)
            self.assertTrue(
                str(error.exception).startswith(message), str(error.exception)
            )
        negative = self.candidate(
            "def holds(world, configuration): return True\ndef left(world, configuration): return -1"
        )
        with self.assertRaises(CandidateWrongError):
            negative.left(WORLD, BLANK)

    def test_a_file_may_leave_out_all_but_the_test(self) -> None:
        candidate = self.candidate(
            "def holds(world, configuration): return configuration.moves == 0"
        )
        self.assertTrue(candidate.holds(WORLD, BLANK))
        self.assertFalse(candidate.holds(WORLD, BLANK._replace(moves=1)))
        self.assertIsNone(candidate.left(WORLD, BLANK))
        self.assertEqual(candidate.bounds(WORLD), Bounds())

    def test_a_file_imports_what_stands_beside_it(self) -> None:
        (self.folder / "beside.py").write_text("MOST = 7", encoding="utf-8")
        candidate = self.candidate(
            "from arena_lab.search.configurations import Bounds\nfrom beside import MOST\n"
            "def holds(world, configuration): return True\n"
            "def bounds(world): return Bounds(moves=MOST)\n"
        )
        self.assertEqual(candidate.bounds(WORLD).moves, 7)

    def test_the_examples_hold_at_the_start(self) -> None:
        both = BLANK._replace(
            position=(Before(),) * 2,
            history=((),) * 2,
            woken=(0,) * 2,
            used=(0,) * 2,
            accused=(None,) * 2,
        )
        for path in sorted((TOP / "examples" / "invariants").glob("*.py")):
            with self.subTest(path.name):
                candidate = Candidate(path)
                self.assertTrue(candidate.holds(WORLD, both))
                self.assertEqual(
                    candidate.left(WORLD, both), candidate.bounds(WORLD).turns
                )


class Words(unittest.TestCase):
    def test_what_is_held_after_a_history_is_what_its_items_make_in_their_order(
        self,
    ) -> None:
        history = ({"ok": "noted"}, None, {"ok": "gone"})
        self.assertEqual(
            held_after(
                "", lambda text, item: text + (item or {"ok": "woke"})["ok"][0], history
            ),
            "gwn",
        )

    def test_positions_of_different_kinds_differ(self) -> None:
        self.assertNotEqual(Before(), After())
        self.assertNotEqual(At(0, None), At(0, 0))

    def test_a_world_says_where_links_lead(self) -> None:
        far, label = WORLD.far(0, 0)
        self.assertEqual(WORLD.far(far, label), (0, 0))
        self.assertEqual(
            [WORLD.doomed(0, port) for port in (0, 1)], [far == 1, far != 1]
        )
        self.assertEqual(WORLD.degree(2), 2)
