"""The lab from Python: rows, agents that are functions, networks that are graphs,
searches with results, and pages."""
import hashlib
import json
import random
import re
import subprocess
import sys
import unittest
from typing import Any, Dict, List
from unittest import mock

import networkx

import arena_lab.api as lab
from arena_lab.pages.links import replay_link
from arena_lab.play.agent_files import AgentError
from arena_lab.rules.engines import BY_MODEL, TOP, EnginesDifferError, name_of
from arena_lab.rules.networks import NetworkError, of_graph, ring
from tests.support.matches import RING, InFolder, program

NOTEBOOK = TOP / "examples" / "notebook.ipynb"
draws: List[float] = []
count = 0


def accuser(agent: Any, key: str) -> None:
    """Solves the ring of three whose black hole is node 1."""
    agent.enter(key)
    agent.depart(1)
    agent.accuse(1)


def waiter(
    agent: Any, key: str, nodes: int, home: int, sleep: Any, extra: int = 3
) -> None:
    """Sleeps without end once it has entered."""
    agent.enter(key)
    assert (nodes, home, extra) == (3, 0, 3)
    while True:
        sleep(1)


def counter(agent: Any, key: str) -> None:
    """Accuses rightly only if nobody else has counted."""
    global count
    count = step(count)
    agent.enter(key)
    draws.append(random.random())
    agent.depart(1)
    agent.accuse(1 if count == 1 else 0)


def step(number: int) -> int:
    return number + 1


def needy(agent: Any, key: str, width: int) -> None:
    agent.enter(key)


class Api(InFolder):
    def test_rows_are_a_table(self) -> None:
        rows = lab.play("ring:8", RING.words, "slow-agents", 6)
        self.assertEqual([row["seed"] for row in rows], list(range(6)))
        self.assertEqual({row["outcome"] for row in rows}, {"solved"})
        self.assertEqual(json.loads(rows[2].line()), rows[2])
        self.assertEqual(
            lab.play("ring:8", RING.words, "slow-agents", [4], workers=2), rows[4:5]
        )
        self.assertEqual(
            lab.play("ring:8", RING.words, "slow-agents", 6, workers=3), rows
        )
        self.assertEqual(
            lab.play("ring:8", RING.words, "slow-agents", range(2), engine=program()),
            rows[:2],
        )
        self.assertEqual(
            hashlib.sha256(rows[3].match().replay.encode()).hexdigest(),
            rows[3]["replay"],
        )

    def test_pandas_takes_rows(self) -> None:
        try:
            import pandas
        except ModuleNotFoundError:
            self.skipTest("python3-pandas is not installed")
        table = pandas.DataFrame(lab.play("ring:5", RING.words, seeds=4))
        self.assertEqual(list(table["seed"]), [0, 1, 2, 3])
        self.assertGreater(table["moves"].mean(), 0)

    def test_an_agent_is_a_function(self) -> None:
        rows = lab.play("ring:3", accuser, holes=[1], count=1, seeds=2)
        self.assertEqual([row["outcome"] for row in rows], ["solved", "solved"])
        row = lab.play("ring:3", [accuser, waiter], holes=[1])[0]
        self.assertEqual(
            row["faults"], ["agent 1: sleeps, and nothing changes any more"]
        )
        with self.assertRaisesRegex(
            AgentError,
            "it has a parameter width; behind the agent and its key stand nodes",
        ):
            lab.play("ring:3", needy)
        with self.assertRaisesRegex(
            AgentError, "3 agents are named, and the match has 2"
        ):
            lab.play("ring:3", [accuser] * 3, count=2)

    def test_a_function_has_its_own_variables(self) -> None:
        draws.clear()
        rows = lab.play("ring:3", counter, holes=[1], seeds=3)
        self.assertEqual([row["failed"] for row in rows], [False] * 3)
        self.assertEqual(count, 0)
        # each agent of each match has a chance of its own
        self.assertEqual(len(set(draws)), 6)

    def test_a_network_is_a_graph(self) -> None:
        graph = networkx.petersen_graph()
        network = of_graph(graph)
        self.assertEqual(
            (network.nodes, len(network.links), set(network.degrees())), (10, 15, {3})
        )
        cycle = networkx.cycle_graph(["a", "b", "c", "d"])
        self.assertEqual(
            {frozenset((v, w)) for v, _, w, _ in of_graph(cycle).links},
            {frozenset((v, w)) for v, _, w, _ in ring(4).links},
        )
        rows = lab.play(
            graph, f"{TOP}/examples/agents/map.py {{nodes}} {{links}}", count=4, seeds=2
        )
        self.assertEqual(
            [(row["network"], row["outcome"]) for row in rows],
            [("Petersen Graph", "solved")] * 2,
        )
        for wrong in (
            networkx.DiGraph([(0, 1), (1, 2), (2, 0)]),
            networkx.path_graph(2),
            networkx.MultiGraph([(0, 1), (0, 1), (1, 2)]),
        ):
            with self.assertRaises(NetworkError):
                of_graph(wrong)

    def test_networks_that_the_rules_refuse_are_refused(self) -> None:
        for wrong, why in (
            (networkx.path_graph(4), "without node 1 some other nodes are apart"),
            (
                lab.Network(
                    4, [(0, 0, 1, 1), (1, 0, 0, 1), (2, 0, 3, 1), (3, 0, 2, 1)]
                ),
                "joins two",
            ),
            (
                lab.Network(3, [(0, 0, 1, 1), (1, 0, 2, 1), (2, 0, 0, 2)]),
                "has the ports 0 to D - 1",
            ),
            (lab.Network(2, [(0, 0, 1, 0)]), "has 3 to 4096 nodes, and not 2"),
        ):
            with self.subTest(why), self.assertRaisesRegex(NetworkError, why):
                lab.play(wrong, RING.words)

    def test_seeds_are_not_negative(self) -> None:
        with self.assertRaisesRegex(
            ValueError, "seeds is how many there are, or a list of which, and not -1"
        ):
            lab.play("ring:3", accuser, seeds=-1)

    def test_a_function_has_its_own_variables_of_functions_around_it(self) -> None:
        def counter() -> Any:
            count = 0

            def step() -> int:
                nonlocal count
                count += 1
                return count if count > 1 else step()

            def search(agent: Any, key: str) -> None:
                agent.enter(key)
                agent.depart(1)
                agent.accuse(1 if step() == 2 and count == 2 else 0)

            return search

        rows = lab.play("ring:3", counter(), holes=[1], count=1, seeds=3)
        self.assertEqual([row["outcome"] for row in rows], ["solved"] * 3)

    def test_what_fails_beside_a_network_that_is_solved_is_told(self) -> None:
        result = lab.explore("ring:3", [accuser, waiter], holes=[1])
        self.assertTrue(result.fails)
        fault = "agent 1: sleeps, and nothing changes any more"
        self.assertRegex(str(result), f"a schedule fails; .* moves .*; {fault}$")
        self.assertRegex(
            str(lab.hunt("ring:3", [accuser, waiter], holes=[1], runs=3)),
            f"the team fails; .*; {fault}$",
        )

    def test_explore_and_hunt_have_results(self) -> None:
        right = lab.explore("ring:5", RING.words)
        self.assertTrue(right.solves and right.is_whole)
        self.assertEqual(right.most_moves, 14)
        self.assertIn(
            "no schedule fails, of the Python model; solved moves 14 lost 1", str(right)
        )
        wrong = lab.explore("ring:3", counter, holes=[2])
        self.assertTrue(wrong.fails and not wrong.solves)
        few = lab.explore("ring:6", RING.words, states=10)
        self.assertFalse(few.is_whole or few.solves)
        result = lab.hunt(
            "ring:8",
            f"{TOP}/examples/agents/faulty/reads_once.py {{nodes}}",
            runs=500,
            engine=program(),
        )
        self.assertTrue(result.fails)
        self.assertEqual(result.verdict.outcome, "silent")
        self.assertEqual(
            lab.hunt("ring:5", RING.words, "moves", runs=50).verdict.outcome, "solved"
        )
        with self.assertRaisesRegex(ValueError, "look for failure, moves or lost"):
            lab.hunt("ring:5", RING.words, "time")

    def test_the_program_tries_every_schedule(self) -> None:
        proof = lab.explore("ring:5", RING.words, engine=program())
        self.assertTrue(proof.solves and proof.is_whole and not proof.fails)
        self.assertEqual((proof.most_moves, proof.most_lost), (14, 1))
        self.assertEqual([row["holes"] for row in proof.rows], [[1], [2], [3], [4]])
        model = lab.explore("ring:5", RING.words)
        self.assertNotEqual(proof.states, model.states)
        self.assertIn("every schedule that the lab tried solves; ", str(proof))
        self.assertIn("checked, and all agree", str(proof))
        wrong = lab.explore("ring:3", counter, holes=[2], engine=program())
        self.assertTrue(wrong.fails and not wrong.solves)
        self.assertEqual(wrong.worst.verdict.outcome, "silent")
        few = lab.explore("ring:6", RING.words, states=10, engine=program())
        self.assertFalse(few.is_whole or few.solves or few.fails)

    def test_several_networks_are_tried_in_one_call(self) -> None:
        proof = lab.explore(
            ["ring:3..4", networkx.cycle_graph(3)], RING.words, engine=program()
        )
        self.assertTrue(proof.solves)
        self.assertEqual([row["nodes"] for row in proof.rows], [3, 3, 4, 4, 4, 3, 3])
        self.assertEqual(
            [row["network"] for row in proof.rows[:3]], ["ring:3", "ring:3", "ring:4"]
        )
        self.assertEqual(proof.most_moves, 9)
        self.assertIn("60 drawn schedules", proof.checked)
        self.assertEqual(lab.explore("ring:3..4", RING.words).most_moves, 9)
        wrong = lab.explore(
            ["ring:4", "ring:5"],
            f"{TOP}/examples/agents/faulty/reads_once.py {{nodes}}",
            engine=program(),
        )
        self.assertTrue(wrong.fails)
        self.assertEqual({row["network"] for row in wrong.rows}, {"ring:4"})

    def test_rows_are_a_frame_if_there_is_pandas(self) -> None:
        proof = lab.SearchResult([{"network": "ring:3", "moves": 4}], "", None, False)
        with mock.patch.dict(sys.modules, pandas=None):
            self.assertEqual(proof.frame(), proof.rows)
        pandas = mock.Mock()
        with mock.patch.dict(sys.modules, pandas=pandas):
            self.assertIs(proof.frame(), pandas.DataFrame.return_value)
        pandas.DataFrame.assert_called_once_with(proof.rows)

    def test_the_program_draws_schedules(self) -> None:
        draws = lab.SampleRequest(500, 3, "fair", "moves")
        result = lab.explore(
            "ring:8", RING.words, holes=[4], engine=program(), draws=draws
        )
        self.assertTrue(result.is_whole and not result.solves and not result.fails)
        self.assertEqual([row["drawn"] for row in result.rows], [500])
        self.assertLessEqual(
            result.most_moves, lab.explore("ring:8", RING.words, holes=[4]).most_moves
        )
        self.assertIn(
            "no drawn schedule fails, which says nothing of the others", str(result)
        )
        with self.assertRaisesRegex(ValueError, "draws need a program"):
            lab.explore("ring:8", RING.words, draws=draws)

    def test_programs_are_hunted(self) -> None:
        text = (
            TOP / "examples" / "agents" / "faulty" / "accuses_at_once.py"
        ).read_text()
        for name in ("client.py", "ring.py"):
            (self.folder / name).write_text(
                (TOP / "examples" / "agents" / name).read_text()
            )
        path = self.folder / "own.py"
        path.write_text(
            text
            + '\n\nif __name__ == "__main__":\n    import sys\n    from client import MatchOver\n'
            "    _, host, port, key, nodes = sys.argv\n    try:\n"
            "        search(Agent.connect(host, int(port)), key, int(nodes))\n"
            "    except MatchOver:\n        pass\n"
        )
        result = lab.hunt(
            "ring:5",
            lab.program(f"{sys.executable} {path} {{host}} {{port}} {{key}} {{nodes}}"),
            runs=60,
        )
        self.assertTrue(result.fails)
        self.assertNotEqual(result.verdict.outcome, "solved")
        self.assertEqual(result.best.faults(), [])

    def test_a_match_shows_itself(self) -> None:
        record = lab.play("ring:5", RING.words)[0].match()
        view = record._repr_html_()
        self.assertTrue(view.startswith('<iframe srcdoc="&lt;!DOCTYPE html&gt;'))
        self.assertNotIn("<script", view)
        self.assertEqual(record.link("x"), replay_link("x", record.replay.encode()))
        self.assertIn(
            "the Python model played it", "\n".join(record.keep(self.folder / "kept"))
        )
        self.assertTrue((self.folder / "kept" / "match0.html").exists())

    def test_the_engine_is_named_as_everywhere(self) -> None:
        self.assertEqual(lab.engine_name("model"), BY_MODEL)
        self.assertEqual(lab.engine_name(program()), name_of(program()))

    def test_a_match_that_depends_on_more_than_its_agents_are_told_is_found_out(
        self,
    ) -> None:
        row = lab.play("ring:3", forgetful, holes=[1], count=1)[0]
        with self.assertRaises(EnginesDifferError):
            row.match()


def forgetful(agent: Any, key: str) -> None:
    """Writes how often it was played, in a list that all matches share."""
    draws.append(0)
    agent.enter(key)
    agent.write("", str(len(draws)))


class Notebook(unittest.TestCase):
    def test_its_cells_run_and_say_what_stands_below_them(self) -> None:
        cells = json.loads(NOTEBOOK.read_text(encoding="utf-8"))["cells"]
        code = [
            "".join(cell["source"]) for cell in cells if cell["cell_type"] == "code"
        ]
        self.assertGreater(len(code), 4)
        output = json.dumps(
            [output_of(cell) for cell in cells if cell["cell_type"] == "code"]
        )
        result = subprocess.run(
            [sys.executable, "-c", RUNNER, json.dumps(code), program()],
            cwd=TOP / "examples",
            text=True,
            capture_output=True,
        )
        self.assertEqual(result.returncode, 0, result.stderr)
        report: List[str] = json.loads(result.stdout)
        for text, expectation, source in zip(report, json.loads(output), code):
            with self.subTest(source):
                self.assertRegex(
                    text,
                    "^"
                    + ".*".join(map(re.escape, re.split(r"\d+\.\d s", expectation)))
                    + "$",
                )


def output_of(cell: Dict[str, Any]) -> str:
    """What a cell of a notebook printed when it was saved."""
    return "".join(
        "".join(output["text"])
        for output in cell["outputs"]
        if output["output_type"] == "stream"
    )


# runs a notebook's cells in order and prints their outputs as JSON; uses the program
# under test
RUNNER = """
import contextlib, io, json, pathlib, sys
sys.path.insert(0, str(pathlib.Path.cwd().parent))
from arena_lab.support import built
built.any_program = lambda *_: pathlib.Path(sys.argv[2])
variables, found = {"__name__": "__main__"}, []
for place, cell in enumerate(json.loads(sys.argv[1])):
    said = io.StringIO()
    with contextlib.redirect_stdout(said):
        exec(compile(cell, f"cell {place + 1}", "exec"), variables)
    found.append(said.getvalue())
print(json.dumps(found))
"""
