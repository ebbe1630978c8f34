"""What agents without a map write on whiteboards, and what they decide by it."""
import contextlib
import io
import random
import unittest
from typing import Any, Dict, List, Tuple

from arena_lab.play.agent_files import AGENTS, load_module
from tests.support.drawing import by_chance

chart = load_module(AGENTS / "chart.py")
Chart = chart.Chart
Known = chart.Known
Row = chart.Row
FREE = chart.FREE
CLAIMED = chart.CLAIMED
DONE = chart.DONE
# a home base with three ports, and the node behind its second one, which has two
HOME = Row(0, 0, (DONE, DONE, CLAIMED))
BEHIND = Row(0, 1, (FREE, DONE))
TEXT = '     #""!' + '   ! " "'


def drawn_row(rng: random.Random) -> "Row":
    states = [rng.choice((FREE, CLAIMED, DONE)) for _ in range(rng.randrange(9))]
    return Row(rng.randrange(4096), rng.randrange(4096), tuple(states))


class Texts(unittest.TestCase):
    def test_a_row_is_written_as_its_name_its_number_of_ports_and_their_states(
        self,
    ) -> None:
        self.assertEqual(Chart([HOME, BEHIND]).text(), TEXT)
        self.assertEqual(Chart.read(TEXT).rows, (HOME, BEHIND))
        self.assertEqual(Row(64, 4095, ()).text(), "! __  ")

    @by_chance(100)
    def test_a_chart_is_read_as_it_was_written(self, rng: random.Random) -> None:
        rows = tuple(drawn_row(rng) for _ in range(rng.randrange(1, 9)))
        text = Chart(rows).text()
        self.assertEqual(Chart.read(text, 3).rows, rows)
        self.assertEqual(len(text), sum(6 + len(row.states) for row in rows))

    def test_an_empty_whiteboard_is_a_home_base_all_of_whose_ports_are_free(
        self,
    ) -> None:
        self.assertEqual(Chart.read("", 2).rows, (Row(0, 0, (FREE, FREE)),))

    def test_a_node_is_joined_once_and_the_home_base_never(self) -> None:
        for name, ports, count in (("    ", 1, 3), ("   !", 2, 2), ('   "', 2, 3)):
            joins = Chart([HOME, BEHIND]).joined(chart.new_row(name, ports))
            self.assertEqual(len(joins.rows), count)
        self.assertEqual(len(Chart([HOME, BEHIND]).joined("").rows), 2)


class Deciding(unittest.TestCase):
    def test_it_is_decided_once_as_many_ports_are_left_as_the_hole_has_links(
        self,
    ) -> None:
        for states, nodes, links, is_decided in (
            ((FREE, FREE), 3, 0, True),
            ((FREE, FREE), 3, 4, True),
            ((FREE, FREE), 3, 5, False),
            ((FREE, FREE), 4, 0, False),
            ((FREE, DONE), 3, 0, False),
            ((FREE, DONE, DONE), 3, 0, True),
            ((FREE, DONE, DONE), 3, 4, True),
            ((FREE, DONE, DONE), 3, 5, False),
        ):
            with self.subTest(states=states, nodes=nodes, links=links):
                facts = Chart([HOME, BEHIND._replace(states=states)])
                self.assertEqual(Known(nodes, links).is_decided(facts), is_decided)

    def test_an_agent_explores_a_triangle_until_it_is_lost(self) -> None:
        """It claims port 0, names the node behind it, and then claims port 1."""
        first = '     "! '
        output, memory = commands(
            [
                {"ok": "here", "ports": 2, "from": None, "board": ""},
                {"ok": "written"},
                {"ok": "here", "ports": 2, "from": 1, "board": ""},
                {"ok": "written"},
                {"ok": "here", "ports": 2, "from": 0, "board": first},
                {"ok": "written"},
                {"ok": "written"},
            ],
            3,
            3,
        )
        finish = '     "" ' + '     "  '
        self.assertEqual(
            output,
            [
                {"do": "write", "expect": "", "put": first},
                {"do": "depart", "port": 0},
                {"do": "write", "expect": "", "put": "    "},
                {"do": "depart", "port": 1},
                {"do": "write", "expect": first, "put": finish},
                {"do": "write", "expect": finish, "put": '     ""!' + '     "  '},
                {"do": "depart", "port": 1},
            ],
        )
        self.assertEqual(memory[0], "goes")

    def test_whoever_finds_no_port_free_sleeps_and_looks_when_it_wakes(self) -> None:
        board = '     "!!'
        output, _ = commands(
            [
                {"ok": "here", "ports": 2, "from": None, "board": board},
                {"ok": "woke"},
                {"ok": "here", "ports": 2, "from": None, "board": board},
            ],
            3,
            3,
        )
        self.assertEqual([it["do"] for it in output], ["sleep", "look", "sleep"])

    def test_whoever_finds_that_another_has_written_reads_again(self) -> None:
        output, _ = commands(
            [
                {"ok": "here", "ports": 2, "from": None, "board": ""},
                {"ok": "changed", "board": '     "! '},
            ],
            3,
            3,
        )
        self.assertEqual(
            output[1], {"do": "write", "expect": '     "! ', "put": '     "!!'}
        )

    def test_a_refused_command_ends_it_with_a_line(self) -> None:
        here = {"ok": "here", "ports": 2, "from": None, "board": ""}
        for why, message in (("long", "the whiteboard is too small"), ("spent", "")):
            with contextlib.redirect_stderr(io.StringIO()) as errors:
                output, _ = commands([here, {"no": why}], 3, 3)
            self.assertEqual(output[1], {"do": "leave"})
            self.assertEqual(errors.getvalue()[: len(message) or None], message)


def commands(
    replies: List[Dict[str, Any]], nodes: int, links: int
) -> Tuple[List[Dict[str, Any]], Any]:
    """What an agent says that gets these replies, and its memory then."""
    lines: List[Dict[str, Any]] = []
    memory = None
    for reply in replies:
        memory, command = chart.step(memory, reply, nodes, links)
        lines.append(command)
    return lines, memory
