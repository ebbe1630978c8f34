"""`explore` tells agents apart by their histories: what an agent hides counts, wherever
it hides it, and so do lines that it sends early, late or not as lines. What was found
is compared with the Python model's search of small matches."""
from typing import Any, Dict, NamedTuple
from unittest import mock

from arena_lab.rules import networks
from arena_lab.search import model_search
from tests.integration.search.exploring import InExplore
from tests.support.matches import RING
from tests.support.tournaments import match, write_cup


class Hides(NamedTuple):
    """Lines of a file, how an agent hides the text `b`, and how it finds it again from
    what it has kept, `h`."""

    lines: str
    hides: str
    finds: str
    waits: str = "agent.depart(1)"


HIDDEN: Dict[str, Hides] = {
    "a local": Hides("", "b", "h"),
    "a generator of numbers": Hides(
        "import random",
        "random.Random(1 if b else 2)",
        "'x' if h.random() == random.Random(1).random() else ''",
    ),
    "lambdas of one line": Hides("", "(lambda: 'x') if b else (lambda: '')", "h()"),
    "an iterator": Hides("", "iter(b)", "next(h, '')"),
    "the agent's lines": Hides(
        "", "setattr(agent._lines, 'memo', b)", "agent._lines.memo"
    ),
    "a mutable default": Hides(
        "def fn(x=None, m=['']):\n    if x is not None: m[0] = x\n    return m[0]",
        "fn(b) and None",
        "fn()",
    ),
    "a table of a module": Hides("T = {'a': ''}", "T.__setitem__('a', b)", "T['a']"),
    "the agent's greenlet": Hides(
        "", "setattr(agent._lines._thread, 'memo', b)", "agent._lines._thread.memo"
    ),
    "an attribute of a class": Hides(
        "class Bot:\n    memo = ''", "setattr(Bot, 'memo', b)", "Bot.memo"
    ),
}
TEXT = """{lines}
def writer(agent, key):
    agent.enter(key)
    agent.write('', 'x')
    agent.leave()
def reader(agent, key):
    b = agent.enter(key).board
    h = {hides}
    del b
    {waits}
    seen = {finds}
    agent.accuse(1 if seen == {good!r} else 0)
"""
ROLES = """
import random
def by_key(agent, key):
    agent.enter(key)
    agent.depart(1)
    agent.accuse(1 if key.endswith("0") else 0)
def by_key_later(agent, key):
    agent.enter(key)
    agent.depart(1)
    agent.look()
    agent.accuse(int(key[-1]))
def by_random(agent, key):
    agent.enter(key)
    agent.depart(1)
    agent.accuse(1 if random.random() < .5 else 0)
def by_number(agent, key):
    agent.enter(key)
    agent.depart(1)
    agent.accuse(1 - agent._lines.number)
def after(agent, key):
    agent.enter(key)
    agent.depart(1)
    agent.accuse(1)
    agent.look()
def early(agent, key):
    agent.enter(key)
    agent._lines.send('{"do":"depart","port":1}')
    agent._lines.receive()
    agent._lines.send('{"do":"look"}')
    agent._lines.receive()
    agent._lines.receive()
    agent.accuse(1)
def sleeper(agent, key, sleep):
    sleep(1)
    agent.enter(key)
    agent.depart(1)
    agent.accuse(1)
def goes(agent, key):
    agent.enter(key)
    agent.depart(0)
"""


class Histories(InExplore):
    def explore(self, text: str, *words: object) -> int:
        (self.folder / "hides.py").write_text(text, encoding="utf-8")
        return self.command("--network", "ring:3", "--hole", 1, *words)

    def hidden(self, hides: Hides, good: str) -> int:
        """Returns the status of a team whose reader hides a text this way and succeeds
        if it reads the text again."""
        file = f"{self.folder}/hides.py"
        return self.explore(
            TEXT.format(**hides._asdict(), good=good),
            "--agent",
            f"{file}:writer",
            "--agent",
            f"{file}:reader",
        )

    def test_what_hides_a_bit_hides_nothing_from_its_history(self) -> None:
        for name, hides in HIDDEN.items():
            for good in ("", "x"):
                with self.subTest(name, good=good):
                    self.assertEqual(self.hidden(hides, good), 1, self.output)
                    self.assertIn("a schedule fails", self.output)

    def test_roles(self) -> None:
        for name in ("by_key", "by_key_later", "by_random", "by_number"):
            with self.subTest(name):
                status = self.explore(
                    ROLES, "--agents", 2, "--agent", f"{self.folder}/hides.py:{name}"
                )
                self.assertEqual(status, 1, self.output)

    def test_lines_after_the_end_and_before_the_arrival(self) -> None:
        words = ["--agents", 1, "--agent", f"{self.folder}/hides.py:after"]
        self.assertEqual(self.explore(ROLES, *words), 0, self.output)
        self.assertEqual(
            self.explore(ROLES, *words, "--search", "model"), 0, self.output
        )
        for extra in ((), ("--search", "model")):
            status = self.explore(
                ROLES, "--agents", 1, "--agent", f"{self.folder}/hides.py:early", *extra
            )
            self.assertEqual(status, 2, self.output)
            self.assertIn("sends a line before it has arrived", self.output)

    def test_who_sleeps_before_it_enters(self) -> None:
        status = self.explore(
            ROLES, "--agents", 2, "--agent", f"{self.folder}/hides.py:sleeper"
        )
        self.assertEqual(status, 0, self.output)

    def test_who_sleeps_before_it_enters_and_is_played_again(self) -> None:
        text = "import ring\ndef search(agent, key, nodes, sleep):\n    sleep(1)\n    ring.search(agent, key, nodes)\n"
        (self.folder / "hides.py").write_text(text, encoding="utf-8")
        status = self.command(
            "--network",
            "ring:4",
            "--hole",
            1,
            "--agent",
            f"{self.folder}/hides.py {{nodes}}",
        )
        self.assertEqual(status, 0, self.output)

    def test_a_held_link_that_leads_to_a_black_hole(self) -> None:
        """How many are lost is a bound then, which `replay` need not come to."""
        cup = write_cup(
            self.folder, [match("red", networks.ring(3), [1], agents=1, held=[(0, 0)])]
        )
        (self.folder / "hides.py").write_text(ROLES, encoding="utf-8")
        status = self.command(
            "--tournament", cup, "--match", 0, "--agent", f"{self.folder}/hides.py:goes"
        )
        self.assertEqual(status, 1, self.output)
        self.assertIn("silent moves 1 lost at most 1\n", self.output)
        self.assertIn("the program's verdict: silent moves 1 lost 0", self.output)

    def test_nothing_is_checked_if_nobody_wants_it(self) -> None:
        words = ["--network", "ring:4", "--hole", 2, "--agent", RING.words]
        self.assertEqual(self.command(*words, "--check", 0), 0, self.output)
        self.assertIn(", by histories of Python programs", self.output)
        self.assertIn("; nothing was checked\n", self.output)

    def test_the_python_model_searches_small_matches_beside(self) -> None:
        words = ["--network", "ring:3", "--hole", 2, "--agent", RING.words]
        self.assertEqual(self.command(*words), 0, self.output)
        self.assertIn(", the Python model's search of 1 of 1 matches\n", self.output)
        result = model_search.Explorer._end

        def fails(explorer: model_search.Explorer, *args: Any) -> bool:
            result(explorer, *args)
            assert explorer.worst is not None
            explorer.worst = explorer.worst._replace(has_failed=True)
            return True

        with mock.patch.object(model_search.Explorer, "_end", fails):
            self.assertEqual(self.command(*words), 1, self.output)
        self.assertIn(
            "no schedule fails by the program, and one by the Python model's search",
            self.output,
        )

    def test_who_changes_what_the_lab_plays_it_by_fails(self) -> None:
        parts = dict.fromkeys(
            ("number", "modules", "_team", "_heard", "_thread"), ("'x'", "None", "True")
        )
        parts |= {
            "__dict__": (
                "{}",
                "dict(vars(agent._lines))",
            ),
            "__class__": ("type('X', (type(agent._lines),), {'memo': b})",),
        }
        for part, values in parts.items():
            for value in values:
                with self.subTest(part, value=value):
                    sets = Hides("", f"setattr(agent._lines, {part!r}, {value})", "''")
                    self.assertEqual(self.hidden(sets, ""), 1, self.output)
                    output = "the class or the dict" if "__" in part else part
                    self.assertIn(
                        f"agent 1: has changed {output} of its lines, by which the lab plays it",
                        self.output,
                    )

    def test_an_agent_was_told_what_the_lab_has_told_it(self) -> None:
        """An agent that claims to have had the last reply plays on."""
        text = (
            "def good(agent, key):\n    agent.enter(key)\n    agent.accuse(0)\ndef wrong(agent, key):\n"
            '    agent.enter(key)\n    agent._lines.latest = \'{"ok":"over"}\'\n    agent.accuse(1)\n'
        )
        file = f"{self.folder}/hides.py"
        self.assertEqual(
            self.explore(text, "--agent", f"{file}:good", "--agent", f"{file}:wrong"),
            1,
            self.output,
        )
        self.assertIn("it comes to: home 0 holes [1], wrong", self.output)

    def test_a_line_that_is_no_text(self) -> None:
        for value in ("5", "b''", "[]"):
            with self.subTest(value):
                sets = Hides(
                    "",
                    f"setattr(agent._lines, 'line', {value})",
                    "''",
                    "agent._lines.receive()",
                )
                self.assertEqual(self.hidden(sets, ""), 2, self.output)
                self.assertIn(f"agent 1 sends {value}, which is no line", self.output)
