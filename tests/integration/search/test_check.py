"""One command checks an agent: it is right in one sentence, or the first thing to mend
is told with what shows it."""
import shutil
import sys
from typing import Tuple

from arena_lab.__main__ import main
from arena_lab.rules.engines import TOP
from tests.support.matches import AGENTS, InFolder, program
from tests.support.output import run_call

RAISES = (
    "def search(agent, key, nodes):\n    agent.enter(key)\n    raise KeyError('west')\n"
)
SAYS_BAD = """
import ring


def search(agent, key, nodes):
    agent.enter(key)
    try:
        agent.depart(nodes)
    except Exception:
        pass
    agent.leave()
"""


class Checks(InFolder):
    def check(self, agent: str, *extra: str) -> Tuple[int, str]:
        status, output, _ = run_call(
            main, ["check", agent, "--keep", str(self.folder / "kept"), *extra]
        )
        return status, output

    def test_a_right_agent_gets_one_sentence(self) -> None:
        # a program that is not proved tries few schedules a second
        for extra, engine in (
            (r"\b.*", ("--program", program())),
            (
                r" and under every schedule of a ring of 4 with 16 numberings of its ports and a ring of 5: on 7 "
                r"networks with \d\d numberings of ports, from \d\d of 45 home bases, under fair, slow-agents "
                r"and slow-links$",
                ("--engine", "model", "--seconds", "200"),
            ),
        ):
            status, output = self.check(f"{AGENTS / 'ring.py'} {{nodes}}", *engine)
            self.assertEqual(status, 0, output)
            self.assertRegex(
                output.splitlines()[-1],
                r"^Right on all 14 matches(?:,| and) under 100 schedules that were drawn and 40 that were hunted"
                + extra,
            )
        self.assertFalse((self.folder / "kept").exists())

    def test_a_program_that_cannot_be_explored_in_time(self) -> None:
        command = (
            f"{sys.executable} {AGENTS / 'ring.py'} {{host}} {{port}} {{key}} {{nodes}}"
        )
        status, output = self.check(
            command,
            "--network",
            "ring:4",
            "--network",
            "ring:5",
            "--seconds",
            "2",
            "--engine",
            "model",
        )
        self.assertEqual(status, 0, output)
        self.assertRegex(
            output.splitlines()[-1],
            (
                r"^Right on all 4 matches, with arrivals 6 s late and under 24 schedules that were drawn and 0 that "
                r"were hunted: on 2 networks with \d\d numberings of ports, from (?:8 of 9 home bases|every home "
                r"base), under fair, slow-agents and slow-links; left out after 2 s: 76 of 100 drawn schedules and "
                r"40 of 40 hunted schedules$"
            ),
        )
        self.assertIn("not every schedule of a ring of 4 with 16 numberings", output)

    def test_the_first_thing_to_mend_is_told_and_shown(self) -> None:
        agent = self.folder / "agent.py"
        for text, message in (
            (RAISES, "agent 0: raises KeyError: 'west'"),
            (SAYS_BAD, "agent 0: 1 line named a port that its node does not have"),
        ):
            agent.write_text(text)
            status, output = self.check(f"{agent} {{nodes}}", "--engine", "model")
            self.assertEqual(status, 1)
            self.assertIn("To mend first: on ring:3 with ports shuffled:", output)
            self.assertIn(" under fair the match came to silent", output)
            self.assertIn(f"\n  {message}", output)
            self.assertIn("\n  nobody accused: agent", output)
            self.assertLess(max(map(len, output.splitlines())), 250)
            self.check_shown(message)

    def test_what_no_match_finds(self) -> None:
        agent = self.folder / "agent.py"
        shutil.copy(TOP / "examples" / "agents" / "faulty" / "reads_once.py", agent)
        status, output = self.check(
            f"{agent} {{nodes}}",
            "--network",
            "ring:4",
            "--seconds",
            "10",
            "--engine",
            "model",
        )
        self.assertEqual(status, 1, output)
        self.assertIn("2 matches on ring:4: all solved", output)
        self.assertIn(
            "\nTo mend first: under ",
            output,
        )
        self.assertIn(
            f"replay {self.folder / 'kept'} --engine model --follow`",
            output.splitlines()[-1],
        )
        self.check_shown("silent")

    def kit(self, old: str, new: str, file: str) -> str:
        """A kit in Python with a change; gives the folder."""
        run_call(main, ["new", "python", str(self.folder / "kit")])
        path = self.folder / "kit" / file
        text = path.read_text()
        self.assertIn(old, text)
        path.write_text(text.replace(old, new))
        return str(self.folder / "kit")

    def impatient(self, old: str, new: str, text: str) -> None:
        """Checks a kit whose client has a change by which it does something when two
        seconds have gone by."""
        kit = self.kit(old, new, "client.py")
        status, message = self.check(
            f"{sys.executable} {kit}/careful.py {{host}} {{port}} {{key}} {{nodes}}",
            "--network",
            "ring:4",
            "--no-repeat",
            "--engine",
            "model",
        )
        self.assertEqual(status, 1, message)
        self.assertIn("2 matches on ring:4: all solved\n", message)
        self.assertIn(
            "To mend first: on ring:4 with arrivals 6 s late the match came to silent",
            message,
        )
        self.assertRegex(
            message,
            rf"\n  agent \d: {text} within 6 s of `gone`, and was told nothing meanwhile: .* "
            "without a timeout\n",
        )
        self.assertIn("check again once it is mended", message.splitlines()[-1])

    def test_a_timeout_that_a_contest_outlasts(self) -> None:
        reads = "        self._reader = self._socket.makefile("
        self.impatient(
            reads,
            f"        self._socket.settimeout(2)\n{reads}",
            r"has ended \(client.Disconnected: timed out \(careful.py, line \d+\)\)",
        )

    def test_a_program_that_asks_what_takes_so_long(self) -> None:
        waits = "        line = self._lines.receive()\n        return self._here("
        asks = (
            "        import threading\n        asks = threading.Timer(2, self._lines.send, "
            "[line_of({'do': 'look'})])\n        asks.start()\n"
        )
        self.impatient(
            waits,
            asks + waits.replace("\n", "\n        asks.cancel()\n"),
            'has sent `{"do": "look"}`',
        )

    def test_a_lost_update_that_few_schedules_show(self) -> None:
        """The mistake that the second lesson plants."""
        old = "    while True:\n        safe = safe_on(board)\n"
        kit = self.kit(old, old.replace("while True", "for _ in [0]"), "careful.py")
        path = self.folder / "kit" / "careful.py"
        path.write_text(
            path.read_text().replace(
                "        if swap.written:\n            return board\n",
                "    return board\n",
            )
        )
        for agent in (
            f"{kit}/careful.py {{nodes}}",
            f"{sys.executable} {kit}/careful.py {{host}} {{port}} {{key}} {{nodes}}",
        ):
            status, output = self.check(agent, "--no-repeat", "--engine", "model")
            self.assertEqual(status, 1, output)
            self.assertIn(
                "\nTo mend first: ",
                output,
            )

    def test_an_agent_that_forgets_the_arrival_label(self) -> None:
        """On rings as they are named it is right, however long one looks."""
        kit = self.kit(
            "agent.depart(1 - back(here))", "agent.depart(port)", "careful.py"
        )
        agent = f"{kit}/careful.py {{nodes}}"
        status, output = self.check(agent, "--engine", "model")
        self.assertEqual(status, 1, output)
        self.assertIn("with ports shuffled:", output)
        self.assertIn("the two ends of a link may have different numbers", output)
        rings = ("--network", "ring:4", "--network", "ring:6", "--seconds", "20")
        conditions = ("--ports", "given", "--engine", "model", *rings)
        self.assertEqual(self.check(agent, *conditions)[0], 0)

    def test_agents_that_toss_a_coin_each(self) -> None:
        agent = (
            str(TOP / "examples" / "agents" / "faulty" / "tosses_coin.py") + " {nodes}"
        )
        status, output = self.check(agent, "--engine", "model")
        self.assertEqual(status, 1, output)
        self.assertIn("agents 0 and 1 both went over the link from node", output)

    def test_the_conditions_of_a_course(self) -> None:
        file = self.folder / "course.toml"
        file.write_text(
            'networks = ["ring:6"]\nholes = 2\nquota = 12\nschedulers = ["starved"]\n'
        )
        agent = f"{AGENTS / 'ring.py'} {{nodes}}"
        words = ("--for", str(file), "--engine", "model", "--seconds", "2")
        status, output = self.check(agent, *words)
        self.assertEqual(status, 1, output)
        self.assertIn("home", output)
        self.assertIn("has used all of its 12 commands", output)
        file.write_text(file.read_text().replace("12", "400"))
        status, output = self.check(agent, *words)
        self.assertEqual(status, 0, output)
        # how much is drawn in two seconds depends on the machine
        self.assertRegex(output, r"Right on all 2 matches(?:,| and) under ")
        self.assertIn("under starved", output)

    def test_refused_lines_of_a_right_agent_are_to_be_mended(self) -> None:
        agent = self.folder / "agent.py"
        for name in ("client.py", "ring.py"):
            shutil.copy(AGENTS / name, self.folder)
        agent.write_text(
            "import ring\n\n\ndef search(agent, key, nodes):\n    enter = agent.enter\n\n"
            "    def chatty(key):\n        here = enter(key)\n        try:\n"
            "            agent.depart(99)\n        except Exception:\n            pass\n"
            "        return here\n"
            "    agent.enter = chatty\n    ring.search(agent, key, nodes)\n"
        )
        status, output = self.check(f"{agent} {{nodes}}", "--engine", "model")
        self.assertEqual(status, 1, output)
        self.assertIn("14 matches on ring:3, ring:4,", output)
        self.assertIn(
            "To mend first: lines are refused, which cost commands\n  agent 0: 1 line named a port",
            output,
        )

    def check_shown(self, text: str) -> None:
        """The command that is told shows it."""
        output = run_call(
            main, ["replay", str(self.folder / "kept"), "--engine", "model"]
        ).output
        self.assertIn(text, output)
