"""`arena-lab verify` gets again what lines of `arena-lab json` say, tells what differs,
and says when the bounds of a search hold of a replay."""
import contextlib
import json
import pathlib
import shutil
from typing import Any, Callable, Dict, Tuple

from arena_lab.__main__ import main
from arena_lab.rules.model import Object
from tests.support.matches import TOP, InTemporary, program
from tests.support.output import run_call

RING = "examples/agents/wasm/ring.wasm"
EXPLORE = ("explore", "examples/first.toml", "0", "--module", f"{RING}:8")
ATTEST = ("attest", "examples/attested0.jsonl", "--module", f"{RING}:8")
SOLVED = (
    "so the replay's match is solved, with at most 29 moves, and at most 1 agents lost"
)


class Certificates(InTemporary):
    def setUp(self) -> None:
        super().setUp()
        shutil.copytree(TOP / "examples", self.folder / "examples")
        self.enterContext(contextlib.chdir(self.folder))

    def certify(self, name: str, *words: str) -> None:
        """Writes a certificate to the file of this name."""
        _, output, _ = run_call(main, ["json", "--program", program(), *words])
        (self.folder / name).write_text(output)

    def verify(self, *names: str) -> Tuple[int, str]:
        """The exit status of `arena-lab verify`, and what it prints."""
        status, output, errors = run_call(
            main, ["verify", "--program", program(), *names]
        )
        return status, output + errors

    def change(self, name: str, change: Callable[[Dict[str, Any]], None]) -> None:
        """Changes the line in a certificate."""
        line: Object = json.loads((self.folder / name).read_text())
        change(line)
        (self.folder / name).write_text(json.dumps(line))

    def edit(self, name: str, old: str, new: str) -> None:
        """Replaces a text in a file of the examples."""
        path = self.folder / name
        text = path.read_text()
        self.assertIn(old, text)
        path.write_text(text.replace(old, new, 1))

    def test_a_search_holds_of_an_attested_replay(self) -> None:
        self.certify("explored.json", *EXPLORE)
        self.certify("attested.json", *ATTEST)
        status, output = self.verify("explored.json", "attested.json")
        self.assertEqual(status, 0, output)
        self.assertIn("explored.json: the same result by", output)
        self.assertIn(SOLVED, output)
        self.assertNotIn(SOLVED, self.verify("explored.json")[1])

    def test_what_differs_is_told(self) -> None:
        self.certify("attested.json", *ATTEST)

        def add_wake_up(line: Dict[str, Any]) -> None:
            line["result"]["agents"][1]["wake_ups"] = 1

        self.change("attested.json", add_wake_up)
        status, output = self.verify("attested.json")
        self.assertEqual(status, 1)
        self.assertIn(
            "attested.json: result.agents[1].wake_ups: 1 there, 0 here\n", output
        )

    def test_a_result_of_another_shape_differs(self) -> None:
        self.certify("attested.json", *ATTEST)
        self.change("attested.json", lambda line: line.update(result=None))
        status, output = self.verify("attested.json")
        self.assertEqual(status, 1)
        self.assertIn("attested.json: result: null there, {", output)

    def test_changed_and_missing_files_are_told_and_nothing_is_run(self) -> None:
        self.certify("explored.json", *EXPLORE)
        self.edit("examples/ring8.toml", "version = 1", "version = 1 ")
        (self.folder / RING).unlink()
        status, output = self.verify("explored.json")
        self.assertEqual(status, 1)
        self.assertIn("explored.json: examples/ring8.toml: it has the SHA-256", output)
        self.assertIn(f"explored.json: {RING}: there is no such file here\n", output)
        self.assertNotIn("there, ", output)

    def test_each_premise_of_the_bounds_is_asked(self) -> None:
        tournament = "examples/first.toml"
        keys = 'keys = ["red-ring-0", "red-ring-1"]\n'
        for edit, words, message in (
            (("holes = [5]", "holes = [6]"), (), "is of another match than match 0"),
            (
                (keys, f"{keys}held = [[4, 0], [6, 1]]\n"),
                (),
                "arrives over a link that is held",
            ),
            ((keys, keys), ("--spurious-wakeups=1",), "is attested with 1"),
            ((keys, keys), ("--module", f"{RING}:9"), "the replay is not attested"),
        ):
            with self.subTest(message):
                shutil.copy(TOP / tournament, self.folder / tournament)
                self.edit(tournament, *edit)
                self.certify("explored.json", *EXPLORE)
                attest = ATTEST[:2] if "--module" in words else ATTEST
                self.certify("attested.json", *attest, *words)
                status, output = self.verify("explored.json", "attested.json")
                self.assertEqual(status, 1, output)
                self.assertIn("the bounds of the search do not follow: ", output)
                self.assertIn(message, output)

    def test_agents_run_the_modules_that_were_explored(self) -> None:
        shutil.copy(self.folder / RING, self.folder / "other.wasm")
        with open(self.folder / "other.wasm", "ab") as file:
            # a custom section without a name and bytes changes nothing but the hash
            file.write(b"\0\1\0")
        self.certify("explored.json", *EXPLORE)
        self.certify("attested.json", *ATTEST[:2], "--module", "other.wasm:8")
        status, output = self.verify("explored.json", "attested.json")
        self.assertEqual(status, 1)
        self.assertIn("agents run other modules", output)

    def test_a_replay_that_was_closed_early_is_never_wrong(self) -> None:
        replay = self.folder / "examples" / "attested0.jsonl"
        lines = replay.read_text().splitlines()
        early = [*lines[:10], '{"do":"close","reply":null}', '{"end":10}']
        replay.write_text("".join(line + "\n" for line in early))
        self.certify("explored.json", *EXPLORE)
        self.certify("attested.json", *ATTEST)
        status, output = self.verify("explored.json", "attested.json")
        self.assertEqual(status, 0, output)
        self.assertIn("so no accusation in the replay is wrong", output)

    def test_other_files_are_refused(self) -> None:
        for text in (
            "",
            "[]",
            "{}",
            '{"command":"judge"}',
            '{"command":"serve","origin":{"words":["serve"],"files":[]}}',
            '{"command":"judge","origin":{"words":["table"],"files":[]}}',
            '{"command":"explore","origin":{"words":["explore","a","0"],"files":[]}}',
            "[" * 100_000,
        ):
            with self.subTest(text[:80]):
                pathlib.Path(self.folder / "line.json").write_text(text)
                status, output = self.verify("line.json")
                self.assertEqual(status, 2)
                self.assertIn("line.json: it is no line of `arena-lab json`", output)
