"""`arena-lab json` says what the program says: of each row of the program's tests that
judges, makes a table, checks or explores, and of runs of the program. Its schema takes
each reading."""
import json
import pathlib
import re
import shlex
import shutil
import unittest
from typing import Any, Dict, Iterator, List, Tuple

from jsonschema.validators import validator_for

from arena_lab.__main__ import main
from arena_lab.rules import printed
from arena_lab.rules.engines import TOP, name_of
from arena_lab.support import built
from tests.support.matches import InFolder, program
from tests.support.output import run_call
from tests.support.program_rows import Stage, Step, rows_of
from tests.support.sample_modules import LEAVER
from tests.support.wasm_encoding import Function, module

SCHEMA: Dict[str, Any] = json.loads(
    (TOP / "docs" / "results.schema.json").read_text(encoding="utf-8")
)
Validator = validator_for(SCHEMA)
# the origin of a line whose program has no record, and whose words name no file
ORIGIN = {
    "program": {
        **dict.fromkeys(("version", "commit", "tree", "toolchain")),
        "name": built.UNKNOWN,
        "proved": False,
        "sha256": "0" * 64,
    },
    "words": ["judge"],
    "defaults": {},
    "files": [],
}
EXAMPLES = TOP / "examples"
# lines of `explore` to its host, which stand before the result
ASKED = re.compile(r'\{"(begin|ask|visited)":.*\n')
HELP = {"-h", "--help"}
WORD = re.compile(r"[^\s\"{}\[\]:,]+")


def steps() -> Iterator[Tuple[str, Step]]:
    """The steps of all rows that run one of the commands, with its name."""
    for path in sorted((TOP / "tests" / "program").glob("*.rows")):
        for row in rows_of(path.read_text(encoding="utf-8")):
            for step in row.steps:
                command = step.rest.split(" ")[0]
                if step.mark == "$" and command in printed.READERS:
                    yield command, step


def words_in(value: Any) -> List[str]:
    """The words and numbers of a value of JSON, without the names of its objects."""
    if isinstance(value, dict):
        return [word for first in value.values() for word in words_in(first)]
    if isinstance(value, list):
        return [word for first in value for word in words_in(first)]
    return (value if isinstance(value, str) else json.dumps(value)).split()


class Rows(unittest.TestCase):
    def readings(self) -> Iterator[Tuple[str, Step, Dict[str, Any]]]:
        for command, step in steps():
            text = ASKED.sub("", step.expected.decode())
            if step.status != 2 and not HELP & {*step.rest.split(" ")}:
                errors = step.stderr.decode(errors="replace")
                words = shlex.split(step.rest)
                result = printed.reading(words, text, errors, step.status)
                yield text, step, result

    def test_each_reading_has_what_is_printed_and_its_schema(self) -> None:
        count = 0
        results: Dict[str, set] = {}
        for text, step, reading in self.readings():
            count += 1
            results.setdefault(reading["command"], set()).add(step.status)
            Validator(SCHEMA).validate({**reading, "origin": ORIGIN})
            self.assertEqual(reading["status"], step.status)
            names = {"#", "team", "outcome", "moves", "lost", "match", "nodes", "links"}
            names |= {"agents", *re.findall(r'"(\w+)":', text)}
            self.assertEqual(
                set(WORD.findall(text)) - names,
                set(words_in(reading["result"] or [])) - names,
            )
        self.assertGreater(count, 300)
        self.assertEqual(
            {command: sorted(it) for command, it in results.items()},
            {
                "check": [0, 3, 6],
                "explore": [0, 1, 3, 6],
                "judge": [0, 3, 4, 6],
                "table": [0, 3, 4, 6],
            },
        )

    def test_each_fault_is_told(self) -> None:
        for _, step, reading in self.readings():
            lines = step.stderr.decode(errors="replace").splitlines()
            again = reading["notes"][:]
            for fault in reading["faults"]:
                again.append(f"{fault['where']}: {fault['fault']}")
                again += [f"  {line}" for line in fault["more"]]
            self.assertEqual(sorted(again), sorted(lines))
            has_fault = step.status > 1 and reading["result"] is None
            self.assertTrue(reading["faults"] or not has_fault)
            self.assertTrue(step.status > 1 or not reading["faults"])


class Texts(unittest.TestCase):
    def test_texts_that_no_command_prints_are_refused(self) -> None:
        table = "  # team             outcome     moves lost\n"
        for command, text in (
            ("judge", "solved moves 1 lost\n"),
            ("judge", "solved  moves 1 lost 0\n"),
            ("table", table + "  2 red              solved          1    0\n"),
            ("table", table + "  1 red              solved          1   00\n"),
            ("table", table + "  1 red              solved          1    0"),
            ("check", "match 0 red nodes 3 links 3\n"),
            ("explore", '{"found":"solves"}\n'),
            ("explore", '{"found": "solves"}\n{"states":1}\n'),
            ("explore", '{"found":"solves"}\n{"states":1}\nmore\n'),
            ("attest", '{"attested": true}\n'),
            ("attest", '{"attested":true}\n\n'),
        ):
            with self.subTest(command, text=text):
                self.assertRaises(
                    printed.PrintedTextError, printed.result_in, command, text
                )


class Runs(InFolder):
    def json(self, *words: object) -> Tuple[int, str, str]:
        """The status of `arena-lab json`, and what it writes to both streams."""
        return run_call(main, ["json", "--program", program(), *map(str, words)])

    def compare(self, *words: object) -> Dict[str, Any]:
        """The JSON of a run, whose status and faults are the program's."""
        alone = Stage(program(), pathlib.Path.cwd()).run(
            [str(word) for word in words], wants_notes=True
        )
        status, output, errors = self.json(*words)
        self.assertEqual(status, alone.status)
        error_text = alone.stderr.decode()
        self.assertIn(re.sub("^arena: .*\n", "", error_text), errors)
        self.assertEqual(output.splitlines(), [output.removesuffix("\n")])
        report: Dict[str, Any] = json.loads(output)
        Validator(SCHEMA).validate(report)
        origin = report["origin"]
        self.assertEqual(
            (origin["program"]["sha256"], origin["program"]["name"]),
            (built.digest_of(pathlib.Path(program())), name_of(program())),
        )
        self.assertEqual(origin["words"], [*map(str, words)])
        text = alone.stdout.decode()
        self.assertEqual(report["result"], printed.result_in(str(words[0]), text))
        return report

    def test_each_command(self) -> None:
        replay = EXAMPLES / "guess0.jsonl"
        self.assertEqual(
            self.compare("judge", replay)["result"],
            {"outcome": "guess 1", "moves": 0, "lost": 0},
        )
        result = self.compare("table", f"red={replay}", f"blue={EXAMPLES}/first0.jsonl")
        self.assertEqual(
            [(team["place"], team["team"]) for team in result["result"]["teams"]],
            [(1, "blue"), (2, "red")],
        )
        result = self.compare("check", "examples/first.toml")
        self.assertEqual(
            [match["nodes"] for match in result["result"]["matches"]], [8, 16, 25, 3]
        )
        self.assertEqual(len(result["notes"]), 2)
        leaver = self.folder / "leaver.wasm"
        leaver.write_bytes(LEAVER)
        for arguments in (("--module", leaver), (f"--module={leaver}",)):
            result = self.compare("explore", "examples/first.toml", 0, *arguments)
            self.assertEqual(
                (result["status"], result["result"]["found"]["found"]), (1, "fails")
            )
            files = [row["file"] for row in result["origin"]["files"]]
            self.assertEqual(files[0], "examples/first.toml")
            self.assertEqual(files[-1], str(leaver))
            self.assertIn("examples/triangle.toml", files)
            self.assertEqual(
                result["origin"]["defaults"],
                {"max-states": "10000000", "spurious-wakeups": "2"},
            )

    def test_the_lines_of_attest(self) -> None:
        module_word = EXAMPLES / "agents" / "wasm" / "ring.wasm"
        for number, status, lines in ((8, 0, 2), (4, 1, 1)):
            result = self.compare(
                "attest",
                EXAMPLES / "attested0.jsonl",
                "--module",
                f"{module_word}:{number}",
            )
            self.assertEqual(result["status"], status)
            summary = result["result"]["summary"]
            self.assertEqual(
                summary, {"attested": not status, "agents": 2, "spurious_wakeups": 2}
            )
            self.assertEqual(len(result["result"]["agents"]), lines)
            self.assertEqual(
                [row["file"] for row in result["origin"]["files"]],
                [str(EXAMPLES / "attested0.jsonl"), str(module_word)],
            )

    def test_what_is_left_out_of_a_table_is_a_fault(self) -> None:
        result = self.compare(
            "table", "examples/appeal.toml", "--replay", self.folder / "none"
        )
        self.assertEqual((result["status"], result["result"]), (6, {"teams": []}))
        (fault,) = result["faults"]
        self.assertEqual(fault["fault"], "read")
        self.assertIn("match 0 (red) is left out of the table", fault["more"])

    def test_names_of_files_may_have_colons_and_characters_that_are_escaped(
        self,
    ) -> None:
        for name, view in (
            ("x: y", "x: y"),
            ("a: b is ignored", "a: b is ignored"),
            ("a: the schedule is x", "a: the schedule is x"),
            ("a\u2028b\n", "a\u2028b\\n"),
            ("a\u2029b", "a\u2029b"),
            ("\x1b: y", r"\u{1b}: y"),
            ("a\u202eb: c", r"a\u{202e}b: c"),
            ("a\x7f\x9f\u061c: c", r"a\u{7f}\u{9f}\u{61c}: c"),
        ):
            file = self.folder / name
            folder = f"{self.folder}/{view}"
            absent = {
                "where": folder,
                "fault": "read",
                "more": ["there is no such file"],
            }
            with self.subTest(name):
                for words in (("judge", file), ("table", f"a={file}")):
                    self.assertEqual(self.compare(*words)["faults"], [absent])
                shutil.copy(EXAMPLES / "first.toml", file)
                result = self.compare("check", file)
                self.assertEqual((result["faults"], len(result["notes"])), ([], 2))

    def test_names_of_imports_may_have_colons(self) -> None:
        file = self.folder / "x.wasm"
        for name in ("a: b", "a is ignored: did you mean b?"):
            file.write_bytes(module([Function([], [], b"", "run")], [name]))
            result = self.compare(
                "explore", "examples/first.toml", 0, "--module", f"{file}:8"
            )
            (fault,) = result["faults"]
            self.assertEqual(
                (fault["where"], fault["fault"]),
                (str(file), f"import arena.{name} at byte 21"),
            )

    def test_words_that_are_refused_have_no_json(self) -> None:
        conditions = ("--module=a.wasm", "--all-holes")
        for words, message in (
            (("judge",), ""),
            (("table", "red"), ""),
            (("explore", "cup.toml", 0), "name modules"),
            (("explore", "cup.toml", 0, *conditions), "leave out --all-holes"),
        ):
            with self.subTest(words):
                status, output, errors = self.json(*words)
                self.assertEqual((status, output), (2, ""))
                self.assertIn(f"error: {message}", errors)
