"""The schema of lines holds of each line of the program's rows and of drawn matches: it
takes a client's line exactly if the rules read it as a command, and each line that a
client is sent. The schema of files takes each file that the program takes, in examples,
documents and rows, and refuses what rows say is absent or of another shape."""
import json
import random
import re
import tomllib
import unittest
from typing import Any, Dict, Iterator, List, Tuple

from jsonschema import RefResolver
from jsonschema.validators import validator_for

from arena_lab.rules.engines import TOP
from arena_lab.rules.model import BAD, command_of, value_of
from tests.support.matches import MAP, RING, network_fixture, play_fixture, ring_fixture

SCHEMA: Dict[str, Any] = json.loads(
    (TOP / "docs" / "agent.schema.json").read_text(encoding="utf-8")
)
FILES: Dict[str, Any] = json.loads(
    (TOP / "docs" / "files.schema.json").read_text(encoding="utf-8")
)
ROWS = TOP / "tests" / "program"
# what of a fault of a file a schema can see, and of these what needs a sum or counts
# bytes
SEEN = re.compile(r"\S+: (match \d+ )?(missing|shape|version|unknown key)\b.*")
UNSEEN = re.compile(".*shape (delay_odds|network|keys)")
# lines sent by clients in a script, and lines sent to them
SAID = re.compile(r"> \d+ (.*)")
TOLD = re.compile(r'< \d+ (\{"(?:board|no|ok)":.*\})')


# validators of the drafts that the schemas declare
OfLines = validator_for(SCHEMA)
OfFiles = validator_for(FILES)


def of(kind: str) -> Any:
    return OfLines(
        {"$ref": f"#/definitions/{kind}", "definitions": SCHEMA["definitions"]}
    )


COMMANDS = of("command")
ANSWERS = of("answer")


def of_files(kind: str) -> Any:
    """The part of the schema of files for such a file; what it takes of the schema of
    lines stands beside it."""
    resolver = RefResolver(
        f"file://{TOP}/docs/files.schema.json",
        FILES,
        {f"file://{TOP}/docs/agent.schema.json": SCHEMA},
    )
    return OfFiles(
        {"$ref": f"#/definitions/{kind}", "definitions": FILES["definitions"]},
        resolver=resolver,
    )


def kind_of(values: Dict[str, Any]) -> str:
    """Returns whether a file of TOML is a network or a tournament."""
    return "network" if "links" in values else "tournament"


def changed_files() -> Iterator[Tuple[str, str, str]]:
    """The files of the rows of `check` as they are changed there, with what the program
    says: the name that is checked, the text, and the lines."""
    files: Dict[str, str] = {}
    name = source = ""
    for line in (
        (ROWS / "files.rows")
        .read_text(encoding="utf-8")
        .replace("\n+ ", "")
        .split("\n")
    ):
        mark, _, rest = line.partition(" ")
        if mark == "@":
            name = rest
        elif mark == "~":
            source = rest.split()[0]
        elif mark == ">":
            files[name] = f"{files.get(name, '')}{rest}\n"
        elif line.count(" => ") == 2:
            old, new, message = (part.replace("¶", "\n") for part in line.split(" => "))
            yield source, files[source].replace(old, new, 1), message


def of_rows() -> Iterator[Tuple[bool, str]]:
    """Yields the lines of the rows, each with whether a client sent it."""
    for path in sorted(ROWS.glob("*.rows")):
        for line in path.read_text(encoding="utf-8").split("\n"):
            output = SAID.fullmatch(line)
            message = TOLD.fullmatch(line.strip())
            if output:
                yield True, output[1]
            elif message:
                yield False, message[1]


def is_json(line: str) -> bool:
    try:
        value_of(line)
    except (ValueError, RecursionError):
        return False
    return True


class TestSchema(unittest.TestCase):
    def test_it_is_a_schema(self) -> None:
        OfLines.check_schema(SCHEMA)

    def take(self, is_said: bool, line: str) -> None:
        if is_said:
            duration = is_json(line) and COMMANDS.is_valid(json.loads(line))
            self.assertEqual(command_of(line) is not BAD, duration, line)
        else:
            ANSWERS.validate(json.loads(line))

    def test_lines_of_rows(self) -> None:
        lines = list(of_rows())
        self.assertGreater(sum(is_said for is_said, _ in lines), 100)
        self.assertGreater(sum(not is_said for is_said, _ in lines), 100)
        for is_said, line in lines:
            with self.subTest(line):
                self.take(is_said, line)

    def test_lines_of_drawn_matches(self) -> None:
        rng = random.Random(7)
        for seed in range(5):
            for match in (
                play_fixture(ring_fixture(6, 3, rng), RING, seed),
                play_fixture(network_fixture(rng), MAP, seed),
            ):
                for line in match.script:
                    output = SAID.fullmatch(f"> {line.decode()}")
                    if output:
                        self.take(True, output[1])
                for event in map(json.loads, match.replay.decode().splitlines()[1:-1]):
                    if event["reply"] is not None:
                        self.take(False, json.dumps(event["reply"]))


class TestFiles(unittest.TestCase):
    """The schema of files."""

    def take(self, text: str) -> None:
        """Takes a file of TOML, or a replay."""
        if text.startswith("{"):
            for line in text.splitlines():
                of_files("replay line").validate(json.loads(line))
        else:
            document = tomllib.loads(text)
            of_files(kind_of(document)).validate(document)

    def test_it_is_a_schema(self) -> None:
        OfFiles.check_schema(FILES)

    def test_examples_and_what_documents_show(self) -> None:
        paths = [
            *(TOP / "examples").glob("*.toml"),
            *(TOP / "examples").glob("*.jsonl"),
        ]
        self.assertGreater(len(paths), 10)
        text = (TOP / "docs" / "FORMATS.md").read_text(encoding="utf-8")
        network, cup, third = (
            it
            for it in re.findall("```\n(.*?)```", text, re.DOTALL)
            if "version = " in it
        )
        lines = re.findall(r'^    (\{"(?:agents|agent|do|end)".*)$', text, re.MULTILINE)
        self.assertGreater(len(lines), 4)
        for view in (
            *(path.read_text(encoding="utf-8") for path in paths),
            network,
            cup,
            third + cup[cup.index("[[match]]") :],
            *lines,
        ):
            with self.subTest(view):
                self.take(view)

    def test_files_of_rows_and_their_faults(self) -> None:
        counts = [0, 0, 0]
        for name, text, message in changed_files():
            try:
                document = tomllib.loads(text)
            except tomllib.TOMLDecodeError:
                continue
            is_right = of_files(
                "network" if name == "tri.toml" else "tournament"
            ).is_valid(document)
            with self.subTest(text=text, told=message):
                if message.startswith(("right", "match ")):
                    self.assertTrue(is_right)
                    counts[0] += 1
                elif (
                    SEEN.fullmatch(message)
                    and not UNSEEN.fullmatch(message)
                    and "cup.toml: missing nodes" != message
                ):
                    self.assertFalse(is_right)
                    counts[1] += 1
                    counts[2] += "unknown key" in message
        self.assertGreater(min(counts[:2]), 25)
        self.assertGreater(counts[2], 5)

    def test_each_key_of_each_line_of_a_replay(self) -> None:
        """Removing, renaming or mistyping any key invalidates the line."""
        lines: List[str] = (
            (TOP / "examples" / "appeal0.jsonl")
            .read_text(encoding="utf-8")
            .splitlines()
        )
        validator = of_files("replay line")
        kinds = {tuple(json.loads(line)): line for line in lines}
        self.assertGreater(len(kinds), 5)
        for line in map(json.loads, kinds.values()):
            for key in line:
                rest = {name: value for name, value in line.items() if name != key}
                for fault in (
                    rest,
                    {**line, key: {}},
                    {**line, "more": 1},
                    {**line, key: [[]]},
                ):
                    self.assertFalse(validator.is_valid(fault), fault)
