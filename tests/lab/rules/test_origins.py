"""What `arena-lab json` says of where a result comes from."""
import contextlib
import hashlib
import os
import pathlib
import unittest
import unittest.mock

from arena_lab.rules import origins
from arena_lab.support import built
from tests.support.output import InTemporary, write

RECORD = """# arena 1.2.3, {proof}
# commit 0123456789012345678901234567890123456789, tree clean
# toolchain kit 1
{digest}  out/arena
"""
CUP = """version = 3
[[match]]
network = "a.toml"
[[match]]
network = "b.toml"
"""
HELP = """Tries every schedule

Options:
      --module <FILE[:N,..]>  All agents run this module
      --max-states <N>        Visits at most this many states [default: 10000000]
      --spurious-wakeups <N>  How often a sleeper may wake [default: 2]
"""


def digest(text: str) -> str:
    return hashlib.sha256(text.encode()).hexdigest()


class Programs(InTemporary):
    def setUp(self) -> None:
        super().setUp()
        self.enterContext(
            unittest.mock.patch.object(built, "TOP", self.folder / "nothing")
        )

    def test_a_proved_program_and_another_of_the_same_words_differ(self) -> None:
        origin = []
        for name, text, record, proof in (
            ("bhs_main", "proved", built.RECORD, "proved"),
            ("arena", built.UNPROVED_LINE, "compiled.sha256", "unproved"),
        ):
            program = write(self.folder / name, text)
            lines = RECORD.format(proof=proof, digest=digest(text))
            write(self.folder / record, lines)
            origin.append(origins.program_origin(program))
        self.assertEqual([row["proved"] for row in origin], [True, False])
        self.assertEqual(
            [row["name"] for row in origin], [built.PROGRAM, built.UNPROVED_NAME]
        )
        for row in origin:
            self.assertEqual(
                [row[key] for key in ("version", "commit", "tree", "toolchain")],
                ["1.2.3", "0123456789" * 4, "clean", "kit 1"],
            )

    def test_a_record_of_another_program_says_nothing(self) -> None:
        program = write(self.folder / "arena", "changed since")
        lines = RECORD.format(proof="proved", digest=digest("proved"))
        write(self.folder / built.RECORD, lines)
        origin = origins.program_origin(program)
        self.assertEqual((origin["proved"], origin["version"]), (False, None))
        self.assertEqual(origin["sha256"], digest("changed since"))


class Files(InTemporary):
    def setUp(self) -> None:
        super().setUp()
        self.enterContext(contextlib.chdir(self.folder))
        for name, text in (
            ("cup.toml", CUP),
            ("a.toml", "a"),
            ("b.toml", "b"),
            ("agent.wasm", "agent"),
            ("m0.jsonl", "0"),
            ("m1.jsonl", "1"),
        ):
            write(self.folder / name, text)

    def files(self, *words: str) -> list:
        return [*origins.digests_of(origins.files_of(words))]

    def test_networks_modules_and_replays_are_named(self) -> None:
        cup = ["cup.toml", "a.toml", "b.toml"]
        for words, files in (
            (("cup.toml", "0", "--module", "agent.wasm:8"), [*cup, "agent.wasm"]),
            (("--module=agent.wasm:8,7", "cup.toml"), ["agent.wasm", *cup]),
            (("red=m0.jsonl", "blue=m1.jsonl"), ["m0.jsonl", "m1.jsonl"]),
            (("m0.jsonl", "--tournament", "cup.toml"), ["m0.jsonl", *cup]),
            (("none.toml",), []),
        ):
            with self.subTest(words):
                self.assertEqual(self.files(*words), files)
        for words in (("cup.toml", "--replay", "m"), ("cup.toml", "--replay=m")):
            self.assertEqual({*self.files(*words)}, {*cup, "m0.jsonl", "m1.jsonl"})

    def test_a_network_beside_the_tournament_is_named_by_its_path(self) -> None:
        os.mkdir("in")
        os.chdir("in")
        self.assertEqual(
            self.files("../cup.toml"), ["../cup.toml", "../a.toml", "../b.toml"]
        )

    def test_a_pipe_is_not_read(self) -> None:
        os.mkfifo("pipe")
        self.assertEqual(self.files("pipe"), [])

    def test_defaults_are_those_of_options_that_are_left_out(self) -> None:
        states = {"max-states": "10000000"}
        wakeups = {"spurious-wakeups": "2"}
        for words, defaults in (
            ((), {**states, **wakeups}),
            (("--max-states", "5"), wakeups),
            (("--spurious-wakeups=0",), states),
        ):
            self.assertEqual(origins.defaults_in(HELP, words), defaults)

    def test_a_file_that_changes_meanwhile_is_a_fault(self) -> None:
        program = pathlib.Path("a.toml")
        files = origins.digests_of(["b.toml"])
        words = ["explore", "b.toml", os.fsdecode(b"\xff")]
        result = origins.origin_of(program, words, files, HELP)
        self.assertEqual(result["files"], [{"file": "b.toml", "sha256": digest("b")}])
        self.assertEqual(result["words"], ["explore", "b.toml", "\ufffd"])
        write(self.folder / "b.toml", "other")
        with self.assertRaisesRegex(origins.ChangedFileError, "b.toml: it was changed"):
            origins.origin_of(program, words, files, HELP)
