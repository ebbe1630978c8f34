"""The replays and scripts that tests/hostile/bent_inputs.py makes, and how it compares
two programs."""
import collections
import random
import unittest
from unittest import mock

from arena_lab.rules.limits import MAX_LINE
from arena_lab.rules.model import replay_match
from tests.hostile import bent_inputs
from tests.hostile.bends import (
    REPLAY_BENDS,
    SCRIPT_BENDS,
    drop,
    in_hexadecimal,
    long_line,
    on_lines,
    other_reply,
    replace_one,
    zero_in_front,
)
from tests.hostile.drawn_inputs import drawn_replay, drawn_script
from tests.support.drawing import by_chance
from tests.support.output import InTemporary, write

REPLAY = b'{"nodes":3}\n{"agent":0,"do":"look","reply":{"no":"away"}}\n{"do":"close","reply":null}\n{"end":2}\n'
PROGRAM = """#!/bin/sh
case "$1" in
judge) echo "$2"; wc -c < "$2" >&2;;
rehearse) echo "$2"; wc -c >&2;;
*) {other};;
esac
"""


class Bends(unittest.TestCase):
    @by_chance(50)
    def test_drawn_replays_are_replays(self, rng: random.Random) -> None:
        text = drawn_replay(rng).decode()
        self.assertEqual(replay_match(text).replay(), text)

    def test_each_bend_changes_most_texts(self) -> None:
        replay = drawn_replay(random.Random(8))
        draw = drawn_script(random.Random(8))
        for bends, long in (
            (REPLAY_BENDS, replay),
            (SCRIPT_BENDS, draw.script),
        ):
            for bend in bends:
                results = [
                    bend(long, random.Random(seed)) != long for seed in range(40)
                ]
                self.assertGreater(sum(results), 10, bend)

    def test_bends_by_hand(self) -> None:
        rng = random.Random(0)
        self.assertIn(zero_in_front(b'{"end":2}', rng), (b'{"end":02}',))
        self.assertEqual(replace_one(b"none", rb"\d", rng, lambda _: b"x"), b"none")
        lines = REPLAY.split(b"\n")
        drop(lines, 1, rng)
        self.assertEqual(lines[1], b'{"do":"close","reply":null}')
        with mock.patch("tests.hostile.bends.REPLIES", (b"null",)):
            counts = collections.Counter(
                on_lines(other_reply)(REPLAY, random.Random(seed)) for seed in range(60)
            )
        self.assertIn(REPLAY.replace(b'{"no":"away"}', b"null"), counts)

    def test_scripts_by_hand(self) -> None:
        lines = [b'1 {"do":"look"}', b"# none"]
        for at in (1, 0):
            in_hexadecimal(lines, at, random.Random(0))
        self.assertEqual(
            [line[:6] for line in lines], [b"hex 1 ", b"hex 1 ", b"# none"]
        )
        self.assertEqual(
            bytes.fromhex((lines[0][6:] + lines[1][6:]).decode()).rstrip(),
            b'{"do":"look"}',
        )
        sizes = set()
        for seed in range(20):
            lines = []
            long_line(lines, 0, random.Random(seed))
            sizes.add(len(lines[0]) - len(b"0 ") - MAX_LINE)
        self.assertEqual(sizes, {-1, 0, 1})

    def test_the_same_seed_makes_the_same_inputs(self) -> None:
        products = [bent_inputs.replay_of(number, 3, [REPLAY]) for number in range(30)]
        self.assertEqual(
            products,
            [bent_inputs.replay_of(number, 3, [REPLAY]) for number in range(30)],
        )
        self.assertNotEqual(
            products,
            [bent_inputs.replay_of(number, 4, [REPLAY]) for number in range(30)],
        )
        scripts = [bent_inputs.script_of(number, 3) for number in range(30)]
        self.assertEqual(
            scripts, [bent_inputs.script_of(number, 3) for number in range(30)]
        )
        self.assertNotEqual(
            scripts, [bent_inputs.script_of(number, 4) for number in range(30)]
        )


class Programs(InTemporary):
    def program(self, name: str, second: str) -> str:
        return str(write(self.folder / name, PROGRAM.replace("{other}", second), 0o755))

    def differing(self, second: str) -> collections.Counter:
        kept_folder = self.folder / "kept"
        kept_folder.mkdir(exist_ok=True)
        first = self.program("one", "exit 3")
        two = self.program("two", second)
        conditions = bent_inputs.words(
            [first, two, "--replays", "4", "--scripts", "2", "--keep", str(kept_folder)]
        )
        return collections.Counter(
            name
            for result in bent_inputs.Comparing(conditions, self.folder).all()
            for name in result.differing
        )

    def test_the_same_programs(self) -> None:
        self.assertEqual(self.differing("exit 3"), {})
        self.assertEqual(list((self.folder / "kept").iterdir()), [])

    def test_another_status_and_other_bytes(self) -> None:
        self.assertEqual(self.differing("exit 4"), {"explain": 4, "twin": 4})
        self.assertEqual(len(list((self.folder / "kept").iterdir())), 4)
        self.assertEqual(self.differing("echo; exit 3"), {"explain": 4, "twin": 4})
        self.assertEqual(self.differing("echo >&2; exit 3"), {"explain": 4, "twin": 4})

    def test_faults_have_no_numbers(self) -> None:
        self.assertEqual(
            bent_inputs.fault_of(
                bent_inputs.RunResult(3, b"", b"note\n/tmp/a: event 13\n")
            ),
            "event N",
        )
        self.assertEqual(
            bent_inputs.fault_of(bent_inputs.RunResult(0, b"", b"note\n")), "none"
        )
