"""What tools/port leaves out of sources, what its engine says of matches that are worked
out by hand, and that it does not take a wrong finding."""
import pathlib
import random
import unittest
from typing import Dict, List

from tests.port import drawn_modules, teams
from tests.port.engine import All, Game, Match, Memory, Words
from tests.port.teams import DrawnMachines, agrees, drawn_match
from tests.support.output import run_call
from tests.support.wasm_encoding import sections_of
from tools.port import compiler, crates, libraries, rules, sources, stripped

SOURCE = """//! Counts.
#![tactic(auto)]

ghost use Rattle.std.specs.Prelude.{◌≡◌};

use std::alloc::{AllocError, Global};

/// A count: it requires nothing, "ensures nothing".
#[derive(Clone, Debug, Drop)]
pub struct Count {
    pub least: u16,
    ghost inside: { least < 9 },
    pub ghost seen: { least ≡ least },
}

impl Clone for Count {
    ghost is_clone = { λ old new. new ≡ old };

    fn clone(&self) -> Result<Count, AllocError> {
        Ok(Count { least: self.least.clone()? })
    }
}

fn next(count: &Count) -> u16
    requires { (λ x. x) count.now.least < 9 }
    ensures one { result ≡ count.now.least + 1 }
    ensures* two { result ≢ 0 }
{
    count.least + 1
}
"""
WITHOUT = """
use rattle::alloc::{AllocError, Global};

/// A count: it requires nothing, "ensures nothing".
#[derive(Clone, Debug)]
pub struct Count {
    pub least: u16,
}

impl Clone for Count {
    fn clone(&self) -> Count { (|| -> Result<Count, AllocError> {
        Ok(Count { least: self.least.fallible_clone()? })
    })().unwrap() }
}

fn next(count: &Count) -> u16
{
    count.least + 1
}
"""
TRIANGLE = (((1, 0), (2, 1)), ((0, 0), (2, 0)), ((1, 1), (0, 1)))


class Scripts:
    """Machines that do what is written down, whatever they see."""

    def __init__(self, *scripts: List[Words]) -> None:
        self.scripts = scripts

    def start(self, agent: int) -> Memory:
        return agent % len(self.scripts), 0

    def after(self, memory: Memory, words: Words) -> Memory:
        script, position = memory
        return script, position if words in (("gone",), ("over",)) else position + 1

    def does(self, memory: Memory) -> Words:
        script, position = memory
        steps = self.scripts[script]
        return steps[position] if position < len(steps) else ("stops",)


def game(*scripts: List[Words], agents: int = 1) -> Game:
    """A match on a triangle whose node 2 is a black hole."""
    match = Match(TRIANGLE, 0, (2,), (), (), agents, 9, 1, 0)
    return Game(match, Scripts(*scripts))


ENTER: Words = ("enter",)
WALKS: List[Words] = [ENTER, ("depart", 0), ("accuse", 1)]


class Stripped(unittest.TestCase):
    def test_contracts_are_left_out_and_clones_do_not_fail(self) -> None:
        made = stripped.plain(SOURCE.partition("\n")[2])
        self.assertEqual(
            [line for line in made.splitlines() if line.strip()],
            [line for line in WITHOUT.splitlines() if line.strip()],
        )

    def test_no_source_has_a_contract_afterwards(self) -> None:
        # what is built has sources of other crates
        paths = sorted(crates.TOP.glob("crates/bhs_wasm_team/src/**/*.rt"))
        self.assertTrue(paths)
        for path in paths:
            with self.subTest(path.name):
                code = "".join(
                    line
                    for line in stripped.plain(path.read_text()).splitlines()
                    if not line.strip().startswith("//")
                )
                self.assertNotRegex(code, r"\b(ghost|requires|ensures)\b|[λ≡◌]")


class Compiled(unittest.TestCase):
    @unittest.skipUnless(not compiler.missing(), "Debian's rustc is not installed")
    def test_all_that_the_crates_have_compiles(self) -> None:
        """A form that Rattle has and Rust has not would be seen in nightly alone."""
        answers, output, _ = run_call(teams.main, ["--teams", "20"])
        self.assertEqual((answers, output.splitlines()[-1]), (0, "20 passed, 0 failed"))


class Sources(unittest.TestCase):
    @unittest.skipUnless(
        crates.kit_folder("toml").is_dir(), "the Rattle toolchain is not installed"
    )
    def test_a_source_archive_has_each_library_and_its_licence(self) -> None:
        paths = [pathlib.PurePath(path) for path, _ in libraries.vendored_files()]
        folder = crates.VENDOR.relative_to(crates.TOP)
        for library in filter(crates.is_library, crates.LIBRARIES):
            with self.subTest(library):
                names = [
                    path.name for path in paths if folder / library in path.parents
                ]
                self.assertIn("lib.rs", names)
                has_licence = any(crates.kit_folder(library).glob("LICENSE*"))
                self.assertEqual(any("LICENSE" in name for name in names), has_licence)

    def test_each_rule_has_a_reason_and_still_matches(self) -> None:
        for has_sockets in (False, True):
            for crate in {*rules.RULES, *rules.WITHOUT_SOCKETS}:
                for rule in sources.rules_of(crate, has_sockets):
                    reason = rule.reason.split()
                    self.assertGreater(len(reason), 3, (crate, rule.pattern))
                if crate in crates.crate_rows():
                    files = sources.texts_of(crate, has_sockets)
                    self.assertTrue([*files])

    def test_a_rule_that_no_longer_matches_stops_the_build(self) -> None:
        with self.assertRaisesRegex(
            sources.StaleRuleError, "bhs_wasm: memories.rt has no"
        ):
            sources.apply_rules("bhs_wasm", "memories.rt", "fn other() {}")

    def test_features_are_asked_for_only_where_they_are_not_stable(self) -> None:
        self.assertEqual(compiler.feature_flags((1, 90)), [])
        self.assertIn("let_else", compiler.feature_flags((1, 63))[0])
        self.assertNotIn("let_else", compiler.feature_flags((1, 70))[0])


class Engine(unittest.TestCase):
    def test_what_schedules_spend(self) -> None:
        all = All(game(WALKS))
        self.assertEqual((all.failures, all.whole), (set(), (1, 4, (2,), 0)))
        all = All(game(WALKS, [ENTER, ("depart", 1)], agents=2))
        self.assertEqual((all.failures, all.whole), (set(), (2, 6, (2, 1), 1)))

    def test_how_they_fail(self) -> None:
        failing: Dict[str, List[Words]] = {
            "unsolved": [ENTER, ("depart", 0)],
            "program": [ENTER, ("fails",)],
            "outside": [("look",), ENTER],
            "asleep": [("sleeps",), ("sleeps",)],
        }
        for failure, script in failing.items():
            with self.subTest(failure):
                self.assertIn(failure, All(game(script)).failures)

    def test_a_cycle_is_met(self) -> None:
        class Looks(Scripts):
            def after(self, memory: Memory, words: Words) -> Memory:
                return 0, 1

        first = game()
        looks = first._replace(machines=Looks([ENTER, ("look",)]))
        self.assertEqual(All(looks).failures, {"endless"})

    def test_a_wrong_finding_is_not_taken(self) -> None:
        solves = game(WALKS)
        fails = game([ENTER, ("depart", 0)])
        for first, result, is_so in (
            (solves, "solves 1 0 4 2 states", True),
            (solves, "solves 2 0 4 2 states", False),
            (solves, "solves 1 1 4 2 states", False),
            (solves, "fails silent 1 0 0,0,0,0", False),
            (solves, "exceeds 0 10", False),
            (solves, "Check", False),
            (fails, "solves 1 0 3 1 states", False),
            (fails, "fails silent 1 0 0,0,0", True),
            (fails, "fails silent 1 0 0,0", False),
            (fails, "fails wrong 1 0 0,0,0", False),
            (fails, "breaks 0 program 0", False),
            (fails, "endless true 0 0", False),
        ):
            with self.subTest(result):
                self.assertEqual(agrees(first, result.split(" ")), is_so)

    def test_drawn_teams_are_the_same_each_time(self) -> None:
        results = []
        for _ in range(2):
            rng = random.Random(7)
            match = drawn_match(rng)
            machines = DrawnMachines(7, match, rng)
            results.append((match, machines.scripts))
        self.assertEqual(results[0], results[1])


class Modules(unittest.TestCase):
    def test_drawn_modules_have_a_table_globals_and_their_memory(self) -> None:
        for seed in range(20):
            file = drawn_modules.drawn_module(random.Random(seed))
            sections = sections_of(file)
            self.assertLessEqual({1, 2, 3, 4, 5, 6, 7, 9, 10}, {*sections})
            self.assertIn(b"memory", sections[7])
