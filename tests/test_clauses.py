"""The functions without a clause are those that tools/prove/tested.toml lists, and the
page of contracts has them."""
import collections
import pathlib
import re
import tomllib
import unittest
from typing import Dict, Iterator, Set, Tuple

from tests.support.output import InTemporary, write
from tools.prove import contracts, edits
from tools.prove.clauses import (
    CRATES,
    always_true,
    contract_of,
    crates_given,
    functions_in,
    without_clause,
)

TOP = pathlib.Path(__file__).resolve().parents[1]
CODE = """\
/// What is held.
pub struct Held {
    rows: u8,
}

impl Held {
    /// How many there are,
    /// with a second line.
    #[inline]
    pub fn count<R: Wait>(&self, rt: &R, room: &mut Vec<u8>) -> Result<u8, NetFault>
        ensures kept { result ≡ self.now }
        ensures { IfErr result (λ fault. room.new ≡ room.old) }
    {
        Ok(self.rows)
    }

    fn own(&self) -> u8 {
        self.rows
    }
}

pub fn law()
    ensures { Law }
{}

pub fn other()
    ensures named { Other }
{}
"""


def function_names() -> Set[str]:
    """Returns the function names of the file, each with its crate."""
    rows = tomllib.loads(contracts.TESTED_FILE.read_text(encoding="utf-8"))[
        "without_clause"
    ]
    return {f"{row['crate']} {name}" for row in rows for name in row["functions"]}


def named_by_others() -> Dict[str, Set[str]]:
    """Of each crate what other crates and the library tests name behind its name."""
    results: Dict[str, Set[str]] = collections.defaultdict(set)
    for path in (
        *CRATES.glob("*/src/**/*.rt"),
        *(TOP / "tests" / "library").rglob("*.rs"),
    ):
        for crate, names in re.findall(
            r"\b(bhs_\w+)::(\{[^}]*\}|[\w:]+)", path.read_text(encoding="utf-8")
        ):
            if CRATES / crate not in path.parents:
                results[crate].update(re.findall(r"\w+", names))
    return results


def calls_that_want_memory() -> Iterator[Tuple[str, str]]:
    """The crates and names of open functions that take an allocator or can say that
    memory ran out, if another crate names them, or their types."""
    types = contracts.memory_types()
    names = named_by_others()
    for crate in crates_given([]):
        for path in sorted((CRATES / crate / "src").rglob("*.rt")):
            for contract in contracts.contracts_in(path):
                wants = types & set(
                    re.findall(r"\w+", contracts.answer_of(contract.signature))
                )
                if (
                    wants or "Global" in contract.signature
                ) and contract.name.partition("::")[0] in names[crate]:
                    yield crate, contract.name


class ClausesTest(unittest.TestCase):
    def test_the_table_has_each_function_without_a_clause(self) -> None:
        table = function_names()
        results = {
            f"{first.crate} {first.name}" for first in without_clause(crates_given([]))
        }
        self.assertEqual(
            sorted(results - table), [], "the table lacks functions without a clause"
        )
        self.assertEqual(
            sorted(table - results),
            [],
            "the table has functions that have a clause or are gone",
        )

    def test_a_contract_ends_at_the_body(self) -> None:
        lines = [
            "fn one(",
            "    a: u8,",
            ") -> u8",
            "    ensures { result ≡ a }",
            "{",
            "    a",
            "}",
        ]
        self.assertIn("ensures", contract_of(lines, 0))
        self.assertNotIn(
            "ensures",
            contract_of(["fn one() {", "}", "fn two()", "    ensures { x }", "{"], 0),
        )
        self.assertNotIn(
            "two",
            contract_of(["fn one()", "    ensures { x }", "{}", "fn two()", "{}"], 0),
        )

    def test_what_is_always_true_is_no_clause(self) -> None:
        lines = [
            "impl Team for Host {",
            "    ghost answers = { λ old exchange new. Unit {0} };",
            "    ghost all = { ⊤ };",
            "    ghost says = { λ old new. new ≡ old };",
            "}",
            "impl From<A> for B {",
            "    ghost last = { ⊤ };",
        ]
        self.assertEqual(always_true(lines, 0), {"answers", "all"})

    def test_methods_are_named_by_their_types(self) -> None:
        names = {
            function.name
            for function in functions_in(
                "bhs_server", TOP / "crates/bhs_server/src/connections.rt"
            )
        }
        self.assertLessEqual(
            {"Connection::new", "PendingClient::let_in", "Incoming::read"}, names
        )


class ContractsTest(InTemporary):
    def test_functions_have_their_clauses_and_what_they_say(self) -> None:
        held_links, law, second = contracts.contracts_in(
            write(self.folder / "held.rt", CODE)
        )
        self.assertEqual(
            (held_links.name, held_links.words),
            ("Held::count", "How many there are, with a second line."),
        )
        self.assertEqual(
            [list(first.clauses) for first in (held_links, law, second)],
            [["kept", "-"], ["-"], ["named"]],
        )
        self.assertEqual(
            contracts.answer_of(held_links.signature), "Result<u8, NetFault>"
        )
        self.assertRegex(held_links.signature, contracts.WAITS)
        self.assertEqual(
            contracts.CHANGED_PARAMETER.findall(held_links.signature), [("room", "")]
        )

    def test_types_that_hold_a_fault_of_memory_can_say_it(self) -> None:
        types = contracts.memory_types()
        self.assertLessEqual(
            {"NetFault", "RehearsalFault", "Ended", "StartError"}, types
        )
        self.assertLessEqual({"EndedSession", "Served"}, types)
        self.assertNotIn("Command", types)

    def test_each_call_that_can_want_memory_has_a_row(self) -> None:
        rows = [
            re.findall("`(.*?)`", row)[:2]
            for row in contracts.memory_rows(crates_given([]))
        ]
        calls = list(calls_that_want_memory())
        self.assertGreater(len(calls), 100)
        lacking = [
            call
            for call in calls
            if not any(
                crate == call[0] and f"::{name}".endswith(f"::{call[1]}")
                for crate, name in rows
            )
        ]
        self.assertEqual(
            lacking,
            [],
            "calls that can want memory have no row in the page of contracts",
        )

    def test_the_page_has_each_function_that_a_crate_passes_on(self) -> None:
        page = "\n".join(contracts.page(crates_given([])))
        for head in (
            "`contests::equal_pasts_are_sent_equal_bytes` (-)",
            "`Net::try_new` (made, count, refused)",
            "| `bhs_shared_match` | `LockedMatch::submit` | yes | no | `self`, `pass` | memory, wanting, failed |",
            "| `bhs_rehearsal` | `Rehearsal::feed_copied` | yes |",
            "| `bhs_view` | `cut_and_looks` | yes |",
            "| `bhs_replay` | `read_part` | yes |",
            "| `bhs_replay` | `head_of` | yes |",
            "| `bhs_model` | `text_shared` | yes |",
            "| `bhs_text` | `Text::new` | yes |",
            "| `bhs_cli_results` | `print_verdict` | by its status | may |",
            "| `bhs_setups` | `Keys::new` | no | no |",
        ):
            self.assertIn(head, page)
        self.assertNotIn(
            "`check_loops`", page.partition("## What want of memory leaves")[0]
        )
        self.assertIn("`walks_through_the_removed_node`", page)

    def test_crates_of_wrong_bodies_are_there(self) -> None:
        rows = tomllib.loads(contracts.TESTED_FILE.read_text(encoding="utf-8"))[
            "let_through"
        ]
        self.assertEqual(
            [
                name
                for row in rows
                for name in row["crates"]
                if not (CRATES / name).is_dir()
            ],
            [],
        )

    def test_edits_that_a_form_refuses_are_there(self) -> None:
        def edit_names(crate: str) -> Set[str]:
            sources = edits.edits_of_gate(crate) + edits.more_edits(crate)
            return {source.name for source in sources}

        names = tomllib.loads(contracts.TESTED_FILE.read_text(encoding="utf-8"))[
            "refused_by_form"
        ]
        self.assertEqual(
            [
                (crate, name)
                for crate, names in names.items()
                for name in names
                if name not in edit_names(crate)
            ],
            [],
        )
