"""How tools/prove/edits.py reads edits, finds the function that one changes, and takes
the prover's answers."""
import os
import pathlib
import re
import sys
import tempfile
import unittest
import unittest.mock

from tests.support.output import InTemporary, run_call, write
from tools.prove import edits
from tools.prove import prover

CODE = """use std::fmt;

pub const MOST: u16 = 7;

/// Doubles.
pub fn double(number: u16) -> u16
    ensures { result ≡ 2 * number }
{
    2 * number
}

impl Hall {
    pub(crate) fn told(&mut self) -> u16 {
        self.count + 1
    }
}

impl<'a, R: Read> From<Broken<R>> for Fault {
    fn from(_broken: Broken<R>) -> Fault {
        Fault::Broken
    }
}
"""
# a prover that ends as its working folder's file says, once for --only and once without
PROVER = "import sys; print(open('src/only' if '--only' in sys.argv else 'src/whole').read())"
# a prover that can't read a text with MOST for a fault, and otherwise proves none of
# the functions that it is to check
PROVER_OF_MANY = """
import sys
functions = [word for before, word in zip(sys.argv, sys.argv[1:]) if before == "--only"]
if "\\n        MOST\\n" in open("src/lib.rt").read():
    print("src/lib.rt:3:1: error: `MOST`: it is not in scope")
print("\\n".join(f"fn low::{it}: not proved" for it in functions))
print(f"only={len(functions)} proved=0")
"""


class Functions(unittest.TestCase):
    def at(self, text: str, path: str = "src/halls/doors.rt", *args: str) -> str:
        """The function that a text of CODE stands in, if CODE is that file of a crate,
        beside files of other texts."""
        folder = pathlib.Path(self.enterContext(tempfile.TemporaryDirectory()))
        for file, code in (path, CODE), *(
            (f"src/other_{index}.rt", second) for index, second in enumerate(args)
        ):
            write(folder / file, code)
        return edits.function_at(folder, path, CODE.index(text)) or "none"

    def test_the_function_of_a_line_is_found(self) -> None:
        self.assertEqual(self.at("2 * number\n}"), "halls::doors::double")
        self.assertEqual(self.at("2 * number\n}", "src/lib.rt"), "double")
        self.assertEqual(self.at("self.count"), "halls::doors::Hall::told")
        self.assertEqual(
            self.at("Fault::Broken"), "halls::doors::FaultFromBroken::from"
        )

    def test_a_method_stands_in_the_module_of_its_type(self) -> None:
        rest = (
            "pub struct Halls;\n",
            "#[derive(Clone)]\npub(crate) struct Hall {\n",
            "pub enum Fault {\n",
        )
        self.assertEqual(
            self.at("self.count", "src/lib.rt", *rest), "other_1::Hall::told"
        )
        self.assertEqual(
            self.at("Fault::Broken", "src/lib.rt", *rest),
            "other_2::FaultFromBroken::from",
        )
        self.assertEqual(
            self.at("self.count", "src/lib.rt", *rest, "struct Hall;"), "Hall::told"
        )

    def test_an_impl_is_named_by_the_words_of_its_trait(self) -> None:
        for head, names in (
            ("impl Hall {", "Hall"),
            ("impl<'h, R: Read> Hall<'h, R> {", "Hall"),
            ("impl fmt::Display for Fault {", "FaultDisplay"),
            ("impl From<io::Error> for Fault {", "FaultFromIoError"),
            ("impl From<Vec<u16>> for Fault {", "FaultFromVecU16"),
            ("impl<R: Read> From<Broken<'a, R>> for Fault {", "FaultFromBroken"),
        ):
            with self.subTest(head=head):
                self.assertEqual(
                    edits.type_of(head), ("Hall" if names == "Hall" else "Fault", names)
                )

    def test_a_constant_stands_in_no_function(self) -> None:
        self.assertEqual(self.at("MOST"), "none")


class Reading(InTemporary):
    def setUp(self) -> None:
        super().setUp()
        write(self.folder / "src" / "lib.rt", CODE)

    def read_edit(self, *lines: str) -> edits.Edit:
        text = "\n".join(["file: src/lib.rt", *lines]) + "\n"
        return edits.read_edit(edits.EditText("one", text), self.folder)

    def test_the_edits_of_one_file_have_names(self) -> None:
        write(
            self.folder / "low" / "more-edits.txt", "== one\nold: a\n\n== two\nnew: b\n"
        )
        self.enterContext(unittest.mock.patch.object(edits, "CRATES", self.folder))
        self.assertEqual(
            edits.more_edits("low"), [("one", "old: a\n\n"), ("two", "new: b\n")]
        )
        self.assertEqual(edits.more_edits("none"), [])

    def test_pairs_change_the_text_one_after_the_other(self) -> None:
        edit = self.read_edit(
            "old:     2 * number",
            "new:     3 * number",
            "old: 3 * number",
            "new: 4 * number",
        )
        texts = {}
        edit.change(self.folder, texts)
        self.assertIn("\n    4 * number\n", texts["src/lib.rt"])
        self.assertEqual(edit.function, "double")

    def test_an_edit_may_name_what_is_checked(self) -> None:
        self.assertEqual(
            self.read_edit("only: hosting", "old: = 7;", "new: = 8;").function,
            "hosting",
        )

    def test_edits_that_can_not_be_tried(self) -> None:
        for lines in (
            [],
            ["old: number", "new: 1"],
            ["old: nowhere", "new: 1"],
            ["new: 1"],
        ):
            with self.subTest(lines=lines), self.assertRaises(edits.EditError):
                self.read_edit(*lines)


def has_bodies(crate: str) -> bool:
    """Returns whether a function of a crate has a contract and a body: in a crate of
    laws each body is empty."""
    body = re.compile(r"\bensures\b(?:(?!\bfn ).)*?^ *\{$", re.M | re.S)
    sources = (prover.CRATES / crate / "src").rglob("*.rt")
    return any(body.search(path.read_text()) for path in sources)


class Kept(unittest.TestCase):
    """The edits of this repository."""

    def test_each_fits_its_text(self) -> None:
        for name in prover.libraries_of():
            sources = edits.edits_of_gate(name) + edits.more_edits(name)
            names = [source.name for source in sources]
            self.assertEqual(len(names), len(set(names)))
            for source in sources:
                with self.subTest(edit=f"{name}/{source.name}"):
                    edit = edits.read_edit(source, prover.CRATES / name)
                    self.assertTrue(all(old != new for _, old, new in edit.changes))
                    # that a proof does not fit another definition shows nothing
                    self.assertEqual(
                        {change[0][:4] for change in edit.changes}, {"src/"}
                    )

    def test_the_gate_tries_one_to_ten_of_a_crate_with_code(self) -> None:
        for name in prover.libraries_of():
            with self.subTest(crate=name):
                count = len(edits.edits_of_gate(name))
                self.assertIn(count, range(int(has_bodies(name)), 11))


class Answers(unittest.TestCase):
    def output(self, only: str, whole: str, old: str = "2 * number\n}") -> str:
        """What is printed of an edit of a crate whose checks end so."""
        folder = pathlib.Path(self.enterContext(tempfile.TemporaryDirectory()))
        for name, text in (("only", only), ("whole", whole), ("lib.rt", CODE)):
            write(folder / "low" / "src" / name, text)
        function = edits.function_at(folder / "low", "src/lib.rt", CODE.index(old))
        edit = edits.Edit("one", [("src/lib.rt", old, "")], function)
        self.enterContext(unittest.mock.patch.object(edits, "CRATES", folder))
        self.enterContext(
            unittest.mock.patch.object(edits, "read_edit", lambda *_: edit)
        )
        self.enterContext(
            unittest.mock.patch.object(
                edits, "prover_command", lambda *_: [sys.executable, "-c", PROVER]
            )
        )
        answers, output, _ = run_call(
            list, edits.try_edits({"low": []}, "low", [edits.EditText("one", "")])
        )
        self.assertEqual(answers, ["refused: " in output])
        return output.strip()

    def test_the_function_is_refused(self) -> None:
        self.assertEqual(
            self.output(
                "./src/lib.rt:9:5: error: it is not proved\nonly=1 proved=0",
                "logic=proved",
            ),
            "edit low/one: refused: double: ./src/lib.rt:9:5: error: it is not proved",
        )

    def test_another_function_is_refused(self) -> None:
        self.assertIn(
            "refused: the whole crate",
            self.output("only=1 proved=1", "logic=not-proved functions=2"),
        )
        self.assertIn(
            "refused: the whole crate",
            self.output("", "logic=not-proved functions=2", "MOST"),
        )

    def test_a_crate_that_is_still_proved_is_not_refused(self) -> None:
        self.assertIn(
            "NOT REFUSED", self.output("only=1 proved=1", "logic=proved functions=2")
        )

    def test_a_function_that_the_crate_lacks_is_named_wrongly(self) -> None:
        lacks = "rattle: error: `low` has no function `double`: help: write the name that a check prints after `fn`"
        self.assertIn(
            "BAD EDIT: a line `only: PATH` must name",
            self.output(lacks, "logic=not-proved functions=2"),
        )

    def test_a_remark_is_no_reason(self) -> None:
        remark = "./proofs/Lemmas.antt:110:5: note: large solution"
        goal = "note: src/hall.rt:3:1: it is not proved that what the function ensures holds when it returns"
        self.assertEqual(edits.first_told([remark, goal]), goal)
        self.assertEqual(
            edits.first_told([remark, "fn low::told: no proof"]),
            "fn low::told: no proof",
        )

    def test_what_is_not_read_is_not_tried(self) -> None:
        self.assertIn(
            "BAD EDIT", self.output("only=0 proved=0", "error: expected an expression")
        )
        self.assertIn(
            "BAD EDIT",
            self.output(
                "src/lib.rt:3:1: error: `MOST`: it is not in scope\nonly=1 proved=0", ""
            ),
        )


class Built(unittest.TestCase):
    """A library that is older than the sources of its crate."""

    def setUp(self) -> None:
        self.crates = pathlib.Path(self.enterContext(tempfile.TemporaryDirectory()))
        write(self.crates / "low" / "src" / "lib.rt", CODE)
        os.utime(
            write(self.crates / "low" / "out" / "rlib" / "low.rlib" / "format", ""),
            (0, 0),
        )
        self.enterContext(unittest.mock.patch.object(prover, "BUILT", self.crates))

    def may_be_used(self, crates: pathlib.Path, name: str = "low") -> bool:
        with unittest.mock.patch.object(prover, "CRATES", crates):
            return prover.may_be_used({"low": [], "other": []}, name)

    def test_it_may_not_be_used_where_it_was_built_of_them(self) -> None:
        self.assertFalse(self.may_be_used(self.crates))

    def test_it_may_be_used_where_the_gate_has_it_from_an_earlier_run(self) -> None:
        self.assertTrue(self.may_be_used(self.crates / "elsewhere"))
        self.assertFalse(self.may_be_used(self.crates / "elsewhere", "other"))


class Together(unittest.TestCase):
    DOUBLE = edits.Edit(
        "triples", [("src/lib.rt", "    2 * number\n", "    3 * number\n")], "double"
    )
    OTHER = edits.Edit(
        "halves", [("src/lib.rt", "    2 * number\n", "    number\n")], "double"
    )
    TOLD = edits.Edit(
        "counts_no_more", [("src/lib.rt", "self.count + 1", "self.count")], "Hall::told"
    )
    IMPORT = edits.Edit(
        "imports_another", [("src/lib.rt", "use std::fmt;\n", "use std::io;\n")], "fmt"
    )
    MOST = edits.Edit("has_less", [("src/lib.rt", "= 7;", "= 6;")], None)

    def setUp(self) -> None:
        crates = pathlib.Path(self.enterContext(tempfile.TemporaryDirectory()))
        self.folder = crates / "low"
        write(self.folder / "src" / "lib.rt", CODE)
        self.enterContext(unittest.mock.patch.object(edits, "CRATES", crates))

    def refusals(self, *texts: str):
        """What is refused of two edits that are made at once, by a prover that says
        this."""
        with tempfile.TemporaryDirectory() as record:
            words = [
                sys.executable,
                "-c",
                "import sys; print(sys.argv[1])",
                "\n".join(texts),
            ]
            return edits.refused_together(
                edits.Prover("low", words, record), [self.DOUBLE, self.TOLD]
            )

    def test_edits_of_different_functions_are_made_at_once(self) -> None:
        chosen, remaining = edits.together(
            [self.MOST, self.DOUBLE, self.OTHER, self.TOLD], self.folder
        )
        self.assertEqual(chosen, [self.DOUBLE, self.TOLD])
        self.assertEqual(remaining, [self.MOST, self.OTHER])

    def test_each_is_refused_by_its_own_function(self) -> None:
        message = self.refusals(
            "fn low::double: no proof: `search` did not prove `ensures`",
            "fn low::Hall::told: not proved",
            "only=2 proved=0",
        )
        self.assertEqual(
            message,
            {
                "triples": "double: no proof: `search` did not prove `ensures`",
                "counts_no_more": "Hall::told: not proved",
            },
        )

    def test_a_caller_is_not_refused_for_what_it_calls(self) -> None:
        self.assertEqual(
            list(
                self.refusals(
                    "fn low::double: no proof: `search` did not prove `ensures`",
                    "fn low::Hall::told: not proved; it calls `double`, which is not proved",
                    "only=2 proved=0",
                )
            ),
            ["triples"],
        )

    def test_a_caller_is_refused_by_an_error_in_its_own_proof(self) -> None:
        caller = (
            "fn low::Hall::told: not proved; it calls `double`, which is not proved"
        )
        error = "./proofs/Hall/told/Answers.antt:7:5: error: `returns`: the two types differ"
        self.assertEqual(
            self.refusals(error, caller, "only=2 proved=0"),
            {"counts_no_more": f"Hall::told: {error}"},
        )
        for second in (
            "./proofs/Hall/told/Answers.antt:7:5: error: `met` was not admitted",
            "./proofs/double/Answers.antt:7:5: error: `returns`: the two types differ",
            "./proofs/Hall/told/more/Answers.antt:7:5: error: `returns`: the two types differ",
        ):
            self.assertEqual(self.refusals(second, caller, "only=2 proved=0"), {})

    def test_one_edit_that_is_not_tried_leaves_the_others_together(self) -> None:
        bad = edits.Edit(
            "has_no_name",
            [("src/lib.rt", "Fault::Broken\n", "MOST\n")],
            "FaultFromBroken::from",
        )
        with tempfile.TemporaryDirectory() as record:
            prover_of_it = edits.Prover(
                "low", [sys.executable, "-c", PROVER_OF_MANY], record
            )
            with unittest.mock.patch.object(
                edits.Prover, "lines", autospec=True, side_effect=edits.Prover.lines
            ) as lines:
                message = edits.refused_together(
                    prover_of_it, [self.DOUBLE, self.TOLD, self.IMPORT, bad]
                )
        self.assertEqual(
            message,
            {
                "triples": "double: not proved",
                "counts_no_more": "Hall::told: not proved",
            },
        )
        self.assertEqual(
            [len(call.args[1]) for call in lines.call_args_list], [4, 2, 2]
        )

    def test_a_check_that_does_not_end_refuses_nothing(self) -> None:
        self.assertEqual(
            self.refusals(
                "fn low::double: no proof: `search` did not prove `ensures`", "killed"
            ),
            {},
        )
        self.assertEqual(
            self.refusals(
                "src/lib.rt:3:1: error: `MOST`: it is not in scope", "only=2 proved=0"
            ),
            {},
        )
