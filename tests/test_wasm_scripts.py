"""The scripts of WebAssembly's specification are played so that a reader and an
interpreter that are wrong fail."""
import contextlib
import io
import pathlib
import tempfile
import unittest
import unittest.mock
from typing import Any, Dict, List

from tests.program import wasm_scripts
from tests.program.wasm_scripts import Module, Scripts, ModuleVerdict
from tests.support.program_rows import Stage
from tests.support.wasm_encoding import Function, module, with_run

TEXT = """(module
  (type (;0;) (func (param i32)))
  (type (;1;) (func (param f32) (result i32)))
  (import "spectest" "print_i32" (func (;0;) (type 0)))
  (import "spectest" "memory" (memory (;0;) 1 3))
  (import "spectest" "global_i32" (global (;0;) i32))
  (func (;1;) (type 1) (param f32) (result i32)
    local.get 0
    i32.trunc_f32_s)
  (func (;2;) (type 1) (param f32) (result i32)
    i32.const 1)
  (global (;1;) f64 (f64.const 0x1p+0 (;=1;)))
  (export "run" (func 1))
  (export "a\\22f32" (func 2))
  (start 0))
"""
# the same, as agents can run it, with one check
PLAYED = """(module
  (type (;0;) (func (param i32)))
  (type (;1;) (func (param i32) (result i32)))
  (func (;0;) (type 0))
  (memory 1 2)
  (global (;0;) i32 (i32.const 666))
  (func (;1;) (type 1) (param i32) (result i32)
    unreachable)
  (func (;2;) (type 1) (param i32) (result i32)
    i32.const 1)
  (global (;1;) i64 (i64.const 0))

  (func call 0)
  (func (export "run") call 3))
"""


def command(
    kind: str, field: str, *args: Dict[str, str], **extra: str
) -> Dict[str, Any]:
    action = {"type": "invoke", "field": field, "args": [{"type": "i32", "value": "7"}]}
    return {"type": kind, "line": 1, "action": action, "expected": [*args], **extra}


class Texts(unittest.TestCase):
    def test_what_agents_do_without_is_replaced_or_traps(self) -> None:
        result = Module(TEXT)
        self.assertEqual(result.running(result.first), PLAYED)
        self.assertEqual(
            (result.stubs, result.exports),
            ([1], {"run": ("func", "1"), 'a"f32': ("func", "2")}),
        )

    def test_a_check_traps_if_a_result_is_another(self) -> None:
        result = Module(TEXT)
        first, two = (
            {"type": kind, "value": value}
            for kind, value in (("i32", "1"), ("i64", "2"))
        )
        self.assertEqual(
            result.check(command("assert_return", "run", first, two)),
            "i32.const 7 call 1 i64.const 2 "
            "i64.ne if unreachable end i32.const 1 i32.ne if unreachable end",
        )
        self.assertEqual(
            result.check(command("assert_trap", "run", {"type": "i32"})),
            "i32.const 7 call 1 drop",
        )
        self.assertIsNone(
            result.check(command("assert_return", "run", {"type": "f32", "value": "0"}))
        )

    def test_run_is_added_behind_all_others(self) -> None:
        function = Function([0x7F], [], b"\x01", "other")
        nothing = Function([], [], b"", "run")
        self.assertEqual(with_run(module([function])), module([function, nothing]))


class Counted(unittest.TestCase):
    """What is counted of a program that says the same of every module."""

    def failures(self, verdict: ModuleVerdict, *calls: Dict[str, Any]) -> List[str]:
        """The lines of what failed."""
        result = Module(TEXT)
        result.calls = [*calls]
        scripts = Scripts(
            Stage(
                "none", pathlib.Path(self.enterContext(tempfile.TemporaryDirectory()))
            )
        )
        (scripts.stage.folder / "file").write_bytes(module([]))
        output = io.StringIO()
        with unittest.mock.patch.object(
            wasm_scripts, "wabt", lambda *_: False
        ), unittest.mock.patch.multiple(
            Scripts, verdict_of=lambda *_: verdict, run=lambda *_: verdict
        ), contextlib.redirect_stdout(
            output
        ):
            scripts.call("one", result)
            scripts.refuse(
                scripts.stage.folder / "file", "two", {"type": "assert_invalid"}
            )
        return [line.split()[1] for line in output.getvalue().splitlines()]

    def test_a_program_that_takes_all_and_runs_nothing_fails(self) -> None:
        self.assertEqual(
            self.failures(ModuleVerdict(), command("assert_trap", "run")),
            ["one:1", "two:"],
        )

    def test_a_trap_fails_a_call_that_returns_and_counts_only_in_the_module(
        self,
    ) -> None:
        calls = command("assert_return", "run"), command("assert_trap", "run")
        self.assertEqual(
            self.failures(ModuleVerdict("", "trap", 2), *calls), ["one:1", "two:"]
        )
        self.assertEqual(
            self.failures(ModuleVerdict("", "trap", 3), *calls),
            ["one:1", "one:1", "two:"],
        )
        self.assertEqual(self.failures(ModuleVerdict("", "trap", 1), *calls), ["two:"])

    def test_a_fault_is_no_trap(self) -> None:
        self.assertEqual(
            self.failures(
                ModuleVerdict("index at byte 9"), command("assert_trap", "run")
            ),
            ["one:1"],
        )
