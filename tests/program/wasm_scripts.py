"""Plays the test scripts of the WebAssembly specification, as agents' modules.

    python3 -m tests.program.wasm_scripts PROGRAM [--scripts FOLDER] [SCRIPT ..]

The scripts are those of Debian's source package binaryen, which apt-get fetches into a
temporary folder, or those in FOLDER; SCRIPT, such as `i32`, plays these alone. Debian's
wabt makes modules of them. A valid module must be read, and one that is malformed or
invalid must be refused. A call that returns is made by a function that traps if the
results are others than the script says, and a module's `run` calls all these functions.
A call that must trap, behind those that return, has a module of its own.

What agents' modules do without is outside, and counted: floating-point numbers,
vectors, references, several tables, imports, segments that are not active, large
memories, and the text format; of whole scripts those on floating-point numbers, and
those that wabt does not read. In another script the functions that compute with such
numbers are made to trap, and calls that reach one are outside. What a module imports of
`spectest` is put into it, and its start function is called first. What is known to
differ is named and counted, too.

The last line reads `N passed, M failed`, and the exit status is 1 if one failed.
"""
import argparse
import collections
import json
import pathlib
import re
import subprocess
import sys
import tarfile
import tempfile
from typing import Any, Counter, Dict, List, NamedTuple, Optional, Sequence

from tests.program.module_cases import SILENT
from tests.program.program_cases import CUP, TRIANGLE, writes
from tests.support.counts import SKIPPED
from tests.support.program_rows import REFUSED_TEXT, Stage, FailedCheckError
from tests.support.wasm_encoding import with_run
from tools import packages

PACKAGE = "binaryen"
SCRIPTS = re.compile(r".*/test/spec/([\w.-]+\.wast)")
OF_FLOATS = re.compile("f32|f64|float")
FUNCTION = re.compile(r"^  (\(func \(;\d+;\).*)((?:\n    .*)*)", re.MULTILINE)
EXPORT = re.compile(r'^  \(export "(.*)" \((\w+) (\d+)\)\)', re.MULTILINE)
START = re.compile(r"^  \(start (\d+)\)", re.MULTILINE)
FLOAT = re.compile(r"\bf(32|64)\b")
COMPUTES = re.compile(r"\bf(?:32|64)\.|_f(?:32|64)")
# substitutions applied before functions with floating-point instructions are removed,
# and after
IMPORTS = tuple(
    (re.compile(pattern, re.MULTILINE), new_text)
    for pattern, new_text in (
        (r'\(import "spectest" "print\w*" (\(func .*)\)$', r"\1"),
        (r'\(import "spectest" "memory" .*', "(memory 1 2)"),
        (r'\(import "spectest" "table" .*', "(table 10 20 funcref)"),
        (
            r'\(import "spectest" "global_i\w+" (\(global \(;\d+;\) (i\d+))\)\)$',
            r"\1 (\2.const 666))",
        ),
    )
)
OTHERS = (
    (re.compile(r"^  \((?:export|start) .*\n?", re.MULTILINE), ""),
    (re.compile(r"^(  \(global .*\(f(?:32|64)\.const) .*", re.MULTILINE), r"\1 0))"),
    (FLOAT, r"i\1"),
)
# pattern of valid modules outside of the subset, and the beginning of their fault
OUTSIDE = re.compile(
    r"\bf(?:32|64)\b|v128|externref|ref\.|\btable\.|memory\.init|data\.drop|\((?:import|start) |"
    r"\((?:param|result|local).* funcref|\(table \(;1;\)|\(elem \(;\d+;\) (?:declare )?func|"
    r'\(data \(;\d+;\) "|\(global\.get|\(memory \(;0;\) \d{4}'
)
REFUSED_AS_OUTSIDE = re.compile(r"(float|import|start|opcode) ")
RETURNS = ("action", "assert_return")
CALLS = (*RETURNS, "assert_trap", "assert_exhaustion")
REFUSALS = ("assert_malformed", "assert_invalid", "assert_uninstantiable")
INTEGERS = ("i32", "i64")
# what is known to differ: a memory has at most 1,024 pages
KNOWN = re.compile(r"resizing:45 grow")
PASSED = "passed"
FAILED = "failed"
DIFFERS = "known to differ"
Command = Dict[str, Any]


class ModuleVerdict(NamedTuple):
    """The program's verdict on a module: reason for a rejection, or fault of its agents
    with the function."""

    fault: str = ""
    failure: str = ""
    function: int = -1

    @property
    def is_whole(self) -> bool:
        """Returns whether all of a file is read, and nothing is wrong but that it
        exports no `run`."""
        return not self.fault or self.fault.startswith("run at ")

    def __str__(self) -> str:
        return self.fault or (
            f"{self.failure} in function {self.function}"
            if self.failure
            else "no fault and no trap"
        )


class Module:
    """A module of a script: its text as agents can run it, and the calls that the
    script makes."""

    def __init__(self, text: str) -> None:
        start = START.search(text)
        self.first = [f"call {start[1]}"] if start else []
        self.exports = {
            unescape(match[1]): (match[2], match[3]) for match in EXPORT.finditer(text)
        }
        self.has_floats = bool(FLOAT.search(text))
        text = text.rstrip()[:-1]
        for pattern, new_text in IMPORTS:
            text = pattern.sub(new_text, text)
        functions = [match[0] for match in FUNCTION.finditer(text)]
        self.stubs = [
            index
            for index, function in enumerate(functions)
            if COMPUTES.search(function)
        ]
        text = FUNCTION.sub(
            lambda it: f"  {it[1]}\n    unreachable)"
            if COMPUTES.search(it[2])
            else it[0],
            text,
        )
        for pattern, new_text in OTHERS:
            text = pattern.sub(new_text, text)
        self.text = text
        self.functions = len(functions)
        self.calls: List[Command] = []
        # whether other modules can modify it
        self.is_shared = False

    def running(self, checks: Sequence[str]) -> str:
        """Returns a module that runs these checks as functions after its own."""
        functions = "".join(f"  (func {check})\n" for check in checks)
        calls = " ".join(
            f"call {self.functions + index}" for index in range(len(checks))
        )
        return f'{self.text}\n{functions}  (func (export "run") {calls}))\n'

    def check(self, command: Command) -> Optional[str]:
        """The instructions that make a call, and trap if it returns something else than
        the script says: none if it is outside."""
        action = command["action"]
        conditions = action.get("args", ())
        if action["field"] not in self.exports or any(
            it["type"] not in INTEGERS for it in (*conditions, *command["expected"])
        ):
            return None
        kind, number = self.exports[action["field"]]
        push = [f"{it['type']}.const {it['value']}" for it in conditions]
        compare = [
            f"{it['type']}.const {it['value']} {it['type']}.ne if unreachable end"
            if "value" in it
            else "drop"
            for it in reversed(command["expected"])
        ]
        return " ".join(
            [
                *push,
                f"call {number}" if kind == "func" else f"global.get {number}",
                *compare,
            ]
        )


def unescape(name: str) -> str:
    """Decodes the escapes of a name."""
    return re.sub(
        rb"\\([0-9a-f]{2})", lambda it: bytes.fromhex(it[1].decode()), name.encode()
    ).decode()


def wabt(tool: str, file: pathlib.Path, path: Optional[pathlib.Path] = None) -> bool:
    """Returns whether a tool of wabt takes a file, and makes another of it."""
    words = [tool, str(file), *(["-o", str(path)] if path else [])]
    return subprocess.run(words, stderr=subprocess.DEVNULL).returncode == 0


class Scripts:
    """Plays scripts, and counts what came of their assertions."""

    def __init__(self, stage: Stage) -> None:
        self.stage = stage
        self.made = stage.folder / "agent.wasm"
        self.text = stage.folder / "agent.wat"
        self.counts: Counter[str] = collections.Counter()

    def verdict_of(self, file: pathlib.Path) -> ModuleVerdict:
        """What the program says of agents that run this module."""
        try:
            result = self.stage.run(
                ["explore", "cup.toml", "0", "--module", str(file)], b""
            )
        except FailedCheckError as error:
            return ModuleVerdict(str(error))
        if result.status == REFUSED_TEXT:
            return ModuleVerdict(
                result.stderr.decode().splitlines()[-1].removeprefix(f"{file}: ")
            )
        if result.stdout.startswith(SILENT.encode()):
            return ModuleVerdict()
        lines = json.loads(result.stdout.splitlines()[-1])
        return ModuleVerdict("", lines["failure"], lines["function"])

    def count(
        self,
        position: str,
        command: Command,
        is_right: bool,
        text_given: object = "",
        is_outside: bool = False,
    ) -> None:
        """Counts an assertion, and says which failed, with what the script says of
        it."""
        line = f"{position}: {command['type']} {command.get('text', '')}"
        kind = (
            f"{command['type']} outside"
            if is_outside
            else PASSED
            if is_right
            else DIFFERS
            if KNOWN.match(line)
            else FAILED
        )
        self.counts[kind] += 1
        if kind in (FAILED, DIFFERS):
            print(
                f"{'FAILED' if kind == FAILED else kind} {line}: {text_given}",
                flush=True,
            )

    def play(self, script: pathlib.Path) -> None:
        """Plays a script."""
        folder = self.stage.folder / script.stem
        folder.mkdir()
        if OF_FLOATS.match(script.stem) or not wabt(
            "wast2json", script, folder / "script.json"
        ):
            self.counts["script outside"] += 1
            print(f"{script.stem}: outside", flush=True)
            return
        before = self.counts.copy()
        modules: List[Module] = []
        # the last module has no name
        by_name: Dict[str, Module] = {}
        for command in json.loads((folder / "script.json").read_text())["commands"]:
            position = f"{script.stem}:{command['line']}"
            if command["type"] == "module":
                modules.append(
                    self.read_module(folder / command["filename"], position, command)
                )
                by_name[""] = by_name[command.get("name", "")] = modules[-1]
            elif command["type"] == "register":
                by_name[command.get("name", "")].is_shared = True
            elif (
                command["type"] in CALLS
                and not by_name[command["action"].get("module", "")].is_shared
            ):
                by_name[command["action"].get("module", "")].calls.append(command)
            elif command["type"] in REFUSALS and command.get("module_type") == "binary":
                self.refuse(folder / command["filename"], position, command)
            else:
                self.count(position, command, False, is_outside=True)
        for module in modules:
            self.call(script.stem, module)
        print(
            f"{script.stem}: {', '.join(f'{count} {kind}' for kind, count in (self.counts - before).items())}",
            flush=True,
        )

    def read_module(
        self, file: pathlib.Path, position: str, command: Command
    ) -> Module:
        """A valid module is read, unless it is outside."""
        text = self.text.read_text() if wabt("wasm2wat", file, self.text) else ""
        verdict = self.verdict_of(file)
        self.count(
            position,
            command,
            verdict.is_whole,
            verdict,
            not verdict.is_whole and (not text or bool(OUTSIDE.search(text))),
        )
        return Module(text)

    def refuse(self, file: pathlib.Path, position: str, command: Command) -> None:
        """Checks that a malformed or invalid module is rejected for more than its
        missing `run`. If wabt accepts it as well, the script is older than both."""
        verdict = self.verdict_of(file)
        if verdict.is_whole:
            self.made.write_bytes(with_run(file.read_bytes()))
            verdict = self.verdict_of(self.made)
        is_outside = (
            bool(REFUSED_AS_OUTSIDE.match(verdict.fault))
            if verdict.fault
            else wabt("wasm-validate", file)
        )
        self.count(position, command, bool(verdict.fault), verdict, is_outside)

    def run(self, module: Module, checks: Sequence[str]) -> ModuleVerdict:
        """What comes of these checks."""
        self.text.write_text(module.running(checks))
        return (
            self.verdict_of(self.made)
            if wabt("wat2wasm", self.text, self.made)
            else ModuleVerdict("no module")
        )

    def call(self, script: str, module: Module) -> None:
        """Makes the calls of a module."""
        checks = [module.check(call) for call in module.calls]
        returns = [
            it
            for it, command in zip(checks, module.calls)
            if it and command["type"] in RETURNS
        ]
        is_right = self.run(module, [*module.first, *returns]) == ModuleVerdict()
        before = list(module.first)
        for check, command in zip(checks, module.calls):
            is_return = command["type"] in RETURNS
            output = (
                ModuleVerdict()
                if check is None or is_right and is_return
                else self.run(module, [*before, check])
            )
            # types that differ in kinds of numbers alone may be alike now
            is_lost = (
                module.has_floats
                and "type mismatch" in command.get("text", "")
                and output == ModuleVerdict()
            )
            is_outside = (
                check is None
                or output.function in module.stubs
                or is_lost
                or bool(
                    output.fault and (not module.text or OUTSIDE.search(module.text))
                )
            )
            self.count(
                f"{script}:{command['line']} {command['action']['field']}",
                command,
                output == ModuleVerdict()
                if is_return
                else bool(output.failure) and output.function < module.functions,
                output,
                is_outside,
            )
            if check and is_return and output == ModuleVerdict():
                before.append(check)


def scripts_in(archive: pathlib.Path, folder: pathlib.Path) -> pathlib.Path:
    """Writes the scripts in an archive to a folder."""
    with tarfile.open(archive) as members:
        for member in members:
            match = SCRIPTS.fullmatch(member.name)
            content = members.extractfile(member)
            if match and content:
                (folder / match[1]).write_bytes(content.read())
    return folder


def main() -> int:
    parser = argparse.ArgumentParser(
        "python3 -m tests.program.wasm_scripts",
        description=__doc__,
        formatter_class=argparse.RawDescriptionHelpFormatter,
    )
    parser.add_argument(
        "program", metavar="PROGRAM", help="what reads and runs the modules"
    )
    parser.add_argument(
        "scripts",
        metavar="SCRIPT",
        nargs="*",
        help="the scripts to play, without `.wast`",
    )
    parser.add_argument(
        "--scripts",
        dest="folder",
        metavar="FOLDER",
        type=pathlib.Path,
        help="where the scripts are",
    )
    words = parser.parse_intermixed_args()
    with tempfile.TemporaryDirectory(prefix="scripts-") as name:
        temporary = pathlib.Path(name)
        archive = None if words.folder else packages.fetch_source(PACKAGE, temporary)
        if not words.folder and not archive:
            print(
                f"{SKIPPED}wasm_scripts: the sources of Debian's {PACKAGE} cannot be fetched\n0 passed, 0 failed"
            )
            return 0
        folder = scripts_in(archive, temporary) if archive else words.folder
        (temporary / "played").mkdir()
        scripts = Scripts(Stage(words.program, temporary / "played"))
        writes(scripts.stage, tri=TRIANGLE, cup=CUP)
        for script in sorted(folder.glob("*.wast")):
            if not words.scripts or script.stem in words.scripts:
                scripts.play(script)
    counts = scripts.counts
    print(
        ", ".join(
            f"{count} {kind}"
            for kind, count in sorted(counts.items())
            if kind not in (PASSED, FAILED)
        )
    )
    print(f"{counts[PASSED]} passed, {counts[FAILED]} failed")
    return 1 if counts[FAILED] else 0


if __name__ == "__main__":
    sys.exit(main())
