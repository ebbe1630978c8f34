"""./arena compiles its program once, says whether it is proved, and plays it."""
import os
import pathlib
import shutil
import signal
import subprocess
import time
from typing import List

from arena_lab.support import built
from tests.built_trees import Trees
from tests.support.output import write
from tools.prove import prover, version


class Launcher(Trees):
    """./arena, as a process of its own. The C compiler is a script too."""

    def setUp(self) -> None:
        super().setUp()
        compiler = '#!/bin/sh\nwhile [ "$1" != -o ]; do shift; done\n: > "$2"\n'
        stub = write(self.top / "stubs" / "cc", compiler, 0o755)
        self.variables = {**os.environ, "PATH": f"{stub.parent}:{os.environ['PATH']}"}
        self.variables.pop("PYTHONPATH", None)

    def start(self, *words: str) -> "subprocess.Popen[str]":
        pipe = subprocess.PIPE
        # who runs the tests in the background of a shell has them ignore SIGINT
        return subprocess.Popen(
            [self.top / "arena", *words],
            stdin=pipe,
            stdout=pipe,
            stderr=pipe,
            text=True,
            env=self.variables,
            start_new_session=True,
            preexec_fn=lambda: signal.signal(signal.SIGINT, signal.SIG_DFL),
        )

    def output(self, *words: str, script: str = "") -> List[str]:
        """What a start that plays prints, and what it says on standard error."""
        with self.start(*words) as child:
            results = [*child.communicate(script)]
        self.assertEqual(child.returncode, 0, results)
        return results

    def test_it_compiles_at_once_and_plays_in_a_pipe(self) -> None:
        output, errors = self.output("rehearse", "x y", script="a\nb\n")
        self.assertEqual(output, "played rehearse x y\na\nb\n")
        self.assertIn("arena: compiling the program without a proof", errors)
        self.assertTrue(errors.endswith(f"{built.UNPROVED_LINE}\n"))
        self.assertEqual(
            self.output("rehearse", script="c\n"),
            ["played rehearse\nc\n", f"{built.UNPROVED_LINE}\n"],
        )
        self.assertEqual(self.compile_count(), 1)

    def test_two_starts_compile_once(self) -> None:
        with self.start("one") as first, self.start("two") as two:
            results = [*first.communicate(), *two.communicate()]
        self.assertEqual((results[0], results[2]), ("played one\n", "played two\n"))
        self.assertEqual(self.compile_count(), 1)
        self.assertEqual(
            (results[1] + results[3]).count(
                "another start compiles the program: waiting for it"
            ),
            1,
        )

    def test_what_was_interrupted_does_not_count(self) -> None:
        for number in (signal.SIGINT, signal.SIGTERM, signal.SIGKILL):
            with self.subTest(number):
                write(self.main, "slow\n")
                before = self.compile_count()
                with self.start("x") as child:
                    last = time.monotonic() + 60
                    while self.compile_count() == before and time.monotonic() < last:
                        time.sleep(0.01)
                    os.killpg(child.pid, number)
                    output, _ = child.communicate()
                self.assertNotEqual(child.returncode, 0)
                self.assertEqual(output, "")
                self.assertFalse(prover.is_current(built.ARENA.stamp_path))
                write(self.main, f"whole {number}\n")
                self.assertEqual(self.output("x")[0], "played x\n")
                self.assertEqual([*self.folder.glob("new-*")], [])

    def test_what_cannot_be_compiled_is_not_played(self) -> None:
        write(self.main, "broken\n")
        with self.start("serve", "x") as child:
            output, errors = child.communicate()
        self.assertEqual((child.returncode, output), (1, ""))
        self.assertRegex(
            errors,
            "arena: the program was not compiled: see .*/build.log\n"
            "arena: `./arena-lab serve` and .* need no program: [^\n]*\n$",
        )

    def test_it_plays_the_proved_one_and_says_nothing(self) -> None:
        program = self.prove()
        late = time.time() + 10
        os.utime(self.main, (late, late))
        self.assertEqual(self.output("check", "x y"), ["proved check x y\n", ""])
        self.assertEqual(self.compile_count(), 0)
        for changes in (
            pathlib.Path("/bin/echo").read_bytes(),
            program.read_bytes()[:-1],
        ):
            program.write_bytes(changes)
            self.assertEqual(self.output("check")[0], "played check\n")
        self.assertEqual(self.compile_count(), 1)

    def test_it_says_whether_its_program_is_proved(self) -> None:
        number = version.version()
        output = f"arena {number}, unproved\ncommit not known: this is no git repository\ntoolchain kit 1\n"
        self.assertEqual(
            self.output("--version")[0], f"{output}{version.HOW_TO_PROVE}\n"
        )
        program = self.prove()
        write(self.kit / "KIT-ID", "kit 2\n")
        self.assertEqual(
            self.output("--version")[0], output.replace("unproved", "proved")
        )
        shutil.copy2("/bin/echo", program)
        self.assertIn(f"arena {number}, unproved\n", self.output("--version")[0])

    def test_a_contest_begins_with_which_build_serves_it(self) -> None:
        text = f"arena: {version.version()}, %s; commit not known: this is no git repository; toolchain kit 1\n"
        self.output("x")
        self.assertEqual(
            self.output("serve", "cup.toml")[1],
            text % "unproved" + f"{built.UNPROVED_LINE}\n",
        )
        self.prove()
        self.assertEqual(self.output("serve", "cup.toml")[1], text % "proved")
        self.assertEqual(self.output("serve", "--help")[1], "")
        write(built.ARENA.release_path, "#!/bin/sh\necho released $*\n", 0o755)
        write(
            self.top / "BUILD",
            "arena 1.2.3, proved\ncommit 12, tree clean\ntoolchain kit 0\nneeds Linux\n",
        )
        self.assertEqual(
            self.output("serve")[1],
            "arena: 1.2.3, proved; commit 12, tree clean; toolchain kit 0\n",
        )

    def test_it_runs_that_of_a_release(self) -> None:
        write(built.ARENA.release_path, "#!/bin/sh\necho released $*\n", 0o755)
        self.assertEqual(self.output("judge"), ["released judge\n", ""])
