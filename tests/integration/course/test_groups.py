"""Control groups for programs: in a folder that looks like one, which files are written
and in which order, and that nothing is left; and in a real one, where this machine has
one that may be divided."""
import contextlib
import os
import pathlib
import random
import subprocess
import tempfile
import unittest
from typing import List, Tuple
from unittest import mock

from arena_lab.course import rounds
from arena_lab.course.course_files import course_of
from arena_lab.course.graded_matches import GradingRun
from arena_lab.sandbox import calls, sandboxes, groups, memory_watch
from arena_lab.sandbox.groups import ControlGroup
from arena_lab.sandbox.sandboxes import ProgramFiles, Isolation, SandboxOptions
from arena_lab.submissions.submission import Submission
from arena_lab.support.built import TOP
from arena_lab.sweep import tables

SETTINGS = {
    "cgroup.controllers": "cpu memory pids\n",
    "cgroup.subtree_control": "\n",
    "cgroup.type": "domain\n",
}
SECRET = "a secret of the tests"
ENDED = "max 3\noom 1\noom_kill 1\n"


class Fake(unittest.TestCase):
    """A folder that looks like a group in which this process is alone."""

    def setUp(self) -> None:
        self.top = pathlib.Path(tempfile.mkdtemp())
        self.addCleanup(subprocess.run, ["rm", "-r", str(self.top)])
        self.own = self.top / "groups" / "user.slice" / "it.scope"
        self.own.mkdir(parents=True)
        for name, text in {**SETTINGS, "cgroup.procs": f"{os.getpid()}\n"}.items():
            (self.own / name).write_text(text)
        (self.top / "groups" / "cgroup.controllers").write_text("cpu memory pids\n")
        (self.top / "own").write_text("12:cpu:/\n0::/user.slice/it.scope\n")
        self.done: List[Tuple[str, ...]] = []
        self.asked: List[pathlib.Path] = []
        write = groups.write

        def write_file(path: pathlib.Path, text: str) -> None:
            self.done.append((str(path.relative_to(self.own)), text))
            write(path, text)

        def remove_file(path: pathlib.Path) -> None:
            # as the kernel does as long as a process has not ended, once
            if path not in self.asked:
                self.asked.append(path)
                raise OSError(16, "Device or resource busy")
            self.done.append(("rmdir", path.name))
            subprocess.run(["rm", "-r", str(path)], check=True)

        for folder, name, value in (
            (groups, "MOUNTS", (str(self.top / "groups"),)),
            (groups, "OWN_GROUP", self.top / "own"),
            (groups, "write", write_file),
            (pathlib.Path, "rmdir", remove_file),
        ):
            patched_value = mock.patch.object(folder, name, value)
            patched_value.start()
            self.addCleanup(patched_value.stop)
        self.lab = f"{groups.OF_LAB}{os.getpid()}"

    def divide(self) -> List[Tuple[str, ...]]:
        """What is done before programs are started, and what afterwards."""
        own = str(os.getpid())
        return [
            (f"{self.lab}/cgroup.procs", own),
            ("cgroup.subtree_control", "+memory +pids"),
            ("cgroup.subtree_control", "-memory -pids"),
            ("cgroup.procs", own),
            ("rmdir", self.lab),
        ]


class TestDividing(Fake):
    def test_the_lab_has_a_group_beside_those_of_programs_and_nothing_stays(
        self,
    ) -> None:
        with groups.program_group() as folder:
            self.assertEqual(folder, str(self.own))
            self.assertEqual(self.done, self.divide()[:2])
        self.assertEqual(self.done, self.divide())
        self.assertEqual(list(self.own.glob("arena-*")), [])

    def test_nothing_stays_if_the_lab_fails(self) -> None:
        with self.assertRaises(
            RecursionError
        ), groups.program_group() as folder, groups.group_in(folder) as group:
            assert group is not None
            raise RecursionError
        self.assertEqual(self.done[-3:], self.divide()[-3:])
        self.assertEqual(list(self.own.glob("arena-*")), [])

    def test_a_group_that_cannot_be_divided_is_left_as_it_was(self) -> None:
        def refuse_write(path: pathlib.Path, text: str) -> None:
            if text.startswith("+"):
                raise OSError(16, "Device or resource busy")
            path.write_text(text)

        with mock.patch.object(
            groups, "write", refuse_write
        ), groups.program_group() as folder:
            self.assertEqual(folder, "")
        self.assertEqual(list(self.own.glob("arena-*")), [])

    def test_there_is_none(self) -> None:
        """With processes of others, without the bounds, in another version of groups,
        where nobody may write."""
        for name, text in (
            ("cgroup.procs", f"{os.getpid()}\n1\n"),
            ("cgroup.controllers", "hugetlb\n"),
        ):
            before = (self.own / name).read_text()
            (self.own / name).write_text(text)
            with self.subTest(name), groups.program_group() as folder:
                self.assertEqual(folder, "")
            (self.own / name).write_text(before)
        (self.top / "own").write_text("12:cpu:/\n")
        with groups.program_group() as folder, groups.group_in(folder) as group:
            self.assertEqual((folder, group, self.done), ("", None, []))

    def test_the_first_group_of_a_machine_may_have_processes(self) -> None:
        (self.own / "cgroup.type").unlink()
        (self.own / "cgroup.procs").write_text("1\n2\n")
        (self.own / "cgroup.subtree_control").write_text("cpu pids\n")
        with groups.program_group() as folder:
            self.assertEqual(folder, str(self.own))
        self.assertEqual(
            self.done,
            [
                ("cgroup.subtree_control", "+memory"),
                ("cgroup.subtree_control", "-memory"),
            ],
        )

    def test_groups_of_commands_that_were_killed_are_removed(self) -> None:
        process = subprocess.Popen(["true"])
        process.wait()
        for name in (
            f"{groups.OF_LAB}{process.pid}",
            f"{groups.OF_PROGRAM}{process.pid}-3",
            f"{groups.OF_PROGRAM}1-0",
        ):
            (self.own / name).mkdir()
        with groups.program_group():
            self.assertEqual(
                [path.name for path in self.own.glob("arena-*-*")].count(
                    f"{groups.OF_PROGRAM}1-0"
                ),
                1,
            )
            self.assertEqual(len(list(self.own.glob("arena-*"))), 2)


class TestPrograms(Fake):
    def test_a_program_is_in_a_group_with_bounds_from_its_start(self) -> None:
        with groups.group_in(str(self.own)) as group:
            assert group is not None
            name = next(self.own.glob("arena-program-*")).name
            # the kernel makes them
            for file in ("memory.events", "cgroup.procs"):
                (self.own / name / file).touch()
            result = subprocess.run(
                [*group.words(), "echo", "a b", "c"], capture_output=True, text=True
            )
            self.assertEqual(
                (result.stdout, (self.own / name / "cgroup.procs").read_text()),
                ("a b c\n", "0\n"),
            )
            self.assertFalse(group.has_met_its_bound())
            (self.own / name / "memory.events").write_text(ENDED)
            self.assertTrue(group.has_met_its_bound())
        self.assertEqual(
            self.done,
            [
                (f"{name}/memory.max", str(2 << 30)),
                (f"{name}/memory.swap.max", "0"),
                (f"{name}/memory.oom.group", "1"),
                (f"{name}/pids.max", "288"),
                (f"{name}/cgroup.kill", "1"),
                ("rmdir", name),
            ],
        )

    def test_a_program_that_cannot_join_does_not_run(self) -> None:
        with groups.group_in(str(self.own)) as group:
            assert group is not None
            words = [
                *group.words()[:3],
                str(self.own / "no" / "cgroup.procs"),
                "echo",
                "ran",
            ]
            self.assertEqual(subprocess.run(words, capture_output=True).stdout, b"")

    def test_what_is_said_of_a_program_that_the_kernel_has_ended(self) -> None:
        files = ProgramFiles(Submission({}).archive(), {}, calls.ANY)
        with mock.patch.object(
            memory_watch, "MAX_MEMORY", 200 << 20
        ), sandboxes.sandboxes_for(
            SandboxOptions(Isolation.NONE, groups=str(self.own)), files, 1
        ) as made, tempfile.TemporaryFile() as errors:
            child, listener_of = made[0].start(["true"], 0, errors)
            listener_of().close()
            self.assertEqual((child.wait(), made[0].fault()), (0, ""))
            position = next(self.own.glob("arena-program-*"))
            self.assertEqual((position / "cgroup.procs").read_text(), "0\n")
            self.assertEqual((position / "memory.max").read_text(), str(200 << 20))
            (position / "memory.events").write_text(ENDED)
            self.assertEqual(
                (made[0].excess(), made[0].fault()),
                (memory_watch.TOO_MUCH, memory_watch.TOO_MUCH),
            )
        self.assertEqual(list(self.own.glob("arena-*")), [])

    def test_a_course_is_graded_in_groups(self) -> None:
        """Each program of a match and of its repetition joins a group, and all groups
        are removed."""
        joins: List[str] = []
        bound = ControlGroup.bound

        def note_group(group: ControlGroup) -> None:
            bound(group)
            joins.append(group.words()[-1])

        agents = TOP / "examples" / "agents"
        (self.top / "course.toml").write_text(
            'title = "It"\nnetworks = ["ring:4"]\nholes = [2]\n[[team]]\nname = "it"\n'
            f'files = ["{agents}/client.py", "{agents}/ring.py"]\n'
            'command = "python3 ring.py {host} {port} {key} {nodes}"\n'
        )
        course = course_of((self.top / "course.toml").read_text(), self.top, SECRET)
        copied_value = mock.patch.object(
            sandboxes.system_copy,
            "copy_system",
            lambda *conditions: contextlib.nullcontext(""),
        )
        with copied_value, mock.patch.object(
            ControlGroup, "bound", note_group
        ), sandboxes.furnish(SandboxOptions(sandboxes.strongest()), [], []) as sandbox:
            self.assertEqual(sandbox.groups, str(self.own))
            grading = GradingRun(
                course.conditions.text,
                self.top,
                SECRET,
                None,
                sandbox,
                self.top / "out",
            )
            row = grading.play(course.cases()[0]).result
            self.assertIn("solved", row)
            output = rounds.repeat_agents(
                grading.repeating(),
                rounds.solved_in([tables.row_of(row)]),
                1,
                random.Random(0),
            )
            self.assertEqual((output, len(set(joins))), ({}, 2))
            self.assertEqual(
                [path.name for path in self.own.glob("arena-*")], [self.lab]
            )


class TestReal(unittest.TestCase):
    def test_the_kernel_ends_what_takes_too_much(self) -> None:
        with groups.program_group() as folder:
            if not folder:
                self.skipTest(
                    "this process is in no control group of version 2 that it may divide: run the tests by "
                    "`systemd-run --user --scope -p Delegate=yes`"
                )
            with mock.patch.object(
                memory_watch, "MAX_MEMORY", 50 << 20
            ), groups.group_in(folder) as group:
                assert group is not None
                result = subprocess.run(
                    [*group.words(), "head", "-c", "200M", "/dev/zero"],
                    stdout=subprocess.DEVNULL,
                )
                self.assertEqual(
                    (result.returncode, group.has_met_its_bound()), (0, False)
                )
                result = subprocess.run(
                    [*group.words(), "sort", "-S", "1G", "/dev/zero"],
                    stdout=subprocess.DEVNULL,
                )
                self.assertEqual(
                    (result.returncode, group.has_met_its_bound()), (-9, True)
                )
        self.assertEqual(list(pathlib.Path(folder).glob("arena-*")), [])
