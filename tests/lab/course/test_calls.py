"""The calls of the system that programs behind walls may make: the table, the filter
that is made of it, and what is said of a trace."""
import errno
import json
import os
import pathlib
import subprocess
import tarfile
import tempfile
import unittest
from typing import Any, Dict, List

from arena_lab.course.course_files import calls_of
from arena_lab.sandbox import calls, isolation
from arena_lab.submissions.submission import SubmissionEntry, Submission
from arena_lab.support.fields import FileFormatError
from arena_lab.support.missing import DEBIANS_PYTHON
from tests.support.output import run_call

# what programs have used to talk past the network and the whiteboards, to leave notes,
# or to see what others do
ATTACKS = """io_setup io_submit io_uring_setup io_uring_enter io_uring_register pidfd_open pidfd_getfd pidfd_send_signal
perf_event_open bpf add_key keyctl request_key userfaultfd ptrace process_vm_readv process_vm_writev memfd_create
memfd_secret inotify_init inotify_init1 inotify_add_watch fanotify_init fanotify_mark mq_open mq_unlink mq_timedsend
mq_timedreceive mq_notify shmget shmat semget semop msgget msgsnd msgrcv flock mincore readahead preadv2 sysinfo kcmp
syslog unshare setns mount clone3 seccomp setsid""".split()
# loads the filter of a language, makes calls by their numbers with these arguments, and
# writes their errors
LOADS = """import ctypes, json, os, sys, tomllib
sys.path.insert(0, sys.argv[1])
import filter, seccomp
libc = ctypes.CDLL(None, use_errno=True)
table = tomllib.load(open(sys.argv[2], "rb"))
filter.make_filter(table, sys.argv[3], sys.argv[4].split()).load()
found = []
for call, *given in json.loads(sys.argv[5]):
    number = call if isinstance(call, int) else seccomp.resolve_syscall(seccomp.Arch(), call)
    ctypes.set_errno(0)
    done = libc.syscall(ctypes.c_long(number), *map(ctypes.c_long, given))
    found.append(ctypes.get_errno() if done < 0 else 0)
print(json.dumps(found))
"""
HAS_SECCOMP = (
    subprocess.run(
        [DEBIANS_PYTHON, "-c", "import seccomp"], stderr=subprocess.DEVNULL
    ).returncode
    == 0
)
WITH_SECCOMP = unittest.skipUnless(
    HAS_SECCOMP, "Debian's python3-seccomp is not installed"
)


def errors(language: str, made: List[List[Any]], extra: str = "") -> List[int]:
    """The errors of calls under the filter of a language."""
    result = subprocess.run(
        [
            DEBIANS_PYTHON,
            "-c",
            LOADS,
            str(isolation.FILTER.parent),
            str(calls.TABLE),
            language,
            extra,
            json.dumps(made),
        ],
        capture_output=True,
        text=True,
    )
    report: List[int] = json.loads(result.stdout or f'"{result.stderr}"')
    return report


class TestTable(unittest.TestCase):
    def test_attacks_are_allowed_to_no_language_and_to_no_course(self) -> None:
        for call in ATTACKS:
            self.assertNotEqual(calls.never(call), "", call)
        for language in (*calls.languages(), calls.EVERY):
            self.assertEqual(
                calls.allowed_calls(language)
                & {call for row in calls.table()["never"] for call in row["calls"]},
                set(),
                language,
            )

    def test_each_language_has_what_every_one_has_and_no_call_twice(self) -> None:
        every = calls.allowed_calls(calls.EVERY)
        for language in calls.languages():
            self.assertLess(every, calls.allowed_calls(language))
        for name, it in {
            "every": calls.table()["every"],
            **calls.table()["languages"],
        }.items():
            listing: List[str] = it["calls"]
            self.assertEqual(len(listing), len(set(listing)), name)
            self.assertFalse(name != "every" and set(listing) & every, name)
        by_arguments = {row["call"] for row in calls.table()["arguments"]}
        self.assertFalse(by_arguments & calls.allowed_calls(calls.ANY))

    def test_a_course_may_allow_more_but_no_attack(self) -> None:
        self.assertEqual(calls_of(["setpriority"]), ("setpriority",))
        for name, why in (
            ("flock", "calls has flock, which no course may allow: locks on files"),
            (
                "socket",
                "calls has socket, which no course may allow: it is allowed by its arguments",
            ),
        ):
            with self.assertRaisesRegex(FileFormatError, why):
                calls_of([name])

    @WITH_SECCOMP
    def test_a_course_may_allow_no_call_that_is_none(self) -> None:
        with self.assertRaisesRegex(isolation.CellError, "nosuch is no call of Linux"):
            isolation.system_filter("python", ("nosuch",))

    def test_the_language_of_a_command(self) -> None:
        def file(content: bytes) -> SubmissionEntry:
            return SubmissionEntry(tarfile.REGTYPE, content, True)

        entries: Dict[str, SubmissionEntry] = {
            "careful": file(b"\x7fELF..."),
            "go.py": file(b"#!/usr/bin/env python3\nx"),
            "go.sh": file(b"#!/bin/sh\n"),
            "odd": file(b"#!\n"),
            "in/it": file(b"\x7fELF..."),
        }
        for words, language in (
            ("python3 it.py {port}", "python"),
            ("node it.js", "javascript"),
            ("java -cp out It", "java"),
            ("/usr/bin/python3 it.py", "python"),
            ("./careful {port}", "native"),
            ("in/../careful", "native"),
            ("in/it", "native"),
            ("./go.py", "python"),
            ("./go.sh", "any"),
            ("bash go.sh", "any"),
            ("./odd", "any"),
            ("./absent", "any"),
            ("ruby it.rb", "any"),
        ):
            self.assertEqual(
                calls.language_of(words, Submission(entries).content_of),
                language,
                words,
            )


@WITH_SECCOMP
class TestFilter(unittest.TestCase):
    def test_attacks_are_refused_in_each_language(self) -> None:
        expectation = [
            (call, row.get("error", "EPERM"))
            for row in calls.table()["never"]
            for call in row["calls"]
        ]
        self.assertLessEqual(set(ATTACKS), {call for call, _ in expectation})
        for language in calls.languages():
            result = errors(language, [[call, 0, 0, 0, 0] for call, _ in expectation])
            self.assertEqual(
                [
                    (call, errno.errorcode[it])
                    for (call, _), it in zip(expectation, result)
                ],
                expectation,
                language,
            )

    def test_calls_of_no_list_are_as_if_the_system_had_none(self) -> None:
        later = [[number, 0, 0, 0, 0] for number in range(449, 480)]
        rest = [
            ["setpriority", 0, 0, 0],
            ["sched_setaffinity", 0, 0, 0],
            ["landlock_create_ruleset", 0, 0, 0],
        ]
        for language in calls.languages():
            self.assertEqual(
                set(errors(language, later + rest)), {errno.ENOSYS}, language
            )
        self.assertEqual(
            errors("python", [["sched_setaffinity", 0, 0, 0]], "sched_setaffinity"),
            [errno.EINVAL],
        )

    def test_calls_are_allowed_by_their_arguments(self) -> None:
        past = 1 << 32
        refusal = errno.ENOSYS
        expectation = [
            (["socket", 1, 1, 0], 0),
            (["socket", past + 1, 1, past], 0),
            (["socket", 2, 1, 6], 0),
            (["socket", 10, 2, 17], 0),
            (["socket", past + 16, 3, past], errno.EAFNOSUPPORT),
            (["socket", 2, 1, 99], refusal),
            (["socket", 2, 1, 262], errno.EPROTONOSUPPORT),
            *(
                (["socket", family, 1, 0], errno.EAFNOSUPPORT)
                for family in range(3, 47)
                if family != 10
            ),
            (["socket", 99, 1, 0], refusal),
            (["socketpair", 16, 1, 0, 0], refusal),
            (["fcntl", 0, 1], 0),
            (["fcntl", 0, 6, 0], errno.EPERM),
            (["fcntl", 0, past + 6, 0], errno.EPERM),
            (["fcntl", 0, 1031, 0], refusal),
            (["ioctl", 0, 0x80086601, 0], errno.ENOTTY),
            (["ioctl", 0, 0x40045431, 0], refusal),
            (["prctl", 4, 0, 0, 0, 0], refusal),
            (["getsockopt", 0, 1, 57, 0, 0], errno.ENOPROTOOPT),
            (["getsockopt", 0, 1, 77, 0, 0], errno.ENOPROTOOPT),
            (["setsockopt", 0, 1, 76, 0, 0], refusal),
            (["setsockopt", 0, 1, 50, 0, 0], refusal),
            # a process as a file; new namespaces
            *(
                (["clone", flag | 17, 0, 0, 0, 0], refusal)
                for flag in (0x1000, 0x20000, 0x10000000, 0x40000000)
            ),
        ]
        for language in calls.languages():
            result = errors(language, [call for call, _ in expectation])
            self.assertEqual(
                [(call, it) for (call, _), it in zip(expectation, result)],
                expectation,
                language,
            )


class TestTraces(unittest.TestCase):
    TRACE = """12 socket(0x2, 0x1|0x80000, 0) = 3
12 socket(0x10, 0x3|0x80000, 0x4) = -1 EAFNOSUPPORT
clone(child_stack=NULL, flags=0x1200000|17, child_tidptr=0x7f) = 3
clone(child_stack=NULL, flags=0x1000|17) = 3
13 inotify_init1(0x80800) = 4
13 inotify_init1(0x80800) = 5
13 setpriority(0, 0, 5) = 0
13 <... read resumed>"x", 1) = 1
+++ exited with 0 +++
"""

    def test_what_a_program_needs_besides_is_told(self) -> None:
        lines = calls.report_trace("python", self.TRACE.splitlines())
        self.assertEqual(
            lines.splitlines(),
            [
                "python: of 4 calls that were traced 4 are refused",
                "      1  clone 0x1011: by its arguments",
                "      2  inotify_init1: locks on files, and notices when a file is opened or read",
                "      1  setpriority: it is in no list",
                "      1  socket 0x10 0x4: by its arguments",
                'in course.toml this allows what is in no list: calls = ["setpriority"]',
            ],
        )

    def test_the_command(self) -> None:
        with tempfile.TemporaryDirectory() as folder:
            trace = pathlib.Path(folder) / "trace"
            trace.write_text("read(0, 0x1, 1) = 0\n")
            for arguments, status, message in (
                (
                    [],
                    2,
                    "Languages: python, javascript, java, native, shell, any, every",
                ),
                (["--help"], 0, "strace -f -X raw"),
                (["cobol", str(trace)], 2, "Languages"),
                (["every", str(trace)], 0, "of 1 calls that were traced 0 are refused"),
                (["every", os.path.join(folder, "no")], 1, "No such file"),
            ):
                result, out, errors = run_call(calls.main, arguments)
                self.assertEqual(result, status)
                self.assertIn(message, out + errors)
