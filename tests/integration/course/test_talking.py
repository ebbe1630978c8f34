"""Ways by which agents behind walls could talk, or leave notes to later matches."""
import contextlib
import io
import mmap
import os
import pathlib
import re
import shutil
import subprocess
import unittest
from typing import Iterator
from unittest import mock

from arena_lab.rules.engines import TOP
from arena_lab.sandbox import calls, sandboxes, kernel_traces, system_copy, memory_watch
from arena_lab.sandbox.sandboxes import Isolation, SandboxOptions
from arena_lab.sandbox.isolation import CellError
from arena_lab.support.missing import DEBIANS_PYTHON
from tests.integration.course.attacked_course import (
    ALL_ISOLATION,
    EVIL,
    IS_ROOT,
    NEEDS_SANDBOX,
    Course,
)
from tests.support.courses import HEAD, HONEST, team
from tests.support.matches import AGENTS


def number_of_a_pipe() -> int:
    """The number that the kernel gives to a new pipe on this processor."""
    ends = os.pipe()
    result = os.fstat(ends[0]).st_ino
    for end in ends:
        os.close(end)
    return result


def number_of_memory() -> int:
    """The number that the kernel gives to memory that processes share, which a program
    with /proc finds in its maps."""
    with mmap.mmap(-1, mmap.PAGESIZE):
        lines = pathlib.Path("/proc/self/maps").read_text().splitlines()
        return int(
            next(
                line.split()[4] for line in lines if memory_watch.SHARED_MEMORY in line
            )
        )


@contextlib.contextmanager
def one_processor(processor: int) -> Iterator[None]:
    """Pins this process and its children to one processor."""
    before = os.sched_getaffinity(0)
    os.sched_setaffinity(0, {processor})
    try:
        yield
    finally:
        os.sched_setaffinity(0, before)


# tries one way after another by which programs that share files of the system may talk,
# and says which are open
WAYS = r"""import ctypes, fcntl, os, signal, socket, struct, sys
signal.signal(signal.SIGIO, signal.SIG_IGN)
libc = ctypes.CDLL(None, use_errno=True)
libc.syscall.restype = ctypes.c_long
file = os.open("/usr/bin/env", os.O_RDONLY)
buffer = ctypes.create_string_buffer(4096)
lock = struct.pack("hhqqi", fcntl.F_RDLCK, 0, 0, 0, 0)
def call_of(number, *given):
    found = libc.syscall(number, *given)
    if found < 0:
        raise OSError(ctypes.get_errno(), "refused")
    return found
def call(number, *given):
    call_of(number, *given)
def ended(child):
    if child == 0:
        os._exit(0)
    os.waitpid(child, 0)
def in_a_child(way):
    def ran():
        child = os.fork()
        if child == 0:
            try:
                way()
            except OSError:
                os._exit(1)
            os._exit(0)
        if os.waitpid(child, 0)[1]:
            raise OSError
    return ran
def touches(file):
    def ran():
        before = os.stat(file).st_mtime_ns
        os.utime(file)
        if os.stat(file).st_mtime_ns == before:
            raise OSError
    return ran
def reads(path):
    return lambda: open(path, "rb").read(1)
def writes(path):
    return lambda: open(path, "wb").close()
def counts(path):
    found = os.listdir(path)
    if not found:
        raise OSError
ways = {
    "flock": lambda: fcntl.flock(file, fcntl.LOCK_SH), "lock": lambda: fcntl.fcntl(file, fcntl.F_SETLK, lock),
    "ask for locks": lambda: fcntl.fcntl(file, fcntl.F_GETLK, lock),
    "lock by file": lambda: fcntl.fcntl(file, 37, lock),
    "lease": lambda: fcntl.fcntl(file, fcntl.F_SETLEASE, fcntl.F_RDLCK),
    "notes of a folder": lambda: fcntl.fcntl(os.open("/usr/bin", os.O_RDONLY), fcntl.F_NOTIFY, 1),
    "inotify": lambda: call(294, 0), "old inotify": lambda: call(253), "fanotify": lambda: call(300, 0, 0),
    "add_key": lambda: call(248, b"user", b"k", b"v", 1, -3), "keyctl": lambda: call(250, 0, -3, 0),
    "request_key": lambda: call(249, b"user", b"k", None, -3),
    "shared memory": lambda: call(29, 1, 4096, 0o1666), "semaphores": lambda: call(64, 1, 1, 0o1666),
    "messages": lambda: call(68, 1, 0o1666), "queue": lambda: call(240, b"q", 0o102, 0o666, None),
    "ptrace": in_a_child(lambda: call(101, 0, 0, 0, 0)),
    "memory of others": lambda: call(310, os.getpid(), None, 0, None, 0, 0),
    "perf": lambda: call(298, buffer, 0, -1, -1, 0), "userfaultfd": lambda: call(323, 1),
    "bpf": lambda: call(321, 0, buffer, 64),
    "io_uring": lambda: call(425, 4, buffer), "memfd": lambda: call(319, b"x", 0), "sysinfo": lambda: call(99, buffer),
    "cached pages": lambda: os.preadv(file, [bytearray(1)], 0, os.RWF_NOWAIT),
    "cachestat": lambda: call(451, file, buffer, buffer, 0), "futex_wake": lambda: call(454, buffer, 1, 1, 2),
    "new user": in_a_child(lambda: call(272, 0x10000000)),
    "new disk": in_a_child(lambda: call(272, 0x10020000)),
    "load": reads("/proc/loadavg"), "counts": reads("/proc/stat"), "memory": reads("/proc/meminfo"),
    "locks": reads("/proc/locks"), "keys": reads("/proc/keys"), "up": reads("/proc/uptime"),
    "settings": lambda: counts("/proc/sys"), "pressure": lambda: counts("/proc/pressure"),
    "root": writes("/x"), "dev": writes("/dev/x"), "etc": writes("/etc/x"), "usr": writes("/usr/local/x"),
    "opt": lambda: os.stat("/opt"), "run": lambda: os.stat("/run"), "passwd": lambda: os.stat("/etc/passwd"),
    "lock past a filter": lambda: call(72, file, (1 << 32) + fcntl.F_SETLK, lock),
    "hint": lambda: call(72, file, 1036, buffer), "its hint": lambda: call(72, file, 1035, buffer),
    "flags": lambda: call(16, file, 0x80086601, buffer), "touch": touches("/dev/null"),
    "touch input": touches(0), "touch output": touches(1),
    "abstract socket": lambda: socket.socket(socket.AF_UNIX).connect("\0lab"),
    "aio": lambda: call(206, 1, ctypes.byref(ctypes.c_ulong(0))),
    "process as a file": lambda: call(434, os.getpid(), 0),
    "vsock": lambda: socket.socket(socket.AF_VSOCK), "packets": lambda: socket.socket(38),
    "netlink": lambda: socket.socket(socket.AF_NETLINK, socket.SOCK_RAW, 4),
    "netlink past a filter": lambda: call(41, (1 << 32) + 16, 3, (1 << 32) + 4),
    "cookie": lambda: socket.socket(socket.AF_UNIX).getsockopt(socket.SOL_SOCKET, 57, 8),
    "terminal": lambda: os.openpty(), "terminals": lambda: os.open("/dev/ptmx", os.O_RDWR),
    "clone gives a file": lambda: ended(call_of(56, 0x1000 | 17, None, ctypes.byref(ctypes.c_int()), None, None)),
    "clone in a new user": lambda: ended(call_of(56, 0x10000000 | 17, None, None, None, None)),
    "peer as a file": lambda: socket.socketpair()[0].getsockopt(socket.SOL_SOCKET, 77, 4),
    "session": in_a_child(os.setsid), "addresses": lambda: socket.socket(socket.AF_NETLINK, socket.SOCK_RAW, 0),
    "network's cookie": lambda: socket.socket(socket.AF_UNIX).getsockopt(socket.SOL_SOCKET, 71, 8),
}
found = []
for name, way in ways.items():
    try:
        way()
        found.append(name)
    except OSError:
        pass
sys.exit(f"{len(found)} open, shut are {', '.join(set(ways) - set(found))}" if found else "all are shut")
"""


# the ports from which a program connects to itself
PORTS = """import socket, struct, sys
listener = socket.create_server(("127.0.0.1", 5555))
def port_of(place):
    with socket.socket() as ours:
        ours.setsockopt(socket.SOL_SOCKET, socket.SO_LINGER, struct.pack("ii", 1, 0))
        ours.connect(place)
        listener.accept()[0].close()
        return ours.getsockname()[1]
"""


@NEEDS_SANDBOX
class Talking(Course):
    """Agents of a team, each behind walls, have nothing in common by which they could
    talk."""

    def test_ways_are_closed(self) -> None:
        for has_proc in (False, True):
            self.assertEqual(
                self.last_words(Isolation.ALL, WAYS, has_proc=has_proc),
                ["all are shut"],
            )

    def test_ways_are_closed_in_each_language(self) -> None:
        for language in calls.languages():
            with self.subTest(language), mock.patch.object(
                calls, "language_of", return_value=language
            ):
                self.assertEqual(self.last_words(Isolation.ALL, WAYS), ["all are shut"])

    def test_a_refused_call_says_what_the_teacher_may_change(self) -> None:
        code = "import os\nos.nice(1)"
        self.assertRegex(
            self.last_words(Isolation.ALL, code)[0],
            r"Function not implemented \(evil.py, line 2\) .calls of the system are refused to "
            "it that python does not need: examples/README.md says .*`calls` in course.toml allows more",
        )
        (self.team / "evil.py").write_text(code + "\nraise SystemExit('was allowed')")
        rows = self.grade(
            HEAD + 'calls = ["setpriority"]\n' + team("evil", ["evil"], EVIL, 1)
        )
        self.assertIn("was allowed", rows["evil"][0]["fault"])

    @unittest.skipUnless(shutil.which("strace"), "Debian's strace is not installed")
    def test_which_calls_a_program_makes_is_told_by_the_commands_of_the_examples(
        self,
    ) -> None:
        text = (TOP / "examples" / "README.md").read_text(encoding="utf-8")
        for command in re.findall(
            r"^    ((?:./arena-lab|python3 -m arena_lab).*/tmp/calls.*)$",
            text,
            re.MULTILINE,
        ):
            for name, path in (
                ("/tmp/calls", f"{self.folder}/calls"),
                ("python3 -m", f"{DEBIANS_PYTHON} -m"),
                ("agent.py", str(AGENTS / "ring.py")),
            ):
                command = command.replace(name, path)
            # on a busy machine a program that is traced may take longer than its match
            # waits
            result = subprocess.run(
                command, shell=True, text=True, capture_output=True, cwd=TOP
            )
            self.assertEqual(result.stderr, "")
        self.assertRegex(
            result.stdout,
            "^python: of .. calls that were traced 1 are refused\n.* sysinfo: how much",
        )

    def test_proc_is_seen_if_the_course_asks_for_it(self) -> None:
        code = "import os, sys; sys.exit(str(os.path.exists('/proc/self')))"
        for has_proc in (False, True):
            self.assertEqual(
                self.last_words(Isolation.ALL, code, has_proc=has_proc), [str(has_proc)]
            )

    def test_the_ways_are_good_ones(self) -> None:
        """Without a sandbox the channels are open; so the test above would detect an
        open one."""
        output = self.last_words(Isolation.USER if IS_ROOT else Isolation.NONE, WAYS)[0]
        self.assertRegex(output, "^[3-6][0-9] open")
        shut = set(output.partition("shut are ")[2].split(", "))
        self.assertFalse(
            shut
            & {
                "flock",
                "lock",
                "inotify",
                "shared memory",
                "load",
                "counts",
                "memfd",
                "touch",
                "aio",
                "netlink",
                "cookie",
                "terminal",
                "clone gives a file",
            }
        )

    def test_what_programs_see_of_the_system_is_in_memory(self) -> None:
        """There the kernel keeps no names of files that do not exist, which a later
        program could ask for."""
        code = """import os, subprocess, sys
said = [subprocess.run(["stat", "-f", "-c", "%T", path], capture_output=True, text=True).stdout.strip()
        for path in ("/", "/usr", "/usr/lib/python3", "/etc", "/tmp", "/agent", "/bin/sh", "/etc/alternatives")]
sys.exit(f"{set(said)} {os.path.exists('/usr/share/doc/bash')} {len(os.listdir('/usr/bin')) > 50}")
"""
        with sandboxes.furnish(SandboxOptions(Isolation.ALL), [EVIL], []) as sandbox:
            self.assertNotEqual(sandbox.root, "")
            self.assertEqual(
                self.last_words(Isolation.ALL, code, root=sandbox.root),
                ["{'tmpfs'} False True"],
            )
            self.assertEqual(
                self.last_words(Isolation.ALL, WAYS, root=sandbox.root),
                ["all are shut"],
            )
        self.assertFalse(os.path.exists(sandbox.root))

    def test_tools_are_seen_in_memory_too(self) -> None:
        """Tools outside of packages work in a copy of the system too, also as the first
        word of a command."""
        tools = self.folder / "tools"
        (tools / "bin").mkdir(parents=True)
        (tools / "bin" / "it").write_text("of the course")
        os.mkfifo(tools / "pipe")
        code = f"""import os, subprocess, sys
kind = subprocess.run(["stat", "-f", "-c", "%T", "{tools}"], capture_output=True, text=True).stdout.strip()
sys.exit(f"{{kind}} {{open('{tools}/bin/it').read()}} {{os.path.isfile('{tools}/pipe')}}")
"""
        for limit, kind in ((1 << 30, "tmpfs"), (100 << 20, "")):
            with open(tools / "large", "wb") as file:
                file.truncate(0 if kind else 90 << 20)
            err = io.StringIO()
            with mock.patch.object(
                system_copy, "MAX_BYTES", limit
            ), contextlib.redirect_stderr(err), sandboxes.furnish(
                SandboxOptions(Isolation.ALL, (str(tools),)),
                [EVIL, f"{tools}/bin/it"],
                [],
            ) as sandbox:
                output = self.last_words(
                    Isolation.ALL, code, tools=sandbox.tools, root=sandbox.root
                )[0]
            self.assertEqual(
                (output.startswith("tmpfs"), output.endswith("of the course False")),
                (bool(kind), True),
                output,
            )
            self.assertEqual(
                "they take 90 MB" in err.getvalue(), not kind, err.getvalue()
            )

    def test_packages_that_the_course_names_are_seen(self) -> None:
        code = "import os, sys\nsys.exit(str(os.path.exists('/usr/lib/python3/dist-packages/yaml')))"
        for packages, expectation in (([], "False"), (["python3-yaml"], "True")):
            with sandboxes.furnish(
                SandboxOptions(Isolation.ALL), [EVIL], packages
            ) as sandbox:
                self.assertEqual(
                    self.last_words(Isolation.ALL, code, root=sandbox.root),
                    [expectation],
                )
        with self.assertRaisesRegex(
            CellError,
            "packages: the package no-such-one is not installed: `apt-get install no",
        ):
            with sandboxes.furnish(
                SandboxOptions(Isolation.ALL), [EVIL], ["no-such-one"]
            ):
                pass

    def test_numbers_of_pipes_and_of_memory_go_on_by_chance_between_rounds(
        self,
    ) -> None:
        """On each processor by another number each time, and by more than what programs
        make by the way."""
        for processor in os.sched_getaffinity(0):
            with one_processor(processor):
                results = []
                for _ in range(6):
                    results.append((number_of_a_pipe(), number_of_memory()))
                    kernel_traces.stir()
                for numbers in zip(*results):
                    steps = [
                        later - earlier for earlier, later in zip(numbers, numbers[1:])
                    ]
                    self.assertGreater(max(steps) - min(steps), 2000)
        with mock.patch.object(kernel_traces, "stir") as stir:
            self.grade(HEAD + HONEST)
        self.assertEqual(stir.call_count, 2)

    def test_ports_of_connections_tell_nothing_of_other_programs(self) -> None:
        """If the port range is free, the kernel continues its counter across network
        namespaces, and one agent could read what another has set."""
        code = (
            PORTS + "sys.exit(str({port_of(('127.0.0.1', 5555)) for _ in range(40)}))"
        )
        for _ in range(2):
            self.assertEqual(self.last_words(Isolation.ALL, code, 2), ["{32768}"] * 2)
        without = (
            PORTS
            + "sys.exit(str(len({port_of(('127.0.0.1', 5555)) for _ in range(40)}) > 10))"
        )
        self.assertEqual(
            self.last_words(Isolation.USER if IS_ROOT else Isolation.NONE, without),
            ["True"],
        )

    def test_a_program_has_two_connections_to_a_port(self) -> None:
        code = (
            PORTS
            + "kept = [socket.create_connection(('127.0.0.1', 5555)) for _ in range(3)]"
        )
        self.assertEqual(
            self.last_words(Isolation.ALL, code),
            [
                "OSError: [Errno 99] Cannot assign requested address (evil.py, line 9) (a program may have "
                "two connections to a port at a time)"
            ],
        )

    def test_pipes_and_sockets_among_tools(self) -> None:
        """A pipe can be written to where files cannot."""
        tools = self.folder / "tools"
        (tools / "deep").mkdir(parents=True)
        os.mkfifo(tools / "deep" / "pipe")
        os.chmod(tools / "deep" / "pipe", 0o666)
        code = f"""import os, stat, sys
mode = os.stat("{tools}/deep/pipe").st_mode
try:
    open("{tools}/x", "w")
except OSError as fault:
    sys.exit(f"pipe {{stat.S_ISFIFO(mode)}} {{fault.strerror}}")
"""
        self.assertEqual(
            self.last_words(Isolation.ALL, code, tools=(str(tools),)),
            ["pipe False Read-only file system"],
        )

    def test_the_machine_has_no_name(self) -> None:
        self.assertEqual(
            self.last_words(
                Isolation.ALL, "import socket, sys; sys.exit(socket.gethostname())"
            ),
            ["sandbox"],
        )

    def test_the_environment_of_the_teacher_is_not_that_of_programs(self) -> None:
        code = "import os, sys; sys.exit(str('swordfish' in str(os.environ)))"
        with mock.patch.dict(os.environ, {"TEACHERS_SECRET": "swordfish"}):
            for isolation in ALL_ISOLATION:
                with self.subTest(isolation):
                    self.assertEqual(self.last_words(isolation, code), ["False"])

    def test_programs_of_a_match_have_no_file_in_common(self) -> None:
        """Each program leaves files, waits for the other, and looks for the other's
        files."""
        code = """import os, sys, time
for place in (".", "/tmp", "/dev/shm"):
    open(f"{place}/{sys.argv[2]}", "w").close()
time.sleep(0.5)
sys.exit(str([len(os.listdir(place)) for place in (".", "/tmp", "/dev/shm")]))
"""
        self.assertEqual(self.last_words(Isolation.ALL, code, 2), ["[2, 1, 1]"] * 2)
