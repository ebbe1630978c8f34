"""Programs that take more time, memory or disk than they may."""
import time
from unittest import mock

from arena_lab.sandbox import memory_watch
from arena_lab.sandbox.sandboxes import Isolation
from tests.integration.course.attacked_course import (
    ALL_ISOLATION,
    BEGINS,
    ENTERS,
    EVIL,
    NEEDS_SANDBOX,
    Course,
)
from tests.support.courses import HEAD, HONEST, team


class Stalling(Course):
    def test_a_match_has_a_time(self) -> None:
        code = ENTERS + "while True:\n    time.sleep(0.3)\n    ask(do='look')\n"
        for isolation in ALL_ISOLATION:
            with self.subTest(isolation):
                began = time.monotonic()
                match = self.play(isolation, code, head=HEAD + "match_limit = 2\n")
                self.assertEqual(
                    match.faults,
                    [
                        "agent 0: has used up the time of its match, 2 s in all, as the lab "
                        "waited for its programs"
                    ],
                )
                self.assertLess(time.monotonic() - began, 8)

    def test_a_team_has_a_time(self) -> None:
        (self.team / "evil.py").write_text(BEGINS + "time.sleep(0.7)\nsys.exit('slow')")
        rows = self.grade(
            HEAD
            + "seeds = 8\nteam_limit = 1\n"
            + team("evil", ["evil"], EVIL, 1)
            + HONEST
        )
        self.assertIn("slow", rows["evil"][0]["fault"])
        self.assertEqual(
            rows["evil"][-1]["fault"],
            "not played: the matches of the team have taken the 1 s that it has",
        )
        self.assertEqual(rows["evil"][-1]["outcome"], "not played")
        self.assertIn("solved", [row["outcome"] for row in rows["right"]])
        page = (self.folder / "out" / "team-evil.html").read_text()
        self.assertIn(
            "not made smaller: the matches of the team have taken the 1 s that it has",
            page,
        )


class Taking(Course):
    def test_memory_of_all_that_a_program_starts(self) -> None:
        """Each of three takes what one may take."""
        code = (
            BEGINS
            + """for _ in range(3):
    if os.fork() == 0:
        taken = bytearray(100 << 20)
        for place in range(0, len(taken), 4096):
            taken[place] = 1
        time.sleep(100)
time.sleep(100)
"""
        )
        with mock.patch.object(memory_watch, "MAX_MEMORY", 200 << 20):
            for isolation in ALL_ISOLATION:
                with self.subTest(isolation):
                    began = time.monotonic()
                    self.assertEqual(
                        self.play(isolation, code).faults,
                        [f"agent 0: {memory_watch.TOO_MUCH}"],
                    )
                    self.assertLess(time.monotonic() - began, 30)

    def test_memory_that_is_given_back_and_taken_all_the_same(self) -> None:
        """Shared memory whose pages the program no longer has, though it could read
        them again."""
        code = (
            BEGINS
            + """import mmap
taken = mmap.mmap(-1, 500 << 20)
for place in range(0, len(taken), 16 << 20):
    count = min(16 << 20, len(taken) - place)
    taken[place:place + count] = b"x" * count
    taken.madvise(mmap.MADV_DONTNEED, place, count)
time.sleep(100)
"""
        )
        self.check_taken(code)

    def test_tables_of_pages(self) -> None:
        """A page in two megabytes is read, and is the same one; the tables that say so
        take memory."""
        code = (
            BEGINS
            + """import ctypes, mmap
libc = ctypes.CDLL(None)
libc.mmap.restype = ctypes.c_void_p
libc.mmap.argtypes = [ctypes.c_void_p, ctypes.c_size_t] + [ctypes.c_int] * 3 + [ctypes.c_long]
size = 150 << 30
place = libc.mmap(None, size, mmap.PROT_READ, mmap.MAP_PRIVATE | mmap.MAP_ANONYMOUS | 0x4000, -1, 0)
libc.madvise(ctypes.c_void_p(place), ctypes.c_size_t(size), 15)
view = (ctypes.c_char * size).from_address(place)
for at in range(0, size, 2 << 20):
    view[at]
time.sleep(100)
"""
        )
        self.check_taken(code)

    def check_taken(self, code: str) -> None:
        """The program is ended as one that has taken too much."""
        with mock.patch.object(memory_watch, "MAX_MEMORY", 200 << 20):
            for isolation in ALL_ISOLATION:
                with self.subTest(isolation):
                    self.assertEqual(
                        self.play(isolation, code, head=HEAD.replace("60", "8")).faults,
                        [f"agent 0: {memory_watch.TOO_MUCH}"],
                    )

    @NEEDS_SANDBOX
    def test_disk(self) -> None:
        """A folder in memory has its size; a file for each byte is memory too."""
        code = """import sys
wrote = 0
try:
    for number in range(12):
        with open(str(number), "wb") as file:
            for _ in range(63):
                wrote += file.write(bytes(1 << 20))
except OSError as fault:
    sys.exit(f"{wrote >> 20 <= 64} {fault.strerror}")
"""
        self.assertEqual(
            self.last_words(Isolation.ALL, code),
            [
                "True No space left on device (a program's folder, /tmp and "
                "/dev/shm take 64 MB each)"
            ],
        )
        many = "import time\nfor number in range(200_000):\n    open(str(number), 'w').close()\ntime.sleep(100)"
        with mock.patch.object(memory_watch, "MAX_MEMORY", 100 << 20):
            self.assertEqual(
                self.play(Isolation.ALL, many).faults,
                [f"agent 0: {memory_watch.TOO_MUCH}"],
            )
