"""Tests of tests/hostile/refusals.py and of its library, with programs in C that stand
in."""
import subprocess
import unittest
import unittest.mock

from tests import needs
from tests.hostile import (
    commands,
    refusals,
    refused_calls,
    refused_servers,
    refused_tests,
)
from tests.hostile.commands import COMMANDS, Lab, Run
from tests.support.counts import FailedCheckError
from tests.support.output import InTemporary, run_call
from tests.support.session_lines import HERE

# asks for memory five times, reads a line and writes it, and says which request was
# refused
CALLS = """
#include <stdlib.h>
#include <sys/uio.h>
#include <unistd.h>
int main(int count_of_words, char **words) {
    char line[8];
    char said[] = "none";
    void *aligned = 0;
    void *volatile parts[] = {malloc(1), calloc(1, 1), realloc(0, 1), aligned_alloc(64, 64), 0};
    parts[4] = posix_memalign(&aligned, 64, 64) ? 0 : aligned;
    for (int place = 0; place < 5; place++)
        if (!parts[place])
            said[0] = (char) ('1' + place);
    struct iovec in[] = {{line, 0}, {line, 2}, {line + 2, sizeof line - 2}};
    long count = count_of_words > 1 ? readv(0, in, 3) : read(0, line, sizeof line);
    if (count < 0 || write(1, said, 1) != 1)
        return 6;
    struct iovec out[] = {{line, 1}, {line + 1, count - 1}};
    return (count_of_words > 1 ? writev(1, out, 2) : write(1, line, count)) == count ? 0 : 7;
}
"""

# prints its second word's file, as long as it is, or a fault line; the macros are ways
# to do so badly
PRINTS = """
#include <fcntl.h>
#include <stdlib.h>
#include <string.h>
#include <unistd.h>
static int tell(const char *told, int status) {
    for (size_t done = 0, size = strlen(told); done < size; ) {
        long count = write(2, told + done, size - done);
        if (count < 0)
            return status;
        done += count;
    }
    return status;
}
int main(int count_of_words, char **words) {
    char *text = malloc(65536), name[256];
    long size = 0, count = 1;
#ifdef CRASHES
    text[0] = 'a';
#endif
#ifdef HANGS
    while (!text)
        pause();
#endif
    if (!text)
        return tell("arena: memory\\n", 5);
    if (count_of_words < 2)
        return 0;
    const char *file = words[count_of_words > 2 ? 2 : 1], *behind = strchr(file, '=');
    strcpy(name, behind ? behind + 1 : file);
    int opened = open(name, O_RDONLY);
    while (count > 0 && size < 65536) {
        count = read(opened, text + size, 65536 - size);
        if (count < 0)
            return tell(strcat(name, ": read\\n"), 6);
        size += count;
#ifdef READS_ONCE
        break;
#endif
    }
    for (long done = 0; done < size; done += count) {
        count = write(1, text + done, size - done);
#ifdef SWALLOWS
        if (count < 0)
            return 0;
#endif
        if (count < 0)
            return tell("output: write\\n", 6);
    }
    return 0;
}
"""


# lists tests; one requests memory before the call under test and in it, with marks
# around, and another one requests memory between a play and its end
TESTS = """
#include <stdio.h>
#include <stdlib.h>
#include <string.h>
#include <unistd.h>
int main(int count_of_words, char **words) {
    static const char list[] = "others::one: test\\nmemory::again::one: test\\n"
        "memory::playing::playing_takes_no_memory: test\\n";
    if (!strcmp(words[1], "--list"))
        return write(1, list, sizeof list - 1) < 0;
    int plays = !strncmp(words[1], "memory::playing", 15);
    void *volatile before = malloc(1);
    if (!before)
        return write(2, "Memory\\n", 7) ? 101 : 0;
#ifdef ASKS_IN_THE_PLAY
    free(plays ? malloc(1) : 0);
#endif
#ifndef SETS_NO_MARK
    void *volatile mark = plays ? 0 : malloc(1048573);
#endif
    void *volatile called = malloc(1);
#ifndef SETS_NO_MARK
    mark = plays ? 0 : malloc(1048573);
#endif
    if (!called && plays)
        return write(2, "after the play\\n", 15) ? 101 : 0;
#ifdef GIVES_UP
    if (!called)
        abort();
#endif
#ifdef ENDS_OTHERWISE
    if (!called)
        return write(2, "alloc\\n", 6) ? 1 : 0;
#endif
#ifdef ANSWERS_MEMORY_AGAIN
    if (!called)
        return write(2, "Memory\\n", 7) ? 101 : 0;
#endif
    return 0;
}
"""


def built(folder, name, source, *options):
    """The program that gcc makes of a source."""
    (folder / f"{name}.c").write_text(source)
    program = str(folder / name)
    subprocess.run(
        ["gcc", *options, "-o", program, str(folder / f"{name}.c")], check=True
    )
    return program


@needs("gcc", "gcc")
class ShimTest(InTemporary):
    def setUp(self):
        super().setUp()
        self.program = built(self.folder, "calls", CALLS)
        self.shim = refused_calls.Shim.built(self.folder)

    def run_with(self, mode="", position=0, words=()):
        """The status, what is printed, and the numbers of calls."""
        numbers = {}
        with self.shim.counting(numbers, mode, position) as variables:
            result = subprocess.run(
                [self.program, *words],
                input=b"abc",
                env=variables,
                stdout=subprocess.PIPE,
            )
        return result.returncode, result.stdout, numbers

    def test_calls_are_counted(self):
        for words in ([], ["parts"]):
            self.assertEqual(
                self.run_with(words=words),
                (0, b"nabc", {"memory": 5, "read": 1, "write": 2, "refused": 0}),
            )

    def test_one_request_is_refused(self):
        for position in (1, 2, 3, 4, 5):
            status, output, numbers = self.run_with("memory", position)
            self.assertEqual(
                (status, output, numbers["refused"]), (0, b"%dabc" % position, 1)
            )
        status, output, numbers = self.run_with("memory", 6)
        self.assertEqual((status, output, numbers["refused"]), (0, b"nabc", 0))

    def test_reads_and_writes_fail_or_are_short(self):
        for words in ([], ["parts"]):
            self.assertEqual(self.run_with("read", 1, words)[:2], (6, b""))
            self.assertEqual(self.run_with("short-read", 1, words)[:2], (0, b"na"))
            self.assertEqual(self.run_with("write", 1, words)[:2], (6, b""))
            self.assertEqual(self.run_with("write", 2, words)[:2], (7, b"n"))
            self.assertEqual(self.run_with("short-write", 2, words)[:2], (7, b"na"))

    def test_what_is_no_refusal_runs_nothing(self):
        for mode, position in (("memory", 0), ("memories", 1), ("short", 1)):
            self.assertEqual(self.run_with(mode, position)[:2], (125, b""))


@needs("gcc", "gcc")
class CommandTest(InTemporary):
    def faults_of(self, *options):
        """What a command of the program that is built with these options does
        otherwise."""
        lab = Lab(built(self.folder, "prints", PRINTS, *options), self.folder)
        trials = refused_calls.Trials(
            lab, refused_calls.Shim.built(self.folder), 0, 0, 2
        )
        output = run_call(refusals.refuse_command, trials, COMMANDS[0]).output
        self.said = output
        return lab.faults

    def test_a_program_that_tells_its_faults(self):
        self.assertEqual(self.faults_of(), [])
        self.assertEqual(
            self.said.splitlines(),
            [
                "check, memory of 1: 1 memory",
                "check, read of 2: 2 read",
                "check, short-read of 2: 2 as ever",
                "check, write of 1: 1 write",
                "check, short-write of 1: 1 as ever",
            ],
        )

    def test_a_crash_is_otherwise(self):
        self.assertEqual(
            self.faults_of("-DCRASHES"), ["check, memory 1: status -11, ``"]
        )
        self.assertIn("check, memory of 1: 1 otherwise", self.said)

    def test_a_hang_is_otherwise(self):
        with unittest.mock.patch.object(commands, "PATIENCE", 5):
            self.assertEqual(
                self.faults_of("-DHANGS"),
                ["check, memory 1: status -1, `it did not end`"],
            )

    def test_what_is_lost_is_otherwise(self):
        self.assertEqual(self.faults_of("-DSWALLOWS"), ["check, write 1: status 0, ``"])

    def test_a_short_read_is_read_on(self):
        [fault] = self.faults_of("-DREADS_ONCE")
        self.assertIn("check, short-read 1: a short call made a difference", fault)

    def test_a_program_without_the_library_is_not_tried(self):
        faults = self.faults_of("-static")
        self.assertEqual(
            faults, ["check: no call was counted; is the program linked dynamically?"]
        )


@needs("gcc", "gcc")
class TestsTest(InTemporary):
    LINKED = ("-Wl,--wrap=malloc,--wrap=realloc", str(refused_calls.SHIM))
    PLAY = "memory::playing::playing_takes_no_memory"

    def faults_of(self, *options):
        folder = self.folder / "".join(options)
        folder.mkdir(exist_ok=True)
        lab = Lab(built(folder, "prints", PRINTS), folder)
        self.kept = folder / "kept"
        tests = built(
            folder, "tests", TESTS, f'-DKEPT="{self.kept}"', *self.LINKED, *options
        )
        output = run_call(
            refused_tests.refuse_tests,
            refused_calls.Trials(lab, refused_calls.Shim(), 0, 0, 2),
            tests,
        ).output
        self.said = output
        return lab.faults

    def test_calls_that_are_made_again(self):
        self.assertEqual(self.faults_of(), [])
        self.assertEqual(
            self.said,
            "memory::again::one, memory of 1 in its calls: 1 passed\n"
            "memory::again::one, memory of 1 beside them: 1 begins\n"
            f"{self.PLAY}, memory of 2: 1 none in the play\n",
        )

    def test_the_program_is_left_in_a_file(self):
        self.faults_of()
        self.assertEqual(self.kept.read_bytes(), (self.folder / "tests").read_bytes())

    def test_what_no_test_may_do(self):
        text = ", memory 2: in the call that is tested: status"
        for option, fault in (
            ("GIVES_UP", f"{text} -6, ``"),
            ("ENDS_OTHERWISE", f"{text} 1, `alloc`"),
            ("ANSWERS_MEMORY_AGAIN", f"{text} 101, `Memory`"),
            ("SETS_NO_MARK", ": no request is one of a call that is tested"),
        ):
            with self.subTest(option):
                self.assertEqual(
                    self.faults_of(f"-D{option}"), [f"memory::again::one{fault}"]
                )

    def test_a_play_that_asks_for_memory(self):
        [fault] = self.faults_of("-DASKS_IN_THE_PLAY")
        self.assertEqual(
            fault,
            f"{self.PLAY}, memory 3: playing asks for memory: ['begins', 'passed', 'own']",
        )

    def test_the_play_must_be_there(self):
        tests = built(self.folder, "tests", "int main(void) { return 0; }")
        lab = Lab(tests, self.folder)
        refused_tests.refuse_tests(
            refused_calls.Trials(lab, refused_calls.Shim(), 0, 0, 2), tests
        )
        self.assertEqual(lab.faults, [f"{tests} lacks {self.PLAY}"])


class OutcomeTest(unittest.TestCase):
    WHOLE = refused_calls.Attempt(
        Run(0, b"two lines\nand one\n", ""),
        {"kept0.jsonl": b"head\nend\n"},
        {"refused": 0},
    )
    MAY_NAME = {"cup.toml", "output", "kept0.jsonl"}

    def outcome(self, mode, *args, whole=WHOLE, replays=None, refusal=1):
        attempt = refused_calls.Attempt(
            Run(*args),
            whole.replays if replays is None else replays,
            {"refused": refusal},
        )
        return refusals.outcome(
            mode, self.MAY_NAME, whole, attempt, lambda text: text.endswith(b"end\n")
        )

    def test_what_may_come(self):
        self.assertEqual(self.outcome("memory", *self.WHOLE.run), "as ever")
        self.assertEqual(
            self.outcome("memory", 5, b"two", "cup.toml: memory\n"), "memory"
        )
        self.assertEqual(
            self.outcome("memory", 5, b"two", "cup.toml: memory\n", replays={}),
            "memory",
        )
        self.assertEqual(
            self.outcome(
                "write",
                6,
                self.WHOLE.run.stdout,
                "kept0.jsonl: write\n",
                replays={"kept0.jsonl": b"head\n"},
            ),
            "write",
        )

    def test_a_fault_line_that_could_not_be_written(self):
        refusal = self.WHOLE._replace(run=Run(3, b"two", "cup.toml: toml\n"))
        self.assertEqual(self.outcome("write", 3, b"two", "", whole=refusal), "untold")
        self.assertEqual(
            self.outcome("write", 3, b"two", "cup.toml: ", whole=refusal), "untold"
        )
        for mode, *result in (
            ("write", 3, b"tw", ""),
            ("write", 0, b"two", ""),
            ("read", 3, b"two", ""),
        ):
            with self.assertRaises(FailedCheckError):
                self.outcome(mode, *result, whole=refusal)

    def test_what_must_not_come(self):
        output = self.WHOLE.run.stdout
        for mode, *result in (
            ("memory", 5, b"one", "cup.toml: memory\n"),
            ("memory", 6, b"two", "cup.toml: memory\n"),
            ("memory", -11, b"two", ""),
            ("memory", 5, b"", "ring.toml: memory\n"),
            ("memory", 5, b"", "output: memory\noutput: memory\n"),
            ("short-read", 6, b"", "script: read\n"),
            ("read", 6, b"", "script: write\n"),
            ("write", 0, b"", ""),
            ("write", 0, b"two lines\n", ""),
            ("write", 6, b"two", "kept0.jsonl: write\n"),
        ):
            with self.subTest(mode=mode, found=result), self.assertRaises(
                FailedCheckError
            ):
                self.outcome(mode, *result)
        with self.assertRaises(FailedCheckError):
            self.outcome("memory", 0, output, "", refusal=0)
        with self.assertRaises(FailedCheckError):
            self.outcome(
                "memory",
                5,
                output,
                "kept0.jsonl: memory\n",
                replays={"kept0.jsonl": b"end\n"},
            )
        with self.assertRaises(FailedCheckError):
            self.outcome("memory", 0, output, "", replays={})

    def test_places_are_spread(self):
        self.assertEqual(list(refused_calls.places(5, 0)), [1, 2, 3, 4, 5])
        self.assertEqual(list(refused_calls.places(5, 3)), [1, 3, 5])
        self.assertEqual(list(refused_calls.places(1000, 4)), [1, 334, 667, 1000])


class ServedTest(unittest.TestCase):
    TABLE = b"  # team             outcome     moves lost\n  1 red              silent          0    0\n"
    REPLAY = (
        b'{"replay":2}\n'
        + b"".join(
            b'{"agent":0,"do":"%s","reply":{"board":"","from":null,"ok":"here","ports":2}}\n'
            % do
            for do in (b"enter", b"look")
        )
        + b'{"do":"close","reply":null}\n{"end":3}\n'
    )
    KEY = b'{"no":"key"}\n'

    def outcome(
        self,
        mode,
        run=None,
        heard=(HERE + HERE, KEY),
        replay=REPLAY,
        seconds=1.0,
    ):
        """What came of a contest whose replay is accepted if it has its end line."""
        contest = refused_servers.Contest(
            run or Run(0, b"listening N\n" + self.TABLE, ""),
            list(heard),
            {"kept0.jsonl": replay} if replay else {},
            {"refused": 1},
            seconds,
        )
        with unittest.mock.patch.object(
            refused_servers,
            "judge",
            lambda lab, text, *words: self.TABLE if b'{"end":' in text else None,
        ):
            return refused_servers.served_outcome(mode, contest, None)

    def test_what_may_come(self):
        self.assertEqual(self.outcome("short-read"), "as ever")
        self.assertEqual(
            self.outcome("memory", heard=[HERE + b'{"bo', self.KEY]),
            "a session cut",
        )
        self.assertEqual(
            self.outcome("memory", Run(5, b"", "cup.toml: memory\n"), [b"", b""], b""),
            "cup.toml: memory",
        )
        self.assertEqual(
            self.outcome(
                "write",
                Run(6, b"listening N\n" + self.TABLE, "kept0.jsonl: write\n"),
                replay=b'{"replay":2}\n',
            ),
            "kept0.jsonl: write",
        )

    def test_what_must_not_come(self):
        short = Run(0, b"listening N\n", "")
        for mode, arguments in (
            ("memory", {"seconds": refused_servers.SOON + 1.0}),
            ("memory", {"heard": [b"", b""]}),
            ("short-read", {"heard": [HERE, self.KEY]}),
            ("memory", {"heard": [b'{"ok":"gone"}\n', self.KEY]}),
            ("write", {"run": short}),
            ("memory", {"replay": b""}),
            ("memory", {"run": Run(6, b"", "serve: memory\n")}),
            ("memory", {"run": Run(6, b"", "serve: listen\n")}),
            (
                "memory",
                {"replay": b'{"replay":2}\n{"do":"close","reply":null}\n{"end":1}\n'},
            ),
            (
                "write",
                {
                    "run": Run(6, b"listening N\n", "kept0.jsonl: write\n"),
                    "replay": b"",
                },
            ),
            ("memory", {"run": Run(-6, b"listening N\n", "")}),
        ):
            with self.subTest(mode=mode, given=arguments), self.assertRaises(
                FailedCheckError
            ):
                self.outcome(mode, **arguments)
