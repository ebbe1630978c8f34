"""The line that names the error, of what programs in several languages print when they
crash."""
import pathlib
import shutil
import subprocess
import sys
import tempfile
import unittest
from typing import Dict, List, Tuple

from arena_lab.play.last_words import asked_behind, error_in, usage_in

# what programs print, and the line that names the error
PRINTED: Dict[str, Tuple[str, str]] = {
    "Python": (
        "read map\n"
        "Traceback (most recent call last):\n"
        '  File "c.py", line 3, in <module>\n'
        '    x["links"]\n'
        "    ~^^^^^^^^^\n"
        "KeyError: 'links'\n",
        "KeyError: 'links' (c.py, line 3)",
    ),
    "Python, raised from another": (
        "Traceback (most recent call last):\n"
        '  File "c.py", line 2, in f\n'
        "    g()\n"
        "OSError: no\n"
        "\n"
        "During handling of the above exception, another exception occurred:\n"
        "\n"
        "Traceback (most recent call last):\n"
        '  File "c.py", line 4, in <module>\n'
        "    f()\n"
        "client.MatchOver\n"
        "Exception ignored in: <x>\n",
        "client.MatchOver (c.py, line 4)",
    ),
    "Python, of two lines": (
        "Traceback (most recent call last):\n"
        '  File "c.py", line 1\n'
        "ValueError: first\n"
        "second line\n",
        "ValueError: first (c.py, line 1)",
    ),
    "Python that cannot be read": (
        '  File "/x/agent.py", line 3\n'
        "    def f(\n"
        "         ^\n"
        "SyntaxError: '(' was never closed\n",
        "SyntaxError: '(' was never closed (agent.py, line 3)",
    ),
    "JavaScript": (
        "/x/c.js:1\n"
        "const a={};a.links.forEach(x=>x)\n"
        "                   ^\n"
        "\n"
        "TypeError: Cannot read properties of undefined (reading 'forEach')\n"
        "    at Object.<anonymous> (/x/c.js:1:20)\n"
        "    at Module._compile (node:internal/modules/cjs/loader:1521:14)\n"
        "\n"
        "Node.js v20.20.2\n",
        "TypeError: Cannot read properties of undefined (reading 'forEach')",
    ),
    "JavaScript, a text thrown": (
        "node:internal/process/execution:1\n"
        "    throw new X;\n"
        "    ^\n"
        "\n"
        "lost the map\n"
        "(Use `node --trace-uncaught ...` to show where it was thrown)\n"
        "\n"
        "Node.js v20.20.2\n",
        "lost the map",
    ),
    "Java": (
        'Exception in thread "main" java.lang.NullPointerException: Cannot invoke "Object.hashCode()"\n'
        "\tat C.main(C.java:1)\n",
        'Exception in thread "main" java.lang.NullPointerException: Cannot invoke "Object.hashCode()"',
    ),
    "Java, with a cause": (
        'Exception in thread "main" java.lang.RuntimeException: wrapped\n'
        "\tat C.main(C.java:4)\n"
        "Caused by: java.io.IOException: no map\n"
        "\tat C.f(C.java:2)\n"
        "\t... 1 more\n",
        'Exception in thread "main" java.lang.RuntimeException: wrapped; Caused by: java.io.IOException: no map',
    ),
    "Rust": (
        "\n"
        "thread 'main' (4711) panicked at c.rs:1:43:\n"
        "index out of bounds: the len is 0 but the index is 3\n"
        "note: run with `RUST_BACKTRACE=1` environment variable to display a backtrace\n",
        "thread 'main' panicked at c.rs:1:43: index out of bounds: the len is 0 but the index is 3",
    ),
    "Rust before 1.73": (
        "thread 'main' panicked at 'no map', c.rs:1:12\n"
        "note: Some details are omitted\n",
        "thread 'main' panicked at 'no map', c.rs:1:12",
    ),
    "Rust, an error of main": (
        "Error: ParseIntError { kind: Empty }\n",
        "Error: ParseIntError { kind: Empty }",
    ),
    "Go": (
        "panic: runtime error: index out of range [3] with length 0\n"
        "\n"
        "goroutine 1 [running]:\n"
        "main.main()\n"
        "\t/x/c.go:5 +0x1d\n"
        "exit status 2\n",
        "panic: runtime error: index out of range [3] with length 0",
    ),
    "C++": (
        "terminate called after throwing an instance of 'std::out_of_range'\n"
        "  what():  vector::_M_range_check\n",
        "terminate called after throwing an instance of 'std::out_of_range': vector::_M_range_check",
    ),
    "C, an assertion": (
        "agent: agent.c:7: main: Assertion `ports > 0' failed.\n",
        "agent: agent.c:7: main: Assertion `ports > 0' failed.",
    ),
    "C, a sanitizer": (
        "=====\n"
        "==4711==ERROR: AddressSanitizer: heap-buffer-overflow on address 0x1\n"
        "  #0 0x2 in main\n"
        "SUMMARY: AddressSanitizer: heap-buffer-overflow\n"
        "==4711==ABORTING\n",
        "====ERROR: AddressSanitizer: heap-buffer-overflow on address 0x1",
    ),
    "C#": (
        "Unhandled exception. System.NullReferenceException: Object reference not set\n"
        "   at Program.Main() in /x/P.cs:line 3\n",
        "Unhandled exception. System.NullReferenceException: Object reference not set",
    ),
    "unknown": (
        "starting\n" "fatal: the map is empty\n" "bye\n",
        "fatal: the map is empty",
    ),
    "nothing that looks like an error": (
        "one\n" "\n" "no such map\n" "\n",
        "no such map",
    ),
    "nothing": ("\n", ""),
}
# crashing programs, and the commands that run them
SOURCES: Dict[str, Tuple[str, List[str], str]] = {
    "c.py": (
        "import sys\nx={}\nx['links']\n",
        [sys.executable, "c.py"],
        "KeyError: 'links' (c.py, line 3)",
    ),
    "c.js": (
        "const a={};a.links.forEach(x=>x)\n",
        ["node", "c.js"],
        "TypeError: Cannot read properties of undefined",
    ),
    "C.java": (
        "public class C{public static void main(String[] a){Object o=null;o.hashCode();}}",
        ["java", "C.java"],
        'Exception in thread "main" java.lang.NullPointerException',
    ),
}


class Errors(unittest.TestCase):
    def test_what_each_language_prints(self) -> None:
        for name, (output, expectation) in PRINTED.items():
            with self.subTest(name):
                self.assertEqual(error_in(output), expectation)

    def test_a_program_that_was_called_otherwise_says_how(self) -> None:
        caller = "python3 careful.py HOST PORT KEY NODES"
        for output, expectation in (
            (
                f"Searches a ring.\n\n    {caller}\n\nNothing is decided by time.\n",
                caller,
            ),
            ("usage: ./careful HOST PORT KEY NODES\n", "./careful HOST PORT KEY NODES"),
            (
                "usage: a.py [-h] nodes\na.py: error: arguments are required: nodes\n",
                "",
            ),
            ("starting\nat HOME SWEET\n", ""),
            ("  HOST PORT\n", ""),
        ):
            self.assertEqual(usage_in(output), expectation)

    def test_who_reads_one_answer_of_a_departure_is_asked_about_the_other(self) -> None:
        output = asked_behind("KeyError: 'ports' (careful.py, line 44)")
        self.assertEqual(
            output,
            "; an answer had no `ports`: a departure is answered twice, are both answers read?",
        )
        self.assertEqual(asked_behind("KeyError: 'links'"), "")

    def test_what_programs_print_here(self) -> None:
        for name, (source, command, expectation) in SOURCES.items():
            if shutil.which(command[0]) is None:
                continue
            with self.subTest(name), tempfile.TemporaryDirectory() as folder:
                (pathlib.Path(folder) / name).write_text(source)
                result = subprocess.run(
                    command, cwd=folder, capture_output=True, text=True
                )
                self.assertTrue(
                    error_in(result.stderr).startswith(expectation), result.stderr
                )

    def test_whatever_is_printed_there_is_a_line_soon(self) -> None:
        for text in (
            "x" * 65_536,
            "a.b" * 20_000,
            "==" * 30_000,
            "  at " * 13_000,
            "\n".join(["^" * 100] * 600),
            "thread '" * 8_000,
            "\0\r\n\t" * 9_000,
        ):
            self.assertNotIn("\n", error_in(text))
            self.assertEqual(usage_in(text), "")
