"""Lines of agents that were refused are told by `run`, `replay`, `grade` and pages, and
change nothing of a match."""
import json
import sys

from arena_lab.__main__ import main
from tests.support.matches import InFolder
from tests.support.output import run_call

LINES = [
    "debug: here",
    '{"do":"depart","port":"0"}',
    '{"do":"move","port":0}',
    '{"do":"depart","port":7}',
    "at \x1b[31m<b>port</b>",
]
RAW = """
import json, socket, sys
host, port, key, lines, tail = sys.argv[1:]
server = socket.create_connection((host, int(port)))
stream = server.makefile("rw", newline="\\n")
for line in ['{"do":"enter","key":"%s"}' % key, *json.loads(lines)]:
    stream.write(line + "\\n"); stream.flush(); stream.readline()
server.sendall(tail.encode())
"""
FIRST = "agent 0: 4 lines were no commands; the first: `debug: here`: it is no JSON: print what is for you to standard"
PORTS = 'agent 0: 1 line named a port that its node does not have: `{"do":"depart","port":7}`: the node has the ports 0'


class Refused(InFolder):
    def setUp(self) -> None:
        super().setUp()
        self.agent = self.folder / "raw.py"
        self.agent.write_text(RAW)

    def command(self, *lines: str, tail: str = "") -> str:
        payload = json.dumps(list(lines)).replace("{", "{{").replace("}", "}}")
        return f"{sys.executable} {self.agent} {{host}} {{port}} {{key}} '{payload}' '{tail}'"

    def output(self, *words: str) -> str:
        output = run_call(main, [*words, "--engine", "model"]).output
        return output

    def play(self, *lines: str, tail: str = "", extra: "tuple[str, ...]" = ()) -> str:
        return self.output(
            "run",
            "--network",
            "ring:4",
            "--hole",
            "2",
            "--agents",
            "1",
            "--command",
            self.command(*lines, tail=tail),
            *extra,
        )

    def test_the_kit_in_python_says_where_it_was_refused(self) -> None:
        run_call(main, ["new", "python", str(self.folder / "kit")])
        path = self.folder / "kit" / "careful.py"
        departs = "here = agent.depart(ahead"
        lines = path.read_text().splitlines()
        line = next(it for it, text in enumerate(lines, 1) if departs in text)
        lines[line - 1] = lines[line - 1].replace(departs, f"{departs} + 2")
        path.write_text("\n".join(lines))
        command = f"{sys.executable} {path} {{host}} {{port}} {{key}} {{nodes}}"
        message = self.output("run", "--network", "ring:8", "--command", command)
        self.assertIn(f": client.NoSuchPort: port (careful.py, line {line})\n", message)

    def test_run_replay_and_the_page_tell_them(self) -> None:
        out = self.folder / "out"
        output = self.play(*LINES, extra=("--keep", str(out)))
        self.assertIn(FIRST, output)
        self.assertIn(PORTS, output)
        self.assertIn(FIRST, (out / "refused.txt").read_text())
        page = (out / "match0.html").read_text()
        self.assertIn("Refused lines", page)
        self.assertIn("debug: here", page)
        again = self.output("replay", str(out))
        self.assertIn(FIRST, again)
        self.assertIn("the replay is the same, byte for byte", again)
        # a find of an earlier version has no such file
        (out / "refused.txt").unlink()
        self.assertNotIn("is not what belongs", self.output("replay", str(out)))

    def test_what_is_shown_is_escaped(self) -> None:
        output = self.play("at \x1b[31m<b>port</b>")
        self.assertIn("`at \\x1b[31m<b>port</b>`", output)
        self.assertNotIn("\x1b", output)

    def test_a_row_of_json_has_them(self) -> None:
        row = json.loads(self.play("look", extra=("--json",)).splitlines()[0])
        self.assertEqual(len(row["refused"]), 1)
        self.assertNotIn("look", " ".join(row["faults"]))

    def test_a_right_line_is_not_told(self) -> None:
        self.assertNotIn("agent 0:", self.play('{"do":"look"}', '{"do":"leave"}'))

    def test_a_first_line_and_an_end_without_a_line_feed(self) -> None:
        self.agent.write_text(RAW.replace('\'{"do":"enter"', '\'\\ufeff{"do":"enter"'))
        output = self.play()
        self.assertIn(
            'agent 0: its first line was no enter: `\\ufeff{"do":"enter","key":"KEY"}`',
            output,
        )
        self.assertIn("a byte order mark stands before the line", output)
        self.agent.write_text(RAW)
        output = self.play(tail="look")
        self.assertIn(
            "what it sent last was not taken, as no line feed stands behind it: `look`",
            output,
        )

    def test_the_page_of_a_team_tells_them_once(self) -> None:
        course = self.folder / "course.toml"
        payload = json.dumps([*LINES[:4]]).replace("{", "{{").replace("}", "}}")
        command = f"python3 raw.py {{host}} {{port}} {{key}} '{payload}' ''"
        course.write_text(
            'title = "T"\nnetworks = ["ring:4"]\nholes = [2]\nseeds = 3\n[[team]]\nname = "a"\n'
            f"agents = 1\nfiles = ['raw.py']\ncommand = {json.dumps(command)}\n"
        )
        out = self.folder / "graded"
        self.output("grade", str(course), "--out", str(out))
        page = (out / "team-a.html").read_text()
        self.assertEqual(
            page.count("lines were no commands; the first: `debug: here`"), 1
        )
        self.assertIn("(matches 0, 1, 2)", page)
