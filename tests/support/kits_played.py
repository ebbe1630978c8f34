"""Plays the kits of all languages: their own tests, one conversation with a server of
the tests, and rings of eight nodes on the program.

The conversation is the same for all. The server wants each line that it expects, as
JSON, and answers by these lines.
"""
import json
import os
import pathlib
import shlex
import shutil
import socket
import subprocess
import sys
import threading
import time
from typing import Any, Dict, Optional, Sequence, Tuple

from arena_lab.play.kits import KITS, Kit, play_command, write_kit
from arena_lab.sandbox import sandboxes
from arena_lab.sandbox.sandboxes import Isolation
from arena_lab.support.built import TOP
from arena_lab.support.missing import DEBIANS_PYTHON

# what a client says, and the lines that answer it
Turn = Tuple[Dict[str, Any], Tuple[str, ...]]
Talk = Sequence[Turn]

# build outputs of a kit that are not handed in
NOT_HANDED_IN = ("build", "debug", "deps", "incremental", ".fingerprint", "cargo")
ENTER = {"do": "enter", "key": 'k"1'}
GONE = '{"ok":"gone"}'
SECONDS = 60
# Debian's crates, for a machine that reaches no other
CARGO = """[source.crates-io]
replace-with = "debian"
[source.debian]
directory = "/usr/share/cargo/registry"
"""


def here(board: str, outcome: Optional[int]) -> str:
    return json.dumps(
        {"board": board, "from": outcome, "ok": "here", "ports": 2},
        separators=(",", ":"),
    )


def write(expect: str, text: str) -> Dict[str, Any]:
    return {"do": "write", "expect": expect, "put": text}


def depart(port: int) -> Dict[str, Any]:
    return {"do": "depart", "port": port}


def change_board(board: str) -> str:
    return json.dumps({"board": board, "ok": "changed"}, separators=(",", ":"))


# of each connection what is said, on a ring of five nodes: the first is not let in; the
# second comes after the other agent, meets labels that do not agree, a text of other
# characters, and a whiteboard that changes as it writes
NO_ROOM: Talk = [(ENTER, ('{"no":"late"}',))]
SEARCH: Talk = [
    (ENTER, (here("", None),)),
    (write("", "0 0"), (change_board("0 0"),)),
    (depart(1), (GONE, here('say \\ "5"\t\u2713 \U0001f573', 0))),
    (depart(0), (GONE, here("1 0", 1))),
    (write("1 0", "1 1"), (change_board("2 0"),)),
    (write("2 0", "2 1"), ('{"ok":"written"}',)),
    (depart(1), (GONE, here("", 1))),
    ({"do": "accuse", "port": 0}, ('{"ok":"noted"}',)),
]
OVER: Talk = [
    (ENTER, (here("", None),)),
    (write("", "0 0"), ('{"ok":"written"}',)),
    (depart(0), (GONE, '{"ok":"over"}')),
]
UNKNOWN: Talk = [(ENTER, ('{"no":"key"}',))]


class Server:
    """Talks with clients one after the other, and keeps the first thing that was said
    otherwise."""

    def __init__(self, talks: Sequence[Talk]) -> None:
        self._listener = socket.create_server(("127.0.0.1", 0))
        self._listener.settimeout(SECONDS)
        self.port: int = self._listener.getsockname()[1]
        self.fault = "no client came"
        self._thread = threading.Thread(target=self._serve, args=(talks,))
        self._thread.start()

    def _serve(self, talks: Sequence[Talk]) -> None:
        with self._listener:
            for talk in talks:
                try:
                    self.fault = self._talked(talk)
                except (OSError, ValueError) as fault:
                    self.fault = repr(fault)
                if self.fault:
                    return

    def _talked(self, talk: Talk) -> str:
        connection, _ = self._listener.accept()
        connection.settimeout(SECONDS)
        with connection, connection.makefile("rb") as lines:
            for message, answers in talk:
                line = lines.readline()
                if not line or json.loads(line) != message:
                    return f"said {line!r}, where {message} was wanted"
                connection.sendall(
                    "".join(f"{answer}\n" for answer in answers).encode()
                )
            extra = lines.readline()
            return f"said {extra!r} when it had ended" if extra else ""

    def difference(self) -> str:
        """What was said otherwise, if anything was."""
        self._thread.join(SECONDS)
        return self.fault


def run(
    folder: pathlib.Path, words: str, **variables: str
) -> "subprocess.CompletedProcess[str]":
    return subprocess.run(
        shlex.split(words),
        cwd=folder,
        env={**os.environ, **variables},
        text=True,
        timeout=300,
        stdin=subprocess.DEVNULL,
        stdout=subprocess.PIPE,
        stderr=subprocess.STDOUT,
    )


def want(ran_with: "subprocess.CompletedProcess[str]", status: int = 0) -> str:
    if ran_with.returncode != status:
        raise AssertionError(
            f"{ran_with.args} ended with {ran_with.returncode}:\n{ran_with.stdout}"
        )
    return ran_with.stdout


class PlayedKit:
    """A kit that is written to a folder, built and played."""

    def __init__(self, language: str, folder: pathlib.Path, program: str) -> None:
        self.kit: Kit = KITS[language]
        self._folder = folder / language
        self._program = program
        self._home = folder / "cargo"
        self._home.mkdir(exist_ok=True)
        (self._home / "config.toml").write_text(CARGO)
        write_kit(language, self._folder)

    def run(self, words: str, **variables: str) -> "subprocess.CompletedProcess[str]":
        return run(
            self._folder,
            words,
            CARGO_HOME=str(self._home),
            CARGO_NET_OFFLINE="true",
            **variables,
        )

    def build(self) -> None:
        if self.kit.build:
            want(self.run(self.kit.build))

    def own_test(self) -> None:
        if self.kit.test:
            want(self.run(self.kit.test))

    def talk(self) -> None:
        """The search, an end that comes early and a wrong key, by words and by the
        environment. The player of modules has tests of its own."""
        if self.kit.is_module:
            return
        for talks, status in (((NO_ROOM, SEARCH), 0), ((OVER,), 0), ((UNKNOWN,), 1)):
            server = Server(talks)
            by_words = (
                f"{self.kit.play} 127.0.0.1 {server.port} {shlex.quote(ENTER['key'])} 5"
            )
            result = self.run(by_words)
            if server.difference():
                raise AssertionError(
                    f"{self.kit.name}: {server.fault}\n{result.stdout}"
                )
            output = want(result, status)
            if status and "key" not in output:
                raise AssertionError(
                    f"{self.kit.name} does not say why it was refused: {output}"
                )
        server = Server((SEARCH,))
        result = self.run(
            f"{self.kit.play} 5", ARENA_PORT=str(server.port), ARENA_KEY=ENTER["key"]
        )
        if server.difference():
            raise AssertionError(
                f"{self.kit.name} by the environment: {server.fault}\n{result.stdout}"
            )
        want(result)

    def _lab(self, words: str, option: str) -> str:
        """What a command of the lab says of the kit's agent, which the option names."""
        line = (
            f"{sys.executable} -m arena_lab {words} --program {self._program} {option}"
        )
        agent = shlex.quote(play_command(self.kit))
        return want(run(self._folder, f"{line} {agent}", PYTHONPATH=str(TOP)))

    def solve(self) -> None:
        """The black hole of a ring of eight nodes is beside the home base, on either
        side, or far from it."""
        for hole in (1, 4, 7):
            output = self._lab(f"run --network ring:8 --hole {hole}", "--command")
            if "solved 1; failed 0" not in output:
                raise AssertionError(f"{self.kit.name}, black hole {hole}: {output}")

    def explore(self) -> None:
        """Every schedule of a module is tried, with each black hole."""
        if self.kit.is_module:
            output = self._lab("explore --network ring:6", "--agent")
            if "every schedule solves" not in output:
                raise AssertionError(f"{self.kit.name}: {output}")

    def grade(self) -> None:
        """As a hand-in of a course, where programs may make the calls of the system
        that their language needs. It has to repeat too."""
        if sandboxes.strongest() is not Isolation.ALL:
            return
        handed_in = self._folder.parent / f"in-{self._folder.name}"
        file = self._folder.parent / "course.toml"
        shutil.copytree(
            self._folder, handed_in, ignore=shutil.ignore_patterns(*NOT_HANDED_IN)
        )
        file.write_text(
            f"""title = "A kit"
networks = ["ring:6"]
holes = 1
schedulers = ["fair"]
proc = {str(self.kit.name == "Java").lower()}
[[team]]
name = "kit"
files = ["{handed_in.name}"]
command = "{play_command(self.kit)}"
"""
        )
        out = self._folder.parent / f"out-{self._folder.name}"
        output = want(
            run(
                TOP,
                f"{DEBIANS_PYTHON} -m arena_lab grade {file} --out {out} --engine model --workers 1",
            )
        )
        if "solved 1; failed 0" not in output:
            raise AssertionError(
                f"{self.kit.name}, as a hand-in: {output}\n{(out / 'runs.csv').read_text()}"
            )

    def all(self) -> float:
        """Builds, tests and plays the kit; gives for how many seconds."""
        start = time.monotonic()
        for step in (
            self.build,
            self.own_test,
            self.talk,
            self.solve,
            self.explore,
            self.grade,
        ):
            step()
        return time.monotonic() - start
