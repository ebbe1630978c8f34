"""The client and the search in C over sockets, served by the stand-in with turns that
wait."""
import contextlib
import socket
import subprocess
import sys
import threading
import time
import unittest
from typing import List

from arena_lab.rules import networks
from examples.agents import client
from examples.agents.client import Agent, Here, Swap
from tests import TOP, needs
from tests.support.output import InTemporary
from tests.support.servers import Server
from tests.support.tournaments import match, write_cup

# seconds within which an agent ends that is not lost, once the other has ended
SOON = 2


class Served(InTemporary):
    """A server of one match, whose turns wait until an agent is on a link."""

    def serve(
        self,
        network: str,
        holes: List[int],
        quota: int,
        sessions: int,
        turns: int = 300,
    ) -> int:
        """Starts a server, and answers its port. The match is closed after these turns,
        or when the test says so."""
        cup = write_cup(
            self.folder,
            [
                match(
                    "red",
                    networks.in_file(str(TOP / "examples" / network)),
                    holes,
                    quota=quota,
                    keys=["ka", "kb"],
                )
            ],
            seed="07" * 32,
        )
        words = [
            sys.executable,
            "-m",
            "tests.support.patient_server",
            "serve",
            cup,
            "--sessions",
            sessions,
            "--turns",
            turns,
            "--pause",
            1,
            "--replay",
            self.folder / "match",
        ]
        self.server = self.enterContext(Server(words, stdin=subprocess.PIPE))
        return self.server.port

    def outcome(self) -> List[str]:
        """Closes the match, and answers the row of its team in the table: place, team,
        outcome, moves and lost."""
        self.server.child.stdin.close()
        return self.server.child.stdout.read().decode().splitlines()[1].split()

    def connect(self, port: int) -> Agent:
        agent = Agent.connect("127.0.0.1", port)
        self.addCleanup(agent.close)
        return agent


class Crowded(unittest.TestCase):
    """A server that has no room for the first connections."""

    def serve(self, answers: List[bytes]) -> int:
        """Gives each connection one of these answers, and answers the port."""
        listener = socket.create_server(("127.0.0.1", 0))
        self.addCleanup(listener.close)

        def run() -> None:
            for text in answers:
                with listener.accept()[0] as connection:
                    connection.recv(1000)
                    connection.sendall(text)

        thread = threading.Thread(target=run)
        thread.start()
        self.addCleanup(thread.join)
        return listener.getsockname()[1]

    def connect(self, port: int) -> Agent:
        agent = Agent.connect("127.0.0.1", port)
        self.addCleanup(agent.close)
        return agent

    def test_an_agent_connects_again_while_there_is_no_room(self) -> None:
        refusal = [b'{"no":"%b"}\n' % why for why in (b"full", b"late", b"memory")]
        port = self.serve(
            [*refusal, b"", b'{"board":"","from":null,"ok":"here","ports":2}\n']
        )
        self.assertEqual(self.connect(port).enter("ka"), Here(2, None, ""))

    def test_a_key_that_is_used_up_is_not_tried_again(self) -> None:
        port = self.serve([b"", b'{"no":"taken"}\n'])
        self.assertRaises(client.KeyTaken, self.connect(port).enter, "ka")


class Clients(Served):
    def test_each_call_and_each_refusal(self) -> None:
        port = self.serve("triangle.toml", [], 7, 5)
        agent = self.connect(port)
        self.assertEqual(agent.enter("ka"), Here(2, None, ""))
        self.assertRaises(client.EnteredTwice, agent.enter, "ka")
        self.assertEqual(agent.write("", "\u20ac"), Swap(True, "\u20ac"))
        self.assertEqual(agent.write("", "b"), Swap(False, "\u20ac"))
        self.assertRaises(client.TooLong, agent.write, "\u20ac", "b" * 65)
        self.assertRaises(client.NoSuchPort, agent.depart, 2)
        self.assertEqual(agent.depart(0), Here(2, 0, ""))
        self.assertEqual(agent.depart(0), Here(2, 0, "\u20ac"))
        self.assertEqual(agent.look(), Here(2, 0, "\u20ac"))
        self.assertRaises(client.Spent, agent.look)
        agent.leave()
        self.assertRaises(client.Disconnected, agent.look)
        self.assertRaises(client.UnknownKey, self.connect(port).enter, "zz")
        self.assertRaises(client.KeyTaken, self.connect(port).enter, "ka")
        self.assertRaises(client.NotEntered, self.connect(port).look)
        second = self.connect(port)
        second.enter("kb")
        second.leave()
        self.assertEqual(self.outcome()[2], "silent")

    def test_a_lost_agent_waits_until_the_match_is_over(self) -> None:
        agent = self.connect(self.serve("triangle.toml", [1], 7, 1, turns=1))
        agent.enter("ka")
        self.assertRaises(client.MatchOver, agent.depart, 0)


@needs("cc", "gcc")
class SearchInC(Served):
    def test_agents_in_c_solve_a_ring_by_themselves_and_with_python(self) -> None:
        program = str(self.folder / "ring")
        source = str(TOP / "examples/agents/ring.c")
        subprocess.run(
            ["cc", "-O2", "-Wall", "-Wextra", "-Werror", "-o", program, source],
            check=True,
        )
        python = [sys.executable, str(TOP / "examples/agents/ring.py"), "127.0.0.1"]
        for hole, commands in (
            (1, [[program], [program]]),
            (4, [[program], python]),
            (7, [python, [program]]),
        ):
            with self.subTest(hole=hole):
                port = str(self.serve("ring8.toml", [hole], 300, 2, turns=700))
                quiet = {"stdout": subprocess.DEVNULL, "stderr": subprocess.DEVNULL}
                agents = [
                    subprocess.Popen([*command, port, key, "8"], **quiet)
                    for command, key in zip(commands, ("ka", "kb"))
                ]
                # one agent accuses and ends; the other one ends soon after, or is lost
                # and ends with the match
                while all(agent.poll() is None for agent in agents):
                    time.sleep(0.01)
                for agent in agents:
                    with contextlib.suppress(subprocess.TimeoutExpired):
                        agent.wait(SOON)
                self.assertEqual(self.outcome()[1:3], ["red", "solved"])
                for agent in agents:
                    agent.wait()
