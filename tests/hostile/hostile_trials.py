"""Has a hall try programs that attack it, while another team tries an honest one.

    /usr/bin/python3 -m tests.hostile.hostile_trials PROGRAM

Each attack must end within the time of a trial, be told for what it is, reach nothing and
leave no process; requests that are too large, too deep or too many at once are refused;
and the honest program is right all along. The last line reads `N passed, M failed`, and
the exit status is 1 if one failed.
"""
import os
import sys
import threading
import time
from typing import Any, Dict, List, Tuple

from arena_lab.sandbox.processes import process_numbers, command_words
from tests.support import halls
from tests.support.counts import report_counts
from tests.support.halls import ServedHall

EDITOR = 'editor = { languages = ["python"], seconds = 12 }'
ENTERS = """import sys
from client import *
agent = Agent.connect(sys.argv[1], int(sys.argv[2]))
board = agent.enter(sys.argv[3]).board
"""
# seconds that a trial may take, with what a busy machine adds
SECONDS = 120
# attacks, and what is told of each; nothing if the hall ends it
ATTACKS: Dict[str, Tuple[str, str]] = {
    "an endless loop": ("while True: pass\n", "has sent no line for 5 s"),
    "a flood of words": ("import sys\nwhile True: sys.stderr.write('x' * 65536)\n", ""),
    "a bomb of processes": (
        "import os\nwhile True:\n    try: os.fork()\n    except OSError: pass\n",
        "has sent no line for 5 s",
    ),
    "memory": ("x = []\nwhile True: x.append(bytearray(10_000_000))\n", ""),
    "whiteboards": (
        ENTERS + "number = 0\nwhile True:\n    number += 1\n"
        "    board = agent.write(board, str(number).ljust(4000, '<')).board\n",
        "used up",
    ),
    "brackets": ("x = " + "(" * 5000 + ")" * 5000 + "\n", "nested parentheses"),
    "marks of lines": (
        "import sys\n"
        "for k in range(100_000): sys.stderr.write(f'\\x1e{k} agent.py:1\\n')\n"
        "sys.exit('File \"/etc/passwd.py\", line 3')\n",
        "status 1",
    ),
    "what is the machine's": (
        "import socket, sys\n"
        "for path in ('/etc/shadow', {folder!r} + '/key.txt', '/proc/1/environ'):\n"
        "    try: sys.exit('REACHED ' + path + open(path).read())\n"
        "    except OSError: pass\n"
        "try: socket.create_connection(('127.0.0.1', {port}), 2)\n"
        "except OSError: sys.exit('nothing')\n"
        "sys.exit('REACHED the hall')\n",
        "nothing",
    ),
}


class AttackedHall:
    """A hall under attack, with the mistakes noticed."""

    def __init__(self, hall: ServedHall) -> None:
        self.hall = hall
        self.tokens = hall.tokens()
        self.faults: List[str] = []
        self.right = 0
        self.honest = 0

    def check(self, is_right: bool, what: str) -> None:
        self.right += is_right
        if not is_right:
            self.faults.append(what)
            print(f"FAULT {what}", flush=True)

    def request(self, name: str, files: Any) -> Any:
        body = {"language": "python", "files": files, "kind": "play"}
        body["network"] = "ring of 5"
        return self.hall.ask("POST", "/api/trials", self.tokens[name], body)

    def run_trial(self, name: str, agent: str = "") -> Any:
        """Runs a trial of an agent (default: the kit's) to its end."""
        kit = self.hall.ask("GET", "/api/drafts/python", self.tokens[name]).json()
        files = {**kit["files"], **({"agent.py": agent} if agent else {})}
        path = f"/api/trials/{self.request(name, files).json()['id']}"

        def ended_trial() -> Any:
            reply = self.hall.ask("GET", path, self.tokens[name]).json()
            return reply if reply["state"] in ("over", "lost") else None

        return self.hall.wait(ended_trial, f"{name}'s trial has ended", SECONDS)

    def attack(self, name: str, agent: str, expectation: str) -> None:
        message = self.run_trial("birch", agent)
        result = message["found"] or {"right": False, "said": [message["fault"]]}
        output = " ".join([*result["said"], *result.get("written", {}).values()])
        is_told = expectation in output or message["state"] == "lost"
        self.check(not result["right"] and is_told, f"{name}: {output[:300]}")
        self.check(
            "REACHED" not in output, f"{name} has reached something: {output[:300]}"
        )

    def be_honest(self, is_over: threading.Event) -> None:
        """Repeats trials of the kit."""
        while not is_over.is_set():
            message = self.run_trial("cedar")
            is_right = bool(message["found"] and message["found"]["right"])
            self.honest += is_right
            self.check(
                is_right, f"the honest program: {message['fault']} {message['found']}"
            )

    def requests(self) -> None:
        """What is too large, too deep, or too many at once."""
        for size, status in ((200_000, 413), (300_000, 413), (7_000_000, 413)):
            reply = self.request("amber", {"agent.py": "x" * size})
            self.check(reply.status == status, f"{size} bytes: {reply.status}")
        for body in (b"[" * 100_000, b'{"files": ' * 20_000, b"\xff", b""):
            reply = self.hall.send(
                "POST", "/api/trials", self.tokens["amber"], body, "application/json"
            )
            is_refused = reply.status in (400, 404)
            self.check(is_refused, f"{body[:9]!r}: {reply.status}")
        files = {"agent.py": "import time; time.sleep(9)"}
        answers: List[int] = []
        threads = [
            threading.Thread(
                target=lambda: answers.append(self.request("amber", files).status)
            )
            for _ in range(6)
        ]
        for each in (threading.Thread.start, threading.Thread.join):
            for thread in threads:
                each(thread)
        self.check(sorted(answers) == [201] + [429] * 5, f"six at once: {answers}")

    def processes_left(self) -> List[str]:
        """Processes of programs."""
        results = [" ".join(command_words(process)) for process in process_numbers()]
        return [result for result in results if "python3 agent.py" in result]


def main(program: str) -> int:
    os.environ["ARENA_PROGRAM"] = program
    with halls.serve_hall(EDITOR) as hall:
        attacked_hall = AttackedHall(hall)
        is_over = threading.Event()
        honest = threading.Thread(target=attacked_hall.be_honest, args=(is_over,))
        honest.start()
        facts = {"folder": str(hall.folder), "port": hall.port}
        try:
            for name, (agent, attack) in ATTACKS.items():
                text = agent.format(**facts) if "{folder" in agent else agent
                attacked_hall.attack(name, text, attack)
            attacked_hall.requests()
        finally:
            is_over.set()
            honest.join()
        attacked_hall.check(attacked_hall.honest > 0, "no honest program was tried")
    time.sleep(1)
    attacked_hall.check(
        not attacked_hall.processes_left(),
        f"processes are left: {attacked_hall.processes_left()}",
    )
    return report_counts(attacked_hall.right, len(attacked_hall.faults))


if __name__ == "__main__":
    if len(sys.argv) != 2:
        sys.exit((__doc__ or "").strip())
    sys.exit(main(sys.argv[1]))
