#!/usr/bin/env python3
"""Practises in a hall: asks for a match, starts the team's programs, and says what came
of it.

    ARENA_TOKEN=TOKEN python3 practise.py [--times N] HALL NETWORK COMMAND ..

HALL is the hall's address, such as http://127.0.0.1:8000, and NETWORK the name of a
network as the hall shows it. The command starts one agent. In it {host}, {port} and
{key} stand for where the agent connects and by which key it enters, {agent} for its
number, {nodes} and {links} for what is known of the network, and of a network with a
map {network} for a file of its links and {home} for the home base:

    python3 practise.py http://127.0.0.1:8000 "ring of 8" python3 examples/agents/ring.py {host} {port} {key} {nodes}

The token stands on the team's key sheet. It is taken from the variable ARENA_TOKEN, as
everybody on a machine may see the words of commands. It needs nothing but Python.
"""
import argparse
import http.client
import json
import os
import pathlib
import signal
import subprocess
import sys
import tempfile
import time
import urllib.error
import urllib.request
from typing import Any, Dict, List

# seconds between two requests, and seconds to wait for a hall that restarts
EVERY = 1.5
PATIENCE = 300.0
GOES_ON = ("waiting", "held", "running")


class Hall:
    """A hall, as a team asks it."""

    def __init__(self, address: str, token: str) -> None:
        self._address = address.rstrip("/")
        self._token = token
        self._answered = -PATIENCE

    def ask(self, path: str, body: Any = None) -> Any:
        """What the hall answers. If it is asked too often it says how long to wait."""
        headers = {
            "Authorization": f"Bearer {self._token}",
            "Content-Type": "application/json",
        }
        data = None if body is None else json.dumps(body).encode()
        while True:
            try:
                request = urllib.request.Request(
                    f"{self._address}/api{path}", data, headers
                )
                with urllib.request.urlopen(request, timeout=60) as response:
                    self._answered = time.monotonic()
                    return json.load(response)
            except urllib.error.HTTPError as fault:
                wait = fault.headers.get("Retry-After")
                if wait is None:
                    raise SystemExit(
                        f"practise: {json.load(fault).get('error', fault)}"
                    ) from None
                time.sleep(float(wait))
            except (OSError, http.client.HTTPException) as fault:
                if time.monotonic() - self._answered > PATIENCE:
                    raise SystemExit(
                        f"practise: {self._address} does not answer: {fault}"
                    ) from None
                time.sleep(EVERY)


def words_of(
    command: List[str],
    match: Dict[str, Any],
    facts: Dict[str, Any],
    folder: pathlib.Path,
) -> List[List[str]]:
    """The commands of all agents of a match."""
    values = {
        "host": match["host"],
        "port": match["port"],
        "nodes": facts["nodes"],
        "links": facts["links"],
    }
    if match["map"]:
        path = folder / f"network{match['number']}.toml"
        path.write_text(
            f"version = 1\nnodes = {match['map']['nodes']}\nlinks = {match['map']['links']}\n"
        )
        values.update(network=str(path), home=match["map"]["home"])
    return [
        [word.format(key=key, agent=agent, **values) for word in command]
        for agent, key in enumerate(match["keys"])
    ]


def play_match(hall: Hall, args: argparse.Namespace) -> Dict[str, Any]:
    """Plays a match to its end. If the hall begins it anew, it has other keys, and the
    agents are started anew."""
    attempt = hall.ask("/matches", {"network": args.network})
    keys = None
    agents: "List[subprocess.Popen[bytes]]" = []
    with tempfile.TemporaryDirectory() as name:
        try:
            while attempt["state"] in GOES_ON:
                now = [match["keys"] for match in attempt["matches"]]
                if now and now != keys:
                    end(agents)
                    keys = now
                    agents = [
                        subprocess.Popen(line)
                        for match in attempt["matches"]
                        for line in words_of(
                            args.command, match, attempt["facts"], pathlib.Path(name)
                        )
                    ]
                time.sleep(EVERY)
                attempt = hall.ask(f"/matches/{attempt['id']}")
            return dict(attempt)
        finally:
            end(agents)


def end(agents: "List[subprocess.Popen[bytes]]") -> None:
    for agent in agents:
        agent.kill()
        agent.wait()


def said_of(verdict: Dict[str, Any]) -> str:
    """What came of a match, in words."""
    return f"{verdict['outcome']} moves {verdict['moves']} lost {verdict['lost']}"


def main() -> int:
    parser = argparse.ArgumentParser(
        description=__doc__, formatter_class=argparse.RawDescriptionHelpFormatter
    )
    parser.add_argument(
        "--times",
        metavar="N",
        type=int,
        default=1,
        help="how many matches, one after the other (1)",
    )
    parser.add_argument("hall", metavar="HALL")
    parser.add_argument("network", metavar="NETWORK")
    parser.add_argument("command", metavar="COMMAND", nargs=argparse.REMAINDER)
    words = parser.parse_args()
    token = os.environ.get("ARENA_TOKEN")
    if not token or not words.command:
        sys.exit(
            "practise: set ARENA_TOKEN to your team's token, and name the command of an agent: see --help"
        )
    # who is ended ends the agents too
    signal.signal(signal.SIGTERM, lambda *_: sys.exit(143))
    hall = Hall(words.hall, token)
    solved_count = 0
    for _ in range(words.times):
        attempt = play_match(hall, words)
        outcome = ", ".join(map(said_of, attempt["verdicts"]))
        print(
            f"attempt {attempt['id']} on {attempt['network']}: {outcome or attempt['state']}",
            flush=True,
        )
        solved_count += attempt["state"] == "over" and attempt["solved"] == len(
            attempt["verdicts"]
        )
    return 0 if solved_count == words.times else 1


if __name__ == "__main__":
    try:
        sys.exit(main())
    except KeyboardInterrupt:
        print("\npractise: interrupted", file=sys.stderr)
        sys.exit(130)
