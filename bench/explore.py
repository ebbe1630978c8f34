"""Measures how fast the program tries every schedule of a match, apart from the host
that plays the agents.

    tools/build               # proves and builds the program, if that is not done yet
    /usr/bin/python3 -m bench.explore [--max-states N] NETWORK=AGENT ..

Each network is named as for the lab, such as ring:16, and AGENT names an agent of
examples/agents, such as ring. Two agents play, and each node but the home base is the
black hole in turn. First the lab answers the program's questions, and the answers are
kept. Then the program reads them from a file, so what it takes is its own. A line has
the network, the most moves, the states of all matches, the seconds of the whole and of
the program alone, states a second of the latter, and the most memory of one match. The
program is ./arena, or what ARENA names.
"""
import argparse
import concurrent.futures
import json
import os
import pathlib
import resource
import subprocess
import tempfile
import time
from typing import List, NamedTuple, Optional, Tuple
from unittest import mock

from arena_lab.__main__ import parser
from arena_lab.command_line.arguments import games_of
from arena_lab.rules.fixtures import Fixture, write_tournament
from arena_lab.search.findings import Finding, Solves, finding_of
from arena_lab.search.machines import Machines
from arena_lab.search.program_search import ProgramRun, run_search, program_words
from arena_lab.support.faults import ArenaError
from bench.inputs import peak_so_far

TOP = pathlib.Path(__file__).resolve().parents[1]
PROGRAM = os.environ.get("ARENA", str(TOP / "arena"))
AGENTS = TOP / "examples" / "agents"
# the numbers that agents want which want others than how many nodes there are
NUMBERS = {"map": " {nodes} {links}", "known_map": ""}
# more states than any match here has
STATES = 1_000_000_000
# seconds between two looks at the memory of the program
PAUSE = 0.002
OWN = resource.RUSAGE_SELF
CHILDREN = resource.RUSAGE_CHILDREN


class MatchCost(NamedTuple):
    """What one match took: the whole in seconds, and in those of a processor, of which
    the program took its own."""

    states: int
    moves: int
    lost: int
    whole: float
    processor: float
    program: float
    memory: float


class Answers:
    """The answers of a host, as the program is sent them."""

    def __init__(self) -> None:
        self.lines: List[bytes] = []

    def note_answer(self, answer: bytes) -> bytes:
        self.lines.append(answer)
        return answer


def alone(fixture: Fixture, answers: Answers, states: int) -> Tuple[float, float]:
    """The seconds of a processor that the program takes which reads its answers from a
    file, and its megabytes."""
    with tempfile.TemporaryDirectory(prefix="bench-") as name:
        folder = pathlib.Path(name)
        write_tournament(fixture, folder)
        (folder / "answers").write_bytes(b"".join(answers.lines))
        with (folder / "answers").open("rb") as lines:
            return watch_program(
                subprocess.Popen(
                    program_words(PROGRAM, fixture, states),
                    cwd=name,
                    stdin=lines,
                    stdout=subprocess.DEVNULL,
                )
            )


def by_module(fixture: Fixture, module: str, states: int) -> MatchCost:
    """What one match takes whose agents run a module (a word of `--module`), all
    schedules of which solve it."""
    start = time.monotonic()
    with tempfile.TemporaryDirectory(
        prefix="bench-"
    ) as name, tempfile.TemporaryFile() as output_file:
        write_tournament(fixture, pathlib.Path(name))
        words = [*program_words(PROGRAM, fixture, states), "--module", module]
        program, memory = watch_program(
            subprocess.Popen(
                words, cwd=name, stdin=subprocess.DEVNULL, stdout=output_file
            )
        )
        output_file.seek(0)
        finding, counts = (
            json.loads(line) for line in output_file.read().splitlines()[:2]
        )
    solves = as_solved(finding_of(finding))
    whole = time.monotonic() - start
    return MatchCost(
        counts["states"], solves.moves, solves.lost, whole, program, program, memory
    )


def as_solved(finding: Optional[Finding]) -> Solves:
    """What is found of a match, if it is that every schedule solves it."""
    if not isinstance(finding, Solves):
        raise SystemExit(
            f"{PROGRAM} does not say that every schedule solves it: {finding}"
        )
    return finding


def watch_program(child: "subprocess.Popen[bytes]") -> Tuple[float, float]:
    """The seconds of a processor that a program takes to its end, and the most
    megabytes that it was seen to take."""
    peak = 0.0
    while True:
        process, status, usage = os.wait4(child.pid, os.WNOHANG)
        if process:
            child.returncode = os.waitstatus_to_exitcode(status)
            return usage.ru_utime + usage.ru_stime, peak
        peak = max(peak, peak_so_far(child) / 1024)
        time.sleep(PAUSE)


def processor_seconds() -> float:
    """The seconds of a processor that the lab and the programs that it waited for have
    taken so far."""
    return sum(
        usage.ru_utime + usage.ru_stime
        for usage in map(resource.getrusage, (OWN, CHILDREN))
    )


def explore_cost(fixture: Fixture, machines: Machines, states: int) -> MatchCost:
    """What one match takes, all schedules of which solve it."""
    answers = Answers()
    start = time.monotonic()
    before = processor_seconds()
    plain = ProgramRun.answer
    with mock.patch.object(
        ProgramRun,
        "answer",
        lambda run, question: answers.note_answer(plain(run, question)),
    ):
        answer = run_search(PROGRAM, fixture, machines, states)
    whole = time.monotonic() - start
    processor = processor_seconds() - before
    solves = as_solved(answer.finding)
    return MatchCost(
        answer.states or 0,
        solves.moves,
        solves.lost,
        whole,
        processor,
        *alone(fixture, answers, states),
    )


def agent_command(agent: str) -> str:
    """What plays an agent of this name: its file, and the numbers that it wants."""
    return f"{AGENTS / agent}.py{NUMBERS.get(agent, ' {nodes}')}"


def measured_by_module(
    network: str, module: str, states: int, at_a_time: int = 1
) -> List[MatchCost]:
    """What the matches of a network take whose agents run a module with the number of
    nodes as its argument, so many at a time."""
    args = parser().parse_args(
        ["explore", "--network", network, "--agent", agent_command("ring_step")]
    )
    [game] = games_of(args)

    def cost_of(fixture: Fixture) -> MatchCost:
        return by_module(fixture, f"{AGENTS / module}:{fixture.setup.nodes}", states)

    with concurrent.futures.ThreadPoolExecutor(at_a_time) as pool:
        return [*pool.map(cost_of, game.fixtures())]


def measure(network: str, agent: str, states: int) -> List[MatchCost]:
    """What the matches of a network take."""
    args = parser().parse_args(
        ["explore", "--network", network, "--agent", agent_command(agent)]
    )
    [game] = games_of(args)
    fixtures = game.fixtures()
    machines = Machines(fixtures[0], game.agents, game.limit)
    costs = []
    machines.start()
    try:
        for fixture in fixtures:
            costs.append(explore_cost(fixture, machines, states))
    finally:
        machines.stop()
    return costs


def main() -> None:
    parser = argparse.ArgumentParser(description=(__doc__ or "").partition("\n")[0])
    parser.add_argument(
        "--max-states",
        type=int,
        default=STATES,
        help="the most states of a match (1000000000)",
    )
    parser.add_argument("matches", nargs="+", metavar="NETWORK=AGENT")
    words = parser.parse_args()
    print(
        "| network | agent | most moves | states | whole, s | program, s | states a second | memory, MB |"
    )
    print("|---|---|---|---|---|---|---|---|")
    for match in words.matches:
        network, _, agent = match.partition("=")
        costs = measure(network, agent, words.max_states)
        states = sum(cost.states for cost in costs)
        program = sum(cost.program for cost in costs)
        moves = max(cost.moves for cost in costs)
        whole = sum(cost.whole for cost in costs)
        print(
            f"| {network} | {agent} | {moves} | {states:,} | {whole:.1f} | {program:.1f} | {states / program:,.0f} | "
            f"{max(cost.memory for cost in costs):.0f} |",
            flush=True,
        )


if __name__ == "__main__":
    try:
        main()
    except ArenaError as fault:
        raise SystemExit(str(fault)) from None
