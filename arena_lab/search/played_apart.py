"""Plays histories again in other processes, for each agent alone. There the order of
sets and the places in memory differ, and no other agent has kept anything. So an agent
that depends on an accident of one process differs there."""
import contextlib
import itertools
import os
import pickle
import subprocess
import sys
from typing import Iterator, List, NamedTuple, Optional, Sequence

from arena_lab.play.teams import INSIDE, OUTSIDE, AgentWords
from arena_lab.rules.fixtures import Fixture
from arena_lab.search.agent_processes import AgentProcesses, AgentStep
from arena_lab.search.history_tree import NoFunctionError
from arena_lab.search.machines import Machines
from arena_lab.search.step_machines import StepMachine
from arena_lab.support.built import TOP

# how many histories a process plays, some of them more than once if there are fewer
HISTORIES = 50
# in how many other processes the agents of a game are played at least
PROCESSES = 4
NOBODY = AgentWords(OUTSIDE, "nobody")


class History(NamedTuple):
    """An agent's news, and its steps at the start and after each of them."""

    agent: int
    news: List[str]
    steps: List[AgentStep]


class RetellRequest(NamedTuple):
    """The data that a process needs to replay histories."""

    fixture: Fixture
    agents: List[AgentWords]
    seconds: float
    histories: List[History]


def histories_of(
    machines: Machines, agents: Sequence[AgentWords], first: int
) -> List[History]:
    """Returns histories of agents inside the lab, evenly sampled from the memories
    since `first`. Functions of this process are omitted, because other processes cannot
    import them."""
    numbers = range(first, len(machines.ways))
    histories = []
    for number in numbers[:: max(1, len(numbers) // HISTORIES)]:
        agent, news = machines.way_to(number)
        if agents[agent].kind == INSIDE and agents[agent].function is None:
            histories.append(History(agent, news, machines.steps_to(number)))
    return histories[-HISTORIES:]


def play_apart(
    fixture: Fixture,
    agents: Sequence[AgentWords],
    seconds: float,
    histories: List[History],
    seed: int,
) -> int:
    """Replays histories in another process whose sets are ordered by this seed; returns
    the number of replays."""
    if not histories:
        return 0
    is_there = {history.agent for history in histories}
    agents_there = [
        agent if number in is_there else NOBODY for number, agent in enumerate(agents)
    ]
    message = pickle.dumps(RetellRequest(fixture, agents_there, seconds, histories))
    result = subprocess.run(
        [sys.executable, "-m", __name__],
        input=message,
        capture_output=True,
        check=False,
        env={
            **os.environ,
            "PYTHONHASHSEED": str(seed),
            "PYTHONPATH": os.pathsep.join(
                [str(TOP), *filter(None, [os.environ.get("PYTHONPATH")])]
            ),
        },
    )
    if result.returncode:
        raise NoFunctionError(
            "agents that another process tells the same end it: "
            f"{result.stderr.decode(errors='replace').strip()[-200:]}"
        )
    if result.stdout:
        raise NoFunctionError(result.stdout.decode(errors="replace"))
    return HISTORIES


def difference(request: RetellRequest) -> Optional[str]:
    """Returns the first difference in an agent's steps, or None."""
    processes = AgentProcesses(request.fixture, request.agents, request.seconds)
    processes.start()
    try:
        for history in itertools.islice(itertools.cycle(request.histories), HISTORIES):
            does = steps_of(request, processes, history)
            for number, (step, step_there) in enumerate(zip(does, history.steps)):
                if step != step_there:
                    return (
                        f"agent {history.agent} {step} when it is told the same in another process, after {number} "
                        f"lines, where it {step_there}: it is no function of what it is told. It may go by a clock, by "
                        "chance, by the order of a set, or by what another agent has kept"
                    )
    except NoFunctionError as fault:
        return str(fault)
    finally:
        processes.stop()
    return None


def steps_of(
    request: RetellRequest, processes: AgentProcesses, history: History
) -> Iterator[AgentStep]:
    """Yields an agent's steps at the start of a history and after each news."""
    words = request.agents[history.agent]
    if words.is_step():
        machine = StepMachine(words, request.fixture.setup, processes.team)
        memory = machine.begin(request.fixture.keys[history.agent])
        yield memory.step
        for news in history.news:
            memory = machine.next(memory, news)
            yield memory.step
        return
    process = processes.start_process(history.agent)
    with contextlib.closing(process):
        yield process.step()
        for news in history.news:
            processes.send_news(process, news)
            yield process.step()


def main() -> None:
    request: RetellRequest = pickle.load(sys.stdin.buffer)
    answers = sys.stdout
    # what agents print is no answer
    with contextlib.redirect_stdout(sys.stderr):
        text = difference(request)
    answers.write(text or "")


if __name__ == "__main__":
    main()
