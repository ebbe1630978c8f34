"""Agents as machines: what each does next is a function of its memory, and each memory
has a number.

`Machines` answers which memory an agent has at the start, and which one after something
has happened to it. An agent that is written as a step is asked
(arena_lab/search/step_machines.py), and its memory is the value that it gives. Another
one is played up to there, and its memory is its history: the agent's number and all
that has happened to it. A program that has ended or failed does nothing more, so all
its histories are one memory then. A program of its own may declare its memory, by a
member `memory` of the line that it sends. When two of its histories lead to one memory,
`MergeChecks` plays the second on beside the first for some steps, and reports a
difference.
"""
import collections
import hashlib
import json
from typing import Any, Dict, FrozenSet, List, Optional, OrderedDict, Tuple

from arena_lab.play.foreign_files import read_by, watch
from arena_lab.play.imports import PACKAGE
from arena_lab.play.players import DONE, TRAVELS, WAKES, Player
from arena_lab.play.teams import INSIDE, AgentWords, digests_of, modules_of
from arena_lab.rules.fixtures import Fixture
from arena_lab.rules.model import Object, command_of, spell, text_of
from arena_lab.search.agent_processes import (
    FAIL,
    SAYS,
    STOP,
    AgentProcess,
    AgentProcesses,
    AgentStep,
    History,
)
from arena_lab.search.history_tree import NoFunctionError
from arena_lab.search.merge_checks import MERGES, MergeChecks
from arena_lab.search.step_machines import StepMachine, StepMemory

# limits on suspended programs: inside the lab, and as processes
MAX_PROGRAMS_LEFT = 4096
MAX_PROCESSES = 200
# of this many programs that are played again one is played from its start
FROM_START = 16


class IdlePrograms:
    """Programs that are left where they wait, by their memories; of too many the oldest
    end."""

    def __init__(self, limit: int) -> None:
        self._most = limit
        self._count = 0
        self.programs: OrderedDict[int, List[AgentProcess]] = collections.OrderedDict()

    def stop(self) -> None:
        for program in self.programs.values():
            for idle_program in program:
                idle_program.player.stop()

    def take(self, memory: int) -> Optional[AgentProcess]:
        """Removes and returns a program suspended at this memory, or None."""
        programs = self.programs.get(memory)
        if not programs:
            return None
        self._count -= 1
        idle_program = programs.pop()
        if not programs:
            del self.programs[memory]
        return idle_program

    def store(self, memory: int, process: AgentProcess) -> None:
        self.programs.setdefault(memory, []).append(process)
        self._count += 1
        if self._count > self._most:
            _, oldest = self.programs.popitem(last=False)
            self._count -= len(oldest)
            for oldest_process in oldest:
                oldest_process.player.stop()


class Machines:
    """The state machines of a team's agents: memories, and transitions by news."""

    def __init__(
        self,
        fixture: Fixture,
        agents: List[AgentWords],
        seconds: float,
        merges: int = MERGES,
    ) -> None:
        """Checks at least `merges` merges of declared memories, all if there are fewer;
        of more, a sample."""
        self.steps: List[AgentStep] = []
        self.asked = 0
        self.names: List[bytes] = []
        self.ways: List[History] = []
        # by memory: the last event of the shortest known history, and its length
        self._short: List[History] = []
        self._length: List[int] = []
        # before the agents' files are loaded, which may take functions out of modules
        watch()
        self._agents = agents
        self._processes = AgentProcesses(fixture, agents, seconds)
        self._fixture = fixture
        # modules are run by the program that searches, which then asks nothing
        self.modules = modules_of(agents)
        # the machines of agents that are written as steps, and what stands behind the
        # numbers of their memories
        self._steps: Dict[AgentWords, StepMachine] = {}
        self._held: Dict[int, Tuple[StepMachine, StepMemory]] = {}
        self._numbers: Dict[bytes, int] = {}
        self._starts: Dict[int, int] = {}
        self._after: Dict[Tuple[int, str], int] = {}
        self._news: Dict[bytes, str] = {}
        # by memory: the first news received there, and the next memory
        self.first: Dict[int, Tuple[str, int]] = {}
        limit = (
            MAX_PROGRAMS_LEFT
            if all(agent.kind == INSIDE for agent in agents)
            else MAX_PROCESSES
        )
        self._left = IdlePrograms(limit)
        self._replayed = 0
        self.beside = MergeChecks(self, merges, limit // 2)

    def start(self) -> None:
        self._processes.start()

    def stop(self) -> None:
        """Ends all programs."""
        self._processes.stop()
        self._left.stop()
        self.beside.stop()

    def begin(self, agent: int) -> int:
        """The memory of an agent at the start."""
        if agent not in self._starts:
            words = self._agents[agent]
            history = (-1 - agent, "")
            if words.is_step():
                machine = self._steps.setdefault(
                    words,
                    StepMachine(
                        words,
                        self._fixture.setup,
                        self._processes.team,
                        self._processes.notes,
                    ),
                )
                self._starts[agent] = self._held_as(
                    machine, machine.begin(self._fixture.keys[agent]), history
                )
            else:
                self._starts[agent] = self._number(
                    self._processes.start_process(agent), history
                )
        return self._starts[agent]

    def next(self, before: int, news: str) -> int:
        """Returns the memory that follows `before` when the agent receives this reply
        or wakes."""
        memory = self._after.get((before, news))
        if memory is not None:
            return memory
        if before in self._held:
            machine, step_memory = self._held[before]
            memory = self._after[before, news] = self._held_as(
                machine, machine.next(step_memory, news), (before, news)
            )
            return memory
        memory = self._after[before, news] = self._number(
            self.replay_program((before, news)), (before, news)
        )
        self.first.setdefault(before, (news, memory))
        self.beside.check_answer(before, news, memory)
        return memory

    def news_in(self, message: bytes) -> str:
        """Returns the news in a question of the program, which spells them behind the
        number of the memory."""
        news = self._news.get(message)
        if news is None:
            question = json.loads(b"{" + message)
            news = self._news[message] = (
                WAKES if "wakes" in question else spell(question["hears"])
            )
        return news

    def way_to(self, memory: int) -> Tuple[int, List[str]]:
        """The agent that was played to a memory first, and what has happened to it, in
        order."""
        return along(self.ways, memory)

    def steps_to(self, memory: int) -> List[AgentStep]:
        """Returns the agent's steps along the history by which the memory was first
        reached."""
        return [
            *(self.steps[before] for before, _ in all_ways(self.ways, memory)[1:]),
            self.steps[memory],
        ]

    def seen_by(self, memory: int) -> Optional[str]:
        """Returns the reply to a look of an agent at this memory if nothing has changed
        since it last saw its node; None if it has seen none."""
        here: Object = {}
        for before, news in all_ways(self.ways, memory)[1:]:
            reply: Object = {} if news == WAKES else json.loads(news)
            if reply.get("ok") == "here":
                here = reply
            elif here and reply.get("ok") in ("changed", "written"):
                answer = (
                    reply
                    if reply["ok"] == "changed"
                    else json.loads(self.steps[before].line)
                )
                here = {**here, "board": answer.get("board", answer.get("put"))}
        return spell(here) if here else None

    def observations(self) -> FrozenSet[str]:
        """Returns what programs inside the lab read or access besides replies, as ends
        of sentences."""
        reads = set(self._processes.notes.reads)
        notes = self._processes.notes
        inside = [agent for agent in self._agents if agent.kind == INSIDE]
        packages = sorted(
            name[len(PACKAGE) :]
            for name in digests_of(inside)
            if name.startswith(PACKAGE)
        )
        if packages:
            reads.add(f"share the installed {', '.join(packages)}")
        if notes.reaches:
            reads.add(f"reach {notes.reaches}")
        return frozenset(reads)

    def read_hashes(self) -> Dict[str, str]:
        """The SHA-256 of each file that programs inside the lab have read, by their
        names."""
        return read_by(self._processes.notes)

    def looks(self, memory: int) -> bool:
        """Returns whether a program that has this memory looks next."""
        step = self.steps[memory]
        return step.does == SAYS and command_of(text_of(step.line)).get("do") == "look"

    def replay_program(self, history: History) -> AgentProcess:
        """A program that has come this way."""
        before, news = history
        if before < 0:
            return self._processes.start_process(-1 - before)
        program = self._left.take(before) or self._played(before)
        self._processes.send_news(program, news)
        return program

    def send_news(self, process: AgentProcess, news: str) -> None:
        """Tells a program a line, or wakes it."""
        self._processes.send_news(process, news)

    def name_of(self, process: AgentProcess, history: History) -> bytes:
        """Returns a name for a program's memory together with its next step."""
        step = process.step()
        player = process.player
        is_over = (
            step.does == FAIL
            or player.line is None
            and bool(step.line)
            or (step.does == STOP and (player.state != TRAVELS or process.has_ended))
        )
        declaration = (
            None if is_over or isinstance(player, Player) else declared_in(step.line)
        )
        memory_text = (
            "over"
            if is_over
            else (
                player.number,
                history if declaration is None else declaration,
                player.state,
            )
        )
        return hashlib.blake2b(
            repr((step, memory_text)).encode(), digest_size=24
        ).digest()

    def leave(self, memory: int, process: AgentProcess) -> None:
        """Leaves a program where it waits, if it has not ended."""
        if process.player.state == DONE:
            process.player.stop()
        else:
            self._left.store(memory, process)

    def _played(self, memory: int) -> AgentProcess:
        """Returns a program replayed to a memory, from the nearest suspended program or
        from the start."""
        program, all_news = self._nearest(memory)
        self._processes.tell_all(program, all_news)
        if program.step() != self.steps[memory]:
            raise NoFunctionError(
                f"agent {program.player.number} does something else when it is played again: explore needs "
                "agents that are functions of what they are told"
            )
        return program

    def _nearest(self, memory: int) -> Tuple[AgentProcess, List[str]]:
        """Returns a program before a memory, and the remaining news. It is a suspended
        program, or (as a check, now and then) a new one."""
        self._replayed += 1
        if self._replayed % FROM_START:
            program_left = self._left_before(memory)
            if program_left is not None:
                return program_left
        agent, all_news = along(self._short, memory)
        return self._processes.start_process(agent), all_news

    def _left_before(self, memory: int) -> Optional[Tuple[AgentProcess, List[str]]]:
        """Returns the nearest suspended program on the shortest history of a memory,
        and the remaining news. Programs on other histories are not considered, because
        looking for them takes longer than replaying."""
        programs = self._left.programs
        short = self._short
        all_news: List[str] = []
        while memory >= 0:
            if memory in programs:
                program = self._left.take(memory)
                return (program, all_news[::-1]) if program else None
            memory, news = short[memory]
            all_news.append(news)
        return None

    def _number(self, process: AgentProcess, history: History) -> int:
        """Returns the number of a program's memory. The program is suspended there, or
        checked against the first one."""
        name = self.name_of(process, history)
        number, is_new = self._named(name, history, process.step())
        if not is_new:
            self._shorten(number, history)
            if self.beside.takes(number, process, history):
                return number
        self.leave(number, process)
        return number

    def _held_as(
        self, machine: StepMachine, memory: StepMemory, history: History
    ) -> int:
        """The number of what an agent holds that is written as a step."""
        name = hashlib.blake2b(
            repr((machine.words, memory)).encode(errors="replace"), digest_size=24
        ).digest()
        number, is_new = self._named(name, history, memory.step)
        if is_new:
            self._held[number] = machine, memory
        return number

    def _named(
        self, name: bytes, history: History, step: AgentStep
    ) -> Tuple[int, bool]:
        """Returns the number of a memory by name, and whether it is new."""
        self.asked += 1
        number = self._numbers.get(name)
        if number is not None:
            return number, False
        number = self._numbers[name] = len(self.ways)
        self.ways.append(history)
        self._short.append(history)
        self._length.append(self._length_of(history))
        self.steps.append(step)
        self.names.append(name)
        return number, True

    def _length_of(self, history: History) -> int:
        return self._length[history[0]] + 1 if history[0] >= 0 else 0

    def _shorten(self, number: int, history: History) -> None:
        """Stores a history of a memory if it is the shortest so far; later replays use
        it."""
        if self._length_of(history) < self._length[number]:
            self._short[number], self._length[number] = history, self._length_of(
                history
            )


def all_ways(ways: List[History], memory: int) -> List[History]:
    """The ways on which an agent comes to a memory, from its start on."""
    path = [ways[memory]]
    while path[-1][0] >= 0:
        path.append(ways[path[-1][0]])
    return path[::-1]


def along(ways: List[History], memory: int) -> Tuple[int, List[str]]:
    """The agent that comes to a memory on these ways, and what happens to it, in
    order."""
    (start, _), *later_ways = all_ways(ways, memory)
    return -1 - start, [news for _, news in later_ways]


def declared_in(line: bytes) -> Any:
    """Returns the memory that a line declares, as spelled there, or None."""
    try:
        command = json.loads(line)
    except ValueError:
        return None
    return (
        json.dumps(command["memory"], sort_keys=True)
        if isinstance(command, dict) and "memory" in command
        else None
    )
