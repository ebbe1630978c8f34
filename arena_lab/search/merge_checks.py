"""Checks merges of declared memories. When a second program reaches a memory, the
search takes both programs for one. `MergeChecks` keeps the second, gives it the same
news as the first, and compares their next steps."""
from typing import Any, Dict, List, NamedTuple

from arena_lab.search.history_tree import NoFunctionError
from arena_lab.search.agent_processes import AgentProcess, History

# how many merges are all checked, and which one of those that follow is; for how many
# steps a program goes on beside another
MERGES = 1000
ONE_OF = 16
STEPS = 4


class MergedProgram(NamedTuple):
    """A program that came to a memory second, that memory, how it came there, and for
    how many steps it still goes on."""

    program: AgentProcess
    memory: int
    history: History
    steps: int


class MergeChecks:
    """The programs that go on beside those that came to their memories first."""

    def __init__(self, machines: Any, merges: int, most_waiting: int) -> None:
        """Checks at least `merges` merges, unless too many programs wait."""
        self._machines = machines
        self._merges = merges
        self._most_waiting = most_waiting
        self.merged = self.checked = self.compared = 0
        self._waiting: Dict[int, List[MergedProgram]] = {}
        self._count = 0

    def stop(self) -> None:
        for waiting in self._waiting.values():
            for second in waiting:
                second.program.player.stop()
        self._waiting = {}

    def takes(self, memory: int, process: AgentProcess, history: History) -> bool:
        """Returns whether this program, which has come to a memory second, goes on
        beside the first."""
        if history == self._machines.ways[memory] or process.is_over():
            return False
        self.merged += 1
        if not self._is_chosen():
            return False
        self.checked += 1
        self._go_on(memory, MergedProgram(process, memory, history, STEPS))
        return True

    def _is_chosen(self) -> bool:
        """Returns whether this merge is checked: all while they are few, then a
        sample."""
        if not self._merges or self._count >= self._most_waiting:
            return False
        return self.checked < self._merges or self.merged % ONE_OF == 0

    def check_answer(self, memory: int, news: str, after: int) -> None:
        """Gives the programs that wait at a memory the news that the first one had
        there."""
        waiting = self._waiting.pop(memory, None)
        if waiting:
            self._count -= len(waiting)
            for second in waiting:
                self._step(memory, second, news, after)

    def _go_on(self, memory: int, second: MergedProgram) -> None:
        """Takes the next noted news, or waits for some."""
        if not second.steps or second.program.is_over():
            self._machines.leave(memory, second.program)
            return
        news = self._machines.first.get(memory)
        if news is None:
            self._waiting.setdefault(memory, []).append(second)
            self._count += 1
        else:
            self._step(memory, second, *news)

    def _step(self, memory: int, second: MergedProgram, news: str, after: int) -> None:
        """Gives the second program the news that the first had at a memory, and
        compares the next steps, and after the last step the memories."""
        machines = self._machines
        process = second.program
        machines.send_news(process, news)
        self.compared += 1
        is_last = second.steps == 1 or process.is_over()
        if (
            process.step() != machines.steps[after]
            or is_last
            and machines.name_of(process, (memory, news)) != machines.names[after]
        ):
            raise NoFunctionError(self._difference(second, after))
        self._go_on(after, second._replace(steps=second.steps - 1))

    def _difference(self, second: MergedProgram, after: int) -> str:
        """Describes how two programs with equal memories continued differently."""
        machines = self._machines
        history = second.history
        agent, first = machines.way_to(after)
        step = second.program.step()
        first_step = machines.steps[after]
        does = (
            f"both {step}, and come to different memories"
            if step == first_step
            else f"one {first_step}, the other {step}"
        )
        other_news = (
            [*machines.way_to(history[0])[1], history[1]] if history[0] >= 0 else []
        )
        return (
            f"agent {agent} came to one memory in two ways, and goes on in two: {does}. What it declares leaves "
            "something out, or it is no function of its memory. The ways: "
            f"{' '.join(first) or 'nothing'}; {' '.join(other_news) or 'nothing'}"
        )
