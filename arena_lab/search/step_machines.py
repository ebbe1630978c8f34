"""Agents that are written as a step, as machines: what one does next is asked by its
memory and a reply, and nothing is played again. The memory is named by its value
alone."""
import json
from typing import Any, Dict, NamedTuple, Optional

from arena_lab.play.agent_files import client_module
from arena_lab.play.foreign_files import Notes
from arena_lab.play.own_modules import OwnModules
from arena_lab.play.players import DEPARTED, WAKES, Team, TooSlowError
from arena_lab.play.step_agents import Step, memory_of, name_of
from arena_lab.play.teams import AgentWords
from arena_lab.rules.model import Object, Setup
from arena_lab.search.agent_processes import ENDS, FAIL, SAYS, SLEEP, STOP, AgentStep
from arena_lab.support.missing import require

OUTSIDE = "outside"
WAITS = "waits"
AWAY = "away"
OVER = "over"


class StepMemory(NamedTuple):
    """An agent's phase in the match, the name of its memory, and its next step."""

    where: str
    memory: bytes
    step: AgentStep


START = name_of(None)
ENDED = StepMemory(OVER, b"", AgentStep(STOP))
FAILED = StepMemory(OVER, b"", AgentStep(FAIL))


class StepMachine:
    """The machine of all agents with the same step."""

    def __init__(
        self, agent: AgentWords, setup: Setup, team: Team, notes: Optional[Notes] = None
    ) -> None:
        """Reads and accesses of the step function are recorded in `notes`."""
        self.words = agent.words
        self._agent = agent
        self._setup = setup
        self._team = team
        self._notes = notes or Notes()
        self._modules = OwnModules(0)
        self._loaded: Dict[str, Step] = {}

    def begin(self, key: str) -> StepMemory:
        """Returns the memory of an agent that enters by this key."""
        line = client_module().line_of({"do": "enter", "key": key})
        return StepMemory(OUTSIDE, START, AgentStep(SAYS, line.encode()))

    def next(self, before: StepMemory, news: str) -> StepMemory:
        """The agent once it has heard a reply, or has woken."""
        if before.where == OVER or news in ENDS:
            return ENDED if before.step.does != FAIL else FAILED
        if news == DEPARTED:
            return before._replace(where=AWAY, step=AgentStep(STOP))
        reply: Object = (
            dict(client_module().WOKE) if news == WAKES else json.loads(news)
        )
        if before.where == OUTSIDE and "no" in reply:
            return FAILED
        # in a greenlet, so that the team's clocks end a step that computes without end
        thread = require("greenlet").greenlet(self._taken)
        vars(thread)["notes"] = self._notes
        self._team.turns += 1
        with self._modules:
            memory: StepMemory = thread.switch(before.memory, reply)
        return memory

    def _taken(self, memory: bytes, reply: Object) -> StepMemory:
        """Returns the memory after a step."""
        client: Any = client_module()
        try:
            after, command = self._step()(memory_of(memory), reply)
            name = name_of(after)
            is_sleeping = command["do"] == "sleep"
            line = (
                b"" if is_sleeping else client.line_of(command).encode(errors="replace")
            )
        except (TooSlowError, Exception, SystemExit):
            return FAILED
        return StepMemory(WAITS, name, AgentStep(SLEEP if is_sleeping else SAYS, line))

    def _step(self) -> Step:
        """The step, which is loaded when it is asked first."""
        if not self._loaded:
            self._loaded["step"] = self._agent.step(self._setup, self._modules)
        return self._loaded["step"]
