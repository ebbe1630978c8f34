"""Replays drawn schedules with the agents' programs, and compares each step with the
recorded answers. This checks that an agent is a function of its history, or of its
declared memory."""
import random
from typing import List

from arena_lab.play.matches import Player, MatchRun
from arena_lab.play.players import DONE, SLEEPS, WAITS, WAKES
from arena_lab.play.teams import AgentWords, Together
from arena_lab.rules.fixtures import Fixture
from arena_lab.rules.model import AWAY, ENDED
from arena_lab.rules.rehearsal import Rehearsal
from arena_lab.search.machines import Machines
from arena_lab.search.history_tree import NoFunctionError
from arena_lab.search.agent_processes import SLEEP, STOP, AgentStep


class SampledProgram:
    """An agent's program that plays, and its memory by the noted answers."""

    def __init__(self, machines: Machines, player: Player) -> None:
        self._machines = machines
        self.player = player
        self.memory = machines.begin(player.number)
        self.hear = player.hear
        setattr(player, "hear", self._hear)

    def _hear(self, line: str) -> None:
        self.hear(line)
        self.go_on(line)

    def go_on(self, news: str) -> None:
        """Moves to the next noted memory, or asks for it. An agent that sees nothing
        was woken at once."""
        if news == WAKES and self._machines.steps[self.memory].does != SLEEP:
            return
        self.memory = self._machines.next(self.memory, news)

    def compare(self, step_number: int, is_blind: bool, has_ended: bool) -> None:
        """Compares the program's next step with the noted one. An agent that sees
        nothing may still sleep."""
        player = self.player
        step = self._machines.steps[self.memory]
        if has_ended and step.does == STOP:
            # nobody answers what it still says
            return
        if player.state == SLEEPS and not is_blind:
            does = AgentStep(SLEEP)
        elif player.state == WAITS and player.line is not None:
            does = AgentStep("says", player.line)
        else:
            # it has ended or travels, and says nothing more or leaves
            return
        if does != step:
            raise NoFunctionError(
                f"after {step_number} choices of a drawn schedule agent {player.number} {does.does} "
                f"{does.line!r}, and it answered {step.does} {step.line!r}: it is no function of what "
                "it is told, or of the memory that it declares"
            )


def follow(
    fixture: Fixture,
    agents: List[AgentWords],
    machines: Machines,
    seed: int,
    seconds: float,
) -> int:
    """Plays a drawn schedule, and compares each step; gives how many there were."""
    rng = random.Random(seed)
    team = Together(agents, fixture, seconds)
    run = MatchRun(Rehearsal(fixture), team, fixture)
    team.start()
    try:
        programs = [SampledProgram(machines, player) for player in team.players]
        steps = 0
        while True:
            choices = run.may_happen()
            if not choices:
                return steps
            choice = rng.choice(choices)
            program = programs[choice.agent]
            is_waking = program.player.state == SLEEPS
            run.happen(choice)
            if is_waking:
                program.go_on(WAKES)
            steps += 1
            if program.player.state != DONE:
                standing = run.match.agents[choice.agent].standing
                program.compare(steps, standing in (AWAY, ENDED), standing == ENDED)
    finally:
        team.stop()
