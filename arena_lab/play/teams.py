"""Teams of players inside the lab and outside, and the games that they play."""
import pathlib
from typing import Callable, Dict, List, NamedTuple, Optional, Sequence

from arena_lab.play.agent_files import (
    AgentError,
    Script,
    digests,
    function_of,
    loaded_function,
    script_of,
    script_of_function,
    source_digest,
    step_of,
)
from arena_lab.play.bounds import LIMIT
from arena_lab.play.runners import ProgramRunner, local_runner
from arena_lab.play.matches import Team
from arena_lab.play.own_modules import OwnModules
from arena_lab.play.players import Team as Inside
from arena_lab.play.programs import seeds_of
from arena_lab.play.programs import Team as Outside
from arena_lab.play.step_agents import Step, is_step
from arena_lab.play.wasm_modules import is_module
from arena_lab.rules import draws
from arena_lab.rules.fixtures import Fixture, MatchError, fixture_of
from arena_lab.rules.limits import MAX_AGENTS, SMALL_BOARD, SMALL_QUOTA
from arena_lab.rules.model import Place, Setup
from arena_lab.rules.networks import Network, NetworkError

INSIDE = "agent"
OUTSIDE = "command"
# default settings of a match
QUOTA = SMALL_QUOTA
BOARD = SMALL_BOARD
NETWORK = "ring:8"
SPURIOUS_WAKEUPS = 2
# how many numberings of ports every schedule is tried with, if they are drawn, and
# among how many draws these are looked for
NUMBERINGS = 16
DRAWS = 128


class AgentWords(NamedTuple):
    """How to play one agent: kind (inside the lab or as a program) and words."""

    kind: str
    words: str
    # an agent inside that is a function of this process, whatever the words
    function: Optional[Callable[..., None]] = None
    # makes where a program of its own runs in a match, each time that it is started
    runner_for: Callable[[Fixture], ProgramRunner] = local_runner

    def __repr__(self) -> str:
        """Leaves `runner_for` out: rows of earlier courses store this text."""
        fields = zip(self._fields[:-1], self[:-1])
        return f"AgentWords({', '.join(f'{name}={value!r}' for name, value in fields)})"

    def name(self) -> str:
        """Returns its name for titles: the file or the function."""
        words = [
            word.partition(":")[0]
            for word in self.words.split()
            if not word.startswith("{")
        ]
        file_names = [
            word
            for word in words
            if pathlib.PurePath(word).suffix in (".py", ".sh", ".jar", ".js")
        ]
        return (
            self.words.partition(":")[2]
            if self.function
            else pathlib.PurePath((file_names or words or ["?"])[0]).name
        )

    def script(self, setup: Setup) -> Script:
        """An agent inside, as it plays this match."""
        return (
            script_of_function(self.function, setup)
            if self.function
            else script_of(self.words, setup)
        )

    def is_module(self) -> bool:
        """Returns whether it runs a WebAssembly module."""
        return self.kind == OUTSIDE and is_module(self.words)

    def is_step(self) -> bool:
        """Returns whether the agent is a step function."""
        return self.kind == INSIDE and is_step(self.function or function_of(self.words))

    def step(self, setup: Setup, modules: OwnModules) -> Step:
        """Returns the agent's step function for this match."""
        return (
            loaded_function(self.function, setup, modules)
            if self.function
            else step_of(self.words, setup, modules)
        )

    def digests(self) -> Dict[str, str]:
        """The SHA-256 of each file that the agent is made of."""
        if self.function:
            return {self.words: source_digest(self.function)}
        # every agent inside the lab has a client, whether its file imports it or not
        return (
            digests([self.words], True, ["client"])
            if self.kind == INSIDE
            else digests([self.words], False)
        )


def agent_named(kind: str, words: str) -> AgentWords:
    """The agent of these words, which an option or a key of this kind names. A module
    is played by a program of its own, whichever names it."""
    return AgentWords(OUTSIDE if is_module(words) else kind, words)


def modules_of(agents: Sequence[AgentWords]) -> List[str]:
    """Returns the module words of a team: one word if all agents run the same module,
    else one per agent. [] if an agent runs no module."""
    if not all(agent.is_module() for agent in agents):
        return []
    words = [agent.words for agent in agents]
    return words[:1] if len(set(words)) == 1 else words


def digests_of(agents: Sequence[AgentWords]) -> Dict[str, str]:
    """Returns the SHA-256 of each file of the agents."""
    return {
        name: digest
        for agent in dict.fromkeys(agents)
        for name, digest in agent.digests().items()
    }


def fill_team(
    agents: Sequence[AgentWords], count: Optional[int] = None
) -> List[AgentWords]:
    """Returns `count` agents (default: two, or one per named agent); a single named
    agent is repeated."""
    count = (2 if len(agents) == 1 else len(agents)) if count is None else count
    if not 1 <= count <= MAX_AGENTS:
        raise MatchError(f"a match has 1 to {MAX_AGENTS} agents, and not {count}")
    if len(agents) not in (1, count):
        raise AgentError(f"{len(agents)} agents are named, and the match has {count}")
    return list(agents) * count if len(agents) == 1 else list(agents)


def runners_of(
    agents: Sequence[AgentWords], fixture: Fixture
) -> Dict[int, ProgramRunner]:
    """Returns the runners of a team's programs in a match, by agent number."""
    return {
        number: agent.runner_for(fixture)
        for number, agent in enumerate(agents)
        if agent.kind == OUTSIDE
    }


class Together:
    """A team with players inside the lab and programs."""

    def __init__(
        self, agents: Sequence[AgentWords], fixture: Fixture, seconds: float
    ) -> None:
        inside = {
            number: agent.script(fixture.setup)
            for number, agent in enumerate(agents)
            if agent.kind == INSIDE
        }
        outside = {
            number: agent.words
            for number, agent in enumerate(agents)
            if agent.kind == OUTSIDE
        }
        self._teams: List[Team] = (
            [Inside(fixture.keys, inside, seconds)] if inside else []
        )
        runners = runners_of(agents, fixture)
        self._teams += [Outside(fixture, outside, seconds, runners)] if outside else []
        players = [player for team in self._teams for player in team.players]
        self.players = sorted(players, key=lambda player: player.number)

    def start(self) -> None:
        for team in self._teams:
            team.start()

    def stop(self) -> None:
        for team in self._teams:
            team.stop()


def alone(
    number: int, agent: AgentWords, again: Fixture, fixture: Fixture, seconds: float
) -> Team:
    """Returns a team with a single agent of a match, with the keys of `again` and the
    seed of the original match."""
    seeds = seeds_of(fixture)
    if agent.kind == INSIDE:
        script = agent.script(again.setup)
        return Inside(again.keys, {number: script}, seconds, seeds)
    runners = {number: agent.runner_for(again)}
    return Outside(again, {number: agent.words}, seconds, runners, seeds=seeds)


class Matches(NamedTuple):
    """The matches of one team: its agents, the matches, and how many seconds an agent
    may compute."""

    agents: List[AgentWords]
    fixtures: List[Fixture]
    limit: float


class Game(NamedTuple):
    """The settings of matches except those that seeds draw: network, team, and black
    holes or dark links. Without these a seed draws a black hole, and also the home base
    and the ports if they are drawn. A tournament's match is a game, too."""

    name: str
    network: Network
    agents: List[AgentWords]
    home: Optional[int] = 0
    holes: Sequence[int] = ()
    dark: Sequence[Place] = ()
    quota: int = QUOTA
    board: int = BOARD
    naps: int = SPURIOUS_WAKEUPS
    limit: float = LIMIT
    match: Optional[Fixture] = None
    origin: str = ""
    ports: draws.Ports = None

    def fixture(self, seed: int, home: Optional[int] = None) -> Fixture:
        """The match of a seed."""
        if self.match:
            return self.match._replace(naps=self.naps)
        draw_settings = draws.Open(
            self.home if home is None else home, ports=self.ports
        )
        try:
            match = draws.of_number(self.network, seed, draw_settings)
        except NetworkError as fault:
            raise NetworkError(f"{self.name}: {fault}") from None
        if self.holes or self.dark:
            match = match._replace(holes=sorted(self.holes))
        setup = match.setup(len(self.agents), self.quota, self.board, self.dark)
        return fixture_of(setup, seed)._replace(naps=self.naps)

    def where(self) -> str:
        """Returns the settings of the game as text for the origin of schedules."""
        return self.origin if self.match else f" on {self.name}"

    def drawn_games(self) -> List["Game"]:
        """A game for each home base and numbering of ports that is drawn; each has every
        black hole."""
        if self.match:
            return [self]
        homes = range(self.network.nodes)
        if self.home is not None:
            homes = range(self.home, self.home + 1)
        seeds: List[Optional[int]] = []
        if isinstance(self.ports, str):
            seeds += draws.numberings(self.network, NUMBERINGS, range(DRAWS))
        else:
            seeds.append(self.ports)
        title_form = "" if self.home is not None else ", home {}"
        return [
            self._replace(
                name=self.name + draws.ports_text(seed) + title_form.format(home),
                home=home,
                ports=seed,
            )
            for seed in seeds
            for home in homes
        ]

    def fixtures(self) -> List[Fixture]:
        """Its matches: one, or one for each node but the home base as the black hole.
        Their agents have the same keys, as they are taken for the same machines."""
        holes = 1 if self.is_fixed() else self.network.nodes - 1
        keys = draws.keys_of((self.home, self.ports), len(self.agents))
        if self.match:
            keys = self.match.keys
        return [self.fixture(seed)._replace(keys=keys) for seed in range(holes)]

    def matches(self) -> Matches:
        return Matches(self.agents, self.fixtures(), self.limit)

    def is_fixed(self) -> bool:
        """Returns whether all seeds have the same black hole."""
        return bool(self.match or self.holes or self.dark)
