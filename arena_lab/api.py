"""The lab for Python programs and notebooks.

    import arena_lab.api as lab

    rows = lab.play("ring:8", "examples/agents/ring.py {nodes}", "slow-agents", seeds=20)
    pandas.DataFrame(rows)                  # a row for each seed
    rows[3].match()                         # the match of a row: a notebook shows it to be watched

A network is a name, as `--network` takes it, a networkx graph, or a `Network`. An agent
is what `--agent` takes, `lab.program("..")` for what `--command` takes, or a function
of this process:

    def search(agent, key, nodes):
        here = agent.enter(key)
        ..

Behind the agent and its key the function may have the parameters `nodes`, `links`,
`home`, `network` and `sleep`. If one agent is named, all `count` agents of the team are
alike; a list names each of them. A scheduler is a name, or a function of the seed that
gives a function of (choices, state). `engine` is "model" for the Python model, which is
not verified, "program" for the program that `./arena-lab` takes, or the path of a
program.

    result = lab.explore("ring:3..6", "examples/agents/ring_step.py {nodes}", engine="program")
    result.solves, result.most_moves        # under every schedule that the lab tried
    result.frame()                          # a frame of pandas, or a list: a row for each network and black hole
"""
import contextlib
import pathlib
from typing import Any, Callable, Iterable, List, Optional, Sequence, Union

from arena_lab.play.agent_files import AgentError, client_module
from arena_lab.play.bounds import LIMIT
from arena_lab.play.games import (
    MatchRequest,
    Record,
    Row,
    SchedulerName,
    play_again,
    rows_of,
)
from arena_lab.play.schedulers import SCHEDULER_MAKERS as SCHEDULERS
from arena_lab.play.teams import (
    BOARD,
    INSIDE,
    SPURIOUS_WAKEUPS,
    OUTSIDE,
    QUOTA,
    AgentWords,
    Game,
    agent_named,
    fill_team,
)
from arena_lab.rules import draws, networks
from arena_lab.rules.engines import MODEL, PROGRAM, name_of, program_at
from arena_lab.rules.model import Place
from arena_lab.rules.networks import Network
from arena_lab.search import hunts as hunting
from arena_lab.search.driver import CHECKED_SAMPLES
from arena_lab.search.program_search import SampleRequest
from arena_lab.search.search_results import (
    Exploration,
    HuntResult,
    SearchResult,
    explore_games,
)
from arena_lab.support.built import ProgramError
from arena_lab.support.progress import bar

__all__ = [
    "SCHEDULERS",
    "Exploration",
    "Game",
    "HuntResult",
    "Network",
    "Record",
    "Row",
    "SampleRequest",
    "SearchResult",
    "client",
    "engine_name",
    "explore",
    "game",
    "hunt",
    "play",
    "program",
]

AgentLike = Union[str, AgentWords, Callable[..., None]]
NetworkLike = Union[str, Network, Any]

# the client of the sample agents: its exceptions are what `agent` raises
client = client_module()


def program(words: str) -> AgentWords:
    """An agent that is a program of its own, by its command line: see `--command`.

    >>> program("./agent {host} {port} {key}").words
    './agent {host} {port} {key}'
    """
    return AgentWords(OUTSIDE, words)


def agent_of(agent: AgentLike) -> AgentWords:
    """An agent as the lab names it."""
    if isinstance(agent, AgentWords):
        return agent
    if isinstance(agent, str):
        return agent_named(INSIDE, agent)
    if not callable(agent):
        raise AgentError(
            f"{agent!r} is no agent: name a file, or give a function of an agent and its key"
        )
    return AgentWords(INSIDE, f"function:{getattr(agent, '__name__', 'agent')}", agent)


def team_of(
    agents: Union[AgentLike, Sequence[AgentLike]], count: Optional[int]
) -> List[AgentWords]:
    """The agents of a team."""
    is_list = isinstance(agents, (list, tuple)) and not isinstance(agents, AgentWords)
    members: Any = agents
    if not is_list:
        members = [agents]
    team = [agent_of(agent) for agent in members]
    return fill_team(team, count)


def game(
    network: NetworkLike,
    agents: Union[AgentLike, Sequence[AgentLike]],
    *,
    count: Optional[int] = None,
    home: Union[None, int, str] = 0,
    holes: Iterable[int] = (),
    dark: Iterable[Place] = (),
    quota: int = QUOTA,
    board: int = BOARD,
    naps: int = SPURIOUS_WAKEUPS,
    limit: float = LIMIT,
    ports: str = draws.GIVEN,
) -> Game:
    """Returns a game. If neither `holes` nor `dark` destroys, each seed draws a black
    hole, and a home base if `home` is "drawn" or None. A dark link is (node, port).
    `ports` are as `--ports` takes them.

    `quota` counts commands of each agent, `board` bytes of a whiteboard, `naps` spurious
    wake-ups of a sleeper, and `limit` seconds that an agent may compute at a time.
    Raises a Fault, whose text says what to change, if there is no such network, agent
    or numbering of ports.

    >>> game("ring:4", "examples/agents/ring.py {nodes}", count=2, holes=[2]).holes
    [2]
    >>> game("ring:2", "examples/agents/ring.py")
    Traceback (most recent call last):
    ...
    arena_lab.rules.networks.NetworkError: ring:2: a network has 3 to 4096 nodes, and this one has 2
    """
    if isinstance(network, str):
        name = network
        base = networks.network_named(network)
    elif isinstance(network, Network):
        name = f"{network.nodes} nodes"
        base = network
    else:
        name = str(getattr(network, "name", "")) or f"graph of {len(network)} nodes"
        base = networks.of_graph(network)
    return Game(
        name,
        networks.check_network(base, name),
        team_of(agents, count),
        home if isinstance(home, int) else None,
        sorted(holes),
        list(dark),
        quota,
        board,
        naps,
        limit,
        ports=draws.ports_of(ports),
    )


def path_of(engine: str) -> Optional[str]:
    """The program that an engine names, or None for the Python model."""
    if engine == MODEL:
        return None
    try:
        return program_at(None if engine == PROGRAM else engine)
    except ProgramError as fault:
        raise ProgramError(
            f"{fault}; or give engine={MODEL!r}: the Python model needs none, and nothing of it is "
            "proved"
        ) from None


def engine_name(engine: str) -> str:
    """Returns the name of an engine, such as "the proved program". A program is called
    proved only if its build recorded the proof. Raises ProgramError if there is no
    program.

    >>> engine_name("model")
    'the Python model, of which nothing is proved'
    """
    return name_of(path_of(engine))


def play(
    network: NetworkLike,
    agents: Union[AgentLike, Sequence[AgentLike]],
    scheduler: SchedulerName = "fair",
    seeds: Union[int, Iterable[int]] = 1,
    *,
    engine: str = MODEL,
    workers: int = 1,
    **extra: Any,
) -> List[Row]:
    """Plays a match for each seed, and gives their rows: dicts with the `seed`, the
    `outcome`, `moves` and agents `lost`, and more that names the match. `seeds` is how
    many, or which; `more` is what `game` takes. Raises what `game` raises, and a
    ValueError for a negative number of seeds.

    >>> rows = play("ring:4", "examples/agents/ring.py {nodes}", seeds=2, count=2, holes=[2])
    >>> [(row["seed"], row["outcome"], row["lost"]) for row in rows]
    [(0, 'solved', 1), (1, 'solved', 1)]
    """
    asked_game = game(network, agents, **extra)
    path = path_of(engine)
    if isinstance(seeds, int) and seeds < 0:
        raise ValueError(
            f"seeds is how many there are, or a list of which, and not {seeds}"
        )
    numbers = range(seeds) if isinstance(seeds, int) else seeds
    requests = [MatchRequest(asked_game, scheduler, seed, path) for seed in numbers]
    return [row.forget() for row in rows_of(requests, workers)]


def explore(
    network: Union[NetworkLike, Sequence[NetworkLike]],
    agents: Union[AgentLike, Sequence[AgentLike]],
    *,
    states: Optional[int] = None,
    engine: str = MODEL,
    draws: Optional[SampleRequest] = None,
    check: int = CHECKED_SAMPLES,
    **extra: Any,
) -> Union[Exploration, SearchResult]:
    """Tries every schedule on a network, or on several: a list, or a range of sizes
    such as "ring:3..8". Each node but the home base is the black hole unless something
    that destroys is named. The program tries them, up to the first match that fails;
    with `draws` it draws schedules instead. The engine "model" searches without it. Of
    `check` drawn schedules the agents play on each network, what they do is compared
    with what they answered. `states` are the most of a match to visit: as many as take
    half of the memory that is left, unless you name a number. Gives a SearchResult by
    the program, and an Exploration by the model. Raises what `game` raises.

    >>> result = explore("ring:3", "examples/agents/ring.py {nodes}", count=2)
    >>> result.solves, result.most_moves
    (True, 4)
    """
    games = [
        game(network_like, agents, **extra) for network_like in networks_in(network)
    ]
    drawn_games = [drawn_game for base in games for drawn_game in base.drawn_games()]
    return explore_games(drawn_games, states, path_of(engine), draws, check)


def networks_in(
    network: Union[NetworkLike, Sequence[NetworkLike]]
) -> List[NetworkLike]:
    """The networks that are named, each by itself."""
    if isinstance(network, (list, tuple)) and not isinstance(network, Network):
        return [
            single_network
            for network_like in network
            for single_network in networks_in(network_like)
        ]
    return list(networks.in_range(network)) if isinstance(network, str) else [network]


def hunt(
    network: NetworkLike,
    agents: Union[AgentLike, Sequence[AgentLike]],
    looking_for: str = hunting.FAILURE,
    *,
    runs: int = hunting.RUNS,
    seed: int = 0,
    any_home: bool = False,
    database: Union[None, str, pathlib.Path] = None,
    engine: str = MODEL,
    **extra: Any,
) -> HuntResult:
    """Searches for a schedule under which the team fails, or one with the most "moves"
    or "lost" agents. The Python model searches, and the engine replays the result. A
    `database` (a folder) provides earlier results, which are tried first. Raises what
    `game` raises, and a ValueError for another objective.

    >>> result = hunt("ring:3", "examples/agents/ring.py {nodes}", runs=5, count=2)
    >>> result.fails, result.verdict.outcome
    (False, 'solved')
    """
    if looking_for not in (hunting.FAILURE, hunting.MOVES, hunting.LOST):
        raise ValueError(
            f"{looking_for}: look for {hunting.FAILURE}, {hunting.MOVES} or {hunting.LOST}"
        )
    path = path_of(engine)
    hunt = hunting.Hunt(
        game(network, agents, **extra),
        looking_for,
        any_home,
        runs,
        seed,
        pathlib.Path(database) if database else None,
    )
    with bar(runs, "schedule") as progress, contextlib.suppress(KeyboardInterrupt):
        hunter = hunting.Hunter(hunt, progress)
        hunting.run_hunter(hunter)
    if hunter.best is None:
        raise KeyboardInterrupt
    record = play_again(hunter.schedule(), path)
    return HuntResult(hunter.tried, record.has_failed, record)
