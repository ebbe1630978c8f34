"""Candidate invariants on all configurations of small rings: right ones hold, and of wrong
ones the first configuration is told, to which the schedule leads that is kept."""
import contextlib
import pathlib
import random
import re
from typing import Any, List, NamedTuple, Optional, Sequence, Set, Tuple

from arena_lab.__main__ import main
from arena_lab.play import schedulers
from arena_lab.play.players import Team
from arena_lab.play.schedules import read_schedule
from arena_lab.play.teams import INSIDE, AgentWords
from arena_lab.rules.engines import TOP
from arena_lab.rules.fixtures import Fixture, fixture_of
from arena_lab.rules.model import (
    AWAY,
    OUTSIDE,
    PRESENT,
    AgentState,
    Match,
    Object,
    Setup,
    command_of,
    judge,
    text_of,
)
from arena_lab.rules.networks import ring
from arena_lab.search.configurations import (
    After,
    At,
    Before,
    Bound,
    Bounds,
    Configuration,
    Position,
    World,
)
from arena_lab.search.model_search import TooManyStatesError
from arena_lab.search.history_tree import HistoryState
from arena_lab.search.invariants import Candidate, Walk, WalkedMatch, walk_match
from arena_lab.support.progress import NO_PROGRESS
from tests.support.matches import (
    FAULTY,
    MAP,
    InFolder,
    flipped_ring,
    program,
    two,
    under,
)
from tests.support.output import run_call

INVARIANTS = TOP / "examples" / "invariants"
SEEDS = 20


class Mistake(NamedTuple):
    """A text of the shuttle's invariant, a wrong one for it, and what is told on the
    ring of three nodes: of the first configuration at which it is wrong, after how many
    turns, and why."""

    old: str
    new: str
    turns: int
    why: str


MISTAKES = {
    "both agents know of each other at each time": Mistake(
        "(first.theirs == second.mine or second.theirs == first.mine)",
        "first.theirs == second.mine",
        6,
        "the candidate does not hold",
    ),
    "no turn is spent on accusing": Mistake(
        " + (memory.phase == ENDS)",
        "",
        8,
        "left does not fall: it was 10 before the last turn and is 10",
    ),
    "a move less": Mistake(
        "sum(squares) - 1",
        "sum(squares) - 2",
        9,
        "4 moves were made, and bounds says at most 3",
    ),
    "a command less": Mistake(
        "** 2 + world.nodes",
        "** 2",
        9,
        "agent 1 has used 5 commands, and bounds says at most 4",
    ),
}


SHUTTLE = two("shuttle.py", "{nodes}")
TRIANGLE = two("triangle.py")


def place_of(agent: AgentState) -> Position:
    """Returns the position of an agent in a played match."""
    if agent.standing == OUTSIDE:
        return Before()
    if agent.standing == PRESENT:
        return At(agent.node, agent.came)
    return Bound(agent.node, agent.port) if agent.standing == AWAY else After()


def view_of(match: Match) -> Tuple[Any, ...]:
    """Returns the configuration of a played match as a tuple."""
    usage = tuple(agent.used for agent in match.agents)
    return (
        tuple(map(place_of, match.agents)),
        usage,
        tuple(match.boards),
        frozenset(match.reached),
        judge(match).moves,
    )


def shown_by(configuration: Configuration) -> Tuple[Any, ...]:
    return (
        configuration.position,
        configuration.used,
        configuration.shown,
        configuration.reached,
        configuration.moves,
    )


FAILURES = {
    "raises": "agent 0 raises KeyError: 'west'",
    "sleeps": "nothing more can happen, and agent 0 sleeps",
    "crashes_when_it_is_over 0": "when the match is over, agent 0 raises AttributeError: nothing was seen",
}


def with_value(values: Sequence[Any], index: int, value: Any) -> Tuple[Any, ...]:
    return (*values[:index], value, *values[index + 1 :])


def sight(
    world: World, position: Position, view: Sequence[str]
) -> Optional[Tuple[int, str]]:
    """Returns the node in front of an agent and its whiteboard, or None on a link."""
    if isinstance(position, (Bound, After)):
        return None
    node = position.node if isinstance(position, At) else world.home
    return node, view[node]


def after_turn(
    world: World, old: Configuration, agent: int, command: Optional[Object]
) -> Configuration:
    """What the turn of an agent that moves makes of a configuration, as `turn_in` of
    crates/bhs_protocols/specs/Configurations.antt
    says it: it says this command, or arrives, or wakes."""
    position = old.position[agent]
    if isinstance(position, Bound):
        node, label = world.far(position.node, position.port)
        here = {
            "ok": "here",
            "ports": world.degree(node),
            "from": label,
            "board": old.shown[node],
        }
        new = old._replace(
            position=with_value(old.position, agent, At(node, label)),
            reached=old.reached | {node},
        )
        return after_reply(world, old, new, agent, here)
    if command is None:
        return old._replace(
            history=with_value(old.history, agent, (None, *old.history[agent])),
            woken=with_value(old.woken, agent, old.woken[agent] + 1),
        )
    return after_command(world, old, agent, command)


def after_command(
    world: World, old: Configuration, agent: int, command: Object
) -> Configuration:
    """Returns the configuration after an accepted command of an agent at a node, or
    after an entry."""
    position = old.position[agent]
    do = command["do"]
    node = position.node if isinstance(position, At) else world.home
    outcome = position.came if isinstance(position, At) else None
    reply = {
        "ok": "here",
        "ports": world.degree(node),
        "from": outcome,
        "board": old.shown[node],
    }
    new = (
        old
        if do == "enter"
        else old._replace(used=with_value(old.used, agent, old.used[agent] + 1))
    )
    if do == "enter":
        new = new._replace(position=with_value(old.position, agent, At(node, None)))
    elif do == "write" and old.shown[node] == command["expect"]:
        reply = {"ok": "written"}
        new = new._replace(shown=with_value(old.shown, node, command["put"]))
    elif do == "write":
        reply = {"ok": "changed", "board": old.shown[node]}
    elif do == "depart":
        reply = {"ok": "gone"}
        new = new._replace(
            position=with_value(old.position, agent, Bound(node, command["port"])),
            moves=old.moves + 1,
        )
    elif do == "accuse":
        reply = {"ok": "noted"}
        accused_value = with_value(old.accused, agent, (node, command["port"]))
        new = new._replace(
            position=with_value(old.position, agent, After()), accused=accused_value
        )
    return after_reply(world, old, new, agent, reply)


def after_reply(
    world: World, old: Configuration, new: Configuration, agent: int, reply: Object
) -> Configuration:
    """A configuration in which an agent has heard a reply. Who faces another sight than
    before has not woken since."""
    woken = tuple(
        times
        if sight(world, before, old.shown) == sight(world, after, new.shown)
        else 0
        for times, before, after in zip(old.woken, old.position, new.position)
    )
    return new._replace(
        history=with_value(old.history, agent, (reply, *old.history[agent])),
        woken=woken,
    )


class Noting:
    """A candidate that holds everywhere, and notes what it was asked of."""

    def __init__(self) -> None:
        self.found: Set[Tuple[Any, ...]] = set()

    def holds(self, world: World, configuration: Configuration) -> bool:
        self.found.add(shown_by(configuration))
        return True

    def left(self, world: World, configuration: Configuration) -> None:
        """Provides no variant, so that only invariance is checked."""

    def bounds(self, world: World) -> Bounds:
        return Bounds()


class Following(Walk):
    """A search that compares what each turn makes of a configuration with what the
    definitions make of it."""

    def __init__(self, *args: Any) -> None:
        super().__init__(*args)
        self.differ: List[Tuple[Configuration, int]] = []
        self.met: Set[str] = set()

    def _after(self, state: HistoryState, agent: int) -> HistoryState:
        after = super()._after(state, agent)
        configuration = self._configurations.of(state)
        past = state.pasts[agent]
        command = None if past.line is None else command_of(text_of(past.line))
        self.met.add(command["do"] if command else past.state)
        if self._configurations.of(after) != after_turn(
            self._world, configuration, agent, command
        ):
            self.differ.append((configuration, agent))
        return after


class Invariants(InFolder):
    output = ""

    def command(
        self, candidate: object, agents: Sequence[AgentWords], *words: object
    ) -> int:
        """The exit status of `invariant`."""
        names = [word for agent in agents for word in ("--agent", agent.words)]
        status, output, _ = run_call(
            main,
            [
                "invariant",
                str(candidate),
                *names,
                *map(str, words),
                "--keep",
                str(self.folder / "find"),
            ],
        )
        self.output = output
        return status

    def replay(self, *words: str) -> int:
        """The exit status of `replay` of what was kept."""
        return run_call(main, ["replay", str(self.folder / "find"), *words]).status

    def wrong(self, mistake: Mistake) -> pathlib.Path:
        """The file of a wrong candidate."""
        text = (INVARIANTS / "shuttle.py").read_text(encoding="utf-8")
        self.assertEqual(text.count(mistake.old), 1)
        path = self.folder / "wrong.py"
        path.write_text(text.replace(mistake.old, mistake.new), encoding="utf-8")
        return path

    def walk(
        self, fixture: Fixture, agents: Sequence[AgentWords], candidate: Any
    ) -> WalkedMatch:
        return walk_match(fixture, agents, candidate, NO_PROGRESS, 100_000, 5)

    def fixture(
        self, nodes: int, hole: int, labels: int, agents: int = 2, board: int = 4
    ) -> Fixture:
        network = flipped_ring(nodes, random.Random(labels)) if labels else ring(nodes)
        return fixture_of(Setup(nodes, network.links, 0, [hole], agents, 1000, board))

    def test_the_shuttle_keeps_its_invariant_on_small_rings(self) -> None:
        self.assertEqual(
            self.command(INVARIANTS / "shuttle.py", SHUTTLE, "--network", "ring:3..5"),
            0,
            self.output,
        )
        self.assertIn(
            "configurations of 9 matches; configurations that no schedule reaches were not tried",
            self.output,
        )

    def test_labels_of_ports_make_no_difference(self) -> None:
        for agents, name, nodes in (
            (SHUTTLE, "shuttle.py", 4),
            (TRIANGLE, "triangle.py", 3),
        ):
            candidate = Candidate(INVARIANTS / name)
            for labels in range(1, 5):
                for hole in range(1, nodes):
                    with self.subTest(name, labels=labels, hole=hole):
                        result = self.walk(
                            self.fixture(nodes, hole, labels), agents, candidate
                        )
                        self.assertTrue(result.is_whole)
                        self.assertIsNone(result.walk.breach)

    def test_each_order_of_turns_on_the_triangle_is_tried(self) -> None:
        """The agent that is lost has two turns, and the other six: any two numbers of
        turns make a configuration."""
        self.assertEqual(
            self.command(INVARIANTS / "triangle.py", TRIANGLE, "--network", "ring:3"),
            0,
            self.output,
        )
        self.assertEqual(
            self.output.count(": 21 configurations, holds, most moves 3, "), 2
        )

    def test_of_a_wrong_candidate_the_first_picture_is_told(self) -> None:
        for name, mistake in MISTAKES.items():
            with self.subTest(name):
                words = ("--network", "ring:3")
                self.assertEqual(
                    self.command(self.wrong(mistake), SHUTTLE, *words), 1, self.output
                )
                self.assertIn(
                    f"after {mistake.turns} turns: {mistake.why}", self.output
                )
                self.assertEqual(
                    len(read_schedule(self.folder / "find" / "schedule.txt").choices),
                    mistake.turns,
                )
                self.assertEqual(self.replay("--engine", "model"), 0)

    def test_the_page_on_proofs_shows_what_is_told_of_a_wrong_candidate(self) -> None:
        path = self.folder / "wrong.py"
        text = (INVARIANTS / "triangle.py").read_text(encoding="utf-8")
        self.assertEqual(text.count("turns < 3"), 1)
        path.write_text(text.replace("turns < 3", "turns < 2"), encoding="utf-8")
        self.assertEqual(self.command(path, TRIANGLE, "--network", "ring:3"), 1)
        page = (TOP / "docs" / "PROVING.md").read_text(encoding="utf-8")
        match = re.search(
            r"(?:^    .*\n)*^    .* does not hold.*\n(?:^    .*\n)*", page, re.MULTILINE
        )
        assert match is not None
        for line in match[0].splitlines():
            parts = [re.escape(part) for part in line.strip().split("..")]
            self.assertRegex(
                self.output, re.compile("^" + ".*".join(parts) + "$", re.MULTILINE)
            )

    def test_the_schedule_that_is_told_leads_to_the_picture(self) -> None:
        for name, mistake in MISTAKES.items():
            with self.subTest(name):
                fixture = self.fixture(4, 2, 0)
                breach = self.walk(
                    fixture, SHUTTLE, Candidate(self.wrong(mistake))
                ).walk.breach
                assert breach is not None
                choices = list(breach.choices)
                match = under(schedulers.recorded_scheduler(choices), fixture, SHUTTLE)
                self.assertEqual(view_of(match.match), shown_by(breach.configuration))
                accused_value = {
                    link_end for link_end in breach.configuration.accused if link_end
                }
                self.assertEqual(set(match.match.accused), accused_value)

    def test_each_picture_that_a_drawn_schedule_comes_to_is_tried(self) -> None:
        for hole in (1, 2, 3):
            noting = Noting()
            fixture = self.fixture(4, hole, 0)
            result = self.walk(fixture, SHUTTLE, noting)
            self.assertTrue(result.is_whole and result.walk.breach is None)
            for seed in range(SEEDS):
                cases_met: Set[Tuple[Any, ...]] = set()
                fair = schedulers.SCHEDULER_MAKERS["fair"](seed)

                def choose(
                    choices: Any,
                    state: Any,
                    fair: Any = fair,
                    cases_met: Any = cases_met,
                ) -> Any:
                    cases_met.add(view_of(state.match))
                    return fair(choices, state)

                match = under(choose, fixture, SHUTTLE)
                self.assertFalse(match.has_failed())
                with self.subTest(hole=hole, seed=seed):
                    self.assertEqual(cases_met - noting.found, set())

    def test_a_match_that_is_not_solved_is_told_whatever_the_candidate(self) -> None:
        path = self.folder / "always.py"
        path.write_text(
            "def holds(world, configuration):\n    return True\n", encoding="utf-8"
        )
        reads_once = [
            AgentWords(
                INSIDE,
                f"{TOP / 'examples' / 'agents' / 'faulty' / 'reads_once.py'} {{nodes}}",
            )
        ]
        self.assertEqual(
            self.command(path, reads_once, "--network", "ring:4", "--hole", "2"), 1
        )
        self.assertIn(
            "nothing more can happen, and the match is not solved: silent", self.output
        )
        self.assertEqual(self.replay("--program", program()), 0)

    def test_agents_that_fail_are_told_whatever_the_candidate(self) -> None:
        (self.folder / "faulty.py").write_text(FAULTY, encoding="utf-8")
        path = self.folder / "always.py"
        path.write_text(
            "def holds(world, configuration):\n    return True\n", encoding="utf-8"
        )
        for words, message in FAILURES.items():
            with self.subTest(words):
                agent = AgentWords(INSIDE, f"{self.folder / 'faulty.py'}:{words}")
                self.assertEqual(
                    self.command(path, [agent], "--network", "ring:3", "--hole", "1"),
                    1,
                    self.output,
                )
                self.assertIn(message, self.output)

    def test_what_is_left_at_the_start_is_within_the_bound(self) -> None:
        path = self.folder / "wrong.py"
        text = (INVARIANTS / "triangle.py").read_text(encoding="utf-8")
        path.write_text(text.replace("turns=8", "turns=7"), encoding="utf-8")
        self.assertEqual(self.command(path, TRIANGLE, "--network", "ring:3"), 1)
        self.assertIn(
            "1 configuration, at the start: left is 8 at the start, and bounds says at most 7 turns",
            self.output,
        )

    def test_a_turn_makes_of_a_picture_what_the_definitions_say(self) -> None:
        cases_met: Set[str] = set()
        for agents, board in ((SHUTTLE, 4), ([MAP] * 3, 4096), (TRIANGLE, 0)):
            with self.subTest(agents[0].words):
                fixture = self.fixture(3, 1, 1, len(agents), board)._replace(naps=1)
                team = Team(fixture.keys, {}, 5)
                team.start()
                walk = Following(
                    fixture,
                    team,
                    [agent.script(fixture.setup) for agent in agents],
                    20_000,
                    Noting(),
                )
                with contextlib.suppress(TooManyStatesError):
                    for _ in walk.explore():
                        pass
                team.stop()
                self.assertIsNone(walk.breach)
                self.assertEqual(walk.differ, [])
                cases_met |= walk.met
        self.assertEqual(
            cases_met,
            {"enter", "depart", "travels", "write", "look", "sleeps", "accuse"},
        )

    def test_a_search_that_is_stopped_says_so(self) -> None:
        self.assertEqual(
            self.command(
                INVARIANTS / "shuttle.py",
                SHUTTLE,
                "--network",
                "ring:4",
                "--max-states",
                50,
            ),
            130,
        )
        self.assertIn(
            "stopped before all configurations were tried; the candidate held at those that were",
            self.output,
        )
