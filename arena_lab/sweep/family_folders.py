"""The folder of `explore --family`: a row for each match of a family that every schedule
solves."""
import hashlib
import pathlib
import signal
import sys
from typing import Dict, List, NamedTuple, Optional, Sequence

from arena_lab.play.agent_files import digests
from arena_lab.play.parallel import Parallelism
from arena_lab.play.teams import Game, digests_of
from arena_lab.rules.families import FamilyMatch
from arena_lab.rules.networks import Link
from arena_lab.search.driver import ExploreJob, LocalMatches
from arena_lab.search.findings import Solves
from arena_lab.search.history_tree import NoFunctionError
from arena_lab.search.match_results import MatchResult
from arena_lab.support.progress import along
from arena_lab.sweep.proofs import FOUND_COLUMNS, MATCHES, finding_cells
from arena_lab.sweep.tables import (
    cells_in,
    check_asked,
    line_of,
    made_by,
    note_read,
    prepare_table,
    with_check,
)

# columns of a match: its identity in normal form, where each link is node, port, node,
# port, and the finding
COLUMNS = (
    "match",
    "nodes",
    "links",
    "home",
    "hole",
    "agents",
    "naps",
    *FOUND_COLUMNS,
    "check",
)
FINDINGS = slice(-1 - len(FOUND_COLUMNS), -1)


class FamilyJob(NamedTuple):
    """The data that a worker needs to explore matches of a family: the settings of all
    matches, the program, the limit of states, and how many schedules are checked."""

    settings: Game
    program: str
    states: int
    check: int

    def game(self, match: FamilyMatch) -> Game:
        """Returns the game of one match."""
        return self.settings._replace(
            name=name_of(match), network=match.network, home=0, holes=[match.hole]
        )

    def play(self, match: FamilyMatch) -> MatchResult:
        """Tries every schedule of a match, in a process of a command. If that is asked
        to end, it ends the program that searches first."""
        signal.signal(signal.SIGTERM, lambda *_: sys.exit(1))
        matches = LocalMatches(
            ExploreJob(
                self.game(match).matches(), self.program, self.states, self.check
            )
        )
        try:
            result = matches.explore_match(0).match_result
            return result._replace(read_hashes=matches.read())
        finally:
            matches.stop()

    def digests(self) -> Dict[str, str]:
        """Returns the SHA-256 of each file on which the findings depend."""
        return {**digests_of(self.settings.agents), **digests([self.program])}


class Totals(NamedTuple):
    """What the matches of a family came to: how many there are, their states, and the
    most moves and lost agents of all schedules."""

    matches: int
    states: int
    moves: int
    lost: int


class FamilyFolder:
    """The rows of a family's matches, in order. Matches with rows are not explored
    again."""

    def __init__(
        self, path: pathlib.Path, job: FamilyJob, matches: Sequence[FamilyMatch]
    ) -> None:
        self.path = path / MATCHES
        self._folder = path
        self._job = job
        self._matches = matches
        record = {
            **made_by(job.program),
            "files": job.digests(),
            "matches": hashlib.sha256(
                repr((job.settings, matches)).encode()
            ).hexdigest(),
        }
        self.count = prepare_table(path, record, MATCHES, COLUMNS)
        check_asked(
            self.path,
            cells_in(self.path, COLUMNS),
            (match_cells(job, match) for match in matches),
            "match than these: name another folder by --out",
        )

    def explore(self, parallelism: Parallelism) -> Optional[FamilyMatch]:
        """Explores the matches that have no row, and writes their rows in order. Returns
        the first match that is not solved under every schedule, or None."""
        matches = self._matches[self.count :]
        results = parallelism.results(self._job, matches, is_long=True)
        try:
            for result, match in zip(along(results, len(matches), "match"), matches):
                if result.fault:
                    raise NoFunctionError(f"{name_of(match)}: {result.fault}")
                if not isinstance(result.result.answer.finding, Solves):
                    return match
                self._write(match, result.result)
        finally:
            results.close()
        return None

    def _write(self, match: FamilyMatch, result: MatchResult) -> None:
        """Appends the row of a match that every schedule solves."""
        note_read(self._folder, result.read_hashes)
        cells = [*match_cells(self._job, match), *finding_cells(result.answer)]
        with self.path.open("a", encoding="utf-8", newline="") as file:
            file.write(line_of(with_check(cells, COLUMNS)))
        self.count += 1

    def totals(self) -> Totals:
        """Returns what the rows come to."""
        rows = [
            [int(cell or 0) for cell in cells[FINDINGS]]
            for cells in cells_in(self.path, COLUMNS)
        ]
        states, moves, lost, *_ = zip(*rows)
        return Totals(len(rows), sum(states), max(moves), max(lost))


def match_cells(job: FamilyJob, match: FamilyMatch) -> List[str]:
    """The cells that say which match a row is of."""
    links = " ".join(map(link_text, match.network.links))
    agents = len(job.settings.agents)
    numbers = (match.number, match.network.nodes, links, 0, match.hole, agents)
    return [*map(str, numbers), str(job.settings.naps)]


def link_text(link: Link) -> str:
    """Returns a link as `node,port-node,port`."""
    node, port, far_node, far_port = link
    return f"{node},{port}-{far_node},{far_port}"


def name_of(match: FamilyMatch) -> str:
    """Returns a name of a match for people."""
    nodes, links = match.network
    return f"match {match.number} ({nodes} nodes, {len(links)} links, home 0, hole {match.hole})"
