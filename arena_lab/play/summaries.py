"""What came of a match that was played, as one record: rows of notebooks, cells of
tables and lines are made of it."""
import dataclasses
import hashlib
import pathlib
import tempfile
from typing import Any, Dict, Optional, Sequence

from arena_lab.play.matches import PlayedMatch
from arena_lab.rules.engines import program_verdict
from arena_lab.rules.model import Verdict


@dataclasses.dataclass(frozen=True)
class Summary:
    """The summary of a match: verdict, number of commands, length of the log, SHA-256
    of the replay, and faults of agents."""

    verdict: Verdict
    commands: int = 0
    events: int = 0
    replay: str = ""
    faults: Sequence[str] = ()

    def columns(self) -> Dict[str, Any]:
        """The columns that each table of matches has."""
        return {
            **self.verdict._asdict(),
            "commands": self.commands,
            "events": self.events,
        }


def verdict_by(program: Optional[str], match: PlayedMatch) -> Verdict:
    """The verdict of the engine that played: the program, or the Python model."""
    if program is None:
        return match.verdict()
    with tempfile.NamedTemporaryFile(suffix=".jsonl") as file:
        file.write(match.replay)
        file.flush()
        return program_verdict(program, pathlib.Path(file.name))


def summary_of(match: PlayedMatch, program: Optional[str]) -> Summary:
    """The record of a match that was played."""
    return Summary(
        verdict_by(program, match),
        sum(agent.used for agent in match.match.agents),
        len(match.match.log),
        hashlib.sha256(match.replay).hexdigest(),
        match.faults,
    )
