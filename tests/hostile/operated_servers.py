"""What the cases of operators.py share: servers whose operator asks for the status."""
import pathlib
import re
import subprocess
from typing import List, Optional, Sequence, Tuple

from arena_lab.rules.delays import Delays
from arena_lab.rules.fixtures import Fixture
from arena_lab.rules.networks import ring
from tests.hostile.two_teams import serving
from tests.support.cases import Cases
from tests.support.counts import require
from tests.support.servers import Server, serve
from tests.support.tournaments import match, write_cup

# turns that no test waits for
LONG = 1_000_000
ACCUSE = b'{"do":"accuse","port":1}\n'
# a row of the status: a team with its rank, or one that nobody has entered for
ROW = re.compile(r"^ +(?:\d+ |- )\w.*\n", re.M)
# how many cases run beside each other
BESIDE = 12

CASES = Cases(BESIDE)
case = CASES.case


def heard(program: str, folder: pathlib.Path, *options: str, **extra: object) -> Server:
    """A server whose operator can say something."""
    return serving(
        program, folder, *options, stdin=subprocess.PIPE, **{"turns": LONG, **extra}
    )


def status_text(server: Server, teams: int = 2) -> str:
    """What the operator is told that asks for the status. It ends with a row for each
    team."""
    server.says(b"status\n")
    log = server.tells("closed now:\n")
    while len(ROW.findall(log.rpartition("closed now:\n")[2])) < teams:
        log += server.tells("\n")
    return log


def match_groups(pattern: str, text: str) -> Tuple[str, ...]:
    match = re.search(pattern, text, re.M)
    require(match, f"{pattern!r} is not in {text!r}")
    return match.groups()


def start_server(
    program: str,
    folder: pathlib.Path,
    matches: Sequence[Fixture],
    delays: Optional[Delays] = None,
    **extra: object,
) -> Server:
    """A server of a tournament of these matches."""
    write_cup(folder, matches, delays)
    return serve(program, folder, **{"turns": LONG, "stdin": subprocess.PIPE, **extra})


def on_ring(*teams: str, **extra: int) -> List[Fixture]:
    """A match for each team on the ring of eight nodes."""
    return [match(team, ring(8), [4], **extra) for team in teams]
