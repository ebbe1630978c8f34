"""Plays a team under the schedules of a scheduler, one for each seed.

    ./arena-lab run --network ring:8 --agent "examples/agents/ring.py {nodes}" --scheduler slow-agents --runs 300
    ./arena-lab run --network ring:8 --command "python3 examples/agents/ring.py {host} {port} {key} 8"

The command says what the matches came to. It names the seed of the shortest match in
which the team failed, or else of the match with the most moves. With --keep it writes
that match to a folder: its schedule, the script for `arena rehearse`, its replay and a
page.

With --repeat each agent of a match is started again after the match, alone and with
another key, and gets the same replies. It must send the same commands, or the team
fails, and a line names the first command that differs. A course counts a match only if
it repeats so (`./arena-lab grade`): a program may use its replies and the number in
ARENA_SEED, and nothing else.

--workers spreads the matches over processes; the rows are the same. With --json each
match is a line of JSON on standard output, and what they came to is said on standard
error:

    ./arena-lab run --agent "examples/agents/ring.py {nodes}" --seeds 100:120 --workers 4 --json > out/rows.jsonl

Schedulers:
    fair            every choice is as likely as any other
    slow-agents     some agents are answered late for the whole match, and some arrive late
    slow-links      some links are slow for the whole match
    last-departed   links are last in, first out
    starved         agent SEED, counted round the team, waits as long as anything else can happen
    oblivious       the oblivious schedule of a contest whose seed is SEED, with 10 scales and odds of 32, for agents
                    that answer within their turn
    FILE.py:NAME    your own: a function of the seed that gives a function of (choices, state) that gives a choice
"""
import argparse
import contextlib
import collections
import pathlib
import re
import sys
from typing import Counter, Iterable, List, Optional, TextIO, Tuple

from arena_lab.command_line.arguments import (
    add_engine,
    add_match,
    add_repeat,
    at_least_one,
    game_of,
    program_of,
)
from arena_lab.play import games
from arena_lab.play.games import MatchRequest, Row


class Tally:
    """Counts of the outcomes of matches."""

    def __init__(self) -> None:
        self.outcomes: Counter[str] = collections.Counter()
        self.failed = 0
        # how many failed though the network was solved, since an agent did
        self.beside = 0
        # the shortest match in which the team failed, or else the match with the most
        # moves
        self.best: Optional[Row] = None

    def add(self, row: Row) -> None:
        outcome = row["outcome"].split()[0]
        self.outcomes[outcome] += 1
        self.failed += row["failed"]
        self.beside += row["failed"] and outcome == "solved"
        if self.best is None or rank(row) > rank(self.best):
            self.best = row


def rank(row: Row) -> Tuple[bool, int]:
    """Returns how much a match is worth."""
    return (True, -row["choices"]) if row["failed"] else (False, row["moves"])


def seeds(word: str) -> range:
    """Seeds in words: `A:B` for those from A up to B, without B."""
    match = re.fullmatch(r"(-?\d+):(-?\d+)", word)
    if not match or int(match[1]) >= int(match[2]):
        raise argparse.ArgumentTypeError(
            f"{word} names no seeds: write A:B for those from A up to B, without B"
        )
    return range(int(match[1]), int(match[2]))


def add_arguments(parser: argparse.ArgumentParser) -> None:
    """Adds the arguments of `run`."""
    add_match(parser)
    parser.add_argument(
        "--scheduler",
        metavar="NAME",
        default="fair",
        help="who chooses what happens next (fair)",
    )
    parser.add_argument(
        "--seed", metavar="S", type=int, default=0, help="the first seed (0)"
    )
    parser.add_argument(
        "--runs", metavar="N", type=at_least_one, default=1, help="how many seeds (1)"
    )
    parser.add_argument(
        "--seeds",
        metavar="A:B",
        type=seeds,
        help="the seeds from A up to B, without B, instead of " "--seed and --runs",
    )
    parser.add_argument(
        "--workers",
        metavar="N",
        type=at_least_one,
        default=1,
        help="how many processes play (1)",
    )
    parser.add_argument(
        "--json",
        action="store_true",
        help="print each match as a line of JSON, and what they came to "
        "on standard error",
    )
    add_repeat(parser)
    parser.add_argument(
        "--keep",
        metavar="FOLDER",
        type=pathlib.Path,
        help="write the match that is told there",
    )
    add_engine(parser)


def run(args: argparse.Namespace) -> int:
    program = program_of(args)
    game = game_of(args)
    games.maker_of(args.scheduler)
    numbers = args.seeds or range(args.seed, args.seed + args.runs)
    requests = [
        MatchRequest(game, args.scheduler, seed, program, args.repeat)
        for seed in numbers
    ]
    tally = Tally()
    was_stopped = False
    out = sys.stderr if args.json else sys.stdout
    stream = sys.stdout
    try:
        # what agents print is no row
        with contextlib.redirect_stdout(out):
            count(
                games.rows_of(requests, args.workers),
                tally,
                stream if args.json else None,
            )
    except KeyboardInterrupt:
        was_stopped = True
        print("interrupted; this was played:", file=out)
    if tally.best is None:
        return 130
    report(tally, tally.best, args.keep, out)
    return 1 if tally.failed else 130 if was_stopped else 0


def count(rows: Iterable[Row], tally: Tally, stream: Optional[TextIO]) -> None:
    """Counts outcomes, and prints the rows to the stream, if any."""
    for row in rows:
        tally.add(row)
        if stream:
            print(row.line(), file=stream, flush=True)


def report(tally: Tally, best: Row, keep: Optional[pathlib.Path], out: TextIO) -> None:
    """Prints the outcomes of the matches, and the match that is worth most."""
    counts = ", ".join(
        f"{outcome} {count}" for outcome, count in tally.outcomes.most_common()
    )
    match_count = sum(tally.outcomes.values())
    best_text = "the shortest that failed" if tally.failed else "the most moves"
    record = best.match()
    beside = (
        f", of which {tally.beside} solved, but an agent failed" if tally.beside else ""
    )
    lines: List[str] = [
        f"{match_count} schedule{'' if match_count == 1 else 's'}: {counts}; failed {tally.failed}{beside}",
        f"{best_text}: seed {best['seed']}, home {best['home']}, holes {best['holes']}, "
        f"{record.verdict}",
        *record.report(),
        *record.faults(),
        *record.match.refusals,
    ]
    print("\n".join(lines), file=out)
    if keep:
        print("\n".join(record.keep(keep)), file=out)
