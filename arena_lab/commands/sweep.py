"""Plays teams over a grid of networks, black holes, schedulers and seeds, and writes a
report.

    ./arena-lab sweep experiments/rings.toml --out out/rings

The folder gets `runs.csv`, with a row for each run, `summary.csv`, `report.html`, which
opens without a network, and the runs with the most moves, each with its schedule, its
replay and its page. If you interrupt the command, run it again: it goes on behind the
last row. The same file gives the same rows, however many --workers there are. The
summary counts the different matches of each group: schedulers such as `starved` play
few, however many seeds there are, and then the confidence of the mean says little. With
holes = "by seed" and fewer seeds than nodes it says nothing of the other black holes;
with holes = "drawn" the seeds' black holes are a sample.

With --cluster the runs are spread over the workers of a Dask scheduler (Debian's
python3-distributed), on this machine or others: `dask-scheduler`, then `dask-worker
--nthreads 1 ADDRESS` for each processor, then `--cluster ADDRESS`. The rows are the
same.

A row has the verdict of the program on the replay, and the replay's SHA-256. With
`--engine model` the Python model plays and judges, which is faster and proves nothing;
the rows are the same. If you name a program with it by --program, the program plays the
runs that are kept once more, and their replays must be the same.

With --explore N the program also tries every schedule of each match of the sweep, as
`explore` does: of each network, team and choice of black holes. `every.csv` gets a row
for each, and the summary and the report say whether every schedule solves, and with how
many moves and lost agents at most, beside what the runs came to. Agents nap at most
twice where nothing has changed. A match that has more than N states is said to have too
many; the same command with a larger N tries it again. A run that does what no schedule
does ends the command, and says so.

`made.json` has the SHA-256 of all that rows depend on: the sweep, the files of agents
and schedulers with what they import, the files that agents inside the lab read while
they play, the lab, the program and Python. If one of them is another, or a row is not
of the run that the sweep has there, the command refuses to go on in the folder. With
--verify it plays rows again and says which come out otherwise, and whether
`summary.csv` and `report.html` are what is made of the rows; another engine than the
first may play them.
"""
import argparse
import pathlib

from arena_lab.command_line.arguments import (
    add_engine,
    add_workers,
    at_least_one,
    program_of,
)
from arena_lab.play.games import maker_of
from arena_lab.play.parallel import Parallelism
from arena_lab.rules.engines import program_at
from arena_lab.support.faults import ArenaError
from arena_lab.support.missing import check
from arena_lab.sweep import grid, row_checks
from arena_lab.sweep.sweeping import SweepJob, SweepRequest, made_of, swept, verify_rows
from arena_lab.sweep.tables import alone_in, prepare_table

# packages that write a report; without them a sweep would fail at its end
PACKAGES = ("jinja2", "matplotlib", "scipy")


def add_arguments(parser: argparse.ArgumentParser) -> None:
    """Adds the arguments of `sweep`."""
    group = parser.add_argument_group("the file", grid.__doc__)
    group.add_argument("file", metavar="FILE", type=pathlib.Path, help="the sweep")
    parser.add_argument(
        "--out",
        metavar="FOLDER",
        type=pathlib.Path,
        required=True,
        help="write everything there",
    )
    parser.add_argument(
        "--verify",
        metavar="N",
        type=at_least_one,
        nargs="?",
        const=row_checks.ALL,
        help="write nothing: "
        "play N drawn rows of the folder again, or all, and compare",
    )
    parser.add_argument(
        "--explore",
        metavar="N",
        type=at_least_one,
        help="try every schedule of each match too, up to "
        "N states of each, such as 1000000",
    )
    add_workers(parser)
    parser.add_argument(
        "--cluster",
        metavar="ADDRESS",
        help="let the workers of a Dask scheduler play, such as "
        "tcp://192.0.2.7:8786; each needs this folder at the same path",
    )
    add_engine(parser)


def run(args: argparse.Namespace) -> int:
    check(*PACKAGES)
    spec = grid.read_grid(args.file)
    text = args.file.read_text(encoding="utf-8")
    work = SweepJob(text, program_of(args))
    for name in spec.schedulers:
        maker_of(name)
    cases = list(spec.cases())
    record = made_of(spec, text, work.program)
    request = SweepRequest(
        args.out, Parallelism(args.workers, args.cluster), args.explore
    )
    if args.explore and (work.program is None or args.verify is not None):
        raise ArenaError(
            "--explore needs the program as the engine: leave --engine model out"
            if work.program is None
            else "--verify plays runs again, and tries no schedules: leave --explore out"
        )
    if args.verify is not None:
        return verify_rows(work, cases, record, request, args.verify)
    keeper = work._replace(
        program=work.program or (program_at(args.program) if args.program else None)
    )
    with alone_in(args.out):
        return swept(work, keeper, cases, prepare_table(args.out, record), request)
