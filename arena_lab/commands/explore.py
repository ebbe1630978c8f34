"""Tries every schedule of a match on a small network.

    ./arena-lab explore --network ring:6 --agent "examples/agents/ring.py {nodes}"

You may name several networks, such as --network ring:3..8, or --network more than once. Then a table follows with a
row for each network. The command stops at the first network on which a schedule fails.

If you name neither a black hole nor a dark link, each node but the home base is the black hole in turn. The command
says how many states there are and the most moves of all schedules. It stops at the first schedule that fails, and
writes that one to a folder. The exit status is 1 if a schedule fails.

The program tries the schedules (`arena explore`), and the lab plays the agents. The state of an agent is its history:
all replies that it has had. So a network has many states, even if the agent needs little memory. An agent has fewer
states if you write it as a step, a function step(memory, reply) which gives its new memory and its next command: then
its state is its memory, a plain value (examples/agents/ring_step.py, and `take_steps` in client.py beside it). A
program of its own (--command) may declare its memory, by a member "memory" in its lines. It must then depend on that
memory and its key alone.

The result holds for the replies that the agents had, and is no theorem about the agents: they may act otherwise another
time. So the command checks them, and the last line counts the checks:

- The agents play 20 drawn schedules (--check N: N), and must act as before.
- Other processes give an agent inside the lab the same replies. Each has another order of sets.
- On small matches the Python model's search must find the same.
- If two histories lead to one declared memory, both agents are played for some steps and compared.
- If every schedule solves, the agents of one match are repeated alone, as by `run --repeat`. A warning names a
  difference.

A team may run a WebAssembly module, FILE.wasm[:N,..], or each agent its own. The program then runs them itself (`arena
explore --module`), and there are no checks. What it finds is proved of the modules, and the SHA-256 of each file is
printed. That a module is what its file says is tested, not proved. A schedule that fails is kept unless a module sleeps
in it; then its turns are printed.

    ./arena-lab explore --network ring:16 --agent "examples/agents/wasm/ring.wasm:{nodes}"

--check 0 leaves the checks out. The last line also says if agents draw by chance without a seed, read a clock, know
their process or where objects lie, share installed packages, or reach files and programs.

A schedule also fails if an agent raises an exception or breaks a rule, even after its end or the end of the match, and
if an agent sleeps for ever. If an agent may use more commands than its quota, the Python model's search takes over;
--search model asks for it. It plays agents inside the lab, and writes the schedule with the most moves if none fails.

If a network has too many states, use --draws N, which draws N schedules of each match. The program plays a hundred
thousand of them in seconds, once it knows what the agents do. The command says how many solve, and the least, mean,
median and most moves. It keeps the first schedule that fails, or else the worst, and says nothing of other schedules.
--scheduler NAME says how schedules are drawn:

    fair            every choice is as likely as any other
    last-departed   agents go as far as they can
    starved         one agent waits for all others
    slow-agents     some agents are slow
    slow-links      some links are slow

With --objective moves every second schedule begins as the worst so far began, to find one with more moves; --objective
lost seeks more lost agents.

    ./arena-lab explore --network ring:32 --agent "examples/agents/ring_step.py {nodes}" --draws 100000 \
        --objective moves

A sleeper wakes once after each change of the whiteboard in front of it, and --spurious-wakeups times more. So a team
that waits by counting fails if another agent is slower than the count. The result says nothing of agents that wake more
often. A warning follows if an agent still sleeps then, and its next step after one more wake-up was not tried.

--workers N tries N matches of a network at a time, each in a process, and --cluster uses the workers of a Dask
scheduler, as `sweep` does. The result is the same.

With --out FOLDER each match that every schedule solves gets a row in `matches.csv`, and `moves.svg` shows the most
moves of each network over its nodes, beside each --bound. If you interrupt the command, run it again: it goes on behind
the last row. `made.json` has the SHA-256 of all that rows depend on; if one has changed, the command refuses to go on.

    ./arena-lab explore --network ring:3..16 --agent "examples/agents/ring_step.py {nodes}" --workers 4 \
        --out out/rings --bound "2 n log2 n"

--family nodes:5 names all networks of a size, or nodes:3..5 those of several, that no node cuts, each with every home
base and every black hole. --degree-at-most bounds the links of a node. --ports all takes every numbering of the ports,
and drawn:K those of the seeds 0 to K - 1, as shuffled:SEED has them. Networks that differ by the numbers of their nodes
alone are explored once, since agents see ports and no numbers of nodes. Each solved match gets a row in `matches.csv`
of --out (out/family), and the same command goes on behind the last row. It ends with the most moves of all matches, or
with the first match that is not solved, which it keeps as any other. More than 7 nodes need Debian's package nauty.

    ./arena-lab explore --family nodes:5 --degree-at-most 3 --ports drawn:4 --agents 4 \
        --agent "examples/agents/wasm/chart.wasm:{nodes},{links}" --quota 65535 --board 200

A round of turns that may go on for ever is told with the schedule that leads to it. It is fair if each agent that can
move throughout it has a turn in it; if it is not fair, agents may wait for one that never has a turn. A round in which
agents use commands ends with their quota, so there the Python model's search takes over.
"""
import argparse
import itertools
import os
import pathlib
from typing import List, Optional, Union

from arena_lab.command_line.arguments import (
    add_engine,
    add_match,
    at_least_one,
    games_of,
    not_negative,
    program_of,
    team_of,
)
from arena_lab.play import kept_matches
from arena_lab.play.parallel import Parallelism
from arena_lab.play.teams import Game
from arena_lab.rules import draws, families, networks
from arena_lab.rules.engines import MODEL, PROGRAM, program_at
from arena_lab.search import explore_reports, sample_reports
from arena_lab.search.program_search import SampleRequest
from arena_lab.search.model_search import MAX_STATES, check_inside, explore_matches
from arena_lab.search.capacity import OF_MODEL, OF_PROGRAM, fitting
from arena_lab.search.driver import CHECKED_SAMPLES
from arena_lab.support.faults import ArenaError
from arena_lab.support.missing import check
from arena_lab.support.progress import bar
from arena_lab.sweep.family_folders import FamilyFolder, FamilyJob, name_of
from arena_lab.sweep.grid import BOUNDS
from arena_lab.sweep.proofs import MATCHES, Folder
from arena_lab.sweep.tables import alone_in

FOLDER = kept_matches.FOLDER
FAMILY_FOLDER = pathlib.Path("out/family")
# matches of a family at most, all of which are listed first
MAX_MATCHES = 500_000
# schedulers of drawn schedules, and objectives of a hunt
SCHEDULERS = ("fair", "last-departed", "starved", "slow-agents", "slow-links")
OBJECTIVES = ("moves", "lost")


def add_arguments(parser: argparse.ArgumentParser) -> None:
    """Adds the arguments of `explore`."""
    add_match(parser, several=True, parse_ports=family_ports)
    parser.add_argument(
        "--max-states",
        dest="states",
        metavar="N",
        type=at_least_one,
        help="the most states of a "
        "match to visit (as many as take half of the memory that is left). A million take 20 to 100 "
        "megabytes, and by the Python model half a gigabyte to one",
    )
    parser.add_argument(
        "--draws",
        metavar="N",
        type=at_least_one,
        help="draw this many schedules of each match "
        "instead of trying all; for networks with too many states. --max-states then bounds the turns "
        "of each",
    )
    parser.add_argument(
        "--seed", metavar="S", type=not_negative, help="draw them from this seed (0)"
    )
    parser.add_argument(
        "--scheduler",
        dest="by",
        choices=SCHEDULERS,
        help="whose turn it is in them (fair)",
    )
    parser.add_argument(
        "--objective",
        dest="hunt",
        choices=OBJECTIVES,
        help="begin every second one as the worst so far "
        "began, to find more moves or more agents lost",
    )
    parser.add_argument(
        "--keep",
        metavar="FOLDER",
        type=pathlib.Path,
        default=FOLDER,
        help="write the schedule that " f"is told there ({FOLDER})",
    )
    parser.add_argument(
        "--search",
        choices=(PROGRAM, MODEL),
        help="who tries the schedules: the program, or the "
        "Python model (the engine)",
    )
    parser.add_argument(
        "--check",
        metavar="N",
        type=not_negative,
        default=CHECKED_SAMPLES,
        help="after the program's search, "
        "play this many drawn schedules by the agents, and compare what they do with what they "
        f"answered ({CHECKED_SAMPLES}); with 0 nothing else is checked either",
    )
    parser.add_argument(
        "--workers",
        metavar="N",
        type=at_least_one,
        help="how many matches of a network "
        "are tried at a time (1, and of a family as many as there are processors); each takes the memory of "
        "its own states",
    )
    parser.add_argument(
        "--cluster",
        metavar="ADDRESS",
        help="let the workers of a Dask scheduler try them, such as "
        "tcp://192.0.2.7:8786; each needs this folder at the same path",
    )
    parser.add_argument(
        "--out",
        metavar="FOLDER",
        type=pathlib.Path,
        help="write a row for each match that every "
        "schedule solves, and a plot, and go on there if there are rows",
    )
    parser.add_argument(
        "--bound",
        choices=BOUNDS,
        action="append",
        help="moves that the plot shows beside, and more " "by more of these",
    )
    add_family(parser)
    add_engine(parser)


def family_ports(word: str) -> Union[families.FamilyPorts, draws.Ports]:
    """How ports are numbered, of one network or of a family."""
    try:
        return families.ports_of(word)
    except networks.NetworkError as fault:
        raise argparse.ArgumentTypeError(str(fault)) from None


def add_family(parser: argparse.ArgumentParser) -> None:
    """Adds the options that name a family of networks."""
    family = parser.add_argument_group(
        "a family of networks", "These stand in place of the network and its nodes."
    )
    family.add_argument(
        "--family",
        metavar="nodes:N|nodes:N..M",
        help="all networks of these sizes, with each home base and each black hole",
    )
    family.add_argument(
        "--degree-at-most",
        dest="max_degree",
        metavar="D",
        type=at_least_one,
        help="those in which no node has more links",
    )


def run(args: argparse.Namespace) -> int:
    if args.family:
        return explore_family(args)
    if args.max_degree or isinstance(args.ports, families.FamilyPorts):
        raise ArenaError("--degree-at-most and --ports all|drawn:K need --family")
    games = games_of(args)
    engine = program_of(args)
    draws = draws_of(args)
    check_way(args)
    if (args.search or args.engine) == PROGRAM:
        program = engine or program_at(args.program, args.needs)
        parallelism = Parallelism(args.workers or 1, args.cluster)
        states = args.states or states_of(args)
        requests = [
            explore_reports.ExploreRequest(
                game, program, engine, states, args.check, args.keep, parallelism
            )
            for game in games
        ]
        if args.out:
            return write_rows(args, requests)
        return (
            sample_reports.draw_and_report(requests, draws)
            if draws
            else explore_reports.explore_and_report(requests)
        )
    if draws:
        raise ArenaError(
            "--draws needs the program's search: give no --search model, or use `./arena-lab hunt`"
        )
    return max(search_by_model(args, game) for game in games)


def explore_family(args: argparse.Namespace) -> int:
    """Tries the schedules of all matches of a family that have no row yet, and reports
    what the rows come to, or the first match that is not solved."""
    check_family(args)
    program = program_of(args) or program_at(args.program, args.needs)
    workers = args.workers or os.cpu_count() or 1
    states = args.states or (
        MAX_STATES if args.cluster else fitting(OF_PROGRAM, workers)
    )
    family = families.Family(
        families.sizes_of(args.family),
        args.max_degree,
        args.ports or families.FamilyPorts(),
    )
    matches = list(itertools.islice(families.matches_of(family), MAX_MATCHES + 1))
    if len(matches) > MAX_MATCHES:
        raise families.FamilyError(
            f"this family has more than {MAX_MATCHES} matches: name fewer sizes or draws, or bound the degree by "
            "--degree-at-most"
        )
    if not matches:
        raise families.FamilyError(
            "no network is in this family: raise --degree-at-most"
        )
    settings = Game(
        args.family,
        matches[0].network,
        team_of(args),
        quota=args.quota,
        board=args.board,
        naps=args.naps,
        limit=args.limit,
    )
    job = FamilyJob(settings, program, states, args.check)
    out = args.out or FAMILY_FOLDER
    print(f"{len(matches)} matches, whose rows are in {out}", flush=True)
    with alone_in(out):
        folder = FamilyFolder(out, job, matches)
        failing_match = folder.explore(Parallelism(workers, args.cluster))
        if failing_match is None:
            return report_family(folder)
    print(f"{name_of(failing_match)} is not solved; it is tried once more:", flush=True)
    request = explore_reports.ExploreRequest(
        job.game(failing_match),
        program,
        program_of(args),
        states,
        args.check,
        args.keep,
    )
    status = explore_reports.explore_and_report([request])
    if status == 0:
        raise ArenaError(
            "an agent may use more commands than its quota, of which the program finds nothing, and rows are of "
            "what it finds alone: give a larger --quota"
        )
    return status


def report_family(folder: FamilyFolder) -> int:
    """Prints what the rows of a family come to."""
    totals = folder.totals()
    print(
        f"{totals.matches} matches: every schedule solves each; {totals.states} states, most moves {totals.moves}, "
        f"most agents lost {totals.lost}"
    )
    return 0


def check_family(args: argparse.Namespace) -> None:
    """Refuses options that name one network or its nodes, and other searches."""
    for option, value in (
        ("--network", args.networks),
        ("--tournament", args.tournament),
        ("--home", args.home != 0),
        ("--hole", args.hole),
        ("--dark", args.dark),
        ("--draws", args.draws),
        ("--bound", args.bound),
    ):
        if value:
            raise ArenaError(f"--family names all matches: leave {option} out")
    if not isinstance(args.ports, (families.FamilyPorts, type(None))):
        raise ArenaError("the --ports of a family are all or drawn:K")
    if (args.search or args.engine) == MODEL:
        raise ArenaError("--family needs the program's search: give no {MODEL}")


def states_of(args: argparse.Namespace) -> int:
    """Returns how many states of a match are visited at most, if no number is named.
    Workers elsewhere have other memory, and drawn schedules take none for their
    turns."""
    if args.draws is not None or args.cluster:
        return MAX_STATES
    return fitting(OF_PROGRAM, args.workers or 1)


def check_way(args: argparse.Namespace) -> None:
    """Refuses what does not belong together."""
    is_model = (args.search or args.engine) == MODEL
    if args.out and args.draws is not None:
        raise ArenaError("--out is for all schedules: leave --draws out")
    if is_model and (args.out or args.cluster or (args.workers or 1) > 1):
        raise ArenaError(
            "--workers, --cluster and --out need the program's search: give no --search model"
        )
    if args.bound and not args.out:
        raise ArenaError(
            "--bound is for the plot that --out writes: name a folder by --out"
        )


def write_rows(
    args: argparse.Namespace, requests: List[explore_reports.ExploreRequest]
) -> int:
    """Tries the schedules of all matches that have no row yet, and writes rows and a
    plot."""
    check("matplotlib")
    games = [request.game for request in requests]
    with alone_in(args.out):
        folder = Folder(args.out, games, requests[0].program)
        status = explore_reports.explore_and_report(
            [
                request._replace(before=folder.of(games, index), write=folder.add)
                for index, request in enumerate(requests)
            ]
        )
        print(
            f"the rows are in {args.out / MATCHES}"
            + (
                f"; look at {folder.draw(args.bound or [])}"
                if not status
                else ": the same command goes on there"
            )
        )
        return status


def draws_of(args: argparse.Namespace) -> Optional[SampleRequest]:
    """Returns the request for drawn schedules, or None if --draws is absent."""
    if args.draws is not None:
        return SampleRequest(
            args.draws, args.seed or 0, args.by or SCHEDULERS[0], args.hunt
        )
    for option, option_value in (
        ("seed", args.seed),
        ("scheduler", args.by),
        ("objective", args.hunt),
    ):
        if option_value is not None:
            raise ArenaError(f"--{option} needs --draws")
    return None


def search_by_model(args: argparse.Namespace, game: Game) -> int:
    """Tries the schedules of all matches by the Python model."""
    check_inside(game)
    matches = []
    with bar(None, "state") as progress:
        for match in explore_matches(game, args.states or fitting(OF_MODEL), progress):
            progress.clear()
            print(explore_reports.model_line(match), flush=True)
            matches.append(match)
    return explore_reports.report_model_search(
        game, matches, args.keep, program_of(args)
    )
