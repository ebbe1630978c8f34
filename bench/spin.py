"""Compares how fast `./arena-lab explore` and the model checker SPIN try all schedules
of the sample search of rings.

    tools/build               # proves and builds the program, if that is not done yet
    apt install spin
    /usr/bin/python3 -m bench.spin [N ..]

On the ring of each number of nodes (16, 24 and 32), each node but the home base is the
black hole in turn. SPIN searches two models of `examples/agents/ring.py` that were
written by hand: "natural" with SPIN's own reductions, and "merged", in which steps that
nobody can know of were merged by hand as well. `./arena-lab explore` asks the same
search as a step, `ring_step.py`: its row has the whole, and the next row what `arena
explore` takes if it reads the agents' answers from a file. Then `arena explore
--module` runs `wasm/ring.wasm`. On several processors (--processors, else all) SPIN's
processes search one model, and `arena explore --module` as many matches at a time.

A row has who searched, the states, the most moves, the seconds, those of one processor,
and megabytes. All must find the same moves. The seconds of SPIN do not count the
compiler. What its processes take together SPIN does not say.
"""
import argparse
import os
import time
from typing import Iterator, List, NamedTuple, Optional

from arena_lab.support.faults import ArenaError
from bench import promela
from bench.explore import STATES, MatchCost, measure, measured_by_module


class Row(NamedTuple):
    """The cost of a search of all matches on a ring; unknown values are None."""

    name: str
    states: int
    moves: int
    whole: Optional[float]
    processor: Optional[float] = None
    memory: Optional[float] = None


def by_spin(nodes: int, processors: int) -> Iterator[Row]:
    """What SPIN takes on a ring, for each model."""
    for name, model in (
        ("SPIN, natural", promela.NATURAL),
        ("SPIN, merged", promela.MERGED_MODEL),
    ):
        single = promela.search(model, nodes)
        parallel = promela.search(model, nodes, processors=processors)
        if single.errors or parallel.errors:
            raise SystemExit(
                f"{name} finds a schedule of the ring of {nodes} that fails"
            )
        yield Row(
            name,
            single.states,
            single.moves,
            single.whole,
            single.processor,
            single.memory,
        )
        yield Row(
            f"{name}, on {processors}", parallel.states, parallel.moves, parallel.whole
        )


def of_matches(
    name: str,
    matches: List[MatchCost],
    whole: Optional[float],
    processor: float,
    has_memory: bool = True,
) -> Row:
    """The row of these matches."""
    return Row(
        name,
        sum(cost.states for cost in matches),
        max(cost.moves for cost in matches),
        whole,
        processor,
        max(cost.memory for cost in matches) if has_memory else None,
    )


def by_explore(nodes: int, processors: int) -> Iterator[Row]:
    """What `explore` takes on a ring, by its hosts."""
    ring = f"ring:{nodes}"
    matches = measure(ring, "ring_step", STATES)
    whole = sum(cost.whole for cost in matches)
    processor = sum(cost.processor for cost in matches)
    yield of_matches("./arena-lab explore", matches, whole, processor, False)
    alone = sum(cost.program for cost in matches)
    yield of_matches("arena explore alone", matches, None, alone)
    for name, at_a_time in (
        ("arena explore --module", 1),
        (f"arena explore --module, {processors} at a time", processors),
    ):
        start = time.monotonic()
        matches = measured_by_module(ring, "wasm/ring.wasm", STATES, at_a_time)
        whole = time.monotonic() - start
        processor = sum(cost.program for cost in matches)
        yield of_matches(name, matches, whole, processor, at_a_time == 1)


def rows_of(nodes: int, processors: int) -> List[Row]:
    """What each search takes on a ring."""
    results = [*by_spin(nodes, processors), *by_explore(nodes, processors)]
    if len({row.moves for row in results}) > 1:
        raise SystemExit(f"they differ on the ring of {nodes}: {results}")
    return results


def number_text(number: Optional[float], form: str) -> str:
    return "" if number is None else format(number, form)


def main() -> None:
    parser = argparse.ArgumentParser(description=(__doc__ or "").partition("\n")[0])
    parser.add_argument(
        "nodes",
        type=int,
        nargs="*",
        default=[16, 24, 32],
        metavar="N",
        help="numbers of nodes of rings (16 24 32)",
    )
    parser.add_argument(
        "--processors",
        type=int,
        default=os.cpu_count(),
        metavar="N",
        help="on how many processors all are searched once more (%(default)s)",
    )
    words = parser.parse_args()
    if not promela.HAS_SPIN:
        raise SystemExit(
            "spin is not installed, or there is no C compiler: apt install spin gcc"
        )
    print(
        "| ring | searched by | states | most moves | seconds | processor, s | memory, MB |"
    )
    print("|---|---|---|---|---|---|---|")
    for nodes in words.nodes:
        for row in rows_of(nodes, words.processors):
            print(
                f"| {nodes} | {row.name} | {row.states:,} | {row.moves} | {number_text(row.whole, '.2f')} "
                f"| {number_text(row.processor, '.2f')} | {number_text(row.memory, '.0f')} |",
                flush=True,
            )


if __name__ == "__main__":
    try:
        main()
    except ArenaError as fault:
        raise SystemExit(str(fault)) from None
