"""Compares two builds of the program in one run.

    python3 -m bench.compare [--keep] PROGRAM OTHER

Makes tournaments, networks and scripts by a seeded generator, and runs both programs on
each input in turn, 21 times. For each input it prints the median time of each program,
the least processor time of each, which other work on the machine changes less, the
ratios PROGRAM / OTHER of both times, and the medians of the most memory held. While
they are timed, their output is thrown away, or with --keep kept in memory, which costs
both programs the same. The tournaments are of version 1, which older builds read too.
In one more run both programs must print the same bytes: it names each input on which
they differ, and the exit status is then 1. Nothing is written outside a temporary
folder. It needs cc, since a small program in C takes the times (bench/c/timer.c).
"""
import pathlib
import statistics
import sys
import tempfile
from typing import Callable, Iterable, Iterator, List, Sequence, Tuple

from arena_lab.rules.limits import MAX_TEXT
from arena_lab.rules.networks import Network, text_of, torus
from bench import rehearse
from bench.inputs import Run, key, printed_by, run, tournament

ROUNDS = 21
BOARD = 1000

Pair = Tuple[int, int]
Input = Tuple[str, List[str], pathlib.Path]


def by_ports(nodes: int, pairs: Iterable[Pair]) -> str:
    """The links between these pairs of nodes: a node's ports are numbered in the order
    in which its pairs come."""
    ports_used = [0] * nodes
    links = []
    for u, two in pairs:
        links.append((u, ports_used[u], two, ports_used[two]))
        ports_used[u] += 1
        ports_used[two] += 1
    return text_of(Network(nodes, links))


def complete(nodes: int) -> str:
    return by_ports(
        nodes, [(u, two) for u in range(nodes) for two in range(u + 1, nodes)]
    )


def sparse(nodes: int) -> str:
    """A torus of 16 columns, its ports in the order in which its links come."""
    rows = nodes // 16
    columns = 16
    pairs = []
    for row in range(rows):
        for column in range(columns):
            node = row * columns + column
            pairs.append((node, row * columns + (column + 1) % columns))
            pairs.append((node, (row + 1) % rows * columns + column))
    return by_ports(nodes, pairs)


def worst_dense(nodes: int) -> str:
    """All but two nodes are linked each to each, and two more hang on the last two of
    them."""
    pairs = [
        (one, two) for one in range(nodes - 2) for two in range(one + 1, nodes - 2)
    ]
    last = nodes - 4
    anchor = nodes - 3
    pairs += [(last, nodes - 2), (anchor, nodes - 1), (nodes - 2, nodes - 1)]
    return by_ports(nodes, pairs)


def filled_script(lines: Iterable[str]) -> str:
    """Repeats the lines up to the maximal length of a script."""
    text = []
    size = 0
    for line in lines:
        size += len(line) + 1
        if size > MAX_TEXT:
            break
        text.append(line)
    return "\n".join(text) + "\n"


def entries(matches: int, agents: int) -> List[str]:
    return [
        '%d {"do":"enter","key":"%s"}' % (game * agents + agent, key(game, agent))
        for game in range(matches)
        for agent in range(agents)
    ]


def moves() -> Iterator[str]:
    """Agents that depart and arrive, each in its turn: 64 matches of 4 agents."""
    yield from entries(64, 4)
    step = 0
    while True:
        step += 1
        for conn in range(256):
            yield '%d {"do":"depart","port":%d}' % (conn, step % 4)
            yield "draw %d 0" % (conn // 4)


def texts() -> Iterator[str]:
    """Agents that write the longest texts and look at them, in one match of 16."""
    yield from entries(1, 16)
    text_written = "x" * BOARD
    before = ""
    while True:
        yield '0 {"do":"write","expect":"%s","put":"%s"}' % (before, text_written)
        for conn in range(1, 16):
            yield '%d {"do":"look"}' % conn
        before = text_written
        text_written = ("y" if text_written[0] == "x" else "x") * BOARD


def make_inputs(folder: pathlib.Path) -> List[Input]:
    """Writes the inputs, and answers for each its title, words and what stands on
    standard input."""
    inputs = []
    (folder / "torus.toml").write_text(text_of(torus(rehearse.SIDE, rehearse.SIDE)))
    scripts = [
        ("lines by chance", 64, 4, 64, rehearse.script(MAX_TEXT)[0]),
        ("moves", 64, 4, 64, filled_script(moves())),
        ("longest texts", 1, 16, BOARD, filled_script(texts())),
    ]
    for index, (title, matches, agents, board, text) in enumerate(scripts):
        (folder / f"t{index}.toml").write_text(
            tournament("torus.toml", matches, agents, board, 1)
        )
        source = folder / f"script{index}"
        source.write_text(text)
        inputs.append(
            (
                f"rehearse: {title}, {text.count(chr(10))} lines",
                ["rehearse", f"t{index}.toml"],
                source,
            )
        )
    (folder / "empty").write_text("")
    for shape in (complete, sparse, worst_dense):
        for nodes in (128, 256):
            name = f"{shape.__name__}{nodes}"
            (folder / f"{name}.toml").write_text(shape(nodes))
            (folder / f"of-{name}.toml").write_text(
                tournament(f"{name}.toml", 1, 2, 8, 1)
            )
            title = (
                f"check: {shape.__name__.replace('_', ' ')} network of {nodes} nodes"
            )
            inputs.append((title, ["check", f"of-{name}.toml"], folder / "empty"))
    return inputs


def compare_times(
    chosen: Callable[[Sequence[float]], float], seconds: List[List[float]]
) -> str:
    """What is chosen of the times of each of two programs, and the ratio."""
    first, two = map(chosen, zip(*seconds))
    return f"{first * 1000:.2f} ms, {two * 1000:.2f} ms, ratio {first / two:.2f}"


def line_of(title: str, runs: List[List[Run]]) -> str:
    """Returns the line of an input with the figures of both programs;
    bench/figure_texts.py parses it."""
    times = compare_times(
        statistics.median, [[timing.seconds for timing in both] for both in runs]
    )
    processors = compare_times(
        min, [[timing.processor for timing in both] for both in runs]
    )
    first, two = (
        statistics.median(timing.peak for timing in each) for each in zip(*runs)
    )
    return f"{title}: {times}; processor {processors}; peak {first} KiB, {two} KiB"


def main() -> int:
    keeps = sys.argv[1:2] == ["--keep"]
    named_programs = sys.argv[2 if keeps else 1 :]
    if len(named_programs) != 2 or any(word.startswith("-") for word in named_programs):
        sys.exit(__doc__.strip())
    programs = [str(pathlib.Path(word).resolve()) for word in named_programs]
    differs = False
    with tempfile.TemporaryDirectory() as name:
        folder = pathlib.Path(name)
        for title, words, source in make_inputs(folder):
            runs = [
                [run(program, words, source, folder, keeps) for program in programs]
                for _ in range(ROUNDS)
            ]
            print(line_of(title, runs), flush=True)
            if (
                len(
                    {printed_by(program, words, source, folder) for program in programs}
                )
                > 1
            ):
                differs = True
                print(f"{title}: the programs do not print the same")
    return 1 if differs else 0


if __name__ == "__main__":
    sys.exit(main())
