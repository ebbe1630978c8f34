"""Times the built program on long rehearsals.

    tools/build               # proves and builds the program, if that is not done yet
    python3 -m bench.rehearse [PROGRAM]

Makes a tournament of 64 matches of 16 agents each on a torus of 25 nodes, and two
scripts of commands and draws by a seeded generator: one as long as a script may be, and
one of a tenth of that. Plays both, five times each, and prints for each the median
time, lines per second, and the peak memory of that run; then the ratios, and the median
time of a script without a line, which is what a start costs. Nothing is written outside
a temporary folder.
"""
import pathlib
import random
import sys
import tempfile
from typing import Tuple

from arena_lab.rules.limits import MAX_TEXT
from arena_lab.rules.networks import text_of, torus
from bench.inputs import key, median_run, tournament

TOP = pathlib.Path(__file__).resolve().parent.parent
PROGRAM = TOP / "crates" / "bhs_main" / "out" / "bhs_main"
MATCHES = 64
AGENTS = 16
CONNECTIONS = 256
SIDE = 5
BOARD = 64
RUNS = 5
SEED = 20_261_122


def script(length: int, matches: int = MATCHES) -> Tuple[str, int]:
    """A script of at most this many bytes for this many matches, and its number of
    lines: every connection enters, and then commands and draws come by chance."""
    rng = random.Random(SEED)
    lines = []
    size = 0

    def add(line: str) -> bool:
        nonlocal size
        if size + len(line) + 1 > length:
            return False
        lines.append(line)
        size += len(line) + 1
        return True

    for conn in range(CONNECTIONS):
        add(
            '%d {"do":"enter","key":"%s"}'
            % (conn, key(conn % matches, conn // matches))
        )
    commands = [
        lambda: '{"do":"look"}',
        lambda: '{"do":"depart","port":%d}' % rng.randrange(4),
        lambda: '{"do":"write","expect":"","put":"%d"}' % rng.randrange(100),
    ]
    while True:
        if rng.random() < 0.5:
            line = "draw %d %d" % (rng.randrange(matches), rng.randrange(2**32))
        else:
            line = "%d %s" % (rng.randrange(CONNECTIONS), rng.choice(commands)())
        if not add(line):
            return "\n".join(lines) + "\n", len(lines)


def line_of(lines: int, size: int, seconds: float, peak: int) -> str:
    """Returns the line of a script's figures; bench/figure_texts.py parses it."""
    return f"{lines} lines, {size} bytes: {seconds:.3f} s, {lines / seconds:.0f} lines per second, peak {peak} KiB"


def main() -> None:
    words = sys.argv[1:]
    if len(words) > 1 or any(word.startswith("-") for word in words):
        sys.exit(__doc__.strip())
    built = pathlib.Path(words[0]).resolve() if words else PROGRAM
    if not built.exists():
        raise SystemExit("the program is not built: tools/build builds it")
    program = str(built)
    with tempfile.TemporaryDirectory() as name:
        folder = pathlib.Path(name)
        (folder / "torus.toml").write_text(text_of(torus(SIDE, SIDE)))
        (folder / "long.toml").write_text(
            tournament("torus.toml", MATCHES, AGENTS, BOARD)
        )
        (folder / "empty").write_text("")
        words = ["rehearse", "long.toml"]
        figures = []
        for part in (1, 10):
            text, lines = script(MAX_TEXT // part)
            source = folder / f"script{part}"
            source.write_text(text)
            seconds, _, peak = median_run(RUNS, program, words, source, folder)
            figures.append((lines, seconds, peak))
            print(line_of(lines, len(text), seconds, peak), flush=True)
        (largest, slow, high), (few, fast, low) = figures
        print(
            f"ratios: lines {largest / few:.1f}, seconds {slow / fast:.1f}, peak memory {high / low:.1f}"
        )
        for words in (["rehearse"], ["rehearse", "long.toml"]):
            seconds, _, _ = median_run(RUNS, program, words, folder / "empty", folder)
            print(f"start, {' '.join(words)}: {seconds * 1000:.1f} ms")


if __name__ == "__main__":
    main()
