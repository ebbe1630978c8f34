"""Makes the tables of docs/EXPERIMENTS.md anew.

    python3 -m experiments.make [TABLE ..] [--write]

Without a table it makes all of them, which takes an hour or more. Rows, reports and
pages go to the folder of --out; interrupted, sweeps go on there. With --write the
tables are put into docs/EXPERIMENTS.md, each with its command, its engine, its time,
the day, the machine and the commit, and docs/growth.svg is drawn of them.

Tables:
    rings        moves of two agents on rings under fair and under weighted schedules, and the most that was hunted
    thirds       the most moves of the search by halves and of the search by thirds, beside 3 n log3 n
    large-rings  moves of two agents on rings of up to 1,024 nodes
    explored     the most moves of all schedules of programs
    modules      the most moves of all schedules of a WebAssembly module, by `arena explore --module` (ARENA names it)
    no-map       one agent more than the greatest degree, without a map
    large-no-map the same on networks of up to 256 nodes
    charts       the same agents beside agents that keep a chart
    known-map    two agents that have the map
    large-known-map  the same on networks of up to 1,024 nodes
    dividing     two agents that divide a network by a plan, beside the moves that are proved
    too-few      one agent too few: a schedule after which the team fails
"""
import argparse
import datetime
import os
import pathlib
import re
import subprocess
import sys
import textwrap
import time
from typing import Sequence

from experiments import growth
from experiments.table_rows import TABLES, TableRequest, Cells, MadeTable
from arena_lab.command_line.arguments import add_engine, add_workers, program_of
from arena_lab.rules.engines import name_of
from arena_lab.support.built import TOP

DOCUMENT = growth.DOCUMENT
# how wide a line of the document is at most
WIDTH = 120


def markdown(rows: Sequence[Cells]) -> str:
    head, *body = rows
    return "\n".join(
        f"| {' | '.join(row)} |" for row in [head, ["---"] * len(head), *body]
    )


def commit() -> str:
    result = subprocess.run(
        ["git", "rev-parse", "--short", "HEAD"], cwd=TOP, capture_output=True, text=True
    )
    return result.stdout.strip() or "unknown"


def machine() -> str:
    """Returns how many processors this machine has, and which."""
    match = re.search(
        r"^model name\s*: (.*)$",
        pathlib.Path("/proc/cpuinfo").read_text(encoding="utf-8"),
        re.M,
    )
    return f"{os.cpu_count()} processors{f' ({match[1].strip()})' if match else ''}"


def player_of(args: argparse.Namespace) -> str:
    """Who plays, in words."""
    program = program_of(args)
    return name_of(program) if program else "the Python model, which is not verified"


def text_of(made_table: MadeTable, seconds: float, player: str) -> str:
    """Returns the text of a table for the document."""
    commands = "".join(f"\n    {command}" for command in made_table.commands)
    search = "The Python model searched. " if made_table.is_searched else ""
    duration = f"{seconds:.0f} s" if seconds < 120 else f"{seconds / 60:.0f} min"
    caption = f"{search}Engine: {player}. {duration} on {datetime.date.today()}, {machine()}. Commit {commit()}."
    return (
        f"{markdown(made_table.rows)}\n\n{textwrap.fill(caption, WIDTH)}\n{commands}\n"
    )


def insert_table(document: str, name: str, text: str) -> str:
    """The document with this text in the place of a table."""
    begin = f"<!-- table {name} -->\n"
    end = f"<!-- end of {name} -->"
    before, middle, rest = document.partition(begin)
    _, also, after = rest.partition(end)
    if not middle or not also:
        sys.exit(
            f"{DOCUMENT}: the table {name} stands between `{begin.strip()}` and `{end}`: add these lines"
        )
    return f"{before}{begin}{text}{end}{after}"


def main() -> int:
    parser = argparse.ArgumentParser(
        "python3 -m experiments.make",
        description=__doc__,
        formatter_class=argparse.RawDescriptionHelpFormatter,
    )
    parser.add_argument("tables", metavar="TABLE", nargs="*", help="which tables (all)")
    parser.add_argument(
        "--write", action="store_true", help="put the tables into docs/EXPERIMENTS.md"
    )
    parser.add_argument(
        "--out",
        metavar="FOLDER",
        type=pathlib.Path,
        default=pathlib.Path("out/experiments"),
        help="where rows and reports go (out/experiments)",
    )
    add_workers(parser)
    add_engine(parser)
    # no module is required here; without that setting the program would not be compiled
    parser.set_defaults(needs=())
    words = parser.parse_args()
    for name in words.tables:
        if name not in TABLES:
            parser.error(
                f"{name}: there is no such table; there are {', '.join(TABLES)}"
            )
    engine = [
        "--engine",
        words.engine,
        *(["--program", words.program] if words.program else []),
    ]
    for name in words.tables or TABLES:
        start = time.monotonic()
        table = TABLES[name](TableRequest(words.out, engine, words.workers))
        text = text_of(table, time.monotonic() - start, player_of(words))
        print(f"{name}\n\n{text}", flush=True)
        if words.write:
            document = insert_table(DOCUMENT.read_text(encoding="utf-8"), name, text)
            DOCUMENT.write_text(document, encoding="utf-8")
    if words.write:
        growth.write()
    return 0


if __name__ == "__main__":
    sys.exit(main())
