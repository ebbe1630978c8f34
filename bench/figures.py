"""Runs the benchmarks and writes their figures to bench/FIGURES.md.

    python3 -m bench.figures [--only NAME ..] [--program PATH] [--other PATH] [--peer PATH] [--benchmark PATH]
        [--out FILE]

Each benchmark has a section of the page: the commit, day, build and machine, the
command, and the figures. A run replaces the sections of the benchmarks that it ran and
leaves the others as they are. The table at the head of the page is made of the
sections; a section of another name is left out. Standard error tells which benchmark is
running; the exit status is 1 if one failed.

Without --only all of them run, which takes about two hours, half of it for the gate.
`steps`, `submit` and `stages` need the proved program bhs_bench, and `compare` a build
that --other names; `instructions` counts those of --other and --peer too. The others,
except `gate`, run on the proved arena if it is built, else on a build without a proof,
and the page says on which. Nothing else should run on the machine meanwhile.
"""
import argparse
import datetime
import os
import pathlib
import re
import shlex
import subprocess
import sys
import tempfile
import textwrap
import time
from typing import Dict, Optional, Sequence, Tuple

from arena_lab.support import built
from bench.benchmarks import BENCHMARKS, Setting
from bench.figure_texts import table

TOP = pathlib.Path(__file__).resolve().parent.parent
PAGE = TOP / "bench" / "FIGURES.md"
BENCHMARK = TOP / "crates" / "bhs_bench" / "out" / "bhs_bench"
HEAD = """# Figures

`python3 -m bench.figures` runs the benchmarks and writes this page; `--only NAME` measures one section again. Times
depend on the machine and its load, so compare figures within one section only.

"""
SECTION = re.compile(r"<!-- figures ([\w-]+) -->\n(.*?)<!-- end of \1 -->\n", re.DOTALL)
TITLE = re.compile(r"## (.+)\n\n")
MEASURED_NOTE = re.compile(
    r"^Measured at (`\w+`[\w ]*), (\d{4}-\d\d-\d\d); (.+?); (.+?)\.\n\n",
    re.MULTILINE | re.DOTALL,
)
WIDTH = 120


def command_line(words: Sequence[str]) -> str:
    """Returns a command line as typed in the repository's top folder."""
    return shlex.join(
        "python3" if word == sys.executable else word.replace(f"{TOP}/", "")
        for word in words
    )


def section(name: str, output: str, setting: Setting) -> str:
    """The section of a benchmark, made of what the benchmark printed."""
    benchmark = BENCHMARKS[name]
    where = textwrap.fill(
        f"Measured at {setting.commit_and_day}; {benchmark.build or setting.build}; {setting.machine}.",
        WIDTH,
    )
    return (
        f"<!-- figures {name} -->\n## {benchmark.title}\n\n{where}\n\n"
        f"    {command_line(benchmark.words(setting))}\n\n{benchmark.text(output)}<!-- end of {name} -->\n"
    )


def page(sections: Dict[str, str]) -> str:
    """The whole page: a table of the sections, and then these, in the order of
    BENCHMARKS."""
    names = [name for name in BENCHMARKS if name in sections]
    rows = []
    for name in names:
        title = TITLE.search(sections[name])
        notes = MEASURED_NOTE.findall(sections[name])
        rows += [
            [title[1] if title else name, *(cell.replace("\n", " ") for cell in cells)]
            for cells in notes
        ]
    return (
        HEAD
        + table(("figures", "commit", "day", "build", "machine"), rows)
        + "\n"
        + "\n".join(sections[name] for name in names)
    )


def sections_of(text: str) -> Dict[str, str]:
    return {match[1]: match[0] for match in SECTION.finditer(text)}


def say(text: str) -> None:
    print(text, file=sys.stderr, flush=True)


def run(words: Sequence[str], setting: Setting) -> Tuple[int, str]:
    """Runs a command, and gives its status and what it printed. Its standard error is
    passed on, except that a build without a proof says so at each start."""
    with tempfile.TemporaryFile("w+") as output_file:
        with subprocess.Popen(
            words,
            cwd=TOP,
            stdout=output_file,
            stderr=subprocess.PIPE,
            text=True,
            env={**os.environ, "ARENA": shlex.quote(str(setting.program))},
        ) as child:
            for line in child.stderr:
                sys.stderr.write(built.without_warning(line))
        output_file.seek(0)
        return child.returncode, output_file.read()


def measure(name: str, setting: Setting) -> Optional[str]:
    """Runs a benchmark, and gives its section, or nothing if it failed."""
    words = BENCHMARKS[name].words(setting)
    say(f"{name}: {command_line(words)}")
    start = time.monotonic()
    status, output = run(words, setting)
    if status != 0:
        say(
            f"{name}: failed with status {status}; its section stays as it was\n{output.rstrip()}"
        )
        return None
    try:
        section_text = section(name, output, setting)
    except (ValueError, KeyError) as fault:
        say(f"{name}: its output is not understood: {fault}")
        return None
    say(f"{name}: done in {time.monotonic() - start:.0f} s")
    return section_text


def commit_and_day() -> str:
    """The commit, whether the tree has changed since, and the day."""

    def git(*words: str) -> str:
        return subprocess.run(
            ["git", *words], cwd=TOP, capture_output=True, text=True, check=True
        ).stdout.strip()

    suffix = (
        " with changes" if git("status", "--porcelain", "--untracked-files=no") else ""
    )
    return f"`{git('rev-parse', '--short', 'HEAD')}`{suffix}, {datetime.date.today()}"


def machine() -> str:
    model = re.search(
        r"^model name\s*: (.+)$",
        pathlib.Path("/proc/cpuinfo").read_text(),
        re.MULTILINE,
    )
    count = len(os.sched_getaffinity(0))
    processors = "1 processor" if count == 1 else f"{count} processors"
    model_name = f", {model[1].rstrip('.')}" if model else ""
    return f"{processors}{model_name}, load {os.getloadavg()[0]:.1f} at the start"


def parse_arguments(words: Sequence[str]) -> argparse.Namespace:
    names = "".join(
        f"    {name:<11} {benchmark.title}\n" for name, benchmark in BENCHMARKS.items()
    )
    parser = argparse.ArgumentParser(
        description=__doc__,
        epilog=f"names:\n{names}",
        formatter_class=argparse.RawDescriptionHelpFormatter,
    )
    parser.add_argument(
        "--only",
        metavar="NAME",
        choices=list(BENCHMARKS),
        action="append",
        help="run this benchmark",
    )
    parser.add_argument(
        "--program",
        metavar="PATH",
        type=pathlib.Path,
        help="the arena that is measured",
    )
    parser.add_argument(
        "--other",
        metavar="PATH",
        type=pathlib.Path,
        help="the build beside which `compare` measures",
    )
    parser.add_argument(
        "--peer",
        metavar="PATH",
        type=pathlib.Path,
        help="a plain program with the same commands, for `instructions`",
    )
    parser.add_argument(
        "--benchmark",
        metavar="PATH",
        type=pathlib.Path,
        default=BENCHMARK,
        help="the program bhs_bench",
    )
    parser.add_argument(
        "--out",
        metavar="FILE",
        type=pathlib.Path,
        default=PAGE,
        help="the page to write",
    )
    return parser.parse_args(words)


def main(words: Sequence[str]) -> int:
    args = parse_arguments(words)
    program = (args.program or built.any_program()).resolve()
    setting = Setting(
        program,
        args.other and args.other.resolve(),
        args.benchmark.resolve(),
        commit_and_day(),
        machine(),
        args.peer and args.peer.resolve(),
    )
    status = 0
    for name in args.only or BENCHMARKS:
        missing = BENCHMARKS[name].needs(setting)
        if missing:
            say(f"{name}: not measured: {missing}")
            status |= bool(args.only)
            continue
        section_text = measure(name, setting)
        if not section_text:
            status = 1
            continue
        # after each benchmark, so that an interrupt loses one at most
        text = args.out.read_text(encoding="utf-8") if args.out.exists() else ""
        args.out.write_text(
            page({**sections_of(text), name: section_text}), encoding="utf-8"
        )
    return status


if __name__ == "__main__":
    sys.exit(main(sys.argv[1:]))
