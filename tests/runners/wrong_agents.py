"""Grades and checks wrong agents that are made by rule (tests/support/wrong_agents.py).

    /usr/bin/python3 -m tests.runners.wrong_agents [BASE ..] [--every N] [--workers N]

The bases are sample agents: kit, ring, map and known in Python, javascript and c. Each
mutant that solves a match on a network as it is named is graded by some secrets, by the
grader's own draws and the Python model. One that fails most of these must not be called
right by `check`. --every N takes each Nth mutant. A line names each mutant that `check`
calls right. The last line reads `N passed, M failed`: those that were found, and those
that were not.
"""
import argparse
import contextlib
import multiprocessing
import os
import pathlib
import shutil
import subprocess
import sys
import tempfile
from typing import Iterator, List, NamedTuple, Optional, Sequence, Tuple

from arena_lab import with_one_order
from arena_lab.commands import check
from arena_lab.course import check_steps
from arena_lab.course.check_jobs import CheckJob, conditions_of
from arena_lab.course.course_files import course_of
from arena_lab.play.agent_files import AGENTS, AgentError
from arena_lab.play.games import play_seed
from arena_lab.play.teams import INSIDE, OUTSIDE, AgentWords, Game
from arena_lab.rules import networks
from arena_lab.support.faults import ArenaError
from tests.support.counts import SKIPPED, report_counts
from tests.support.wrong_agents import Mutant, of_python, of_text

COURSE = """title = "t"
networks = {networks}
holes = 2
schedulers = ["fair", "slow-agents"]
seeds = 2
[[team]]
name = "m"
agents = {agents}
files = ["."]
command = "x {{port}} {{key}}"
"""
SECRETS = 4
# seconds that an agent may take for a line, and that a check may take
LIMIT = 3.0
SECONDS = 60.0


class Base(NamedTuple):
    """A sample agent that is changed: its file, what it needs beside it, where it is
    changed, the words behind its file, the networks and agents of the course, and the
    command that builds it."""

    file: str
    within: Tuple[str, ...]
    words: str = "{nodes}"
    networks: Tuple[str, ...] = ("ring:6", "ring:8")
    agents: int = 2
    play: str = ""
    needs: Tuple[str, ...] = ()
    build: str = ""

    def mutants(self) -> Iterator[Mutant]:
        text = (AGENTS / self.file).read_text(encoding="utf-8")
        return (
            of_text(text, *self.within) if self.play else of_python(text, self.within)
        )


CUBE = ("ring:6", "hypercube:3")
KIT = ("board_of", "safe_on", "choose_side", "back", "walk", "note", "search")
PROGRAM = "{host} {port} {key} {nodes}"
BASES = {
    "kit": Base("python/careful.py", KIT),
    "ring": Base("ring.py", ("field", "with_field", "Walker", "Search")),
    "map": Base("map.py", ("Map", "Searcher"), "{nodes} {links}", CUBE, 4),
    "known": Base("known_map.py", ("Searcher",), "", CUBE),
    "javascript": Base(
        "javascript/careful.js",
        ("async function chooseSide", "/** HOST"),
        PROGRAM,
        play="node {}/careful.js",
        needs=("node",),
    ),
    "c": Base(
        "c/careful.c",
        ("static void read_board", "static const char *known"),
        PROGRAM,
        play="{}/careful",
        needs=("gcc", "make"),
        build="make careful",
    ),
}


class Job(NamedTuple):
    """A mutant of a base, by its number."""

    base: str
    number: int
    mutant: Mutant

    def __str__(self) -> str:
        it = self.mutant
        return f"{self.base} {self.number}, {it.rule} in line {it.line}: {it.before}"


class MutantResult(NamedTuple):
    """What came of a mutant: how many gradings it fails, or None if it is at once seen
    to be wrong; and what `check` says."""

    failures: Optional[int]
    is_right: bool = False
    advice: str = ""


def came_of(job: Job) -> MutantResult:
    """Plays, grades and checks a mutant."""
    base = BASES[job.base]
    with tempfile.TemporaryDirectory() as name, open(os.devnull, "w") as null:
        folder = pathlib.Path(name)
        with contextlib.redirect_stdout(null), contextlib.redirect_stderr(null):
            agent = build_mutant(base, job.mutant, folder)
            if agent is None or not looks_right(base, agent):
                return MutantResult(None)
            failures = sum(fails(base, agent, secret) for secret in range(SECRETS))
            if failures <= SECRETS // 2:
                return MutantResult(failures)
            return check_mutant(base, agent, failures)


def build_mutant(
    base: Base, mutant: Mutant, folder: pathlib.Path
) -> Optional[AgentWords]:
    """Writes the mutant to a folder and builds it if needed."""
    source = AGENTS / base.file
    for path in source.parent.iterdir():
        if path.is_file():
            shutil.copy(path, folder)
    shutil.copy(AGENTS / "client.py", folder)
    (folder / source.name).write_text(mutant.text, encoding="utf-8")
    if (
        base.build
        and subprocess.run(
            base.build.split(), cwd=folder, capture_output=True
        ).returncode
    ):
        return None
    if base.play:
        return AgentWords(OUTSIDE, f"{base.play.format(folder)} {base.words}")
    return AgentWords(INSIDE, f"{folder / source.name} {base.words}".strip())


def looks_right(base: Base, agent: AgentWords) -> bool:
    """Returns whether a student may take it for right: it solves one of two matches."""
    name = base.networks[-1]
    game = Game(name, networks.network_named(name), [agent] * base.agents, limit=LIMIT)
    try:
        return not all(
            play_seed(game, "fair", seed, None).has_failed for seed in range(2)
        )
    except (ArenaError, AgentError):
        return False


def fails(base: Base, agent: AgentWords, secret: int) -> bool:
    """Returns whether it fails a match of a course, by the course's own draws."""
    text = COURSE.format(networks=list(base.networks), agents=base.agents)
    course = course_of(
        text.replace("'", '"'), pathlib.Path(), f"secret number {secret}"
    )
    job = CheckJob(agent, course.conditions, LIMIT, None, SECONDS, False)
    return any(job.request(case).play().has_failed for case in course.cases())


def check_mutant(base: Base, agent: AgentWords, failures: int) -> MutantResult:
    """What `check` says of it."""
    nets = check.NETWORKS if "ring:8" in base.networks else base.networks
    results = {**check.DEFAULT_CONDITIONS, "networks": list(nets)}
    conditions = conditions_of(results, pathlib.Path(), agent, base.agents)
    _, wrong = check_steps.check_agent(
        CheckJob(agent, conditions, LIMIT, None, SECONDS, True)
    )
    return MutantResult(failures, wrong is None, " ".join(wrong.lines) if wrong else "")


def jobs(names: Sequence[str], every: int) -> Iterator[Job]:
    """The mutants of some bases, as far as the machine has what they need."""
    for name in names:
        absent = [need for need in BASES[name].needs if not shutil.which(need)]
        if absent:
            print(f"{SKIPPED}wrong agents in {name}: {absent[0]} is not installed")
            continue
        for number, mutant in enumerate(BASES[name].mutants()):
            if number % every == 0:
                yield Job(name, number, mutant)


def main(argv: Sequence[str]) -> int:
    parser = argparse.ArgumentParser(
        "python3 -m tests.runners.wrong_agents",
        description=__doc__,
        formatter_class=argparse.RawDescriptionHelpFormatter,
    )
    parser.add_argument("bases", metavar="BASE", nargs="*", help="the sample agents")
    parser.add_argument("--every", metavar="N", type=int, default=1, help="each Nth")
    parser.add_argument("--workers", metavar="N", type=int, default=os.cpu_count())
    words = parser.parse_args(argv)
    names: List[str] = words.bases or list(BASES)
    if not set(names) <= set(BASES):
        parser.error(f"a base is one of {', '.join(BASES)}")
    all_jobs = list(jobs(names, words.every))
    sys.setrecursionlimit(3000)
    pass_count = right = 0
    # a new worker for each mutant, because mutants can change global state
    with multiprocessing.Pool(words.workers, maxtasksperchild=1) as pool:
        for job, outcome in zip(all_jobs, pool.imap(came_of, all_jobs)):
            if outcome.is_right:
                print(
                    f"{job}: it fails {outcome.failures} gradings of {SECRETS}, and `check` calls it right",
                    flush=True,
                )
            right += outcome.is_right
            pass_count += bool(outcome.advice)
    print(
        f"{len(all_jobs)} mutants, of which {pass_count + right} look right at first and fail most gradings"
    )
    return report_counts(pass_count, right)


if __name__ == "__main__":
    with_one_order()
    sys.exit(main(sys.argv[1:]))
