"""The benchmarks: their titles, commands and notes, and what each needs."""
import pathlib
import sys
from typing import Callable, Dict, List, NamedTuple, Optional

from arena_lab.rules.limits import MAX_QUOTA, SMALL_QUOTA
from arena_lab.support import built
from bench import instructions, promela
from bench.figure_texts import (
    compare_text,
    flood_text,
    gate_text,
    lab_text,
    lines_text,
    looks_text,
    rehearse_text,
    replays_text,
    results_text,
    serve_text,
    stages_text,
    steps_text,
    submit_text,
)
from bench.replays import events_at_most

# only Debian's Python has Debian's packages, which the lab needs
DEBIANS_PYTHON = "/usr/bin/python3"


class Setting(NamedTuple):
    """What the benchmarks run on."""

    program: pathlib.Path
    baseline: Optional[pathlib.Path]
    benchmark: pathlib.Path
    commit_and_day: str  # commit and day
    machine: str
    peer: Optional[pathlib.Path] = None

    @property
    def build(self) -> str:
        return built.name_of(self.program)


class Benchmark(NamedTuple):
    """A benchmark: the title of its section, its command, and the text that its output
    gives. `needs` says what is missing, if anything is; `build` names the build, if it
    is not that of the setting."""

    title: str
    words: Callable[[Setting], List[str]]
    text: Callable[[str], str]
    needs: Callable[[Setting], str] = lambda setting: ""
    build: str = ""


INSTRUCTIONS_NOTE = """\
Millions of instructions, as Valgrind's callgrind counts them, and the program divided by the other one. `moves` and
`texts` are the longest replays of version 1.
"""
EXPLORE_NOTE = """\
Two agents, and each black hole in turn. "Whole" is the time of the lab, which plays the agents in Python and answers
the program's questions, together with the program. The other columns are the program alone, which reads the same
answers from a file: processor seconds, states a second, and the most memory of one match. The program plays the turns
of each state twice: in the search, and in the check of its result.
"""
SPIN_NOTE = """\
All schedules of two agents of `examples/agents/ring.py`, each black hole in turn. SPIN searches two models of
`bench/models`, written by hand, without the seconds of its compiler. The merged model has fewer states: it joins a step
that no agent can observe with the step before. On several processors SPIN's processes (`-DNCORE`) search one model, and
reduce the natural one by less; what they take together SPIN does not say. `./arena-lab explore` asks the search as a
step, `arena explore` alone reads the answers from a file, and `--module` runs `ring.wasm`; on several processors it
searches as many matches at a time. All find the same moves.
"""
MEMORY_NOTE = """\
What 256 agents in four matches take, after each has entered and looked fifty times, by `/proc/PID/smaps`.
"""
MEMORY_NOTE = """\
What 256 agents in four matches take, after each has entered and looked fifty times, by `/proc/PID/smaps`.
"""
HUNTS_NOTE = """\
Schedules until a wrong agent of `examples/agents/faulty` fails, of ten seeds. `run` plays fair schedules. A hunt plays
the same first, 300 at most, and then lets Hypothesis search.
"""
WAITS_NOTE = """\
Two agents on a ring of eight nodes. The first stands, is destroyed, or is on a held link; the second makes its moves,
and each is timed. Under the adaptive schedule the rows differ; under the oblivious one they are equal within their
errors.
"""
TIMEOUTS_NOTE = """\
Matches on a ring of 64 nodes under the oblivious schedule. The honest team decides nothing by time. A timed team takes
an agent for lost that stays away for this many turns, and loses, because a slow link looks like the black hole.
"""
TRAPS_NOTE = """\
A trap has no black hole: nobody arrives at two neighbouring nodes, one of them opposite the home base. A hasty team
accuses when its time is up. A timed team first visits all other nodes, so it meets the second of the two and waits
there. Traps deceive teams that accuse early, and no team that visits all other nodes first: if such a team visits all
nodes but one, so does an honest team, and both accuse the node that is left.
"""
FLOOD_NOTE = """\
A hundred agents of 50 teams search a ring of 16 nodes while strangers connect, of which a third sends nothing, a third
half a line, and a third a wrong key. Without strangers the first enters are slower, since all agents begin at once with
the server.
"""
REPLAYS_NOTE = f"""\
A replay may have {events_at_most(MAX_QUOTA):,} events at most, and one of the earlier versions \
{events_at_most(SMALL_QUOTA):,}.
"""
LOOKS_NOTE = """\
The most memory that a server has held while one agent looks at a whiteboard of 65,490 bytes as often as a quota allows.
"""
BARE_NOTE = """\
In a root of `debootstrap` with python3 and no other package: the unit tests, then what the gate plays where apt-get
reaches no archive, and again where it does.
"""
HALL_NOTE = """\
60 teams ask for 600 attempts in an hour, the pace of a course, and play each with two sample agents on a ring of 8
nodes. Each team hands in the sample agent once. One more team asks for the standings as fast as it can, by eight
connections.
"""
# a class of 30 for three minutes, and nothing else
CLASS = "--teams 30 --writers 30 --attempts 0 --hand-ins 0 --minutes 3".split()
WRITERS_NOTE = """\
30 teams write on the page of a hall: each has the kit in Python tried on a ring of 8 nodes every 20 seconds, two agents
in sandboxes, and looks as the page does whether the trial is over.
"""


def noted_text(note: str, text: Callable[[str], str] = str) -> Callable[[str], str]:
    """The figures below a note that says what they mean; without `text` the benchmark
    prints a table itself."""
    return lambda output: f"{note}\n{text(output)}"


def of_python(module: str, *words: str) -> List[str]:
    return [sys.executable, "-m", module, *words]


def of_debians(module: str, *words: str) -> List[str]:
    return [DEBIANS_PYTHON, "-m", module, *words]


def without_benchmark(setting: Setting) -> str:
    return "" if setting.benchmark.exists() else f"{setting.benchmark} is not built"


def instructions_words(setting: Setting) -> List[str]:
    programs = [str(path) for path in (setting.program, setting.baseline) if path]
    return of_python(
        "bench.instructions",
        *programs,
        *(["--peer", str(setting.peer)] if setting.peer else []),
    )


def without_other(setting: Setting) -> str:
    return "" if setting.baseline else "name another build by --other"


EXPLORED = [
    "ring:8=ring_step",
    "ring:16=ring_step",
    "ring:24=ring_step",
    "ring:27=ring_step",
    "ring:6=ring",
]
TRAPS = [
    "--contests",
    "5",
    "--nodes",
    "32",
    "--pause",
    "2",
    "--timeouts",
    "512",
    "1500",
    "--traps",
    "--turns",
    "30000",
]
BENCHMARKS: Dict[str, Benchmark] = {
    "gate": Benchmark(
        "The gate",
        lambda at: [sys.executable, "tools/prove/gate_times"],
        gate_text,
        build="the proofs",
    ),
    "steps": Benchmark(
        "Steps",
        lambda at: [str(at.benchmark), "step", "2000000", "time"],
        steps_text,
        without_benchmark,
        "the proved program",
    ),
    "submit": Benchmark(
        "Commands under locks",
        lambda at: [str(at.benchmark), "submit", "20", "time"],
        submit_text,
        without_benchmark,
        "the proved program",
    ),
    "stages": Benchmark(
        "Stages of a line",
        lambda at: [str(at.benchmark), "stages", "200000", "time"],
        stages_text,
        without_benchmark,
        "the proved program",
    ),
    "rehearse": Benchmark(
        "Rehearsals",
        lambda at: of_python("bench.rehearse", str(at.program)),
        rehearse_text,
    ),
    "compare": Benchmark(
        "Speed beside another build",
        lambda at: of_python("bench.compare", str(at.program), str(at.baseline)),
        compare_text,
        without_other,
    ),
    "instructions": Benchmark(
        "Instructions",
        instructions_words,
        noted_text(INSTRUCTIONS_NOTE),
        lambda at: "" if instructions.has_valgrind() else "valgrind is not installed",
    ),
    "replays": Benchmark(
        "Replays",
        lambda at: of_python("bench.replays", str(at.program)),
        noted_text(REPLAYS_NOTE, replays_text),
    ),
    "serve": Benchmark(
        "The server's speed", lambda at: of_python("bench.serve"), serve_text
    ),
    "lab": Benchmark(
        "The lab",
        lambda at: of_debians("bench.speed", "--program", str(at.program)),
        lab_text,
    ),
    "explore": Benchmark(
        "Every schedule",
        lambda at: of_debians("bench.explore", *EXPLORED),
        noted_text(EXPLORE_NOTE),
    ),
    "spin": Benchmark(
        "Every schedule beside SPIN",
        lambda at: of_debians("bench.spin"),
        noted_text(SPIN_NOTE),
        lambda at: "" if promela.HAS_SPIN else "spin is not installed",
    ),
    "hunts": Benchmark(
        "Hunts",
        lambda at: of_debians("bench.hunts"),
        noted_text(HUNTS_NOTE),
        build="the Python model",
    ),
    "waits": Benchmark(
        "Waiting", lambda at: of_python("bench.waits"), noted_text(WAITS_NOTE)
    ),
    "timeouts": Benchmark(
        "Timeouts",
        lambda at: of_python("bench.timeouts", "--pause", "5"),
        noted_text(TIMEOUTS_NOTE),
    ),
    "traps": Benchmark(
        "Timeouts and traps",
        lambda at: of_python("bench.timeouts", *TRAPS),
        noted_text(TRAPS_NOTE),
    ),
    "flood": Benchmark(
        "A flood of strangers",
        lambda at: of_python("bench.flood"),
        noted_text(FLOOD_NOTE, flood_text),
    ),
    "looks": Benchmark(
        "Memory of looks",
        lambda at: of_python("bench.looks"),
        noted_text(LOOKS_NOTE, looks_text),
    ),
    "memory": Benchmark(
        "Memory of sessions",
        lambda at: of_python("bench.memory"),
        noted_text(MEMORY_NOTE),
    ),
    "bare": Benchmark(
        "A bare Debian",
        lambda at: of_debians("tests.release.bare", "--program", str(at.program)),
        noted_text(BARE_NOTE, results_text),
    ),
    "hall": Benchmark(
        "A hall",
        lambda at: of_debians("bench.hall", "--program", str(at.program)),
        noted_text(HALL_NOTE, lines_text),
    ),
    "writers": Benchmark(
        "A class that writes",
        lambda at: of_debians(
            "bench.hall", *CLASS, "--no-flood", "--program", str(at.program)
        ),
        noted_text(WRITERS_NOTE, lines_text),
    ),
}
