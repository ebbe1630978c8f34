"""The program's own search through all schedules: `arena explore` asks what agents do,
and the lab answers. Modules it runs itself, and asks nothing."""
import json
import pathlib
import re
import subprocess
import tempfile
import threading
import time
from typing import Any, Callable, Dict, List, NamedTuple, Optional, Tuple

from arena_lab.play.players import WAKES
from arena_lab.play.wasm_modules import with_advice, word_of
from arena_lab.rules.engines import EngineRefusedError, text_of_fault
from arena_lab.rules.fixtures import Fixture, write_tournament
from arena_lab.rules.model import Object
from arena_lab.search.agent_processes import SAYS, SLEEP
from arena_lab.search.findings import ExploreAnswer, answer_of
from arena_lab.search.machines import Machines
from arena_lab.support.progress import NO_PROGRESS

TOO_MANY = "states"
# how the program's questions begin
BEGIN = b'{"begin":'
ASK = b'{"ask":'
QUESTIONS = BEGIN, ASK
STOPPED_TEXT = "stopped"
LIMIT_TEXT = "more states than were to be visited"
LONGER = "a drawn schedule has more turns than --max-states allows"
# seconds between two looks at the program while it works
PAUSE = 1.0


class SampleRequest(NamedTuple):
    """The schedules to draw for each match: their number, seed, scheduler and
    objective."""

    schedules: int
    seed: int
    scheduler: str
    hunt: Optional[str]

    def words(self) -> List[str]:
        """The words by which the program draws them."""
        words = [
            "--draws",
            str(self.schedules),
            "--seed",
            str(self.seed),
            "--scheduler",
            self.scheduler,
        ]
        return [*words, "--objective", self.hunt] if self.hunt else words


class ProgramRun:
    """One run of the program: its memories have numbers in the order of this run."""

    def __init__(self, machines: Machines) -> None:
        self._machines = machines
        self._answers: Dict[int, bytes] = {}
        self.back: List[int] = []
        self._after: Dict[Tuple[int, str], int] = {}

    def unwoken(self) -> int:
        """Returns how many memories sleep and go on to something that was never asked,
        if they wake and see the same."""
        return sum(self._is_unwoken(memory) for memory in self.back)

    def _is_unwoken(self, memory: int) -> bool:
        if self._machines.steps[memory].does != SLEEP:
            return False
        woken = self._after.get((memory, WAKES))
        if woken is None:
            return True
        board = self._machines.seen_by(memory) if self._machines.looks(woken) else None
        return board is not None and (woken, board) not in self._after

    def answer(self, line: bytes) -> bytes:
        """The lines that answer a question, which is a line of the program."""
        machines = self._machines
        if line.startswith(ASK):
            number, _, message = line[len(ASK) :].partition(b",")
            before = self.back[int(number)]
            news = machines.news_in(message)
            memory = self._after[before, news] = machines.next(before, news)
        else:
            memory = machines.begin(json.loads(line)["begin"])
        line_bytes = self._answers.get(memory)
        if line_bytes is None:
            step = machines.steps[memory]
            text = b"\n%b\n" % step.line if step.does == SAYS else b"\n"
            line_bytes = self._answers[memory] = b"%d %b%b" % (
                len(self.back),
                step.does.encode(),
                text,
            )
            self.back.append(memory)
        return line_bytes


class ProgressWatch:
    """Says now and then how long the program works, how much memory it takes and how
    far it is, also while it asks nothing."""

    def __init__(
        self, child: "subprocess.Popen[bytes]", show_text: Callable[[str], None]
    ) -> None:
        self._child = child
        self._said = show_text
        self._started = time.monotonic()
        self._far = ""
        self._ended = threading.Event()
        self._thread = threading.Thread(target=self._watch, daemon=True)

    def __enter__(self) -> "ProgressWatch":
        self._thread.start()
        return self

    def __exit__(self, *_: object) -> None:
        self._ended.set()
        self._thread.join()

    def show_progress(self, message: Object) -> None:
        """Takes what the program tells of how far it is."""
        states = message["visited"]
        speed = message["visited"] / max(time.monotonic() - self._started, 1e-9)
        self._far = f": {states:,} states, {speed:,.0f} a second, {message['depth']} turns on the path"

    def _watch(self) -> None:
        while not self._ended.wait(PAUSE):
            seconds = time.monotonic() - self._started
            self._said(
                f"the program works for {seconds:.0f} s and takes {megabytes_of(self._child.pid)} MB{self._far}"
            )


def megabytes_of(pid: int) -> int:
    """Returns how much memory a process takes; 0 once it has ended."""
    try:
        status = pathlib.Path(f"/proc/{pid}/status").read_text(encoding="utf-8")
    except OSError:
        return 0
    return next(
        (
            int(line.split()[1]) // 1024
            for line in status.splitlines()
            if line.startswith("VmRSS")
        ),
        0,
    )


def program_words(program: str, fixture: Fixture, limit: int) -> List[str]:
    """The command by which a program tries the schedules of a match, and visits at most
    `most` states. It is run in the folder of the match's tournament."""
    return [
        program,
        "explore",
        "tournament.toml",
        "0",
        "--max-states",
        str(limit),
        "--spurious-wakeups",
        str(fixture.naps),
    ]


def run_search(
    program: str,
    fixture: Fixture,
    machines: Machines,
    limit: int,
    progress: Any = NO_PROGRESS,
    draws: Optional[SampleRequest] = None,
) -> ExploreAnswer:
    """Lets the program try all schedules of a match, or draw some, and answers its
    questions. Ctrl-C stops it."""
    start = time.monotonic()
    run = ProgramRun(machines)
    last = []
    # of modules the program says there how far it is, which nobody reads meanwhile
    with tempfile.TemporaryDirectory(
        prefix="lab-"
    ) as name, tempfile.TemporaryFile() as errors:
        write_tournament(fixture, pathlib.Path(name))
        words = program_words(program, fixture, limit)
        words += [
            module_word
            for module in machines.modules
            for module_word in ("--module", word_of(module, fixture.setup))
        ]
        words += draws.words() if draws else []
        child = subprocess.Popen(
            words,
            cwd=name,
            stdin=subprocess.PIPE,
            stdout=subprocess.PIPE,
            stderr=errors,
        )
        assert child.stdin and child.stdout
        try:
            with ProgressWatch(child, progress.set_postfix_str) as watch:
                for line in child.stdout:
                    if line.startswith(QUESTIONS):
                        child.stdin.write(run.answer(line))
                        child.stdin.flush()
                        progress.update()
                        continue
                    message = json.loads(line)
                    if "visited" in message:
                        watch.show_progress(message)
                    else:
                        last.append(message)
                child.communicate()
        except BrokenPipeError:
            # the program has ended, and says why
            child.communicate()
        except KeyboardInterrupt:
            return ExploreAnswer(None, time.monotonic() - start, why=STOPPED_TEXT)
        finally:
            if child.poll() is None:
                child.kill()
                child.communicate()
        errors.seek(0)
        # after the progress lines; the second line of a fault is indented
        fault = re.split(r"\n(?! )", text_of_fault(errors.read()))[-1]
    seconds = time.monotonic() - start
    if len(last) >= 2:
        return answer_of(last[0], last[1], last[2:], seconds, run.unwoken())
    if fault.endswith(f": {TOO_MANY}"):
        return ExploreAnswer(None, seconds, why=LONGER if draws else LIMIT_TEXT)
    raise EngineRefusedError(with_advice(fault), child.returncode)
