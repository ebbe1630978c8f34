"""Tries programs while teams write them: plays a match to be watched, checks a program,
tries every schedule of a small network, or plays an exercise.

    python3 -m arena_lab.course.trials

A hall's worker starts this module and keeps it waiting. Its standard input is a socket:
each message names the folder of a trial and one for temporary files. The server forks a
process for the trial, which ends once the trial is over, and answers with a descriptor
of that process. So nothing of a program is in a process of the hall, no two trials share
a process, and none waits until modules are loaded.

A trial reads `asked.json` of its folder (TrialRequest) and the program's files in
`files`. It writes `found.json`, and of a match the replay and the page. What is found has
sentences, and marks: lines of the program's files, each with what is wrong there. A
trial that would fail again writes why to `fault.txt`. One that has written neither was
ended by the machine, and is begun again.
"""
import contextlib
import errno
import functools
import gc
import io
import json
import os
import pathlib
import signal
import socket
import sys
import time
import traceback
from typing import Any, Dict, List, NamedTuple, NoReturn, Optional, Set

from arena_lab.course import check_steps, exercises, sender_marks
from arena_lab.course.answers import check_answer
from arena_lab.course.check_jobs import CheckBudget, CheckJob, conditions_of, join_words
from arena_lab.course.mistaken_lines import LEAVES, marks_of
from arena_lab.course.trial_files import (
    CHECK,
    EXPLORE,
    FAULT_FILE,
    FILES,
    LOG,
    PAGE,
    PLAY,
    REPLAY,
    REQUEST_FILE,
    RESULT_FILE,
)
from arena_lab.pages import match_page
from arena_lab.play import games, kept_matches, programs
from arena_lab.play.games import Record
from arena_lab.play.matches import play
from arena_lab.play.mistakes import plain
from arena_lab.play.parallel import end_with
from arena_lab.play.schedules import Schedule, schedule_of
from arena_lab.play.teams import OUTSIDE, AgentWords
from arena_lab.sandbox import calls, isolation
from arena_lab.sandbox.isolation import CellError
from arena_lab.sandbox.own_sandboxes import OwnSandboxes
from arena_lab.sandbox.sandboxes import MAX_PROCESSES, Isolation, SandboxOptions
from arena_lab.submissions.submission import Submission, read_paths
from arena_lab.submissions.team_runners import files_of
from arena_lab.support.faults import ArenaError

STEPS = {
    CHECK: (check_steps.matches, check_steps.draw_few),
    EXPLORE: (check_steps.every,),
}
# seconds before the line timeout at which a program prints its position
BEFORE = 1
# bytes of all lines of a match
ROOM = 1 << 20
# limits on a report: sentences, characters of a sentence, and characters of a program's
# output
MAX_SENTENCES = 20
LONGEST = 400
MAX_OUTPUT = 20_000
# bytes of a message that asks for a trial
MAX_MESSAGE = 1 << 16
# seconds for which it is known where the system has pipes and sockets
SURVEY_SECONDS = 3600.0
# faults of a machine that is short of disk, memory, descriptors or processes
SHORTAGES = (
    errno.ENOSPC,
    errno.EDQUOT,
    errno.ENOMEM,
    errno.EMFILE,
    errno.ENFILE,
    errno.EAGAIN,
)
# the command of most trials
DEFAULT_COMMAND = "python3"


class TrialRequest(NamedTuple):
    """The contents of `asked.json`: the trial to run."""

    kind: str
    exercise: str
    command: str
    conditions: Dict[str, Any]
    scheduler: str
    seed: int
    seconds: int
    line: int
    isolation: str
    program: Optional[str]
    nice: int = 0
    processes: int = MAX_PROCESSES


class TriedProgram:
    """A program that is tried in a folder."""

    def __init__(self, folder: pathlib.Path, request: TrialRequest) -> None:
        self.folder = folder
        self.asked = request
        self.submission = read_paths([folder / FILES], folder)

    def agent(self, submission: Submission) -> AgentWords:
        """An agent that runs these files in a sandbox."""
        words = self.asked.command
        options = SandboxOptions(
            Isolation[self.asked.isolation], processes=self.asked.processes
        )
        files_in = functools.partial(files_of, submission, words)
        return AgentWords(OUTSIDE, words, runner_for=OwnSandboxes(options, files_in))

    def mark_program(self) -> Submission:
        """The program with a client that says by which line it sends."""
        return sender_marks.mark_program(self.submission, self.asked.line - BEFORE)

    def check_job(self, agent: AgentWords) -> CheckJob:
        request = self.asked
        conditions = conditions_of(request.conditions, self.folder, agent)
        return CheckJob(
            agent, conditions, self.asked.line, request.program, request.seconds, True
        )

    def watch_match(self) -> Dict[str, Any]:
        """Plays the match of a scheduler and a seed, and writes what shows it."""
        nobody = self.check_job(AgentWords(OUTSIDE, "nobody"))
        name = nobody.networks[0]
        case = nobody.conditions.case(name, self.asked.scheduler, self.asked.seed)
        fixture = nobody.conditions.fixture(case)
        agent = self.agent(self.mark_program())
        agents = [agent] * fixture.setup.agents
        origin = f"{case.scheduler} {case.seed} on {name}"
        empty = schedule_of(fixture, agents, origin, [], self.asked.line)
        record = self.play_match(empty)
        return {
            "right": not record.has_failed,
            "verdict": str(record.judge()),
            "said": [*record.report(), *record.faults(), *record.match.refusals],
            **self.match_report(record),
        }

    def play_match(self, empty: Schedule) -> Record:
        """Plays under the scheduler, within bounds of time and of lines."""
        agents = dict(enumerate(empty.agents))
        team = programs.Team(
            empty.fixture,
            {number: agent.words for number, agent in agents.items()},
            self.asked.line,
            {
                number: agent.runner_for(empty.fixture)
                for number, agent in agents.items()
            },
            self.asked.seconds,
            room=ROOM,
        )
        engine = kept_matches.engine_of(empty, self.asked.program)
        scheduler = games.maker_of(self.asked.scheduler)(self.asked.seed)
        match = play(engine, team, scheduler, empty.fixture)
        schedule = empty._replace(choices=match.choices)
        return Record(schedule, match, self.asked.program)

    def match_report(self, record: Record) -> Dict[str, Any]:
        """Writes a match's replay and its page; gives by which lines of the program its
        events came, what programs wrote, and what is wrong in which line."""
        replay = self.folder / REPLAY
        replay.write_bytes(record.match.replay)
        refusals = record.match.refusals
        match_page.write_page(
            record.program, replay, self.folder / PAGE, None, "", refusals
        )
        outputs, places = sender_marks.split_errors(record.match.errors)
        senders = sender_marks.along(record.match.match.log, places)
        lines = [
            [event.get("agent", -1), sender.file, sender.line]
            for event, sender in zip(record.match.match.log, senders)
        ]
        return {
            "lines": lines,
            "written": outputs,
            "marks": marks_of(record, outputs, places, self.submission),
        }

    def checks(self) -> Dict[str, Any]:
        """Checks the program by the steps of its kind."""
        lines: List[str] = []
        # a killed check would lose its results
        budget = CheckBudget(self.asked.seconds, self.asked.seconds, lines.append)
        job = self.check_job(self.agent(self.submission))
        with contextlib.redirect_stderr(io.StringIO()):
            right, wrong = check_steps.by_steps(job, STEPS[self.asked.kind], budget)
        if wrong is not None:
            return self.to_mend(wrong)
        if not right:
            left_out_text = (
                f"not within {self.asked.seconds} s: {join_words(budget.left_out)}"
            )
            return {
                "right": False,
                "said": [left_out_text] if budget.left_out else lines[-1:],
            }
        end = f"; not tried: {join_words(budget.left_out)}" if budget.left_out else ""
        return {"right": True, "said": [f"Right {join_words(right)}{end}."]}

    def to_mend(self, wrong: check_steps.Finding) -> Dict[str, Any]:
        """Returns the report of a finding, with its match replayed by a client that
        marks the sending lines."""
        record = wrong.record
        schedule = record.schedule
        agent = self.agent(self.mark_program())
        with contextlib.suppress(ArenaError):
            again = schedule._replace(agents=[agent] * len(schedule.agents))
            marked_record = games.play_again(again, self.asked.program)
            if marked_record.match.replay == record.match.replay:
                record = marked_record
        lines = [f"To mend first: {wrong.lines[0]}", *wrong.lines[1:]]
        return {"right": False, "said": lines, **self.match_report(record)}

    def answer(self) -> Dict[str, Any]:
        """Plays the matches of an exercise."""
        exercise = exercises.read_exercise(self.asked.exercise)
        answer = check_answer(
            exercise,
            self.agent(self.mark_program()),
            self.asked.program,
            seconds=self.asked.seconds,
        )
        report = self.match_report(answer.record)
        # an exercise may be about something else than the black hole
        marks = [mark for mark in report["marks"] if LEAVES not in mark["said"]]
        lines = answer.lines or [exercise.praise()]
        return {"right": not answer.lines, "said": lines, **report, "marks": marks}

    def run_trial(self) -> Dict[str, Any]:
        if self.asked.exercise:
            return self.answer()
        if self.asked.kind == PLAY:
            return self.watch_match()
        return self.checks()


def bound_report(report: Dict[str, Any]) -> Dict[str, Any]:
    """Limits the lengths of a report's texts, so that it can be stored and shown."""
    lines = list(dict.fromkeys(plain(line)[:LONGEST] for line in report["said"]))
    outputs = {
        agent: "\n".join(map(plain, text.split("\n")))[-MAX_OUTPUT:]
        for agent, text in report.get("written", {}).items()
        if text
    }
    marks: List[Dict[str, Any]] = report.get("marks", [])
    return {
        "verdict": "",
        "lines": [],
        **report,
        "said": lines[:MAX_SENTENCES],
        "written": outputs,
        "marks": [
            {**mark, "said": plain(mark["said"])[:LONGEST]}
            for mark in marks[:MAX_SENTENCES]
        ],
    }


def read_request(folder: pathlib.Path) -> TrialRequest:
    """Reads the request in a trial's folder."""
    return TrialRequest(
        **json.loads((folder / REQUEST_FILE).read_text(encoding="utf-8"))
    )


def try_in(folder: pathlib.Path) -> None:
    """Runs the trial of a folder, and writes its result file last."""
    # where the words of a command name files
    os.chdir(folder / FILES)
    report = bound_report(TriedProgram(folder, read_request(folder)).run_trial())
    new = folder / f".{RESULT_FILE}"
    new.write_text(json.dumps(report), encoding="utf-8")
    new.replace(folder / RESULT_FILE)


class TrialServer:
    """Forks a process for each trial, and forgets those that have ended."""

    def __init__(self, worker: socket.socket) -> None:
        self._worker = worker
        self._running: Set[int] = set()
        self._looked = time.monotonic()

    def serve(self) -> None:
        """Goes on until the worker has ended."""
        signal.signal(signal.SIGCHLD, lambda *_: self._reap())
        share(DEFAULT_COMMAND)
        # what is loaded by now is shared by all trials
        gc.collect()
        gc.freeze()
        while message := self._worker.recv(MAX_MESSAGE):
            request = json.loads(message)
            folder = pathlib.Path(request["folder"])
            if time.monotonic() - self._looked > SURVEY_SECONDS:
                isolation.meeting_places.cache_clear()
                self._looked = time.monotonic()
            share(read_request(folder).command)
            parent = os.getpid()
            child = os.fork()
            if child == 0:
                self._worker.close()
                end(folder, request["temporary"], parent)
            process = os.pidfd_open(child)
            self._running.add(child)
            self._reap()
            socket.send_fds(self._worker, [b"."], [process])
            os.close(process)

    def _reap(self) -> None:
        for child in list(self._running):
            # a signal may come while this goes on
            with contextlib.suppress(ChildProcessError):
                if os.waitpid(child, os.WNOHANG)[0] == 0:
                    continue
            self._running.discard(child)


def share(command: str) -> None:
    """Finds out once for all trials what they share: the filter of system calls for the
    language of a command, and which pipes and sockets of the system's folders are
    hidden. A trial itself tells what is wrong with these, and needs neither where
    programs have no walls."""
    with contextlib.suppress(ArenaError, OSError):
        isolation.system_filter(calls.language_of(command, lambda _: None), ())
        isolation.words((), False)


def is_of_machine(fault: BaseException) -> bool:
    """Returns whether another run of the trial may not have this fault."""
    is_short = isinstance(fault, OSError) and fault.errno in SHORTAGES
    return is_short or isinstance(fault, CellError)


def end(folder: pathlib.Path, temporary: str, parent: int) -> NoReturn:
    """Runs a trial in the forked process, and exits."""
    status = 1
    try:
        end_with(parent, signal.SIGKILL)
        signal.signal(signal.SIGCHLD, signal.SIG_DFL)
        os.environ["TMPDIR"] = temporary
        for descriptor, path, how in (
            (0, os.devnull, os.O_RDONLY),
            (1, str(folder / LOG), os.O_WRONLY | os.O_CREAT | os.O_TRUNC),
        ):
            stream = os.open(path, how, 0o600)
            os.dup2(stream, descriptor)
            os.close(stream)
        os.dup2(1, 2)
        # gradings are not kept waiting
        os.nice(read_request(folder).nice)
        try_in(folder)
        status = 0
    except BaseException as fault:
        traceback.print_exc()
        if not is_of_machine(fault):
            with contextlib.suppress(OSError):
                (folder / FAULT_FILE).write_text(f"{fault}\n", encoding="utf-8")
    finally:
        with contextlib.suppress(OSError):
            sys.stderr.flush()
        os._exit(status)


if __name__ == "__main__":
    TrialServer(socket.socket(fileno=os.dup(0))).serve()
