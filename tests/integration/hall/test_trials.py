"""Programs that teams try, by the process that a worker starts: what is found, and at
which lines; programs that hang, flood and attack; and trials that are stopped."""
import contextlib
import json
import os
import pathlib
import shutil
import signal
import subprocess
import sys
import time
import unittest
from typing import Any, Dict, Iterator, Set
from unittest import mock

from tests.integration.hall.test_drafts import RULES, DraftFile
from tests.integration.hall.hall_pages import PLACE, hall_with

from django.conf import settings

from arena_lab.course import exercises
from arena_lab.hall import machine, shares, worker
from arena_lab.hall.drafts import forking, written_kits, trial_work
from arena_lab.hall.drafts.models import Trial
from arena_lab.hall.work_steps import claim_work, step
from arena_lab.hall.teams.models import Team
from arena_lab.play.agent_files import AGENTS
from arena_lab.sandbox import processes, sandboxes
from arena_lab.support.built import TOP

CAREFUL = (AGENTS / "python" / "careful.py").read_text()
CLIENT = (AGENTS / "client.py").read_text()
# (replaced text, replacement, message): mistakes in a kit's agent
MISTAKES = (
    (
        "    while True:\n        theirs",
        "    while True\n        theirs",
        "expected ':'",
    ),
    ("theirs = safe_on", "theirs = save_on", "NameError: name 'save_on'"),
    ("agent.depart(ahead)", "agent.depart(ahead + 2)", "has the ports 0 to 1"),
    ("agent.accuse(ahead)", "agent.accuse(1 - ahead)", "leads to a safe node"),
    ("agent.accuse(ahead)", "agent.leave()", "nobody has accused a port"),
    ("    mine = 0\n", "    mine = 0\n    while mine < 5: pass\n", "no line for 5 s"),
)
# tries to reach what is not its own, and says what it has reached
REACHES = """import socket, sys
for path in ({paths}):
    try:
        print("REACHED", path, open(path).read()[:20], file=sys.stderr)
    except OSError:
        pass
try:
    socket.create_connection(("127.0.0.1", {port}), 1)
    print("REACHED the hall", file=sys.stderr)
except OSError:
    pass
print("<script>alert(1)</script>\\x1b[2J", file=sys.stderr)
print("\\x1e1 client.py:1\\n\\x1e2 ../key.txt:1\\n\\x1e999999 agent.py:7", file=sys.stderr)
raise SystemExit("the end")
"""
# what the kit's agent is changed in so that it reads its match's map, and ends if a link
# is not as the map says
MAP_WORD = "{network}:{home}"
MAPPED = (
    (
        "def back(",
        """FAR = {}


def nodes_in(word: str) -> int:
    import tomllib

    path, _, home = word.partition(":")
    network = tomllib.load(open(path, "rb"))
    for v, p, w, q in network["links"]:
        FAR.update({(v, p): q, (w, q): p})
    FAR["home"] = int(home)
    return network["nodes"]


def back(""",
    ),
    ("key, int(nodes))", "key, nodes_in(nodes))"),
    (
        "        mine += 1\n",
        "        assert mine or here.came == FAR[FAR['home'], side]\n        mine += 1\n",
    ),
)
# a worker that has a trial forked, and waits for its end
WORKER = """import pathlib, signal, sys
from arena_lab.hall import entry
entry.begin(sys.argv[1])
from arena_lab.hall.drafts import forking
signal.signal(signal.SIGTERM, lambda *_: sys.exit())
with forking.trial_in(pathlib.Path(sys.argv[2])) as has_ended:
    print("forked", flush=True)
    while not has_ended(60): pass
"""
# starts more and more processes
SPINS = """import sys, os, time
for _ in range(200):
    if os.fork() == 0:
        time.sleep(60)
"""
FLOOD = """import sys
while True:
    sys.stderr.write("x" * 100_000 + "\\n")
"""


class Tried(DraftFile):
    def setUp(self) -> None:
        super().setUp()
        if sandboxes.weakness():
            raise unittest.SkipTest(f"no walls here: {sandboxes.weakness()}")

    def run_trial(self, agent: str, language: str = "python", **args: Any) -> Trial:
        """A trial of this agent, which has come to its end."""
        kit = written_kits.kit_of(language)
        files = {**kit.files, kit.main: agent}
        reply = self.tries(language=language, files=files, **args)
        self.assertEqual(reply.status_code, 201, reply.content)
        trial = Trial.objects.get(pk=reply.json()["id"])
        holder = claim_work(trial)
        assert holder is not None
        trial_work.play(trial.pk, holder)
        return Trial.objects.get(pk=trial.pk)

    def report_of(self, agent: str, **args: Any) -> Dict[str, Any]:
        trial = self.run_trial(agent, **args)
        self.assertEqual((trial.state, trial.fault), (machine.OVER, ""))
        results: Dict[str, Any] = trial.found
        return results


class Shares(Tried):
    """Trials stand behind gradings, those of guests behind those of members."""

    def niceness_of(self, agent: str) -> Set[int]:
        """How nice the processes of a trial are."""
        values: Set[int] = set()

        @contextlib.contextmanager
        def watched_trial(folder: pathlib.Path) -> Iterator[Any]:
            with forking.trial_in(folder) as has_ended:
                server = forking.FORK_SERVER._child
                assert server is not None

                def look(seconds: float) -> bool:
                    for process in processes.below(server.pid)[1:]:
                        with contextlib.suppress(ProcessLookupError):
                            values.add(os.getpriority(os.PRIO_PROCESS, process))
                    return has_ended(seconds)

                yield look

        with mock.patch.object(trial_work, "trial_in", watched_trial):
            self.run_trial(agent)
        return values

    def test_who_is_nice(self) -> None:
        before = os.getpriority(os.PRIO_PROCESS, 0)
        for is_guest, nice in ((False, 5), (True, 19)):
            Team.objects.filter(name="amber").update(is_guest=is_guest)
            values = self.niceness_of(CAREFUL)
            self.assertEqual(max(values), min(19, before + nice), values)

    def test_how_many_processes_a_program_of_a_guest_has(self) -> None:
        """A fork is refused, or the program ended, as the machine allows."""
        Team.objects.filter(name="amber").update(is_guest=True)
        spins = CAREFUL.replace("import sys\n", SPINS, 1)
        for bound in (sandboxes.MAX_PROCESSES, 0):
            with mock.patch.object(sandboxes, "SANDBOX_PROCESSES", bound):
                report = self.report_of(spins)
            self.assertFalse(report["right"])
            self.assertIn("64 processes", " ".join(report["said"]))


class Found(Tried):
    def test_a_match_has_the_line_that_sent_each_event(self) -> None:
        trial = self.run_trial(CAREFUL)
        result = trial.found
        self.assertTrue(result["right"], result)
        self.assertTrue(result["verdict"].startswith("solved"), result["verdict"])
        log = [
            json.loads(line)
            for line in (trial.folder / "m0.jsonl").read_text().splitlines()[1:-1]
        ]
        self.assertEqual(len(result["lines"]), len(log))
        lines = CAREFUL.splitlines()
        sends = {
            "enter": ".enter(",
            "write": ".write(",
            "depart": ".depart(",
            "accuse": ".accuse(",
        }
        for (agent, file, line), event in zip(result["lines"], log):
            if event["do"] in sends:
                self.assertEqual((file, agent), ("agent.py", event["agent"]))
                self.assertIn(sends[event["do"]], lines[line - 1])
            else:
                self.assertEqual(line, 0)
        page = self.rest("get", f"/api/trials/{trial.pk}").json()["page"]
        self.assertEqual(self.client_of("amber").get(page).status_code, 200)
        self.assertGreater(trial.size, len(CAREFUL))
        # what plays knows nothing of the hall any more
        self.assertEqual(list((PLACE.folder / "trials").iterdir()), [trial.folder])

    def test_the_likeliest_mistake_stands_at_its_line(self) -> None:
        for right, wrong, message_text in MISTAKES:
            with self.subTest(message_text):
                self.assertIn(right, CAREFUL)
                agent = CAREFUL.replace(right, wrong)
                before = CAREFUL[: CAREFUL.index(right)]
                first = next(
                    index
                    for index, (a, b) in enumerate(
                        zip(CAREFUL.splitlines(), agent.splitlines()), 1
                    )
                    if a != b
                )
                self.assertGreaterEqual(first, before.count("\n") + 1)
                report = self.report_of(agent)
                self.assertFalse(report["right"])
                marks = [(mark["file"], mark["line"]) for mark in report["marks"]]
                self.assertIn(("agent.py", first), marks, report)
                text_sent = [
                    mark["said"] for mark in report["marks"] if mark["line"] == first
                ]
                self.assertTrue(
                    any(message_text in reply for reply in text_sent), text_sent
                )
                Trial.objects.all().delete()

    def test_what_to_mend_first_is_shown_by_the_match_that_shows_it(self) -> None:
        """It accuses the other side: under every schedule of a ring."""
        agent = CAREFUL.replace("agent.accuse(ahead)", "agent.accuse(1 - ahead)")
        for kind, network in (("check", "ring of 5"), ("explore", "ring:3")):
            with self.subTest(kind):
                report = self.report_of(agent, kind=kind, network=network)
                self.assertTrue(report["said"][0].startswith("To mend first: "), report)
                self.assertIn("leads to a safe node", report["marks"][0]["said"])
                self.assertGreater(report["marks"][0]["event"], 0)
                Trial.objects.all().delete()

    def test_programs_have_the_map_of_each_match(self) -> None:
        agent = CAREFUL
        for old, new in MAPPED:
            self.assertEqual(agent.count(old), 1)
            agent = agent.replace(old, new)
        command = settings.HALL.hand_ins.command.replace("{nodes}", MAP_WORD)
        conditions = settings.HALL.hand_ins._replace(command=command)
        # of a check the time leaves out drawn schedules, and not its matches
        for kind, network, seconds in (
            ("play", "ring of 5", 20),
            ("check", "ring of 5", 9),
            ("explore", "ring:3", 60),
        ):
            rules = RULES._replace(search=seconds)
            with self.subTest(kind), hall_with(hand_ins=conditions, editor=rules):
                report = self.report_of(agent, kind=kind, network=network)
                self.assertTrue(report["right"], report)
                Trial.objects.all().delete()


class Exercised(Tried):
    def test_every_schedule_of_an_exercise_is_tried(self) -> None:
        """The exercise's start agent solves the fixed matches, but fails under some
        schedules."""
        exercise = exercises.read_exercise("9-every-schedule")
        trial = self.run_trial(exercise.files()["agent.py"], language=exercise.name)
        self.assertEqual((trial.kind, trial.fault), ("explore", ""))
        result = trial.found
        self.assertFalse(result["right"])
        self.assertIn("what the other agent has noted is gone", result["said"][0])
        self.assertIn("(under a schedule of ring:4)", result["said"][0])
        lines = exercise.files()["agent.py"].splitlines()
        view = {lines[line - 1].strip() for _, _, line in result["lines"] if line}
        self.assertIn('swap = agent.write(swap.board, " ".join(safe))', view)

    def test_an_exercise_is_done_once_an_answer_is_right(self) -> None:
        exercise = exercises.read_exercise("2-two-answers")
        wrong = exercise.solution().replace("str(here.came)", '"0"')
        report = self.report_of(wrong, language=exercise.name)
        self.assertFalse(report["right"])
        self.assertIn("`came` is the port of the node", report["said"][0])
        page = self.client_of("amber").get(f"/write?language={exercise.name}")
        self.assertContains(page, "A departure is answered twice")
        self.assertNotContains(page, "\u2713 ")
        report = self.report_of(exercise.solution(), language=exercise.name)
        self.assertEqual(report["said"], ["Right in all 4 matches."])
        self.assertEqual(report["marks"], [])
        self.assertEqual([line for _, _, line in report["lines"]][:3], [8, 9, 0])
        page = self.client_of("amber").get("/write")
        self.assertContains(page, "&#10003; 2. A departure is answered twice")
        second = self.client_of("birch").get("/write")
        self.assertNotContains(second, "&#10003; 2.")
        # answers to exercises are stored like drafts
        reply = self.rest("get", f"/api/drafts/{exercise.name}").json()
        self.assertEqual(reply["files"]["agent.py"], exercise.solution())
        self.assertEqual((reply["version"], reply["hand_in"]), (0, False))


class Waiting(Tried):
    """The process that waits for trials, which forks one for each."""

    def fork(self, agent: str) -> Any:
        """Creates a trial of this agent; returns its folder and the worker's fork
        server."""
        kit = written_kits.kit_of("python")
        reply = self.tries(files={**kit.files, kit.main: agent})
        trial = Trial.objects.get(pk=reply.json()["id"])
        folder = trial.folder.with_name(f"{trial.pk}.one")
        trial_work.prepare(trial, folder)
        self.addCleanup(shutil.rmtree, folder, True)
        return folder

    def test_a_trial_ends_with_the_worker_and_by_its_block(self) -> None:
        folder = self.fork("while True: pass\n")
        words = [sys.executable, "-c", WORKER, str(PLACE.folder), str(folder)]
        for how in (signal.SIGKILL, signal.SIGTERM):
            worker = subprocess.Popen(words, cwd=TOP, stdout=subprocess.PIPE)
            assert worker.stdout is not None
            self.assertEqual(worker.stdout.readline(), b"forked\n")
            until = time.monotonic() + 60
            # the process that waits, the trial, and what the trial has started
            while len(running := processes.below(worker.pid)[1:]) < 4:
                self.assertLess(time.monotonic(), until)
            worker.send_signal(how)
            worker.wait()
            worker.stdout.close()
            while remaining := set(running) & set(processes.process_numbers()):
                self.assertLess(time.monotonic(), until, remaining)
                time.sleep(0.05)
            self.assertFalse((folder / "found.json").exists())

    def test_it_is_started_again_once_the_machine_has_ended_it(self) -> None:
        before = self.run_trial(CAREFUL)
        parent = forking.FORK_SERVER._child
        assert parent is not None
        parent.kill()
        parent.wait()
        self.assertTrue(self.report_of(CAREFUL)["right"])
        self.assertTrue(before.found["right"])

    def test_a_trial_that_was_killed_is_begun_again(self) -> None:
        """Whether its own process was killed, or that which forks it."""

        def kill_waiting(*_: Any) -> None:
            assert forking.FORK_SERVER._child is not None
            forking.FORK_SERVER._child.kill()

        def kill_trial(*_: Any) -> None:
            assert forking.FORK_SERVER._child is not None
            parent = forking.FORK_SERVER._child.pid
            for trial in processes.below(parent)[1:]:
                with contextlib.suppress(ProcessLookupError):
                    os.kill(trial, signal.SIGKILL)

        for kill in (kill_waiting, kill_trial):
            with mock.patch.object(trial_work.Lease, "wait", kill):
                trial = self.run_trial("import time\ntime.sleep(9)\n")
            self.assertEqual((trial.state, trial.faults), (machine.WAITING, 1))
            self.assertIsNone(trial.found)
            holder = claim_work(trial)
            assert holder is not None
            Trial.objects.filter(pk=trial.pk).update(files={"agent.py": "x = 1\n"})
            trial_work.play(trial.pk, holder)
            trial.refresh_from_db()
            self.assertEqual((trial.state, trial.runs), (machine.OVER, 2))

    def test_what_would_fail_again_is_not_begun_again(self) -> None:
        # a mock would not reach the forked process, so the request has the fault
        wrong = {**trial_work.DEFAULT_CONDITIONS, "networks": ["ring:1"]}
        with mock.patch.object(trial_work, "conditions_of", return_value=wrong):
            trial = self.run_trial(CAREFUL)
        self.assertEqual((trial.state, trial.faults), (machine.LOST, 0))
        self.assertRegex(trial.fault, "it could not be tried: .*ring:1")

    def test_a_trial_of_a_kit_that_was_removed_ends_by_a_sentence(self) -> None:
        for rules in (RULES._replace(languages=["c"]), None):
            number = self.tries().json()["id"]
            with hall_with(editor=rules):
                self.assertEqual(
                    [
                        trial.pk
                        for trial in worker.due_trials(set(), shares.share_of("one"))
                    ],
                    [number],
                )
                holder = claim_work(Trial.objects.get(pk=number))
                assert holder is not None
                trial_work.play(number, holder)
            trial = Trial.objects.get(pk=number)
            self.assertEqual((trial.state, trial.faults), (machine.LOST, 0))
            self.assertIn("your teacher has removed this kit", trial.fault)
            # the page of the team still names it
            reply = self.rest("get", f"/api/trials/{number}").json()
            self.assertEqual(reply["fault"], trial.fault)


class Hostile(Tried):
    def test_it_reaches_nothing_and_says_nothing_but_text(self) -> None:
        key = PLACE.folder / "key.txt"
        self.assertTrue(key.exists())
        paths = [str(key), "/etc/shadow", f"{PLACE.folder}/hall.sqlite3"]
        agent = REACHES.format(paths=", ".join(map(repr, [*paths, ""])), port=22)
        report = self.report_of(agent)
        self.assertNotIn("REACHED", json.dumps(report))
        self.assertIn("alert(1)</script>\\x1b[2J", report["written"]["0"])
        # forged marks are of its own files, and of events that it has sent
        self.assertEqual(report["lines"], [[-1, "", 0]])
        self.assertEqual(
            {mark["file"] for mark in report["marks"]} - {"agent.py"}, set()
        )

    def test_a_flood_is_cut(self) -> None:
        with hall_with(editor=RULES._replace(seconds=6)):
            report = self.report_of(FLOOD)
        self.assertFalse(report["right"])
        self.assertLess(len(json.dumps(report)), 60_000)

    def test_a_trial_that_does_not_end_is_ended(self) -> None:
        with mock.patch.object(trial_work, "EXTRA_SECONDS", -19):
            trial = self.run_trial("import time\ntime.sleep(60)\n")
        self.assertEqual(trial.state, machine.LOST)
        self.assertEqual(trial.fault, "it was ended after 1 s")
        self.assertEqual(list((PLACE.folder / "trials").iterdir()), [])

    def test_a_team_stops_its_trial(self) -> None:
        def stop(lease: Any, _: float) -> None:
            step(Trial.objects.get(), machine.CANCEL)
            lease.renew()

        start = time.monotonic()
        with mock.patch.object(trial_work.Lease, "wait", stop):
            trial = self.run_trial(FLOOD)
        self.assertEqual((trial.state, trial.found), (machine.CANCELLED, None))
        self.assertLess(time.monotonic() - start, 30)
        self.assertEqual(list((PLACE.folder / "trials").iterdir()), [])
