"""Certificates: what the program printed of some files, with its origin, so that anybody
can get the same again; and what a search of all schedules and an attested replay say
together of a match.

A certificate is a line of `arena-lab json`: docs/results.schema.json has its form.
"""
import argparse
import json
import pathlib
import subprocess
import sys
import tempfile
from typing import Any, Iterator, List, NamedTuple, NoReturn, Optional, Tuple

from arena_lab.rules.engines import program_output
from arena_lab.rules.fixtures import Fixture, read_tournament
from arena_lab.rules.limits import MAX_TEXT
from arena_lab.rules.model import (
    AWAY,
    ENDED,
    Match,
    Object,
    begin_match,
    objects_of,
    spell,
)
from arena_lab.rules.origins import digests_of, files_of, origin_of
from arena_lab.rules.printed import READERS, reading
from arena_lab.support.built import without_warning
from arena_lab.support.faults import ArenaError

# the program's status for a command line that it refuses
REFUSED_STATUS = 2
# the option that a command needs to print a result that JSON can hold, and advice
NEEDS = {
    "explore": (
        "--module",
        "name modules by --module: without them `arena explore` asks its host, in lines of JSON",
    )
}
# the option with which a command prints lines of JSON itself, and advice
EXCLUDES = {
    "explore": (
        "--all-holes",
        "leave out --all-holes: `arena explore --all-holes` prints lines of JSON itself, of several matches",
    )
}
# how much of two results is shown that differ
SHOWN = 200


class CertificateError(ArenaError):
    """A file is no certificate."""


class WordsError(ArenaError):
    """A command line has no result that can be read."""


# ---- what the program prints, with its origin


def check_words(words: List[str]) -> None:
    """Raises WordsError for words of which no result can be read."""
    options = {word.partition("=")[0] for word in words}
    option, advice = NEEDS.get(words[0], ("", ""))
    if option and option not in options:
        raise WordsError(advice)
    option, advice = EXCLUDES.get(words[0], ("", ""))
    if option in options:
        raise WordsError(advice)


def certify(program: str, words: List[str]) -> Tuple[int, Optional[Object]]:
    """Runs a command of the program. Returns its exit status, and the certificate; it is
    None if the program refuses the words."""
    check_words(words)
    files = digests_of(files_of(words[1:]))
    status, output, errors = run_program([program, *words])
    if status == REFUSED_STATUS:
        return status, None
    help_text = program_output(program, words[0], "-h")
    origin = origin_of(pathlib.Path(program), words, files, help_text)
    return status, {**reading(words, output, errors, status), "origin": origin}


def run_program(words: List[str]) -> Tuple[int, str, str]:
    """The status of a program, and what it wrote to standard output and to standard
    error, which is shown meanwhile, but that the program is not proved."""
    with tempfile.TemporaryFile() as output:
        with subprocess.Popen(
            words, stdin=subprocess.DEVNULL, stdout=output, stderr=subprocess.PIPE
        ) as child:
            errors = "".join(echo_line(line) for line in child.stderr or ())
        output.seek(0)
        return child.returncode, output.read().decode(), errors


def echo_line(line: bytes) -> str:
    """A line of standard error, which is written to ours."""
    text = without_warning(line.decode(errors="replace"))
    print(text, end="", file=sys.stderr, flush=True)
    return text


# ---- certificates, repeated


def read_certificate(path: str) -> Object:
    """Reads a certificate. Raises CertificateError for other files."""
    try:
        with open(path, "rb") as file:
            line = json.loads(file.read(MAX_TEXT))
        origin = line["origin"]
        words = [str(word) for word in origin["words"]]
        digests = {str(row["file"]): str(row["sha256"]) for row in origin["files"]}
        if words[0] not in READERS or line["command"] != words[0]:
            raise ValueError(f"there is no command {words[0]}")
        check_words(words)
        return {**line, "words": words, "digests": digests}
    except (
        ValueError,
        KeyError,
        TypeError,
        IndexError,
        RecursionError,
        WordsError,
    ) as fault:
        raise CertificateError(
            f"{path}: it is no line of `arena-lab json` ({fault or 'empty'})"
        ) from None


def changed_files(certificate: Object) -> Iterator[str]:
    """Yields a sentence for each file that is missing or has other bytes now."""
    now = digests_of(certificate["digests"])
    for name, digest in certificate["digests"].items():
        if name not in now:
            yield f"{name}: there is no such file here"
        elif now[name] != digest:
            yield f"{name}: it has the SHA-256 {now[name]}, and the certificate {digest}"


def differences(certificate: Object, again: Optional[Object]) -> Iterator[str]:
    """Yields a sentence for each part of a result that is another now."""
    for part in ("status", "result", "faults"):
        now = again[part] if again else None
        yield from differing_parts(part, certificate.get(part), now)


def differing_parts(path: str, there: Any, here: Any) -> Iterator[str]:
    """Yields where two values of JSON differ, in their smallest parts."""
    if (
        isinstance(there, dict)
        and isinstance(here, dict)
        and there.keys() == here.keys()
    ):
        for key in there:
            yield from differing_parts(f"{path}.{key}", there[key], here[key])
    elif isinstance(there, list) and isinstance(here, list) and len(there) == len(here):
        for index, pair in enumerate(zip(there, here)):
            yield from differing_parts(f"{path}[{index}]", *pair)
    elif spell(there) != spell(here):
        yield f"{path}: {excerpt(there)} there, {excerpt(here)} here"


def excerpt(value: object) -> str:
    text = spell(value)
    return text if len(text) <= SHOWN else f"{text[:SHOWN]}.."


def program_text(origin: Object) -> str:
    """Returns how a certificate's program is called: name, version, and whether it is
    proved."""
    program = origin["program"]
    version = f" {program['version']}" if program["version"] else ""
    proof = "proved" if program["proved"] else "not proved"
    return f"{program['name']}{version} ({proof}, SHA-256 {program['sha256'][:12]}..)"


# ---- a search of all schedules, and a replay


class PremiseError(ArenaError):
    """A premise of the theorem on attested replays does not hold."""


class RefusingParser(argparse.ArgumentParser):
    """Raises CertificateError for words that the program would refuse."""

    def error(self, message: str) -> NoReturn:
        raise CertificateError(message)


def explored_match(words: List[str]) -> Tuple[Fixture, int]:
    """Returns the match that `arena explore` searched, and its number."""
    arguments = RefusingParser(add_help=False)
    arguments.add_argument("tournament")
    arguments.add_argument("match", type=int)
    for option in (
        "module",
        "max-states",
        "spurious-wakeups",
        "draws",
        "seed",
        "scheduler",
    ):
        arguments.add_argument(f"--{option}", action="append")
    args = arguments.parse_args(words[1:])
    return read_tournament(args.tournament).fixtures[args.match], args.match


def replay_of(words: List[str]) -> str:
    """Returns the replay that `arena attest` compared."""
    arguments = RefusingParser(add_help=False)
    arguments.add_argument("replay")
    for option in ("module", "spurious-wakeups"):
        arguments.add_argument(f"--{option}", action="append")
    return str(arguments.parse_args(words[1:]).replay)


def wakeups_of(certificate: Object) -> int:
    """Returns the --spurious-wakeups of `arena explore`, given or by default."""
    words = certificate["words"]
    for word, following in zip(words, [*words[1:], ""]):
        name, _, value = word.partition("=")
        if name == "--spurious-wakeups":
            return int(value or following)
    return int(certificate["origin"]["defaults"]["spurious-wakeups"])


def modules_of(rows: List[Object], agents: int) -> List[Tuple[str, List[int]]]:
    """Returns the SHA-256 and the arguments of each agent's module."""
    modules = [(row["module"], row["arguments"]) for row in rows]
    return modules * agents if len(modules) == 1 else modules


class ReplayBounds(NamedTuple):
    """What holds of a replay: at most so many moves and lost agents, and whether all
    its agents have ended or are lost, so that the match is solved."""

    moves: int
    lost: int
    is_finished: bool


def bounds_of(search: Object, attestation: Object) -> ReplayBounds:
    """Returns what a search of all schedules says of an attested replay. Raises
    PremiseError for the first premise of the theorem that does not hold."""
    finding = (search["result"] or {}).get("found", {})
    summary = (attestation["result"] or {}).get("summary", {})
    if finding.get("found") != "solves":
        raise PremiseError(
            "the search did not find that every schedule solves the match"
        )
    if not summary.get("attested"):
        raise PremiseError("the replay is not attested")
    fixture, number = explored_match(search["words"])
    replay = replay_of(attestation["words"])
    head, *events = objects_of(pathlib.Path(replay).read_text(encoding="utf-8"))
    match = begin_match(head)
    if match.head() != Match(fixture.setup).head():
        raise PremiseError(f"{replay} is of another match than match {number}")
    wakeups = wakeups_of(search)
    if summary["spurious_wakeups"] != wakeups:
        raise PremiseError(
            f"the search has --spurious-wakeups {wakeups}, and the replay is attested "
            f"with {summary['spurious_wakeups']}"
        )
    agents = fixture.setup.agents
    modules = modules_of(search["result"]["modules"], agents)
    if modules != modules_of(attestation["result"]["agents"], agents):
        raise PremiseError("agents run other modules in the search than in the replay")
    for event in events:
        check_delivery(fixture, match, event)
        match.play(event)
    is_finished = all(agent.standing == ENDED or agent.lost for agent in match.agents)
    return ReplayBounds(finding["moves"], finding["lost"], is_finished)


def check_delivery(fixture: Fixture, match: Match, event: Object) -> None:
    """Raises PremiseError for an arrival over a link over which nobody arrives in the
    search."""
    if event["do"] != "deliver":
        return
    agent = match.agents[event["agent"]]
    if agent.standing == AWAY and (agent.node, agent.port) in fixture.held:
        raise PremiseError(
            f"agent {event['agent']} arrives over a link that is held in the search"
        )
