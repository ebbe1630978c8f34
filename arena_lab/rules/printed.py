"""What the program prints, and what it reads as: a verdict, the table of teams, the
matches of a tournament, the result of a search, and faults.

The text is the program's. Each reading is spelled again and compared with the text, so
a text that says anything else is refused."""
import json
import re
from typing import Any, Callable, Dict, List, NamedTuple, Sequence, Tuple

from arena_lab.rules.model import Object, Verdict, rank, spell
from arena_lab.rules.refusals import split_line
from arena_lab.support.faults import ArenaError

HEAD = "#", "team", "outcome", "moves", "lost"
OUTCOME = r"solved|guess \d+|unfinished|silent|wrong"
TEAM = re.compile(rf" *(\d+) (\S+) +({OUTCOME}) +(\d+) +(\d+)")
VERDICT = re.compile(rf"({OUTCOME}) moves (\d+) lost (\d+)")
MATCH = re.compile(r"match (\d+) (\S+) nodes (\d+) links (\d+) agents (\d+)")
# characters that JSON may have as they are, and at which readers of lines end a line
LINE_ENDS = str.maketrans({"\x85": r"\u0085", "\u2028": r"\u2028", "\u2029": r"\u2029"})


class PrintedTextError(ArenaError):
    """The text is not what the command prints."""


class MatchLine(NamedTuple):
    """A match of a tournament, as `check` prints it: its number and its team, how many
    nodes and links its network has, and how many agents play it."""

    match: int
    team: str
    nodes: int
    links: int
    agents: int

    def __str__(self) -> str:
        return (
            f"match {self.match} {self.team} nodes {self.nodes} links {self.links} "
            f"agents {self.agents}"
        )


def verdict_in(text: str) -> Verdict:
    """The verdict that `judge` printed."""
    outcome, moves, lost = groups_in(VERDICT, text.removesuffix("\n"))
    return Verdict(outcome, int(moves), int(lost))


def table(rows: Sequence[Tuple[str, Verdict]]) -> str:
    """The table of teams and verdicts, best first."""
    ranking = sorted(rows, key=lambda row: rank(row[1], row[0]))
    lines: List[Sequence[object]] = [HEAD]
    lines += [
        (rank_number, team, *verdict)
        for rank_number, (team, verdict) in enumerate(ranking, 1)
    ]
    return "".join(f"{a:>3} {b:<16} {c:<10} {d:>6} {e:>4}\n" for a, b, c, d, e in lines)


def table_in(text: str) -> List[Tuple[str, Verdict]]:
    """The teams and verdicts of a table, best first."""
    rows = [groups_in(TEAM, line) for line in text.splitlines()[1:]]
    return [
        (team, Verdict(outcome, int(moves), int(lost)))
        for _, team, outcome, moves, lost in rows
    ]


def matches_in(text: str) -> List[MatchLine]:
    """The matches that `check` printed."""
    matches = [groups_in(MATCH, line) for line in text.splitlines()]
    return [
        MatchLine(int(match), team, int(nodes), int(links), int(agents))
        for match, team, nodes, links, agents in matches
    ]


def groups_in(form: "re.Pattern[str]", line: str) -> Sequence[str]:
    """The parts of a line of this form."""
    match = form.fullmatch(line)
    if not match:
        raise PrintedTextError(f"this is no line of a result: {line!r}")
    return match.groups()


def by_judge(text: str) -> Tuple[Object, str]:
    verdict = verdict_in(text)
    return verdict._asdict(), f"{verdict}\n"


def by_table(text: str) -> Tuple[Object, str]:
    rows = table_in(text)
    teams = [
        {"place": rank_number, "team": team, **verdict._asdict()}
        for rank_number, (team, verdict) in enumerate(rows, 1)
    ]
    return {"teams": teams}, table(rows)


def by_check(text: str) -> Tuple[Object, str]:
    matches = matches_in(text)
    return {"matches": [match._asdict() for match in matches]}, "".join(
        f"{match}\n" for match in matches
    )


def by_explore(text: str) -> Tuple[Object, str]:
    """Parses the JSON lines of a result: finding, counts, and one line per module."""
    finding, counts, *modules = lines = lines_of_json(text)
    return {"found": finding, "counts": counts, "modules": modules}, as_printed(lines)


def by_attest(text: str) -> Tuple[Object, str]:
    """Parses the JSON lines of a comparison: one per agent, and one for all."""
    *agents, summary = lines = lines_of_json(text)
    return {"summary": summary, "agents": agents}, as_printed(lines)


def lines_of_json(text: str) -> List[Object]:
    return [json.loads(line) for line in text.removesuffix("\n").split("\n")]


def as_printed(lines: Sequence[Object]) -> str:
    return "".join(
        json.dumps(line, separators=(",", ":"), ensure_ascii=False) + "\n"
        for line in lines
    )


# of each command its reader, which gives the result and spells it again
READERS: Dict[str, Callable[[str], Tuple[Object, str]]] = {
    "judge": by_judge,
    "table": by_table,
    "check": by_check,
    "explore": by_explore,
    "attest": by_attest,
}


def result_in(command: str, text: str) -> Any:
    """Parses the output of a command into a JSON value, or None for empty output.
    Raises PrintedTextError for other texts."""
    if not text:
        return None
    try:
        result, again = READERS[command](text)
    except ValueError:
        again = ""
    if again != text:
        raise PrintedTextError(
            f"this is no result of `arena {command}`: {text[:200]!r}"
        )
    return result


def faults_in(errors: str, words: Sequence[str]) -> Tuple[List[Object], List[str]]:
    """Parses standard error of a command of the program. Returns the faults (place,
    text, explanations) and the other lines, which are notes."""
    faults: List[Object] = []
    notes: List[str] = []
    for line in errors.removesuffix("\n").split("\n") if errors else ():
        parts = split_line(line, words)
        if line.startswith("  ") and faults:
            faults[-1]["more"].append(line.strip())
        elif parts.is_note or not parts.where:
            notes.append(line)
        else:
            faults.append({"where": parts.where, "fault": parts.text, "more": []})
    return faults, notes


def reading(words: Sequence[str], text: str, errors: str, status: int) -> Object:
    """Returns the results of a command of the program as one object; with its origin
    (origins.py) it has the schema docs/results.schema.json."""
    faults, notes = faults_in(errors, words)
    return {
        "command": words[0],
        "status": status,
        "result": result_in(words[0], text),
        "faults": faults,
        "notes": notes,
    }


def line_of(result: Object) -> str:
    """Returns the JSON of what `reading` gives as one line, also for readers that take
    Unicode's line separators for the end of a line."""
    return spell(result).translate(LINE_ENDS)
