"""What each benchmark has printed, as the tables and lists of bench/FIGURES.md."""
import re
from typing import Iterable, List, Sequence

Cells = Sequence[str]


def table(head: Cells, rows: Iterable[Cells]) -> str:
    """A table in Markdown."""
    lines = [head, ["---"] * len(head), *rows]
    return "".join(f"| {' | '.join(cells)} |\n" for cells in lines)


def found_in(pattern: str, output: str) -> List[Cells]:
    """Returns the groups of all lines that match a pattern. Raises ValueError if no
    line does."""
    groups = re.findall(f"^{pattern}$", output, re.MULTILINE)
    if not groups:
        raise ValueError(f"no line reads {pattern}")
    return [list(cells) for cells in groups]


def gate_text(output: str) -> str:
    """The table of tools/prove/gate_times, which stands behind the lines of the
    gate."""
    _, _, last = output.partition("\nProcessor seconds by crate and stage; ")
    summary, _, rows = last.partition(":\n\n")
    if not rows:
        raise ValueError("there is no table of the gate")
    return f"Processor seconds of the prover; {summary}.\n\n{rows.strip()}\n"


def steps_text(output: str) -> str:
    figures = dict(found_in(r"([a-z ]+) ([\d.]+)", output))
    names = ("events", "seconds", "events in a second")
    return table(names, [[figures[name] for name in names]])


def submit_text(output: str) -> str:
    rows = found_in(
        r"lock (\w+) threads (\d+) matches (\d+) commands (\d+) kept \d+ in a second (\d+)",
        output,
    )
    return table(("lock", "threads", "matches", "commands", "commands a second"), rows)


def stages_text(output: str) -> str:
    rows = found_in(r"(\w+ \w+) (\d+) nanoseconds (\d+)", output)
    return table(("stage", "how many", "nanoseconds each"), rows)


def rehearse_text(output: str) -> str:
    scripts = found_in(
        r"(\d+) lines, (\d+) bytes: ([\d.]+) s, (\d+) lines per second, peak (\d+) KiB",
        output,
    )
    starts = found_in(r"start, (.+): ([\d.]+) ms", output)
    return (
        table(("lines", "bytes", "seconds", "lines a second", "peak, KiB"), scripts)
        + "\n"
        + table(
            ("start without a line of", "milliseconds"),
            ([f"`{words}`", ms] for words, ms in starts),
        )
    )


def compare_text(output: str) -> str:
    pair = r"([\d.]+) ms, ([\d.]+) ms, ratio ([\d.]+)"
    rows = found_in(
        rf"(.+): {pair}; processor {pair}; peak ([\d.]+) KiB, ([\d.]+) KiB", output
    )
    return table(
        (
            "input",
            "ms",
            "other, ms",
            "ratio",
            "processor ms",
            "other, ms",
            "ratio",
            "peak, KiB",
            "other, KiB",
        ),
        rows,
    )


def replays_text(output: str) -> str:
    """A row for each command on each whole replay, with how many times longer it takes
    than on a tenth of it."""
    rows: List[List[str]] = []
    for part in re.split(r"^(?=\S)", output, flags=re.MULTILINE):
        kind = re.match(r"(.+): (\d+) events, (\d+) bytes\n", part)
        if not kind:
            continue
        timings = re.findall(
            r"^  (\w+): ([\d.]+) s, [\d.]+ us an event, peak (\d+) KiB$",
            part,
            re.MULTILINE,
        )
        tenth = re.findall(
            r"^  \w+: the whole takes ([\d.]+) times as long", part, re.MULTILINE
        )
        if not tenth:
            rows += (
                [*kind.groups(), f"`{word}`", seconds, peak]
                for word, seconds, peak in timings
            )
        else:
            for row, times in zip(rows[-len(tenth) :], tenth):
                row.append(times)
    if not rows or any(len(row) != 7 for row in rows):
        raise ValueError("a replay has no figures")
    return table(
        (
            "replay",
            "events",
            "bytes",
            "command",
            "seconds",
            "peak, KiB",
            "times a tenth of it",
        ),
        rows,
    )


def serve_text(output: str) -> str:
    """Two tables, of commands one at a time and of many at once, and the lines below
    them."""
    lines = [
        line.split()
        for line in output.splitlines()
        if re.match(r"(looks|moves|writes) ", line)
    ]
    single_rows = [cells[:1] + cells[2:] for cells in lines if cells[1] == "one"]
    many = [cells[:1] + cells[2:] for cells in lines if cells[1] == "many"]
    if not single_rows or not many:
        raise ValueError("the table of loads is missing")
    head = ("commands", "sessions", "sent", "a second", "echo", "ratio")
    lines_below = re.findall(r"^(?:\w+: peak|.+ wanted: ).*$", output, re.MULTILINE)
    return (
        "One command at a time; answer times in microseconds:\n\n"
        + table(
            (
                *head,
                "median",
                "99th percentile",
                "median, echo",
                "99th percentile, echo",
            ),
            single_rows,
        )
        + "\nMany commands at once, beside an echo that answers many by one write, and one that writes each:\n\n"
        + table((*head, "echo that writes each", "ratio"), many)
        + "\n"
        + "".join(f"- {line}\n" for line in lines_below)
    )


def lab_text(output: str) -> str:
    rows = found_in(r"(.+), (.+): (\d+) steps a second", output)
    states = found_in(r"explore: (\d+) states a second()", output)[0][0]
    return (
        table(("engine", "agents", "steps a second"), rows)
        + f"\n`explore` visited {states} states a second.\n"
    )


def flood_text(output: str) -> str:
    rows = found_in(
        r"(\d+) strangers a second: (\d+ of \d+) teams solved their networks; the slowest enter took "
        r"(\d+) ms, the slowest of (\d+) commands (\d+) ms, 99 of 100 at most ([\d.]+) ms",
        output,
    )
    return table(
        (
            "strangers a second",
            "teams that solved",
            "slowest enter, ms",
            "commands",
            "slowest command, ms",
            "99 of 100 commands, ms",
        ),
        rows,
    )


def looks_text(output: str) -> str:
    return table(
        ("after", "peak memory, MB", "seconds"),
        found_in(r"(.+): ([\d.]+) MB, ([\d.]+) s", output),
    )


def results_text(output: str) -> str:
    """The lines of a tool that count or say what passed, an item each."""
    return lines_text(
        "\n".join(
            line
            for line in output.splitlines()
            if re.match(r"(ok|FAILED|\d+ passed|\d+ skipped|Ran \d+ tests)", line)
        )
    )


def lines_text(output: str) -> str:
    """What a benchmark printed, a line an item."""
    return "".join(f"- {line}\n" for line in output.splitlines())
