"""Lines of a program at which something is wrong, as far as a match shows it: where it
crashed or hung, sent what was refused, accused a safe link, or left too early."""
import re
from typing import Any, Dict, Iterator, List, NamedTuple, Optional, Sequence, Tuple

from arena_lab.course import sender_marks
from arena_lab.course.sender_marks import SentBy
from arena_lab.play.games import Record
from arena_lab.submissions.submission import Submission

# a place in a file, as Python, Node.js, Java, gcc, rustc and Go write it
PLACE_PATTERN = re.compile(
    r'(?:File ")?(?:/agent/|\./|\b)([\w/-]+\.(?:py|js|c|h|cpp|hpp|java|rs|go))'
    r'(?:", line |:)(\d{1,6})'
)
# message at the line of an agent that leaves a match unsolvable
LEAVES = "leaves here, and nobody has accused a port"
OF_AGENT = re.compile(r"agent (\d+)")


class LineMark(NamedTuple):
    """A mistake at a line of a program: agent, message, and the number of the event
    that shows it (0 if there is none)."""

    file: str
    line: int
    said: str
    agent: int
    event: int = 0


def marks_of(
    record: Record,
    errors: Dict[int, str],
    places: Dict[int, List[SentBy]],
    submission: Submission,
) -> List[Dict[str, Any]]:
    """The marks of a match, each of several that say the same of a line once."""
    senders = sender_marks.along(record.match.match.log, places)
    line_marks = [
        *of_faults(record.match.faults, errors, places, submission),
        *of_events(record, senders),
    ]
    unlike: Dict[Tuple[str, int, str], LineMark] = {}
    for mark in line_marks:
        same = (mark.file, mark.line, OF_AGENT.sub("", mark.said))
        unlike.setdefault(same, mark)
    return [mark._asdict() for mark in unlike.values()]


def of_faults(
    faults: Sequence[str],
    errors: Dict[int, str],
    places: Dict[int, List[SentBy]],
    submission: Submission,
) -> Iterator[LineMark]:
    """Yields marks where programs crashed or hung: at the place that the error names,
    else at the line that sent last."""
    for fault in faults:
        agent = agent_of(fault)
        error_place = place_in(errors.get(agent, ""), submission)
        last = places.get(agent, [])[-1:]
        if error_place:
            yield LineMark(*error_place, fault, agent)
        elif last and last[0].line:
            yield LineMark(
                *last[0], f"{fault} (this line sent its last command)", agent
            )


def of_events(record: Record, senders: Sequence[SentBy]) -> Iterator[LineMark]:
    """Events that are a mistake."""
    match = record.match.match
    for index, (event, by) in enumerate(zip(match.log, senders)):
        if not by.line:
            continue
        agent = event["agent"]
        reply = event.get("reply")
        text = ""
        if isinstance(reply, dict) and "no" in reply:
            text = refusal_of(agent, record.match.refusals) or f"refused: {reply['no']}"
        elif event["do"] == "leave" and not match.accused:
            text = f"agent {agent} {LEAVES}"
        elif event["do"] == "accuse" and is_wrong(record, event):
            text = f"agent {agent} accuses a port here that leads to a safe node"
        if text:
            yield LineMark(by.file, by.line, text, agent, index + 1)


def is_wrong(record: Record, event: Dict[str, Any]) -> bool:
    """Returns whether an accusation is of a link that leads to no black hole."""
    match = record.match.match
    agent = match.agents[event["agent"]]
    return event["reply"] == {"ok": "noted"} and not match.destroys(
        agent.node, agent.port
    )


def refusal_of(agent: int, refusals: Sequence[str]) -> str:
    """Returns the message about an agent's rejected lines, or ""."""
    return next(
        (refusal for refusal in refusals if refusal.startswith(f"agent {agent}:")), ""
    )


def agent_of(fault: str) -> int:
    match = OF_AGENT.match(fault)
    return int(match[1]) if match else -1


def place_in(text: str, submission: Submission) -> Optional[Tuple[str, int]]:
    """The place in the program's own files that an error names: of Python's frames the
    last, else the first; and in files of the kit's client only if there is no other."""
    places = [
        (match[1], int(match[2]))
        for match in PLACE_PATTERN.finditer(text)
        if submission.content_of(match[1]) is not None
    ]
    own_places = [
        file_place
        for file_place in places
        if not file_place[0].rpartition("/")[2].startswith("client.")
    ]
    if not places:
        return None
    return (own_places or places)[-1 if "Traceback" in text else 0]
