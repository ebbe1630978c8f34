"""The page of a match.

It keeps of an event its kind, its agent and its port, and each text once; replies are
worked out on the page by the rules of docs/MODEL.md, as `arena` has found them to be
those of the replay.
"""
import functools
import json
import math
import pathlib
import tempfile
from typing import Any, Dict, Iterable, List, Mapping, Optional, Sequence, Tuple

from arena_lab.pages.judging import lines_of, pasts_of, verdict_of
from arena_lab.pages.parts import fill_page
from arena_lab.rules.engines import program_output
from arena_lab.support.built import ProgramError
from arena_lab.support.missing import require

SCRIPTS = ("match.js", "met.js", "texts.js", "drawing.js", "page.js")
SCALE = 1000
# larger networks are laid out by springs alone, since distances take the cube of their
# nodes
MAX_BY_DISTANCES = 256
SEED = 4
LETTERS = {
    "enter": "e",
    "look": "l",
    "leave": "q",
    "bad": "b",
    "write": "w",
    "depart": "d",
    "accuse": "a",
    "deliver": "v",
    "close": "c",
}


class Texts:
    """Each text once, by number."""

    def __init__(self) -> None:
        self.numbers: Dict[str, int] = {}

    def number(self, text: str) -> int:
        return self.numbers.setdefault(text, len(self.numbers))


def code_of(event: Dict[str, Any], texts: Texts) -> str:
    """An event without its reply: a letter, the agent, and what the command names."""
    parts = [str(event[name]) for name in ("agent", "port") if name in event]
    parts += [
        str(texts.number(event[name])) for name in ("expect", "put") if name in event
    ]
    return LETTERS[event["do"]] + ":".join(parts)


def read_replay(lines: Iterable[str]) -> Dict[str, Any]:
    """A replay as the page keeps it."""
    rows = iter(lines)
    head = json.loads(next(rows))
    if "hole" in head:
        hole = head.pop("hole")
        head.update({"replay": 2, "holes": [] if hole is None else [hole], "dark": []})
    texts = Texts()
    codes = []
    for row in rows:
        event = json.loads(row)
        if "do" in event:
            codes.append(code_of(event, texts))
    words = {letter: word for word, letter in LETTERS.items()}
    return {
        "head": head,
        "texts": list(texts.numbers),
        "events": ",".join(codes),
        "words": words,
    }


def runs(places: Iterable[int]) -> List[List[int]]:
    """Ascending places as runs: how many are left out before each run, and how many it
    has."""
    all_runs: List[List[int]] = []
    past = 0
    for index in places:
        if all_runs and index == past:
            all_runs[-1][1] += 1
        else:
            all_runs.append([index - past, 1])
        past = index + 1
    return all_runs


def layout(head: Dict[str, Any]) -> List[List[int]]:
    """Returns the coordinates of each node in thousandths of the picture."""
    return laid_out(head["nodes"], tuple((v, w) for v, _, w, _ in head["links"]))


@functools.lru_cache(maxsize=16)
def laid_out(nodes: int, pairs: Tuple[Tuple[int, int], ...]) -> List[List[int]]:
    """Returns the coordinates of each node. Rings become circles, which needs no
    library."""
    around = ring_of(nodes, pairs)
    if around:
        turn = 2 * math.pi / nodes
        places = {node: index * turn for index, node in enumerate(around)}
        return fit_spots(
            [
                (math.sin(places[number]), -math.cos(places[number]))
                for number in range(nodes)
            ]
        )
    networkx = require("networkx")
    require("numpy"), require("scipy")
    graph = networkx.Graph()
    graph.add_nodes_from(range(nodes))
    graph.add_edges_from(pairs)
    spots = networkx.spring_layout(graph, seed=SEED)
    if nodes <= MAX_BY_DISTANCES:
        spots = networkx.kamada_kawai_layout(graph, pos=spots)
    return fit_spots([spots[node] for node in range(nodes)])


def ring_of(nodes: int, pairs: Sequence[Tuple[int, int]]) -> List[int]:
    """Returns the nodes of a ring in cyclic order, or [] for another network."""
    beside: Dict[int, List[int]] = {node: [] for node in range(nodes)}
    for u, v in pairs:
        beside[u].append(v)
        beside[v].append(u)
    if any(
        len(set(neighbours)) != 2 or len(neighbours) != 2
        for neighbours in beside.values()
    ):
        return []
    ring = [0, beside[0][0]]
    while ring[-1] != 0:
        ring.append(next(node for node in beside[ring[-1]] if node != ring[-2]))
    return ring[:-1] if len(ring) == nodes + 1 else []


def fit_spots(spots: List[Tuple[float, float]]) -> List[List[int]]:
    """The spots, moved and stretched to fill the picture."""
    columns = []
    for axis in (0, 1):
        values = [spot[axis] for spot in spots]
        low = min(values)
        width = (max(values) - min(values)) or 1
        columns.append([round((value - low) / width * SCALE) for value in values])
    return [list(spot) for spot in zip(*columns)]


def struck(match: Dict[str, Any], twin: Dict[str, Any]) -> List[int]:
    """Returns the indices of the events that the twin lacks."""
    remaining_events = iter(twin["events"].split(","))
    next_one = next(remaining_events, None)
    indices = []
    for index, code in enumerate(match["events"].split(",")):
        if code_in(twin, next_one) == code_in(match, code):
            next_one = next(remaining_events, None)
        else:
            indices.append(index)
    return indices


def code_in(match: Dict[str, Any], code: Any) -> Any:
    """Expands an event code, independently of the match's numbering of texts."""
    if code is None or code[0] != "w":
        return code
    agent, expect, text_number = code[1:].split(":")
    return agent, match["texts"][int(expect)], match["texts"][int(text_number)]


def with_twin(
    program: str, match: Dict[str, Any], replay: str, node: int
) -> Dict[str, Any]:
    """The twin whose black hole is this node, as the page keeps it."""
    with tempfile.NamedTemporaryFile(
        "w", encoding="utf-8", newline="\n", suffix=".jsonl"
    ) as file:
        file.writelines(lines_of(program, "twin", replay, str(node)))
        file.flush()
        twin = read_replay(open(file.name, encoding="utf-8", newline="\n"))
        twin["verdict"] = program_output(program, "judge", file.name).strip()
    twin["struck"] = struck(match, twin)
    twin["node"] = node
    return twin


def shown_of(
    name: str, verdict: str, match: Dict[str, Any], pasts: Mapping[int, Iterable[int]]
) -> Dict[str, Any]:
    """Returns the data of a page for a match without a twin: its events as
    `read_replay` returns them, and the indices of each agent's causal past."""
    return {
        "name": name,
        "verdict": verdict,
        "spots": layout(match["head"]),
        "match": match,
        "twin": None,
        "pasts": {str(agent): runs(past) for agent, past in pasts.items()},
    }


def data_of(
    program: Optional[str], replay: pathlib.Path, twin: Optional[int], title: str = ""
) -> Dict[str, Any]:
    """Returns the data of a replay's page. The default title is the replay's file
    name."""
    verdict = str(verdict_of(program, replay))
    with open(replay, encoding="utf-8", newline="\n") as lines:
        match = read_replay(lines)
    agents_present = {
        code[1:].partition(":")[0] for code in match["events"].split(",")
    } - {""}
    data = shown_of(
        title or replay.name,
        verdict,
        match,
        pasts_of(program, replay, sorted(map(int, agents_present))),
    )
    if twin is not None:
        if program is None:
            raise ProgramError(
                "only the program makes twins: leave out --twin, or --engine model"
            )
        data["twin"] = with_twin(program, match, str(replay), twin)
    return data


def page_of(data: Dict[str, Any], refusals: Sequence[str] = ()) -> str:
    """Returns the page, with messages about rejected lines."""
    return fill_page(
        "page.html", title=data["name"], scripts=SCRIPTS, shown=data, refused=refusals
    )


def page_of_replay(
    program: Optional[str], replay: bytes, title: str, refusals: Sequence[str] = ()
) -> str:
    """The page of a replay that stands in no file."""
    with tempfile.NamedTemporaryFile(suffix=".jsonl") as file:
        file.write(replay)
        file.flush()
        return page_of(data_of(program, pathlib.Path(file.name), None, title), refusals)


def write_page(
    program: Optional[str],
    replay: pathlib.Path,
    page: pathlib.Path,
    twin: Optional[int] = None,
    title: str = "",
    refusals: Sequence[str] = (),
) -> None:
    """Writes the page of a replay, with the messages about rejected lines, which no
    replay contains."""
    page.write_text(
        page_of(data_of(program, replay, twin, title), refusals), encoding="utf-8"
    )
