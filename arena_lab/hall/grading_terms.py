"""What hand-ins are graded by, as the file of a course says it: the hall grades by this
text, and teams check their programs by it (`arena-lab check --for`)."""
from typing import Any, Dict, Mapping

from arena_lab.hall.hall_files import DRAWN, Hall
from arena_lab.rules import draws
from arena_lab.rules.fixtures import toml_of
from arena_lab.rules.limits import SMALL_BOARD, SMALL_QUOTA

# default settings of a course
AGENTS = 2
DEFAULTS: Dict[str, Any] = {
    "quota": SMALL_QUOTA,
    "board": SMALL_BOARD,
    "ports": draws.DRAWN,
}


def text_of(hall: Hall, names: Mapping[str, str], extra: Mapping[str, Any] = {}) -> str:
    """The course of networks, by the words that name them with their names on pages,
    without its teams."""
    rules = hall.hand_ins
    assert rules is not None
    rows = {
        "title": hall.title,
        "networks": list(names),
        "agents": rules.agents or AGENTS,
        "holes": rules.holes,
        "schedulers": rules.schedulers,
        "seeds": rules.seeds,
        **({"packages": rules.packages} if rules.packages else {}),
        **extra,
    }
    return rows_in(rows) + "".join(terms_on(hall, *item) for item in names.items())


def rows_in(rows: Mapping[str, Any]) -> str:
    """Rows of a table."""
    return "".join(f"{name} = {toml_of(value)}\n" for name, value in rows.items())


def terms_on(hall: Hall, word: str, name: str) -> str:
    """Returns the settings of a network that differ from the defaults: those of the
    practice network of this name, else of the same network."""
    nets = sorted(hall.nets.values(), key=lambda net: net.name != name)
    net = next((net for net in nets if net.word == word), None)
    if net is None or hall.hand_ins is None:
        return ""
    agents = hall.hand_ins.agents
    ports = draws.DRAWN if net.labels == DRAWN else draws.GIVEN
    terms: Dict[str, Any] = {
        "agents": agents or net.agents,
        "quota": net.quota,
        "board": net.board,
        "ports": ports,
    }
    default = {**DEFAULTS, "agents": agents or AGENTS}
    other_terms = {key: value for key, value in terms.items() if value != default[key]}
    return (
        f"\n[conditions.{toml_of(word)}]\n{rows_in(other_terms)}" if other_terms else ""
    )


def for_teams(hall: Hall, names: Mapping[str, str]) -> str:
    """Returns the course text for teams. Networks from files of the hall are replaced
    by comments."""
    named_files = {word: name for word, name in names.items() if ":" in word}
    comments = [
        f"# {name} is a file: ask your teacher for it\n"
        for word, name in names.items()
        if word not in named_files
    ]
    return "".join(comments) + (text_of(hall, named_files) if named_files else "")
