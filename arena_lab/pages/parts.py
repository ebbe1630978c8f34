"""Pages are made of files in `templates`, by jinja2 (Debian's python3-jinja2). What is
put into a page is escaped, so that no text of a stranger is more than text."""
import functools
import json
import pathlib
from typing import Any

from arena_lab.support.missing import require

TEMPLATES = pathlib.Path(__file__).resolve().parent / "templates"


def part(name: str) -> str:
    """A file as it stands: a style or a script."""
    return (TEMPLATES / name).read_text(encoding="utf-8")


@functools.lru_cache(maxsize=None)
def environment() -> Any:
    """Returns the Jinja environment of the templates, in which undefined variables
    raise errors."""
    jinja2 = require("jinja2")
    loader_environment = jinja2.Environment(
        loader=jinja2.FileSystemLoader(TEMPLATES),
        autoescape=True,
        trim_blocks=True,
        lstrip_blocks=True,
        keep_trailing_newline=True,
        undefined=jinja2.StrictUndefined,
    )
    loader_environment.globals.update(part=lambda name: as_is(part(name)), data=as_data)
    return loader_environment


def as_is(text: str) -> Any:
    """A text that is put into a page as it stands: a style, a script or data, which no
    stranger has written."""
    return require("markupsafe").Markup(text)


def as_data(value: Any) -> Any:
    """A value as JSON in a script element, which no text in it can end: `<` is written
    as its number."""
    return as_is(json.dumps(value, separators=(",", ":")).replace("<", "\\u003c"))


def fill_page(name: str, **context: Any) -> str:
    """Renders a template."""
    page: str = environment().get_template(name).render(**context)
    return page
