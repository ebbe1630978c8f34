"""Tables of files in TOML: which keys a table may have, and what each may hold. A fault
says what to write."""
import tomllib
from typing import Any, Callable, Dict, List, Mapping, NamedTuple, Sequence

from arena_lab.support.faults import ArenaError

NEEDED = object()


class FileFormatError(ArenaError):
    """A file has an invalid format; the text says what to change."""


class Field(NamedTuple):
    """The type of a key: which values are valid, how to describe them, and the
    default."""

    is_right: Callable[[Any], bool]
    expected: str
    default: Any = NEEDED


def table_of(text: str) -> Dict[str, Any]:
    """The table of a file."""
    try:
        return tomllib.loads(text)
    except tomllib.TOMLDecodeError as fault:
        raise FileFormatError(f"it is no TOML: {fault}") from None


def values_of(
    table: Mapping[str, Any], fields: Mapping[str, Field], name: str
) -> Dict[str, Any]:
    """Returns the values of a table by key. Raises FileFormatError for unknown keys."""
    unknown = sorted(set(table) - set(fields))
    if unknown:
        raise FileFormatError(
            f"{name} has no key {unknown[0]}; its keys are {', '.join(sorted(fields))}"
        )
    return {key: value_of(table, key, field) for key, field in fields.items()}


def value_of(table: Mapping[str, Any], key: str, field: Field) -> Any:
    """Returns the value of a key, or the default if it is absent."""
    value = table.get(key, field.default)
    if value is NEEDED or not field.is_right(value):
        raise FileFormatError(f"{key} must be {field.expected}")
    return value


def unlike(rows: List[Dict[str, Any]], what: str) -> List[Dict[str, Any]]:
    """Returns the rows. Raises FileFormatError if two rows have the same name."""
    if len({row["name"] for row in rows}) < len(rows):
        raise FileFormatError(f"two {what}s have the same name")
    return rows


def is_text(value: Any) -> bool:
    return isinstance(value, str) and value != "" and "\n" not in value


def is_texts(value: Any) -> bool:
    return (
        isinstance(value, list)
        and value != []
        and all(map(is_text, value))
        and len(set(value)) == len(value)
    )


def is_number(value: Any) -> bool:
    return isinstance(value, int) and not isinstance(value, bool) and value >= 0


def is_count(value: Any) -> bool:
    return is_number(value) and value > 0


TEXT = Field(is_text, "a text")
NAMES = Field(is_texts, "a list of names")
# an optional list of names (default empty), and a flag (default false)
MAYBE_NAMES = NAMES._replace(
    is_right=lambda value: value == [] or is_texts(value), default=[]
)
FLAG = Field(lambda value: isinstance(value, bool), "true or false", False)


def count(default: int, unit: str = "") -> Field:
    """A number of these."""
    return Field(
        is_count, f"a whole number {f'of {unit} ' if unit else ''}from 1", default
    )


def up_to(limit: int, default: int, least: int = 1) -> Field:
    return Field(
        lambda value: is_number(value) and least <= value <= limit,
        f"{least} to {limit}",
        default,
    )


def maybe(field: Field) -> Field:
    """Makes a field optional, with the default None."""
    return Field(
        lambda value: value is None or field.is_right(value), field.expected, None
    )


def one_of(choices: Sequence[str], default: Any) -> Field:
    return Field(
        lambda value: value == default or value in choices,
        f"one of {', '.join(choices)}",
        default,
    )


def table(name: str, default: Any) -> Field:
    return Field(
        lambda value: value is default or isinstance(value, dict),
        f"a table: write [{name}] and its keys below it",
        default,
    )


def tables(name: str, default: Any = NEEDED) -> Field:
    """One table or more, unless none is the default."""

    def is_right(value: Any) -> bool:
        return (
            value == default
            or isinstance(value, list)
            and value != []
            and all(isinstance(table, dict) for table in value)
        )

    return Field(is_right, f"given: write [[{name}]] and its keys below it", default)
