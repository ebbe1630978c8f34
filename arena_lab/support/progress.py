"""Progress on long work, on standard error."""
import sys
from typing import Any, Iterable, Iterator, Optional, TypeVar

from arena_lab.support.missing import require

Item = TypeVar("Item")


class NoProgress:
    """Shows nothing."""

    def update(self, _count: int = 1) -> None:
        pass

    def set_postfix_str(self, _said: str) -> None:
        pass

    def clear(self) -> None:
        pass


NO_PROGRESS = NoProgress()


def bar(total: Optional[int], unit: str) -> Any:
    """A bar of Debian's python3-tqdm. It is silent if standard error is no terminal."""
    return require("tqdm").tqdm(
        total=total, unit=unit, disable=not sys.stderr.isatty(), leave=False
    )


def along(items: Iterable[Item], total: int, unit: str) -> Iterator[Item]:
    """The items, with a bar that counts them."""
    with bar(total, unit) as progress:
        for item in items:
            yield item
            progress.update()
