"""Debian's packages that parts of the lab need, and a clear line if some are
missing."""
import importlib
import importlib.util
import pathlib
import sys
from types import ModuleType
from typing import Iterable, Sequence

import arena_lab
from arena_lab.support.faults import ArenaError

PACKAGES = {
    "greenlet": "python3-greenlet",
    "hypothesis": "python3-hypothesis",
    "tqdm": "python3-tqdm",
    "networkx": "python3-networkx",
    "numpy": "python3-numpy",
    "scipy": "python3-scipy",
    "matplotlib": "python3-matplotlib",
    "distributed": "python3-distributed",
    "aiohttp": "python3-aiohttp",
    "jinja2": "python3-jinja2",
    "markupsafe": "python3-markupsafe",
    "django": "python3-django",
    "rest_framework": "python3-djangorestframework",
    "waitress": "python3-waitress",
    "whitenoise": "python3-whitenoise",
    "psycopg2": "python3-psycopg2",
    "authlib": "python3-authlib",
    "requests": "python3-requests",
}
DEBIANS_PYTHON = "/usr/bin/python3"


class MissingPackageError(ArenaError):
    """Python packages are missing or invisible to this interpreter; the text says how
    to install them."""

    def __init__(self, modules: Iterable[str]) -> None:
        self.modules = list(dict.fromkeys(modules))
        is_one = len(self.modules) == 1
        subject = (
            f"module {self.modules[0]} is"
            if is_one
            else f"modules {', '.join(self.modules)} are"
        )
        how = by_pip(self.modules) if in_environment() else by_debian(self.modules)
        super().__init__(f"the Python {subject} missing: {how}")


def in_environment() -> bool:
    """Returns whether this Python is that of a virtual environment, which does not see
    Debian's packages."""
    return sys.prefix != sys.base_prefix


def by_pip(modules: Sequence[str]) -> str:
    what = "it" if len(modules) == 1 else "them"
    return (
        f"install {what} here by `{sys.executable} -m pip install {' '.join(modules)}`"
    )


def by_debian(modules: Sequence[str]) -> str:
    packages = " ".join(PACKAGES[name] for name in modules)
    advice = f"install Debian's package{'' if len(modules) == 1 else 's'} by `apt-get install {packages}`"
    is_debians = (
        pathlib.Path(sys.executable).resolve() == pathlib.Path(DEBIANS_PYTHON).resolve()
    )
    return (
        advice
        if is_debians
        else f"{advice}, and run the lab by `{arena_lab.command_name()}`, which takes Debian's Python"
    )


def require(name: str) -> ModuleType:
    """The module of this name; if it is missing, a line that says what to install."""
    package = name.partition(".")[0]
    try:
        return importlib.import_module(name)
    except ModuleNotFoundError:
        raise MissingPackageError([package]) from None


def check(*modules: str) -> None:
    """Refuses to begin what would end without these modules."""
    missing = missing_of(modules)
    if missing:
        raise MissingPackageError(missing)


def missing_of(modules: Iterable[str]) -> Iterable[str]:
    """Returns the modules that are not installed."""
    return [name for name in modules if importlib.util.find_spec(name) is None]
