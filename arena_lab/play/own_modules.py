"""Modules that one agent inside the lab has for itself, as a program outside has: its
file, what it imports that is neither Python's nor installed, wherever it lies, and
`random` and `datetime`. They are in `sys.modules` while the agent runs, and the lab's
modules at other times.
"""
import datetime
import operator
import os
import random
import sys
import threading
import weakref
from types import ModuleType
from typing import Any, Collection, Dict, FrozenSet, List, Sequence, Set, Tuple

from arena_lab.play.foreign_files import CHANCE, CLOCK, NOT_READ, note_read

# one thread at a time changes which modules there are
LOADING = threading.RLock()
# all folders out of which agents were loaded
FOLDERS: Set[str] = set()
RANDOM = "random"
DATETIME = "datetime"
# what of the module `random` belongs to one generator
OF_ONE = [
    name
    for name, value in vars(random).items()
    if getattr(value, "__self__", None) is random._inst
]
# an object's identity as a number. Python tells the audit hook of each `id`, which
# costs more than to ask for this
IDENTITY = object.__hash__
# for each set of files that all agents share: the modules that no agent owns, by their
# identities
FOREIGN: Dict[Tuple[str, ...], Dict[int, ModuleType]] = {}
FOREIGN_TO: Set[str] = set()
# by set of shared files: all modules at the time when none belonged to an agent
ALL_FOREIGN: Dict[Tuple[str, ...], Sequence[object]] = {}
# cache of folders_of, which is called at each turn of an agent
STANDS_IN: "weakref.WeakKeyDictionary[ModuleType, FrozenSet[str]]" = (
    weakref.WeakKeyDictionary()
)


def folders_of(module: ModuleType) -> FrozenSet[str]:
    """Returns the folder of a module, or the folders of a package."""
    # what stands among the modules may be another object
    folders = STANDS_IN.get(module) if isinstance(module, ModuleType) else frozenset()
    if folders is None:
        places: Sequence[str] = list(
            getattr(module, "__path__", None)
            or [getattr(module, "__file__", None) or ""]
        )
        folders = STANDS_IN[module] = frozenset(
            os.path.dirname(location) for location in places
        )
    return folders


def is_beside(module: ModuleType, folders: Collection[str]) -> bool:
    """Returns whether a module, or the package that contains it, lies in one of these
    folders."""
    return not folders_of(module).isdisjoint(folders)


def is_elsewhere(module: ModuleType) -> bool:
    """Returns whether a module is a file that is neither Python's, nor installed, nor
    the lab's."""
    return any(
        folder and not f"{folder}{os.sep}".startswith(NOT_READ)
        for folder in folders_of(module)
    )


def own_names(folders: Collection[str], shared_names: Collection[str]) -> List[str]:
    """Returns the names of loaded modules from these folders, with the contents of
    packages, without the modules of the lab and the shared files."""
    if folders is FOLDERS and len(FOREIGN_TO) != len(FOLDERS):
        # modules outside of the earlier folders may lie in a new one
        FOREIGN.clear()
        ALL_FOREIGN.clear()
        FOREIGN_TO.update(FOLDERS)
    modules = list(sys.modules.values())
    before = ALL_FOREIGN.get(tuple(shared_names), ())
    if len(modules) == len(before) and all(map(operator.is_, modules, before)):
        return []
    foreign = FOREIGN.setdefault(tuple(shared_names), {})
    unknown = set(map(IDENTITY, modules)).difference(foreign)
    if not unknown:
        ALL_FOREIGN[tuple(shared_names)] = modules
        return []
    tops = set()
    module_names = {}
    for name, module in [
        (name, module)
        for name, module in list(sys.modules.items())
        if IDENTITY(module) in unknown
    ]:
        if "." in name or name == "arena_lab":
            module_names[IDENTITY(module)] = module
        elif getattr(module, "__file__", None) not in shared_names and (
            is_beside(module, folders)
            or folders is not FOLDERS
            and is_elsewhere(module)
        ):
            tops.add(name)
        elif FOREIGN_TO.issuperset(folders) and (
            not is_beside(module, FOREIGN_TO) or folders is FOLDERS
        ):
            foreign[IDENTITY(module)] = module
    if not tops and folders is FOLDERS:
        # modules of packages outside of the folders
        foreign.update(module_names)
    return (
        [name for name in sys.modules if name.partition(".")[0] in tops] if tops else []
    )


class NotedRandom(random.Random):
    """A random generator that notes programs which draw from it without a seed."""

    _is_seeded = False

    def seed(self, a: Any = None, version: int = 2) -> None:
        self._is_seeded = a is not None
        super().seed(a, version)

    def random(self) -> float:
        self._note()
        return super().random()

    def getrandbits(self, k: int, /) -> int:
        self._note()
        return super().getrandbits(k)

    def _note(self) -> None:
        if not self._is_seeded:
            note_read(CHANCE)


def datetime_of_its_own() -> ModuleType:
    """A module `datetime` that notes who asks it what time it is."""

    class NotedDate(datetime.date):
        @classmethod
        def today(cls) -> Any:
            note_read(CLOCK)
            return super().today()

    class NotedTime(datetime.datetime):
        @classmethod
        def now(cls, tz: Any = None) -> Any:
            note_read(CLOCK)
            return super().now(tz)

        @classmethod
        def utcnow(cls) -> Any:
            note_read(CLOCK)
            return super().utcnow()

        @classmethod
        def today(cls) -> Any:
            note_read(CLOCK)
            return super().today()

    module = ModuleType(DATETIME, datetime.__doc__)
    vars(module).update(vars(datetime))
    vars(module).update(date=NotedDate, datetime=NotedTime)
    return module


def random_from(seed: int) -> ModuleType:
    """A module `random` of its own that begins with this seed. It is not loaded anew,
    since each `random` that is loaded stays in memory until the process ends, to be
    seeded again when it forks."""
    rng = NotedRandom(seed)
    module = ModuleType(RANDOM, random.__doc__)
    rng._is_seeded = False
    vars(module).update(vars(random))
    vars(module).update({name: getattr(rng, name) for name in OF_ONE})
    vars(module).update(Random=NotedRandom, _inst=rng)
    return module


class OwnModules:
    """The modules of one agent. It is a context manager around one or more turns; the
    first turn loads the modules."""

    def __init__(self, seed: int) -> None:
        self.random = random_from(seed)
        self._given = {RANDOM: self.random, DATETIME: datetime_of_its_own()}
        self._own: Dict[str, ModuleType] = {}
        self._folders: List[str] = []
        self._files: Collection[str] = ()
        self._shared: Dict[str, ModuleType] = {}
        self._path: List[str] = []
        # where imports look while the agent runs, and what that was made of: where they
        # look else, of how many folders
        self._ahead: List[str] = []
        self._seen: Tuple[List[str], int] = ([], -1)
        self._count = 0
        self._depth = 0

    def begin(self, folders: Sequence[str], files: Collection[str] = ()) -> None:
        """From now on modules in these folders are the agent's own, but for these
        files, which all agents share."""
        self._folders = list(folders)
        self._files = files
        self._seen = ([], -1)
        FOLDERS.update(folders)
        self._shared.update(
            {name: sys.modules.pop(name) for name in own_names(FOLDERS, files)}
        )
        self._own = dict(self._given)
        self._put(self._own)

    def __enter__(self) -> "OwnModules":
        LOADING.acquire()
        self._depth += 1
        if self._depth > 1:
            return self
        self._path = sys.path[:]
        self._shared = {}
        if self._own:
            self._put(self._own)
        return self

    def __exit__(self, *_: object) -> None:
        self._depth -= 1
        if self._depth:
            LOADING.release()
            return
        if self._own and self._count != len(sys.modules):
            names = own_names(self._folders, self._files)
            self._own = {name: sys.modules[name] for name in names} | self._given
        for name in self._own:
            sys.modules.pop(name, None)
        sys.modules.update(self._shared)
        sys.path[:] = self._path
        LOADING.release()

    def _put(self, modules: Dict[str, ModuleType]) -> None:
        """Puts modules in their places, and has imports look beside the agent first."""
        modules_loaded = sys.modules
        for name, module in modules.items():
            if name in modules_loaded:
                self._shared[name] = modules_loaded[name]
            modules_loaded[name] = module
        saved = sys.path[:], len(FOLDERS)
        if saved != self._seen:
            self._seen = saved
            self._ahead = [
                *self._folders,
                *(folder for folder in sys.path if folder not in FOLDERS),
            ]
        sys.path[:] = self._ahead
        self._count = len(modules_loaded)
