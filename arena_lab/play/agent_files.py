"""Agents in Python that run inside the lab, as words of the command line name them.

    FILE.py[:FUNCTION] [WORD ..]

The function is `search` unless another is named, or `step` if there is no `search`. It
takes an agent, its key, and the words, which are whole numbers; `{nodes}` and `{links}`
stand for the network's numbers and `{home}` for the home base. A function whose first
parameters are `memory` and `reply` is a step (arena_lab/play/step_agents.py). A parameter
`sleep` behind the words gets a function to wait by. For agents that have a map,
parameters `network` and `home` get the network's links as (node, port, node, port) and
the home base.

Each agent of each match has modules of its own, as a program outside has: its file,
what it imports from beside it, and `random`, which begins with a seed from the agent's
key, as ARENA_SEED of a program outside. So agents share no variable with each other, nor with an earlier match.
"""
import contextlib
import functools
import hashlib
import importlib
import importlib.util
import inspect
import os
import pathlib
import random
import sys
from importlib.machinery import SourceFileLoader
from types import CellType, CodeType, FunctionType, ModuleType
from typing import Any, Callable, Dict, List, Sequence, Set, Tuple

from arena_lab.play import foreign_files, step_agents
from arena_lab.play.imports import files_behind
from arena_lab.play.own_modules import OwnModules
from arena_lab.rules.model import Setup
from arena_lab.support.built import LAB, TOP
from arena_lab.support.faults import ArenaError

# where the client is that sample agents share, for agents that have no copy beside them
AGENTS = next(
    (
        folder
        for folder in (TOP / "examples" / "agents", LAB / "examples" / "agents")
        if folder.is_dir()
    ),
    TOP / "examples" / "agents",
)

NOT_UTF8 = "it is no text in UTF-8: save it in this encoding"
NOT_INSIDE = (
    ": an agent inside the lab is a file in Python, as `agent.py {nodes}`; other programs are commands, as "
    "`./agent {host} {port} {key} {nodes}`"
)
# the names that stand for numbers in words, and the parameters that get what is no
# number
FACTS = ("nodes", "links", "home")
OPTIONAL_PARAMETERS = ("sleep", "network", "home")
PLAIN = (inspect.Parameter.POSITIONAL_ONLY, inspect.Parameter.POSITIONAL_OR_KEYWORD)

Sleep = Callable[[float], None]
# plays one agent. It gets an object that sends and receives lines, the agent's key, and
# a function to wait
Script = Callable[[Any, str, Sleep], None]


class AgentError(ArenaError):
    """Words that name no agent; says what does."""


def file_of(name: str) -> pathlib.Path:
    """The file that a word names. One that is not here is looked for where the lab was
    installed, so that the sample agents have the same names everywhere, such as
    examples/agents/ring.py."""
    path = pathlib.Path(name)
    place = AGENTS.parents[1] / path
    is_sample = path.parts[:1] == ("examples",) and not path.exists()
    return place if is_sample and place.is_file() else path


@functools.lru_cache(maxsize=None)
def load_module(path: pathlib.Path) -> ModuleType:
    """The module in a file, which may import what stands beside it, and the client of
    the sample agents."""
    if not path.is_file():
        advice = "" if path.suffix == ".py" else NOT_INSIDE
        raise AgentError(f"{path}: there is no such file{advice}")
    with OwnModules(0) as modules, foreign_files.loading():
        return loaded_anew(path, modules)[0]


@functools.lru_cache(maxsize=64)
def compile_file(path: str, text: bytes) -> CodeType:
    """Compiles a file, with a cache, because each agent of a search executes it
    anew."""
    try:
        code: CodeType = compile(text, path, "exec", dont_inherit=True)
    except (SyntaxError, ValueError) as fault:
        if is_utf8(text):
            raise
        raise AgentError(f"{path}: {NOT_UTF8}") from fault
    return code


def is_utf8(text: bytes) -> bool:
    """Returns whether bytes are a text in UTF-8. Python reads no zero byte."""
    try:
        return "\0" not in text.decode("utf-8")
    except UnicodeDecodeError:
        return False


def execute_file(path: pathlib.Path) -> ModuleType:
    """The module in a file, which is executed now."""
    spec = importlib.util.spec_from_file_location(f"lab_agent_{path.stem}", path)
    if spec is None or not isinstance(spec.loader, SourceFileLoader):
        raise AgentError(f"{path}: it is not in Python: its name ends with .py then")
    module = importlib.util.module_from_spec(spec)
    sys.modules[spec.name] = module
    try:
        exec(compile_file(str(path), path.read_bytes()), vars(module))
    except SyntaxError as fault:
        raise AgentError(
            f"{fault.filename}, line {fault.lineno}: {fault.msg}"
        ) from None
    return module


def member(word: str, *default: str) -> Any:
    """Returns the object that a word `FILE.py:NAME` names; for `FILE.py` the first of
    the default names that exists."""
    path, _, name = word.partition(":")
    module = load_module(file_of(path))
    for member_name in [name] if name else default:
        if callable(getattr(module, member_name, None)):
            return getattr(module, member_name)
    raise AgentError(f"{path}: it has no function {name or ' or '.join(default)}")


def facts_of(setup: Setup) -> Dict[str, int]:
    """The numbers of a match that names stand for in words."""
    return {"nodes": setup.nodes, "links": len(setup.links), "home": setup.home}


def numbers_of(words: Sequence[str], setup: Setup) -> List[int]:
    """The whole numbers that the words say, of this match."""
    facts = facts_of(setup)
    try:
        return [int(word.format(**facts)) for word in words]
    except (KeyError, ValueError, IndexError):
        raise AgentError(
            f"{' '.join(words)}: the words behind an agent's file are whole numbers, {{nodes}}, {{links}} or "
            "{home}"
        ) from None


# the client of the sample agents keeps nothing, so all share it
CLIENT = str(AGENTS / "client.py")


@functools.lru_cache(maxsize=64)
def folder_of(path: pathlib.Path, _here: str) -> str:
    """Returns the absolute folder of a file. `_here` is the working folder, as a key of
    the cache."""
    return str(path.parent.resolve())


def loaded_anew(
    path: pathlib.Path, modules: OwnModules
) -> Tuple[ModuleType, ModuleType]:
    """The module in a file, and the client that it imports, among the modules of one
    agent."""
    modules.begin([folder_of(path, os.getcwd()), str(AGENTS)], [CLIENT])
    module = execute_file(path)
    client = importlib.import_module("client")
    return module, client


def function_of(words: str) -> Callable[..., Any]:
    """The function that the words of an agent name."""
    function: Callable[..., Any] = member(words.split()[0], "search", "step")
    return function


class Loader:
    """Loads the function that the words of an agent name, and gives it what it takes in
    a match behind its first two parameters."""

    def __init__(self, words: str, setup: Setup) -> None:
        file, *rest = words.split()
        self._path = file_of(file.partition(":")[0])
        function = function_of(words)
        self._name = file.partition(":")[2] or (
            "step" if step_agents.is_step(function) else "search"
        )
        self._numbers = numbers_of(rest, setup)
        self._asked = asked_behind(
            words, inspect.signature(function), len(self._numbers)
        )
        self._facts: Dict[str, Any] = {
            "network": tuple(setup.links),
            "home": setup.home,
        }

    def load(
        self, modules: OwnModules, **extra: Any
    ) -> Tuple[Callable[[Any, Any], Any], ModuleType]:
        """The function among the modules of one agent, and the client that its file
        imports."""
        values = {**extra, **self._facts}
        arguments = {word: values[word] for word in self._asked if word in values}
        module, client = loaded_anew(self._path, modules)
        function = getattr(module, self._name)
        numbers = self._numbers
        return (
            lambda first, second: function(first, second, *numbers, **arguments),
            client,
        )


def script_of(words: str, setup: Setup) -> Script:
    """The agent that these words name, as it plays this match."""
    loader = Loader(words, setup)
    is_step = step_agents.is_step(function_of(words))

    def play(lines: Any, key: str, sleep: Sleep) -> None:
        function, client = loader.load(lines.modules, sleep=sleep)
        play_by(function, is_step, client, lines, key, sleep)

    return play


def play_by(
    function: Callable[[Any, Any], Any],
    is_step: bool,
    client: ModuleType,
    lines: Any,
    key: str,
    sleep: Sleep,
) -> None:
    """Plays one agent by a function, which is a step or takes an agent and its key."""
    try:
        if is_step:
            client_module().take_steps(
                client.Agent(lines), key, step_agents.fresh(function), sleep
            )
        else:
            function(client.Agent(lines), key)
    except (client.MatchOver, client_module().MatchOver):
        pass


def step_of(words: str, setup: Setup, modules: OwnModules) -> step_agents.Step:
    """The step that these words name, in this match and among these modules."""
    return Loader(words, setup).load(modules)[0]


def asked_behind(words: str, signature: inspect.Signature, count: int) -> List[str]:
    """The parameters behind the agent, its key and this many numbers, if the function
    takes these words."""
    parameters = list(signature.parameters.values())[2:]
    plain = [
        parameter.name
        for parameter in parameters
        if parameter.kind in PLAIN and parameter.name not in OPTIONAL_PARAMETERS
    ]
    required = [
        parameter.name
        for parameter in parameters
        if parameter.name in plain and parameter.default is parameter.empty
    ]
    if count < len(required):
        raise AgentError(
            f"{words}: it wants {', '.join(required)} behind the file, as `{words} "
            f"{' '.join('{' + name + '}' if name in FACTS else '1' for name in required[count:])}`"
        )
    if count > len(plain) and all(
        parameter.kind is not parameter.VAR_POSITIONAL for parameter in parameters
    ):
        raise AgentError(
            f"{words}: it takes {', '.join(plain) or 'no numbers'} behind the file, and {count} are named"
        )
    return [parameter.name for parameter in parameters[count:]]


# optional parameters of an agent's function behind the agent and its key
MAY_ASK = (*FACTS, "network", "sleep")


def script_of_function(function: Callable[..., None], setup: Setup) -> Script:
    """An agent that is a function of this process, as it plays this match. Parameters
    behind the agent and its key get by their names what FILE.py gets as words: `nodes`,
    `links`, `home`, `network`, and `sleep`."""
    parameters = list(inspect.signature(function).parameters.values())[2:]
    for parameter in parameters:
        if (
            parameter.name not in MAY_ASK
            and parameter.default is parameter.empty
            and parameter.kind in (*PLAIN, parameter.KEYWORD_ONLY)
        ):
            raise AgentError(
                f"{function.__name__}: it has a parameter {parameter.name}; behind the agent and its key stand "
                f"{', '.join(MAY_ASK)}, and what has a default"
            )

    def play(lines: Any, key: str, sleep: Sleep) -> None:
        own_function = loaded_function(function, setup, lines.modules, sleep=sleep)
        play_by(
            own_function,
            step_agents.is_step(function),
            client_module(),
            lines,
            key,
            sleep,
        )

    return play


def loaded_function(
    function: Callable[..., Any], setup: Setup, modules: OwnModules, **extra: Any
) -> Callable[[Any, Any], Any]:
    """A function of this process with variables of its own, which is given by their
    names what its parameters ask for behind the first two."""
    values: Dict[str, Any] = {**extra, **facts_of(setup), "network": tuple(setup.links)}
    names = list(inspect.signature(function).parameters)[2:]
    modules.begin([])
    own_function = with_own_variables(function, modules.random)
    arguments = {name: values[name] for name in names if name in values}
    return lambda first, second: own_function(first, second, **arguments)


def client_module() -> ModuleType:
    """The client of the sample agents."""
    if str(AGENTS) not in sys.path:
        sys.path.insert(0, str(AGENTS))
    return importlib.import_module("client")


def with_own_variables(
    function: Callable[..., None], drawing: ModuleType
) -> Callable[..., None]:
    """The function with copies of its variables: globals of its notebook or file,
    variables of functions around it, and those of the functions there that it calls.
    Nobody else sees what it assigns to them, but an object such as a list is shared. It
    draws by this module `random`."""
    if not isinstance(function, FunctionType):
        return function
    own_globals = OwnGlobals(function.__globals__)
    own_globals.variables.update(
        {
            name: drawing if value is random else own_globals.value(value)
            for name, value in function.__globals__.items()
        }
    )
    own_function: Callable[..., None] = own_globals.value(function)
    return own_function


class OwnGlobals:
    """Functions of a notebook or a file over variables of their own. Functions that
    share one go on sharing it."""

    def __init__(self, shared_globals: Dict[str, Any]) -> None:
        self.variables: Dict[str, Any] = {}
        self._shared = shared_globals
        self._made: Dict[int, Any] = {}
        self._filled: Set[int] = set()

    def value(self, value: Any) -> Any:
        """A function over its own variables; another value as it is."""
        if not isinstance(value, FunctionType) or value.__globals__ is not self._shared:
            return value
        if id(value) not in self._made:
            cells = tuple(self._cell(cell) for cell in value.__closure__ or ())
            copy = FunctionType(
                value.__code__,
                self.variables,
                value.__name__,
                value.__defaults__,
                cells,
            )
            copy.__kwdefaults__ = value.__kwdefaults__
            self._made[id(value)] = copy
            self._fill(value)
        return self._made[id(value)]

    def _cell(self, cell: CellType) -> CellType:
        """Returns the copy of a closure cell."""
        own_cell: CellType = self._made.setdefault(id(cell), CellType())
        return own_cell

    def _fill(self, function: FunctionType) -> None:
        """Fills the copied cells of a closure, which may contain the function
        itself."""
        for cell in function.__closure__ or ():
            if id(cell) not in self._filled:
                self._filled.add(id(cell))
                # a variable may have no value yet
                with contextlib.suppress(ValueError):
                    self._made[id(cell)].cell_contents = self.value(cell.cell_contents)


def source_digest(function: Callable[..., None]) -> str:
    """Returns the SHA-256 of a function's source, or of its byte code if the source is
    missing."""
    try:
        text = inspect.getsource(function).encode()
    except (OSError, TypeError):
        text = getattr(getattr(function, "__code__", None), "co_code", b"")
    return hashlib.sha256(text).hexdigest()


def digests(
    words: Sequence[str], is_inside: bool = True, extra: Sequence[str] = ()
) -> Dict[str, str]:
    """Returns the SHA-256 of each file that the words name and of all files that these
    import, so that a schedule identifies its agents. An agent inside the lab may
    import everything that the lab can; a program may import files beside it. `extra`
    names further modules."""
    folders = [str(AGENTS)] if is_inside else []
    names = [word.partition(":")[0] for line in words for word in line.split()]
    files = map(file_of, names)
    return {
        name: digest
        for file in files
        if file.is_file()
        for name, digest in files_behind(file, folders, extra).items()
    }
