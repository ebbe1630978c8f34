"""Plays a student's program inside the lab, as if the words `python3 agent.py HOST PORT KEY
NODES` had started the program, so that the Python model can try every schedule. The
program may be a script, and need not be written for the lab."""
import builtins
import pathlib
import sys
from types import ModuleType
from typing import Any, Callable, Dict, List

from arena_lab.course.exercises import AGENT, CLIENT
from arena_lab.play.agent_files import AGENTS, AgentError, compile_file
from arena_lab.play.teams import INSIDE, AgentWords

# the address in a program's words, to which nothing connects inside the lab
HOST = "127.0.0.1"
PORT = "0"


def script_agent(is_told: bool) -> AgentWords:
    """The program in AGENT, in the working folder, as an agent inside the lab. If it is
    told, its last word is the number of nodes."""
    return AgentWords(INSIDE, AGENT, play_told if is_told else play_untold)


def play_told(agent: Any, key: str, nodes: int) -> None:
    run_script(agent, [HOST, PORT, key, str(nodes)])


def play_untold(agent: Any, key: str) -> None:
    run_script(agent, [HOST, PORT, key])


def run_script(agent: Any, words: List[str]) -> None:
    """Executes the program, whose client connects to this agent's match."""
    own_sys = ModuleType(sys.__name__)
    vars(own_sys).update(vars(sys), argv=[AGENT, *words])
    own_modules = {sys.__name__: own_sys}
    path = pathlib.Path(CLIENT)
    client = execute(path if path.exists() else AGENTS / CLIENT, "client", own_modules)
    own_modules["client"] = client
    vars(client)["Lines"] = lambda host, port: agent._lines
    try:
        execute(pathlib.Path(AGENT), "__main__", own_modules)
    except client.MatchOver:
        pass
    except SystemExit as end:
        if end.code not in (None, 0):
            raise


def execute(
    path: pathlib.Path, name: str, own_modules: Dict[str, ModuleType]
) -> ModuleType:
    """Executes a file as a module of this name, which imports some modules of its
    own."""
    module = ModuleType(name)
    module.__file__ = str(path)
    own_names = {**vars(builtins), "__import__": importer(own_modules)}
    vars(module)["__builtins__"] = own_names
    try:
        exec(compile_file(str(path), path.read_bytes()), vars(module))
    except SyntaxError as fault:
        raise AgentError(f"{path}, line {fault.lineno}: {fault.msg}") from None
    return module


def importer(own_modules: Dict[str, ModuleType]) -> Callable[..., Any]:
    """A function that imports as Python does, but for a program's own modules."""

    def import_module(name: str, *rest: Any, **extra: Any) -> Any:
        module = own_modules.get(name)
        return module if module is not None else __import__(name, *rest, **extra)

    return import_module
