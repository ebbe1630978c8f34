"""Agents that run a WebAssembly module. In a match the program `bhs_player` plays each
as a client, and `arena explore --module` tries every schedule of a team of them.

    FILE.wasm[:N,..]

The whole numbers behind the colon are the module's arguments. {nodes}, {links} and
{home} may stand for some.
"""
import re
import shlex

from arena_lab.play.agent_files import AgentError, facts_of, file_of
from arena_lab.rules.model import Setup
from arena_lab.support import built

ENDING = ".wasm"
# in a match of the lab a sleeping module wakes again and again, as programs do
WAKEUPS = 2**32 - 1
# what to change in a file that is no module of agents, by the fault that the program
# tells: the last column of the table of docs/FORMATS.md
ADVICE = {
    "head": "give the file that the linker writes, in place of its text or of an object file",
    "float": "compute with integers",
    "opcode": "compile for WebAssembly's first version, with `-mcpu=mvp -mbulk-memory`",
    "import": "declare the functions as `arena.h` does, and link without a system's library",
    "import type": "declare it as `arena.h` does: all numbers are 32-bit integers, and each command has a result",
    "start": "begin in `run`",
    "run": 'begin it with `ARENA_RUN` of `arena.h`, or export it by `__attribute__((export_name("run")))`',
    "run type": "declare it `void run(void)`; arguments are read by `arena_argument`",
    "main": "name the function `run`; nobody calls `main`",
    "segment": "give the memory as many pages as the data takes",
    "size": "make it smaller",
    "index": "export a function of its own as `run`; else it was changed, or cut off: build it again",
    **dict.fromkeys(
        (
            "type",
            "block",
            "alignment",
            "end",
            "number",
            "name",
            "section",
        ),
        "it was changed, or cut off: build it again",
    ),
}
_FAULT = re.compile(
    rf"\{ENDING}: ({'|'.join(sorted(ADVICE, key=len, reverse=True))})\b.* at byte \d+$"
)


def is_module(words: str) -> bool:
    """Returns whether the words of an agent name a module."""
    return file_in(words).endswith(ENDING) and len(shlex.split(words)) == 1


def file_in(words: str) -> str:
    """The file that the first word names, before a colon."""
    try:
        return shlex.split(words)[0].partition(":")[0]
    except (ValueError, IndexError):
        return ""


def command_of(words: str) -> str:
    """The command that plays an agent: of a module its player, of another agent the
    words themselves."""
    if not is_module(words):
        return words
    player = str(built.player())
    word = f"{file_of(file_in(words))}{arguments_in(words)}"
    return shlex.join(
        [
            player.replace("{", "{{").replace("}", "}}"),
            "{host}",
            "{port}",
            "{key}",
            "--spurious-wakeups",
            str(WAKEUPS),
            "--module",
            word,
        ]
    )


def arguments_in(words: str) -> str:
    """Returns the arguments behind a module's file: "" or a colon and the arguments."""
    return shlex.split(words)[0][len(file_in(words)) :]


def word_of(words: str, setup: Setup) -> str:
    """Returns a module's word for a match, with an absolute file name."""
    try:
        numbers = arguments_in(words).format(**facts_of(setup))
    except (KeyError, IndexError, ValueError):
        raise AgentError(
            f"{words}: behind the colon stand whole numbers, {{nodes}}, {{links}} or {{home}}"
        ) from None
    return f"{file_of(file_in(words)).absolute()}{numbers}"


def with_advice(fault: str) -> str:
    """Appends advice to a program fault about a module."""
    match = _FAULT.search(fault)
    return f"{fault}: {ADVICE[match[1]]}" if match else fault
