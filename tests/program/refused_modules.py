"""Cases of files that are no module of agents, and of files with changed bytes."""
import random

from tests.program.module_cases import (
    BREAKS,
    CALL,
    DROP,
    END,
    FAILING,
    RING,
    SILENT,
    TRAP,
    explores,
    refuses,
    running,
    run_module,
)
from tests.program.program_cases import case
from tests.support.counts import require
from tests.support.program_rows import DONE, REFUSED_TEXT, Stage
from tests.support.wasm_encoding import (
    I32,
    I64,
    Function,
    constant,
    join_sections,
    module,
    name,
    sections_of,
    type_of,
    unsigned_leb128,
    vector,
)

# how many changed files are explored
CHANGED = 200


@case("a file that is no module of agents is refused by what is wrong and where")
def refuse_modules(stage: Stage) -> None:
    for agent, fault in (
        (b"", "head at byte 0"),
        (b"\0asm\2\0\0\0", "head at byte 0"),
        (running(b"\x43\0\0\0\0" + DROP), "float at byte 40"),
        (running(constant(I32, 1)), "type at byte 42"),
        (running(b"\x0c\x01"), "index at byte 40"),
        (running(CALL + b"\x07"), "index at byte 40"),
        (running(b"", "look", "puts"), "import arena.puts at byte 38"),
        (
            module([Function([], [], b"", "run")], ["look"], "env"),
            "import env.look at byte 21",
        ),
        (running(b"", "\x1b[2J\n"), r"import arena.\u{1b}[2J\n at byte 21"),
        (module([Function([], [], b"")]), "run at byte 38"),
    ):
        refuses(stage, agent, fault)
    agent = module([Function([], [], b"", "main")])
    refuses(stage, agent, f"main at byte {len(agent)}")
    for own in (([I32], []), ([], [I32])):
        agent = module([Function(*own, TRAP, "run")])
        refuses(stage, agent, f"run type at byte {agent.rindex(name('run'))}")
    agent = running(CALL + b"\x00" + DROP, "look")
    agent = agent.replace(type_of([], [I32]), type_of([], [I64]))
    refuses(
        stage, agent, f"import type arena.look at byte {agent.index(name('arena'))}"
    )


@case("a function has at most 1,000 parameters and 1,000 results")
def many_parameters(stage: Stage) -> None:
    run = Function([], [], b"", "run")
    values = [I32] * 1000
    explores(stage, module([run, Function(values, values, TRAP)]), SILENT, FAILING)
    for own in ((values + [I32], []), ([], values + [I32])):
        agent = module([run, Function(*own, TRAP)])
        refuses(stage, agent, f"size at byte {agent.index(type_of(*own))}")


@case(
    "a file is refused whose exports, memory, data segments or types of blocks are not valid"
)
def invalid(stage: Stage) -> None:
    run = name("run") + b"\0\0"
    largest = b"\1" + unsigned_leb128(1) + unsigned_leb128(65_537)
    lacking = [
        name("x") + item for item in (b"\0\1", b"\1\0", b"\2\1", b"\3\0", b"\4\0")
    ]
    for export, fault in ((run, "name"), *((it, "index") for it in lacking)):
        agent = with_section(7, vector([run, export]))
        refuses(stage, agent, f"{fault} at byte {agent.rindex(export)}")
    agent = with_section(5, vector([largest]))
    refuses(stage, agent, f"size at byte {agent.index(largest)}")
    agent = with_section(12, unsigned_leb128(1))
    refuses(stage, agent, f"segment at byte {len(agent)}")
    block = b"\2\x41" + END
    agent = module([*[Function([], [], b"")] * 65, Function([], [], block, "run")])
    refuses(stage, agent, f"type at byte {agent.index(block)}")


@case("a table of branches in code that is not reached leads to labels of any types")
def unlike_labels(stage: Stage) -> None:
    nested_value = b"\x02\x7f" + b"\x02\x7e" + TRAP + b"\x0e\x01\x00\x01" + END + DROP
    agent = running(nested_value + constant(I32, 1) + END + DROP)
    explores(stage, agent, BREAKS, FAILING, ',"failure":"trap","function":0')


@case("an imported function stands in a table, by each kind of element segment")
def imports_in_tables(stage: Stage) -> None:
    first = constant(I32, 0)
    direct = found_by(stage, running(CALL + b"\0" + DROP, "enter"))
    caller = running(first + b"\x11\0\0" + DROP, "enter")
    for segment in (
        b"\0" + first + END + vector([b"\0"]),
        b"\2" + b"\0" + first + END + b"\0" + vector([b"\0"]),
        b"\4" + first + END + vector([b"\xd2\0" + END]),
    ):
        require(found_by(stage, with_table(caller, segment)) == direct, repr(segment))


@case("an element segment lies in its table, also an empty one")
def segments_in_tables(stage: Stage) -> None:
    for position, count in ((2, 0), (1, 1), (-1, 0)):
        segment = b"\0" + constant(I32, position) + END + vector([b"\0"] * count)
        agent = with_table(running(b""), segment)
        fault = run_module(stage, agent)
        require(fault.stderr.startswith(b"agent.wasm: segment at byte "), f"{fault}")
    empty = b"\0" + constant(I32, 1) + END + vector([])
    explores(stage, with_table(running(b""), empty), SILENT, FAILING)


def with_table(file: bytes, segment: bytes) -> bytes:
    """A module with a table of one element, and with this element segment."""
    table = vector([b"\x70\0\1"])
    return join_sections({**sections_of(file), 4: table, 9: vector([segment])})


def found_by(stage: Stage, agent: bytes) -> bytes:
    """What is found of agents that run this module, without the module's line."""
    run = run_module(stage, agent)
    require(run.stderr == b"", f"{run}")
    return run.stdout[: run.stdout.index(b'{"module"')]


def with_section(kind: int, body: bytes) -> bytes:
    """A module that ends at once, with this section instead of its own."""
    return join_sections({**sections_of(running(b"")), kind: body})


@case("files with changed bytes are explored or refused")
def explore_changed(stage: Stage) -> None:
    for seed in range(CHANGED):
        require(is_harmless(stage, seed), f"seed {seed}")


def is_harmless(stage: Stage, seed: int) -> bool:
    """Returns whether the sample module with bytes that are changed by a seed is
    explored, or refused in a line."""
    draw = random.Random(seed)
    agent = bytearray(RING.read_bytes())
    for _ in range(draw.randrange(1, 4)):
        agent[draw.randrange(len(agent))] = draw.randrange(256)
    whole_or_cut = agent[: draw.randrange(len(agent))] if seed % 5 == 0 else agent
    run = run_module(stage, bytes(whole_or_cut), "--max-states", "2000", arguments="3")
    return run.status in (DONE, FAILING, REFUSED_TEXT) and bool(
        run.stdout or run.stderr
    )
