"""Cases of `arena explore --module`: a search that solves, agents that fail, and each
instruction on integers as node's own WebAssembly has it."""
import hashlib
import re
import shutil
import subprocess
import unittest
from typing import Dict, List, Sequence

from arena_lab.rules.networks import complete, ring
from tests.program.program_cases import (
    CUP,
    NO_MEMORY,
    TOP,
    TRIANGLE,
    case,
    writes,
)
from tests.program.unmapped_networks import Search, explore, fault_in, searches_of
from tests.support.counts import require, wants
from tests.support.program_rows import (
    DONE,
    REFUSED_TEXT,
    Stage,
    FailedCheckError,
    expect,
)
from tests.support.servers import Run
from tests.support.tournaments import TRIANGLE as NETWORK
from tests.support.tournaments import match, write_cup
from tests.support.wasm_encoding import (
    I32,
    Call,
    Function,
    checks,
    constant,
    in_memory,
    join_sections,
    module,
    numeric,
    sections_of,
    told_by_node,
    unsigned_leb128,
)

FAILING = 1
WASM = TOP / "examples" / "agents" / "wasm"
RING = WASM / "ring.wasm"
DATA = bytes(range(7, 256, 5))
CALL = b"\x10"
DROP = b"\x1a"
TRAP = b"\0"
END = b"\x0b"
LOOP = b"\x03\x40"
AGAIN = b"\x0c\x00"
SIZE = b"\x3f\x00"
GROW = b"\x40\x00"
FILL = b"\xfc\x0b\x00"
COPY = b"\xfc\x0a\x00\x00"
MULTIPLY = b"\x6c"
SUBTRACT = b"\x6b"
# address of the whiteboard's text in a module
BOARD = 16
# pages of 64 KiB that an agent asks for at a time
GROWTH = 100
STATES = '{"states":%d,"memories":%d,"stances":%d,"boards":1}\n'


def run_module(
    stage: Stage,
    agent: bytes,
    *words: str,
    arguments: str = "",
    front: Sequence[str] = (),
) -> Run:
    """What comes of agents that run this module on a triangle."""
    writes(stage, tri=TRIANGLE, cup=CUP)
    (stage.folder / "agent.wasm").write_bytes(agent)
    word = f"agent.wasm:{arguments}" if arguments else "agent.wasm"
    return stage.run(["explore", "cup.toml", "0", *words, "--module", word], b"", front)


def explores(
    stage: Stage,
    agent: bytes,
    output: str,
    status: int,
    failure: str = "",
    arguments: str = "",
) -> None:
    """Agents that run this module on a triangle come to this, and the module is named
    by its digest."""
    digest = hashlib.sha256(agent).hexdigest()
    line = f'{{"module":"{digest}","arguments":[{arguments}]{failure}}}\n'
    expect(
        run_module(stage, agent, arguments=arguments),
        (output + line).encode(),
        b"",
        status,
    )


def refuses(stage: Stage, agent: bytes, fault: str) -> None:
    """A file is refused in one line."""
    expect(
        run_module(stage, agent), b"", f"agent.wasm: {fault}\n".encode(), REFUSED_TEXT
    )


def running(body: bytes, *imports: str) -> bytes:
    """A module whose function `run` has these instructions."""
    return module([Function([], [], body, "run")], imports)


SILENT = (
    '{"found":"fails","outcome":"silent","moves":0,"lost":0,"schedule":[]}\n'
    + STATES % (1, 1, 1)
)
BREAKS = '{"found":"breaks","agent":0,"failure":"program","schedule":[]}\n' + STATES % (
    1,
    1,
    1,
)
OUTSIDE = BREAKS.replace("program", "outside")


@case("a module solves a ring under every schedule")
def solve_triangle(stage: Stage) -> None:
    shutil.copy(TOP / "examples" / "ring8.toml", stage.folder / "ring8.toml")
    writes(
        stage,
        cup=CUP.replace("tri.toml", "ring8.toml")
        .replace("quota = 10", "quota = 100")
        .replace("board = 8", "board = 48")
        .replace("holes = [2]", "holes = [5]"),
    )
    (stage.folder / "ring.wasm").write_bytes(RING.read_bytes())
    result = stage.run(["explore", "cup.toml", "0", "--module", "ring.wasm:8"], b"")
    lines = result.stdout.decode().splitlines()
    digest = hashlib.sha256(RING.read_bytes()).hexdigest()
    if result.status != DONE or not lines[0].startswith('{"found":"solves","moves":'):
        raise FailedCheckError(f"{result.status}: {lines} {result.stderr!r}")
    require(
        lines[2:] == [f'{{"module":"{digest}","arguments":[8]}}'],
        f"the last lines are {lines[2:]}",
    )


def explore_hole(stage: Stage, hole: int, *words: str) -> Run:
    """What is found of the sample module on a ring of 5 with home base 2."""
    limits = {"home": 2, "quota": 100, "board": 48}
    dark = [] if "--all-holes" not in words else [(2, 0)]
    write_cup(stage.folder, [match("red", ring(5), [hole], dark=dark, **limits)])
    (stage.folder / "ring.wasm").write_bytes(RING.read_bytes())
    return stage.run(
        ["explore", "cup.toml", "0", "--module", "ring.wasm:5", *words], b""
    )


def hole_line(hole: int) -> bytes:
    """The line that names a black hole."""
    return b'{"hole":%d}\n' % hole


@case("with --all-holes a ring is solved with each black hole, as with each alone")
def all_holes(stage: Stage) -> None:
    for words in ([], ["--draws", "3"], ["--spurious-wakeups", "0"]):
        expectation = b"".join(
            hole_line(hole) + explore_hole(stage, hole, *words).stdout
            for hole in (0, 1, 3, 4)
        )
        expect(explore_hole(stage, 4, "--all-holes", *words), expectation, b"", DONE)


@case("with --all-holes the first black hole with which a schedule fails is the last")
def first_failing(stage: Stage) -> None:
    for agent, file in three_agents().items():
        (stage.folder / f"{agent}.wasm").write_bytes(file)
    for port, holes in ((1, (1, 2)), (0, (1,))):
        modules = ["--module", f"walks.wasm:{port}", "--module", "leaves.wasm"]
        words = ["explore", "cup.toml", "0", *modules]
        expectation = b""
        for hole in holes:
            writes(
                stage,
                tri=TRIANGLE,
                cup=CUP.replace("holes = [2]", f"holes = [{hole}]"),
            )
            expectation += hole_line(hole) + stage.run(words, b"").stdout
        expect(stage.run([*words, "--all-holes"], b""), expectation, b"", FAILING)


@case("with --all-holes a search with too many states names its black hole")
def too_many_states(stage: Stage) -> None:
    message = b"agent.wasm: states\n  with node 1 as the black hole\n"
    agent = running(CALL + b"\x00" + DROP, "enter")
    run = run_module(stage, agent, "--all-holes", "--max-states", "1")
    expect(run, b"", message, REFUSED_TEXT)


@case("sample modules are what clang makes of their sources, as far as searches tell")
def compile_samples(stage: Stage) -> None:
    if shutil.which("clang") is None or shutil.which("wasm-ld") is None:
        raise unittest.SkipTest("clang or lld is not installed")
    flags = re.search("^CFLAGS = (.*)$", (WASM / "Makefile").read_text(), re.M)
    agent = stage.folder / "agent.wasm"
    writes(
        stage,
        tri=TRIANGLE,
        cup=CUP.replace("quota = 10", "quota = 100").replace("board = 8", "board = 48"),
    )
    for name, arguments, moves in (("ring", "3", 4), ("chart", "3,0", 7)):
        source = WASM / f"{name}.c"
        subprocess.run(["clang", *flags[1].split(), "-o", agent, source], check=True)
        results = [
            stage.run(
                ["explore", "cup.toml", "0", "--module", f"{file}:{arguments}"], b""
            ).stdout.splitlines()[0]
            for file in (agent, source.with_suffix(".wasm"))
        ]
        if results[0] != results[1] or not results[0].startswith(
            b'{"found":"solves","moves":%d,' % moves
        ):
            raise FailedCheckError(f"found {results}")


@case("a module that ends at once is silent")
def ends(stage: Stage) -> None:
    explores(stage, running(b""), SILENT, FAILING)
    explores(stage, running(b""), SILENT, FAILING, arguments="0,4294967295")


@case("agents that fail are told of by cause and function")
def fails(stage: Stage) -> None:
    stage.skip_with_sanitizer("takes minutes to burn the fuel of an agent")
    for cause, agent, function in (
        ("trap", running(b"\x00"), 0),
        ("trap", running(b"\x00", "look"), 1),
        ("fuel", running(LOOP + AGAIN + END), 0),
        (
            "command",
            running(constant(I32, 65_536) + CALL + b"\x00" + DROP, "depart"),
            1,
        ),
    ):
        explores(
            stage, agent, BREAKS, FAILING, f',"failure":"{cause}","function":{function}'
        )


@case("agents that look before they enter fail, though their module does not")
def looks_outside(stage: Stage) -> None:
    looks = CALL + b"\x00" + DROP
    enters = CALL + b"\x01" + DROP
    for body in (looks, looks + enters, LOOP + looks + AGAIN + END):
        explores(stage, running(body, "look", "enter"), OUTSIDE, FAILING)


@case("each 64 bytes that are filled or copied burn fuel as an instruction does")
def burns(stage: Stage) -> None:
    stage.skip_with_sanitizer("takes minutes to burn the fuel of an agent")
    whole = constant(I32, GROWTH * 65_536)
    grows = constant(I32, GROWTH) + GROW + DROP
    fills = constant(I32, 0) + constant(I32, 1) + whole + FILL
    copies = constant(I32, 0) + constant(I32, 0) + whole + COPY
    for again in (fills, copies):
        agent = running(grows + LOOP + again + AGAIN + END)
        explores(stage, agent, BREAKS, FAILING, ',"failure":"fuel","function":0')
    # a function of 100 instructions as often as that ends
    explores(stage, running(grows + fills * 25), SILENT, FAILING)


def three_agents() -> Dict[str, bytes]:
    """Modules of three agents on a triangle: one walks by the port of its argument, and
    then accuses the link behind it; one leaves; one traps."""
    enters, leaves, departs, accuses, argument, outcome = (
        CALL + bytes([index]) for index in range(6)
    )
    goes = constant(I32, 0) + argument + departs + DROP
    walks = goes + constant(I32, 1) + outcome + SUBTRACT + accuses + DROP
    calls = ("enter", "leave", "depart", "accuse", "argument", "came")
    bodies = {"walks": walks, "leaves": leaves + DROP, "traps": b"\0"}
    return {
        name: running(enters + DROP + body, *calls) for name, body in bodies.items()
    }


@case("each agent runs its own module, and each module has a line of its own")
def for_each(stage: Stage) -> None:
    writes(stage, tri=TRIANGLE, cup=CUP)
    agents = three_agents()
    for agent, file in agents.items():
        (stage.folder / f"{agent}.wasm").write_bytes(file)
    solves = '{"found":"solves","moves":%d,"lost":%d,'
    breaks = '{"found":"breaks","agent":%d,"failure":"program",'
    draws = ["--draws", "4"]
    trap = ',"failure":"trap","function":6'
    for first, second, outcome_found, end, failures, extra in (
        ("walks:0", "leaves", solves % (1, 0), '"commands":[2,0]}', ("", ""), []),
        ("leaves", "walks:0", solves % (1, 0), '"commands":[0,2]}', ("", ""), []),
        ("walks:0", "walks:1", solves % (2, 1), '"commands":[2,1]}', ("", ""), []),
        ("walks:1", "walks:0", solves % (2, 1), '"commands":[1,2]}', ("", ""), []),
        ("walks:1", "leaves", '{"found":"fails",', "}", ("", ""), []),
        ("walks:0", "traps", breaks % 1, "}", ("", trap), []),
        ("traps", "walks:0", breaks % 0, "}", (trap, ""), []),
        (
            "walks:0",
            "leaves",
            '{"found":"comes","moves":1,"lost":0,',
            "}",
            ("", ""),
            draws,
        ),
        ("leaves", "traps", breaks % 1, "}", ("", trap), draws),
    ):
        conditions = [agent.partition(":") for agent in (first, second)]
        words = [
            it
            for agent, colon, number in conditions
            for it in ("--module", f"{agent}.wasm{colon}{number}")
        ]
        result = stage.run(["explore", "cup.toml", "0", *words, *extra], b"")
        lines = [
            f'{{"module":"{hashlib.sha256(agents[agent]).hexdigest()}","arguments":[{number}]{failure}}}'
            for (agent, _, number), failure in zip(conditions, failures)
        ]
        output = result.stdout.decode().splitlines()
        if not (
            output[0].startswith(outcome_found)
            and output[0].endswith(end)
            and output[2:] == lines
        ):
            raise FailedCheckError(
                f"{first}, {second}: {result.status}: {output} {result.stderr!r}"
            )


@case(
    "one agent more than the black hole has links solves small networks without a map"
)
def explore_unmapped(stage: Stage) -> None:
    few = [Search(ring(4), 0, 2, links) for links in (4, 0)]
    few += [Search(complete(4), 0, 3, links) for links in (6, 0)]
    for search in [*searches_of(NETWORK), *few]:
        outcome_found = explore(stage.program, search, search.degree + 1, search.board)
        wants(f"what is wrong with {search}", fault_in(search, outcome_found), "")


@case("as many agents as the black hole has links fail, or trap on less whiteboard")
def too_little(stage: Stage) -> None:
    search = Search(NETWORK, 0, 1, 3)
    for agents, board, outcome_found in (
        (search.degree, search.board, "fails"),
        (search.degree + 1, search.board - 1, "breaks"),
    ):
        outcome = explore(stage.program, search, agents, board)
        wants(f"what is found of {agents}, {board}", outcome["found"], outcome_found)


@case("agents whose memory grows are explored until memory runs out, and no longer")
def grown(stage: Stage) -> None:
    enters, looks = (CALL + bytes([index]) + DROP for index in range(2))
    # what a memory has of zeros takes no room where it is saved
    first = SIZE + constant(I32, GROWTH) + SUBTRACT + constant(I32, 65_536) + MULTIPLY
    grows = (
        constant(I32, GROWTH)
        + GROW
        + DROP
        + first
        + constant(I32, 1)
        + constant(I32, GROWTH * 65_536)
        + FILL
    )
    agent = running(enters + LOOP + grows + looks + AGAIN + END, "enter", "look")
    front = stage.memory_limit(200 << 20)
    expect(
        run_module(stage, agent, front=front), b"", b"agent.wasm: memory\n", NO_MEMORY
    )


@case("a module may have a table of thousands of elements")
def large_table(stage: Stage) -> None:
    table = b"\x01\x70\x00" + unsigned_leb128(5_000)
    explores(
        stage, join_sections({**sections_of(running(b"")), 4: table}), SILENT, FAILING
    )


@case("each black hole of a ring of 48 nodes is tried")
def many_holes(stage: Stage) -> None:
    stage.skip_with_sanitizer("takes minutes to try these schedules")
    write_cup(stage.folder, [match("red", ring(48), [1], quota=2_000, board=48)])
    (stage.folder / "ring.wasm").write_bytes(RING.read_bytes())
    words = ["explore", "cup.toml", "0", "--all-holes", "--draws", "1"]
    run = stage.run([*words, "--module", "ring.wasm:48"], b"")
    wants("standard error", run.stderr, b"")
    wants("the exit status", run.status, DONE)
    wants("the black holes", run.stdout.count(b'{"hole":'), 47)


@case("each instruction on integers has the results that node's WebAssembly has")
def as_node_has(stage: Stage) -> None:
    if shutil.which("node") is None:
        raise unittest.SkipTest("node is not installed")
    for functions, reaches in ((numeric(), False), (in_memory(), True)):
        data = DATA if reaches else b""
        calls = told_by_node(stage.folder / "values.wasm", functions, reaches, data)
        explores(stage, checks(functions, calls, data), SILENT, FAILING)
        for call in first_traps(calls):
            explores(
                stage,
                alone(functions[call.function], call, data),
                BREAKS,
                FAILING,
                ',"failure":"trap","function":0',
            )
        wrong = calls[0]._replace(result=(calls[0].result or 0) ^ 1)
        explores(
            stage,
            checks(functions, [wrong], data),
            BREAKS,
            FAILING,
            ',"failure":"trap","function":1',
        )


def first_traps(calls: List[Call]) -> List[Call]:
    """Of each function the first call that traps."""
    results: Dict[str, Call] = {}
    for call in calls:
        if call.result is None:
            results.setdefault(call.function, call)
    return list(results.values())


def alone(function: Function, call: Call, data: bytes) -> bytes:
    """A module that makes one call."""
    push = b"".join(
        constant(of, number) for of, number in zip(function.parameters, call.operands)
    )
    return module(
        [function, Function([], [], push + CALL + b"\x00" + DROP, "run")], data=data
    )
