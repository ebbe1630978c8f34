"""WebAssembly modules by chance: functions of integers that call each other, reach into
memory, table and globals, branch, and call the functions of `arena`. Each ends, or
traps."""
import random
from typing import Callable, Dict, List, Sequence

from tests.support.wasm_encoding import (
    HOST,
    I32,
    I64,
    Function,
    constant,
    in_memory,
    join_sections,
    module,
    name,
    numeric,
    sections_of,
    unsigned_leb128,
    vector,
)

CONSTANTS = (0, 1, 2, 7, 31, 32, 63, 64, 127, 128, 255, 65_535, 65_536)
EDGES = (2**31 - 1, 2**31, 2**32 - 1, 2**32, 2**63 - 1, 2**63, 2**64 - 1)
TYPES = (I32, I64)
# the locals of a function: numbers of both types, and counters of loops
LOCALS = (I32, I64, I32, I64)
COUNTERS = 3
PARAMETERS = [*LOCALS, *[I32] * COUNTERS]
GLOBALS = (I32, I64, I32)
MEMORY_OPCODES = in_memory()
DEPTH = 3
END = b"\x0b"
DROP = b"\x1a"
DATA = bytes(range(7, 256, 5))


def opcodes(result: int) -> List[Function]:
    """The instructions on integers with this result."""
    return [it for it in numeric().values() if it.results == [result]]


PURE = {result: opcodes(result) for result in TYPES}
LOADS = {
    result: [
        bytes.fromhex(opcode)
        for opcode, it in MEMORY_OPCODES.items()
        if len(it.parameters) == 1 and it.results == [result]
    ]
    for result in TYPES
}
STORES = {
    value: [
        bytes.fromhex(opcode)
        for opcode, it in MEMORY_OPCODES.items()
        if it.parameters[1:] == [value]
    ]
    for value in TYPES
}


class Body:
    """Generates the instructions of a function at random. It may call functions with
    lower numbers."""

    def __init__(
        self, rng: random.Random, imports: Sequence[str], results: Sequence[int]
    ) -> None:
        self.chance = rng
        self.imports = imports
        # result types of the earlier functions
        self.results = results
        self.loops = 0

    def either(self, *ways: Callable[[], bytes]) -> bytes:
        return self.chance.choice(ways)()

    def local(self, value: int) -> bytes:
        places = [index for index, local in enumerate(LOCALS) if local == value]
        return unsigned_leb128(self.chance.choice(places))

    def leaf(self, value: int) -> bytes:
        """Returns a constant or a variable."""
        rng = self.chance
        number = rng.choice((*CONSTANTS, *EDGES, rng.getrandbits(64)))
        return self.either(
            lambda: b"\x20" + self.local(value),
            lambda: b"\x23" + unsigned_leb128(GLOBALS.index(value)),
            lambda: constant(value, rng.choice((number, -number))),
        )

    def expression(self, value: int, depth: int) -> bytes:
        """What pushes a value of a type."""
        if depth <= 0 or self.chance.random() < 0.15:
            return self.leaf(value)
        first = [lambda: self.pure(value, depth)] * 4
        return self.either(
            *first,
            lambda: self.load(value, depth),
            lambda: self.chosen(value, depth),
            lambda: self.call(value, depth),
            lambda: self.branch(value, depth),
            lambda: self.expression(value, depth - 1) + b"\x22" + self.local(value),
            lambda: self.of_host() if value == I32 else self.leaf(value),
        )

    def pure(self, value: int, depth: int) -> bytes:
        instruction = self.chance.choice(PURE[value])
        operands = [
            self.expression(parameter, depth - 1)
            for parameter in instruction.parameters
        ]
        return b"".join(operands) + instruction.body[-1:]

    def address(self, depth: int) -> bytes:
        """Generates an address; about 2 % lie outside of the memory."""
        result = self.expression(I32, depth - 1)
        is_wild = self.chance.random() < 0.02
        return result if is_wild else result + constant(I32, 0x7FF8) + b"\x71"

    def memory_place(self) -> bytes:
        return b"\0" + unsigned_leb128(self.chance.randrange(64))

    def load(self, value: int, depth: int) -> bytes:
        return (
            self.address(depth) + self.chance.choice(LOADS[value]) + self.memory_place()
        )

    def chosen(self, value: int, depth: int) -> bytes:
        """A value by a condition."""
        first, second = (self.expression(value, depth - 1) for _ in range(2))
        test = self.expression(I32, depth - 1)
        kind = bytes([value])
        return self.either(
            lambda: first + second + test + b"\x1b",
            lambda: test + b"\x04" + kind + first + b"\x05" + second + END,
        )

    def branch(self, value: int, depth: int) -> bytes:
        """A block that is left early by a condition, or by a table of branches."""
        kind = bytes([value])
        first, second = (self.expression(value, depth - 1) for _ in range(2))
        test = self.expression(I32, depth - 1)
        table = b"\x0e" + vector([b"\0", b"\1"]) + b"\0"
        return self.either(
            lambda: b"\2" + kind + first + test + b"\x0d\0" + DROP + second + END,
            lambda: b"\2" + kind + b"\2" + kind + first + test + table + END + END,
        )

    def call(self, value: int, depth: int) -> bytes:
        """Generates a call of an earlier function, direct or by the table."""
        places = [index for index, result in enumerate(self.results) if result == value]
        if not places:
            return self.pure(value, depth)
        position = self.chance.choice(places)
        conditions = b"".join(self.leaf(parameter) for parameter in PARAMETERS)
        number = unsigned_leb128(len(self.imports) + position)
        indirect = constant(I32, position) + b"\x11" + number + b"\0"
        return conditions + self.either(lambda: b"\x10" + number, lambda: indirect)

    def of_host(self) -> bytes:
        """A call of a function of `arena`, or of the memory's size."""
        index = self.chance.randrange(len(self.imports) + 2)
        if index == len(self.imports):
            return b"\x3f\0"
        if index > len(self.imports):
            return constant(I32, self.chance.choice((0, 1, 70_000))) + b"\x40\0"
        conditions = b"".join(self.leaf(I32) for _ in range(HOST[self.imports[index]]))
        return conditions + b"\x10" + unsigned_leb128(index)

    def statement(self, depth: int) -> bytes:
        value = self.chance.choice(TYPES)
        return self.either(
            lambda: self.expression(value, DEPTH) + b"\x21" + self.local(value),
            lambda: self.expression(value, DEPTH)
            + b"\x24"
            + unsigned_leb128(GLOBALS.index(value)),
            lambda: self.store(value),
            lambda: self.of_host() + DROP,
            lambda: self.memory_copy(),
            lambda: self.condition(depth),
            lambda: self.loop(depth),
        )

    def store(self, value: int) -> bytes:
        conditions = self.address(2) + self.expression(value, 2)
        return conditions + self.chance.choice(STORES[value]) + self.memory_place()

    def memory_copy(self) -> bytes:
        """Bytes that are copied or filled."""
        count = constant(I32, self.chance.randrange(80))
        return self.either(
            lambda: self.address(1) + self.address(1) + count + b"\xfc\x0a\0\0",
            lambda: self.address(1) + self.leaf(I32) + count + b"\xfc\x0b\0",
        )

    def condition(self, depth: int) -> bytes:
        """Generates conditional statements, or a block with a conditional exit."""
        if depth <= 0:
            return b"\x01"
        test = self.expression(I32, 2)
        first, second = (self.statements(depth - 1) for _ in range(2))
        return self.either(
            lambda: test + b"\x04\x40" + first + b"\x05" + second + END,
            lambda: b"\2\x40" + first + test + b"\x0d\0" + second + END,
        )

    def loop(self, depth: int) -> bytes:
        """Statements that are done some times."""
        if depth <= 0 or self.loops == COUNTERS:
            return b"\x01"
        counter = unsigned_leb128(len(LOCALS) + self.loops)
        self.loops += 1
        body = self.statements(depth - 1)
        less = b"\x20" + counter + constant(I32, 1) + b"\x6b\x22" + counter
        times = constant(I32, self.chance.randrange(1, 6)) + b"\x21" + counter
        return times + b"\3\x40" + body + less + b"\x0d\0" + END

    def statements(self, depth: int) -> bytes:
        return b"".join(
            self.statement(depth) for _ in range(self.chance.randrange(1, 4))
        )


def drawn_module(rng: random.Random) -> bytes:
    """A module that exports `run` and its memory."""
    imports = rng.sample(sorted(HOST), rng.randrange(1, len(HOST)))
    functions: List[Function] = []
    for _ in range(rng.randrange(1, 5)):
        result = rng.choice(TYPES)
        body = Body(rng, imports, [function.results[0] for function in functions])
        code = body.statements(DEPTH) + body.expression(result, DEPTH)
        functions.append(Function(PARAMETERS, [result], code))
    begins = b"".join(
        constant(parameter, rng.getrandbits(64)) for parameter in PARAMETERS
    )
    last = unsigned_leb128(len(imports) + len(functions) - 1)
    run = Function([], [], begins + b"\x10" + last + DROP, "run")
    return with_state(rng, module([*functions, run], imports, data=DATA), imports)


def with_state(rng: random.Random, file: bytes, imports: Sequence[str]) -> bytes:
    """The module with a table of its functions, globals, and its memory exported."""
    sections: Dict[int, bytes] = sections_of(file)
    own = sections[3][0]
    places = [unsigned_leb128(len(imports) + index) for index in range(own)]
    sections[4] = vector([b"\x70\0" + unsigned_leb128(own)])
    sections[5] = vector([b"\1\1" + unsigned_leb128(rng.choice((1, 2, 3)))])
    sections[6] = vector(
        bytes([it, 1]) + constant(it, rng.getrandbits(64)) + END for it in GLOBALS
    )
    sections[7] = vector([name("memory") + b"\2\0", name("run") + b"\0" + places[-1]])
    sections[9] = vector([b"\0" + constant(I32, 0) + END + vector(places)])
    return join_sections(sections)
