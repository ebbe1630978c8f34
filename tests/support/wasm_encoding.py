"""WebAssembly modules, put together byte by byte: what agents run in the tests of
`arena explore --module`, and one function for each instruction on integers, whose
results node's own WebAssembly tells."""
import json
import pathlib
import subprocess
from typing import Dict, Iterable, List, NamedTuple, Optional, Sequence, Tuple

I32 = 0x7F
I64 = 0x7E
BITS = {I32: 32, I64: 64}
CONST = {I32: b"\x41", I64: b"\x42"}
NOT_EQUAL = {I32: b"\x47", I64: b"\x52"}
# what the functions of `arena` take; each gives an i32
HOST = {
    "enter": 0,
    "look": 0,
    "write": 4,
    "depart": 1,
    "accuse": 1,
    "leave": 0,
    "sleep": 0,
    "ports": 0,
    "came": 0,
    "board": 2,
    "argument": 1,
}
# numbers on which instructions differ
OPERANDS = (
    0,
    1,
    2,
    31,
    32,
    33,
    63,
    64,
    0x7F,
    0x80,
    0xFF,
    0x7FFF,
    0x8000,
    0xDEADBEEF,
    0x7FFFFFFF,
    0x80000000,
    0xFFFFFFFF,
    0x0123456789ABCDEF,
    0x7FFFFFFFFFFFFFFF,
    0x8000000000000000,
    0xFFFFFFFFFFFFFFFF,
)
# the sections of a module, the number of data segments before the code
ORDER = (1, 2, 3, 4, 5, 6, 7, 8, 9, 12, 10, 11)
NODE = """
const [file, calls] = [process.argv[1], JSON.parse(require("fs").readFileSync(0))];
const module = new WebAssembly.Module(require("fs").readFileSync(file));
const run = new WebAssembly.Instance(module, {}).exports;
const told = calls.map(([name, values]) => {
    try { return String(run[name](...values.map(([bits, n]) => bits == 64 ? BigInt(n) : Number(n)))); }
    catch (trap) { if (trap instanceof WebAssembly.RuntimeError) return null; throw trap; }
});
process.stdout.write(JSON.stringify(told));
"""


class Function(NamedTuple):
    """A function of a module: the types of its parameters and results, its
    instructions, and a name if it is exported."""

    parameters: Sequence[int]
    results: Sequence[int]
    body: bytes
    export: str = ""


def unsigned_leb128(number: int) -> bytes:
    """A number in LEB128."""
    low = number & 0x7F
    rest = number >> 7
    return bytes([low | 0x80]) + unsigned_leb128(rest) if rest else bytes([low])


def signed_leb128(number: int) -> bytes:
    """A number in signed LEB128."""
    low = number & 0x7F
    rest = number >> 7
    is_last = rest in (0, -1) and (rest == -1) == bool(low & 0x40)
    return bytes([low]) if is_last else bytes([low | 0x80]) + signed_leb128(rest)


def constant(value_type: int, number: int) -> bytes:
    """The instruction that pushes a number, which is taken without a sign."""
    bits = BITS[value_type]
    number %= 1 << bits
    return CONST[value_type] + signed_leb128(
        number - (1 << bits) if number >> (bits - 1) else number
    )


def vector(items: Iterable[bytes]) -> bytes:
    items = list(items)
    return unsigned_leb128(len(items)) + b"".join(items)


def section(number: int, body: bytes) -> bytes:
    return bytes([number]) + unsigned_leb128(len(body)) + body


def name(text: str) -> bytes:
    return unsigned_leb128(len(text)) + text.encode()


def type_of(parameters: Sequence[int], results: Sequence[int]) -> bytes:
    return (
        b"\x60"
        + vector(bytes([parameter]) for parameter in parameters)
        + vector(bytes([result]) for result in results)
    )


def module(
    functions: Sequence[Function],
    imports: Sequence[str] = (),
    source: str = "arena",
    data: bytes = b"",
    exports_memory: bool = False,
) -> bytes:
    """A module with a memory of one page that begins with this data, and with these
    functions of `arena`, which are numbered before its own."""
    host = [type_of([I32] * HOST.get(it, 0), [I32]) for it in imports]
    own = [type_of(function.parameters, function.results) for function in functions]
    bodies = [
        unsigned_leb128(len(function.body) + 2) + b"\0" + function.body + b"\x0b"
        for function in functions
    ]
    exports = [
        name(function.export) + b"\0" + unsigned_leb128(len(imports) + index)
        for index, function in enumerate(functions)
        if function.export
    ]
    if exports_memory:
        exports.append(name("memory") + b"\x02\0")
    return b"\0asm\1\0\0\0" + b"".join(
        (
            section(1, vector([*host, *own])),
            section(
                2,
                vector(
                    name(source) + name(it) + b"\0" + unsigned_leb128(index)
                    for index, it in enumerate(imports)
                ),
            ),
            section(
                3,
                vector(
                    unsigned_leb128(len(imports) + index)
                    for index in range(len(functions))
                ),
            ),
            section(5, b"\x01\x00\x01"),
            section(7, vector(exports)),
            section(10, vector(bodies)),
            section(
                11,
                vector(
                    [
                        b"\0"
                        + constant(I32, 0)
                        + b"\x0b"
                        + unsigned_leb128(len(data))
                        + data
                    ]
                    if data
                    else []
                ),
            ),
        )
    )


def number_at(data: bytes) -> Tuple[int, bytes]:
    """The number in LEB128 with which bytes begin, and the bytes behind it."""
    if data[0] < 0x80:
        return data[0], data[1:]
    rest, behind = number_at(data[1:])
    return data[0] & 0x7F | rest << 7, behind


def sections_of(file: bytes) -> Dict[int, bytes]:
    """The sections of a module by number, each of them once."""
    sections: Dict[int, bytes] = {}
    data = file[8:]
    while data:
        length, behind = number_at(data[1:])
        sections[data[0]] = behind[:length]
        data = behind[length:]
    return sections


def join_sections(sections: Dict[int, bytes]) -> bytes:
    """The module with these sections."""
    return b"\0asm\1\0\0\0" + b"".join(
        section(kind, sections[kind]) for kind in ORDER if kind in sections
    )


def with_run(file: bytes) -> bytes:
    """A module that imports nothing, with one function more, `run`, which does
    nothing."""
    sections = sections_of(file)
    types, functions = (number_at(sections.get(kind, b"\0"))[0] for kind in (1, 3))
    for kind, item in (
        (1, type_of([], [])),
        (3, unsigned_leb128(types)),
        (7, name("run") + b"\0" + unsigned_leb128(functions)),
        (10, b"\2\0\x0b"),
    ):
        count, items = number_at(sections.get(kind, b"\0"))
        sections[kind] = unsigned_leb128(count + 1) + items + item
    return join_sections(sections)


def numeric() -> Dict[str, Function]:
    """A function for each instruction on integers, by its opcode."""
    results: Dict[str, Function] = {}

    def add(opcodes: Iterable[int], operands: Sequence[int], result: int) -> None:
        push = b"".join(
            b"\x20" + unsigned_leb128(index) for index in range(len(operands))
        )
        for opcode in opcodes:
            results[f"{opcode:02x}"] = Function(
                operands, [result], push + bytes([opcode])
            )

    add([0x45], [I32], I32)
    add(range(0x46, 0x50), [I32, I32], I32)
    add([0x50], [I64], I32)
    add(range(0x51, 0x5B), [I64, I64], I32)
    add([*range(0x67, 0x6A), 0xC0, 0xC1], [I32], I32)
    add(range(0x6A, 0x79), [I32, I32], I32)
    add([*range(0x79, 0x7C), 0xC2, 0xC3, 0xC4], [I64], I64)
    add(range(0x7C, 0x8B), [I64, I64], I64)
    add([0xA7], [I64], I32)
    add([0xAC, 0xAD], [I32], I64)
    return results


def in_memory() -> Dict[str, Function]:
    """Returns functions by opcode: a load for each load instruction, and for each store
    instruction a store followed by a load of the surrounding eight bytes. The first
    operand is the address."""
    results: Dict[str, Function] = {}
    for opcodes, value_type in (
        ((0x28, 0x2C, 0x2D, 0x2E, 0x2F), I32),
        ((0x29, *range(0x30, 0x36)), I64),
    ):
        for opcode in opcodes:
            results[f"{opcode:02x}"] = Function(
                [I32], [value_type], b"\x20\x00" + bytes([opcode, 0, 3])
            )
    for opcodes, value_type in (
        ((0x36, 0x3A, 0x3B), I32),
        ((0x37, 0x3C, 0x3D, 0x3E), I64),
    ):
        for opcode in opcodes:
            store = b"\x20\x00\x20\x01" + bytes([opcode, 0, 1])
            aligned_value = b"\x20\x00" + constant(I32, 0xFFF8) + b"\x71"
            results[f"{opcode:02x}"] = Function(
                [I32, value_type], [I64], store + aligned_value + b"\x29\x00\x00"
            )
    return results


class Call(NamedTuple):
    """A call of a function, and its result by node: None if it traps."""

    function: str
    operands: Sequence[int]
    result: Optional[int]


def operands_of(function: Function, reaches: bool) -> List[Tuple[int, ...]]:
    """With which operands a function is called; the first is an address if it reaches
    into the memory."""
    if reaches:
        addresses = (0, 5, 65_524, 65_528, 65_532, 65_533, 65_535, 65_536, 0xFFFFFFFF)
        rest = OPERANDS[::4] if len(function.parameters) == 2 else ()
        return [(at, number) for at in addresses for number in rest] or [
            (at,) for at in addresses
        ]
    if len(function.parameters) == 1:
        return [(number,) for number in OPERANDS]
    return [(first, second) for first in OPERANDS for second in OPERANDS]


def told_by_node(
    file: pathlib.Path, functions: Dict[str, Function], reaches: bool, data: bytes
) -> List[Call]:
    """Calls each function with many operands, by node. Writes the module that it runs
    to a file."""
    exported_value = [
        function._replace(export=opcode) for opcode, function in functions.items()
    ]
    file.write_bytes(module(exported_value, data=data))
    calls = [
        (opcode, operands)
        for opcode, function in functions.items()
        for operands in operands_of(function, reaches)
    ]
    request = [
        [
            opcode,
            [
                [BITS[of], str(number % (1 << BITS[of]))]
                for of, number in zip(functions[opcode].parameters, operands)
            ],
        ]
        for opcode, operands in calls
    ]
    result = subprocess.run(
        ["node", "-e", NODE, str(file)],
        input=json.dumps(request),
        text=True,
        check=True,
        stdout=subprocess.PIPE,
    )
    return [
        Call(opcode, operands, None if message is None else int(message))
        for (opcode, operands), message in zip(calls, json.loads(result.stdout))
    ]


def checks(functions: Dict[str, Function], calls: Sequence[Call], data: bytes) -> bytes:
    """A module that makes all these calls but those that trap, and traps if one has
    another result; then it ends. Each instruction is checked by a function of its own,
    of the number that its place among the opcodes is, twice."""
    parts: List[Function] = []
    for opcode, function in functions.items():
        part = b""
        for call in calls:
            if call.function != opcode or call.result is None:
                continue
            push = b"".join(
                constant(of, number)
                for of, number in zip(function.parameters, call.operands)
            )
            result = function.results[0]
            part += (
                push
                + b"\x10"
                + unsigned_leb128(len(parts))
                + constant(result, call.result)
            )
            part += NOT_EQUAL[result] + b"\x04\x40\x00\x0b"
        parts += [function, Function([], [], part)]
    run = b"".join(
        b"\x10" + unsigned_leb128(index) for index in range(1, len(parts), 2)
    )
    return module([*parts, Function([], [], run, "run")], data=data)
