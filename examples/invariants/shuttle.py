"""What holds of `examples/agents/shuttle.py` at each time, as `Inv` in crates/bhs_protocols/proofs/ExplorerState.antt.

    ./arena-lab invariant examples/invariants/shuttle.py --network ring:3..5 \
        --agent "examples/agents/shuttle.py {nodes} 0" --agent "examples/agents/shuttle.py {nodes} 1"
"""
from typing import NamedTuple, Tuple

from shuttle import numbers_in, text_of

from arena_lab.search.configurations import (
    After,
    At,
    Before,
    Bound,
    Bounds,
    Item,
    Configuration,
    World,
    held_after,
)

BEGINS, GOES_OUT, LEAVES, COMES_BACK, RETURNS, WRITES, ENDS = range(7)


class Memory(NamedTuple):
    """An agent's memory: numbers of safe nodes on its own side and on the other, phase,
    and distance from the home base (at a departure: that of the node left)."""

    side: int
    mine: int = 0
    theirs: int = 0
    phase: int = BEGINS
    steps: int = 0


def after(memory: Memory, item: Item) -> Memory:
    """What an agent holds after something has happened to it: `after_in` of
    specs/Shuttle.antt."""
    reply = item or {}
    phase = memory.phase
    steps = memory.steps
    if phase == BEGINS:
        return memory._replace(
            theirs=numbers_in(reply["board"])[1 - memory.side], phase=GOES_OUT
        )
    if phase == GOES_OUT:
        return memory._replace(phase=ENDS if reply["ok"] == "noted" else LEAVES)
    if phase == LEAVES:
        return memory._replace(
            phase=COMES_BACK if steps == memory.mine else GOES_OUT, steps=steps + 1
        )
    if phase == COMES_BACK:
        return memory._replace(phase=RETURNS)
    if phase == RETURNS and steps > 1:
        return memory._replace(phase=COMES_BACK, steps=steps - 1)
    if phase == RETURNS:
        return memory._replace(
            theirs=numbers_in(reply["board"])[1 - memory.side], phase=WRITES, steps=0
        )
    if phase == WRITES and reply["ok"] == "written":
        return memory._replace(mine=memory.mine + 1, phase=GOES_OUT)
    if phase == WRITES:
        return memory._replace(theirs=numbers_in(reply["board"])[1 - memory.side])
    return memory


def memories(configuration: Configuration) -> Tuple[Memory, Memory]:
    """What both agents hold."""
    first, second = (
        held_after(Memory(side), after, configuration.history[side]) for side in (0, 1)
    )
    return first, second


def end_of(world: World, side: int, steps: int) -> Tuple[int, int]:
    """Returns the node at this number of steps on one side, and its port away from the
    home base."""
    node = world.home
    port = side
    for _ in range(steps):
        node, port_back = world.far(node, port)
        port = 1 - port_back
    return node, port


def distance(world: World, side: int) -> int:
    """Returns how many steps from the home base the black hole is on a side."""
    return next(
        steps
        for steps in range(world.nodes)
        if end_of(world, side, steps)[0] in world.holes
    )


def is_placed(world: World, configuration: Configuration, memory: Memory) -> bool:
    """Returns whether position and accusation of an agent fit its phase."""
    side = memory.side
    mine = memory.mine
    phase = memory.phase
    steps = memory.steps
    position = configuration.position[side]
    accusation = configuration.accused[side]
    node, ahead = end_of(world, side, steps)
    if phase == ENDS:
        is_last = (
            mine + 1 == distance(world, side)
            and mine + memory.theirs + 2 == world.nodes
        )
        return (
            position == After() and is_last and accusation == end_of(world, side, mine)
        )
    if accusation is not None:
        return False
    if phase == BEGINS:
        return position == Before()
    if phase in (LEAVES, RETURNS):
        is_paid = (
            phase == RETURNS or steps < mine or mine + memory.theirs + 3 <= world.nodes
        )
        return (
            position == Bound(node, ahead if phase == LEAVES else 1 - ahead) and is_paid
        )
    return isinstance(position, At) and position.node == node


def comes_home(memory: Memory) -> bool:
    """Returns whether an agent has come to a node more than it has written."""
    return memory.phase in (COMES_BACK, RETURNS, WRITES)


def is_fit(world: World, configuration: Configuration, memory: Memory) -> bool:
    """What holds of one agent."""
    reach = memory.mine + comes_home(memory)
    is_known = all(
        end_of(world, memory.side, steps)[0] in configuration.reached
        for steps in range(1, reach + 1)
    )
    limit = memory.mine + (memory.phase in (COMES_BACK, RETURNS))
    return (
        is_placed(world, configuration, memory)
        and reach < distance(world, memory.side)
        and is_known
        and memory.steps <= limit
    )


def trip(memory: Memory) -> int:
    """Returns how many moves an agent has made since it has written last."""
    steps = memory.steps
    back = 2 * (memory.mine + 1) - memory.steps
    return {
        BEGINS: 0,
        GOES_OUT: steps,
        LEAVES: steps + 1,
        COMES_BACK: back,
        RETURNS: back + 1,
        WRITES: 2 * (memory.mine + 1),
        ENDS: memory.mine,
    }[memory.phase]


def moves_made(memory: Memory) -> int:
    """Returns how many moves an agent has made."""
    return memory.mine * (memory.mine + 1) + trip(memory)


def holds(world: World, configuration: Configuration) -> bool:
    first, second = memories(configuration)
    return (
        is_fit(world, configuration, first)
        and is_fit(world, configuration, second)
        and first.theirs <= second.mine
        and second.theirs <= first.mine
        and (first.theirs == second.mine or second.theirs == first.mine)
        and configuration.shown[world.home] == text_of(first.mine, second.mine)
        and configuration.moves == moves_made(first) + moves_made(second)
    )


def progress(memory: Memory) -> int:
    """Returns the number of turns of an agent in which it moved: two per move (less if
    a move is in progress), its writes, its entry and its accusation."""
    paces = 2 * moves_made(memory) - (memory.phase in (LEAVES, RETURNS))
    return (
        paces
        + memory.mine
        + memory.theirs
        + (memory.phase != BEGINS)
        + (memory.phase == ENDS)
    )


def commands_on(world: World, side: int) -> int:
    """The most commands of the agent of a side."""
    return distance(world, side) ** 2 + world.nodes


def bounds(world: World) -> Bounds:
    squares = [distance(world, side) ** 2 for side in (0, 1)]
    commands = [commands_on(world, side) for side in (0, 1)]
    return Bounds(
        moves=sum(squares) - 1,
        lost=1,
        commands=commands,
        turns=sum(commands) + sum(squares) + 2,
    )


def left(world: World, configuration: Configuration) -> int:
    limit = bounds(world).turns
    assert limit is not None
    return limit - sum(map(progress, memories(configuration)))
