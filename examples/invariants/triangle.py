"""What holds of `examples/agents/triangle.py` at each time, as `Inv` of crates/bhs_protocols_triangle says it.

    ./arena-lab invariant examples/invariants/triangle.py --network ring:3 --agent "examples/agents/triangle.py 0" \
        --agent "examples/agents/triangle.py 1"
"""
from arena_lab.search.configurations import (
    After,
    At,
    Before,
    Bound,
    Bounds,
    Configuration,
    Position,
    World,
)

# what an agent has made of its six turns is how much has happened to it
TURNS = 6


def agent_position(world: World, side: int, turns: int) -> Position:
    """Returns the agent's position after this number of its turns."""
    target, label = world.far(world.home, side)
    return [
        Before(),
        At(world.home, None),
        Bound(world.home, side),
        At(target, label),
        Bound(target, label),
        At(world.home, side),
        After(),
    ][turns]


def is_fit(world: World, configuration: Configuration, side: int) -> bool:
    """What holds of one agent."""
    turns = len(configuration.history[side])
    is_lost = world.doomed(world.home, side)
    return (
        turns <= (2 if is_lost else TURNS)
        and configuration.position[side] == agent_position(world, side, turns)
        and configuration.used[side] == commands(turns)
        and configuration.accused[side]
        == ((world.home, 1 - side) if turns == TURNS else None)
        and (turns < 3 or world.far(world.home, side)[0] in configuration.reached)
    )


def commands(turns: int) -> int:
    """Returns how many commands an agent has used after this number of its turns:
    entering and arriving cost none."""
    return [0, 0, 1, 1, 2, 2, 3][turns]


def moves(turns: int) -> int:
    """Returns how many moves an agent has made after this number of its turns."""
    return [0, 0, 1, 1, 2, 2, 2][turns]


def holds(world: World, configuration: Configuration) -> bool:
    return all(
        is_fit(world, configuration, side) for side in (0, 1)
    ) and configuration.moves == sum(
        moves(len(configuration.history[side])) for side in (0, 1)
    )


def left(world: World, configuration: Configuration) -> int:
    return 8 - sum(map(len, configuration.history))


def bounds(world: World) -> Bounds:
    return Bounds(moves=3, lost=1, commands=3, turns=8)
