"""How many states of a match fit in the memory of this machine."""
from arena_lab.search.model_search import MAX_STATES
from arena_lab.support.memory import available

# bytes of a state, with room for more than was measured: in the program's search, and
# in the Python model's
OF_PROGRAM = 120
OF_MODEL = 1_000
# the most that the program takes as a number of states
MAX_PROGRAM_STATES = 2**32 - 1


def fitting(bytes_each: int, at_a_time: int = 1) -> int:
    """Returns how many states of a match fit in half of the memory that is left, if
    this number of matches share it."""
    bytes_left = available()
    return (
        MAX_STATES
        if bytes_left is None
        else max(1, min(MAX_PROGRAM_STATES, bytes_left // 2 // at_a_time // bytes_each))
    )
