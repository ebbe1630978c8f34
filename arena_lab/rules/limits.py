"""The limits of a match, of a client's line and of a script, and those that the earlier
versions of files and replays allow. They are those of the program's model,
crates/bhs_model/src/limits.rt."""

MAX_AGENTS = 64
MAX_NODES = 4_096
SMALL_NODES = 256
MAX_QUOTA = 65_535
SMALL_QUOTA = 1_000
MAX_BOARD = 65_535
SMALL_BOARD = 4_096
# bytes of a client's line, without its line feed, and of a text that is read whole, as
# a script
MAX_LINE = 65_536
MAX_TEXT = 1_048_576


def is_small(nodes: int, quota: int, board: int) -> bool:
    """Returns whether the earlier versions can say a match of this size."""
    return nodes <= SMALL_NODES and quota <= SMALL_QUOTA and board <= SMALL_BOARD
