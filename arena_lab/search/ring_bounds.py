"""How many moves two agents make on a ring of n nodes: what every team must make, and
what the search by halves makes at most."""
import itertools


def rounds(nodes: int) -> int:
    """Returns how often this many nodes are halved until one is left: the least R with
    2^R >= `nodes`."""
    return (nodes - 1).bit_length()


def least_moves(nodes: int) -> int:
    """The moves that every team must make (`least_moves` of `bhs_protocols_bounds`): R (n - 2) +
    1."""
    return rounds(nodes - 1) * (nodes - 2) + 1


def more_moves(nodes: int) -> int:
    """The most that the second bound from below gives (`more_moves` of `bhs_protocols_bounds`): k
    n + 3 (n - 2 - f_k) + 4 - f_(k+1) moves for some k with f_k at most n - 2, where
    f_0, f_1, f_2, .. are 1, 2, 3, 5, 8, .. ."""
    limit = 0
    this = 1
    following = 2
    for k in itertools.count():
        if this > nodes - 2:
            break
        limit = max(limit, k * nodes + 3 * (nodes - 2 - this) + 4 - following)
        this, following = following, this + following
    return limit


def most_moves(nodes: int) -> int:
    """The moves that the search by halves makes at most (`most_moves` of
    `bhs_protocols`): 2 (n - 2) R + n + 1 - 2^R. So many are attained."""
    return 2 * (nodes - 2) * rounds(nodes - 1) + nodes + 1 - (1 << rounds(nodes - 1))
