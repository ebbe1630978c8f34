"""What `bhs_bench step N` counts, worked out after docs/MODEL.md, apart from the code.

Run: python3 -m tests.program.bench_counts N
"""
import sys

from arena_lab.rules.chacha8 import block

SIDE = 16
AGENTS = 16
QUOTA = 1000
EVENTS_OF_A_MATCH = 28_000


def words(seed):
    counter = 0
    while True:
        yield from block(seed, 0, counter)
        counter += 1


def neighbour(node, port):
    row, column = divmod(node, SIDE)
    rows, columns = ((0, 1), (0, -1), (1, 0), (-1, 0))[port]
    return (row + rows) % SIDE * SIDE + (column + columns) % SIDE


class Match:
    def __init__(self):
        self.node = [0] * AGENTS
        self.link = [None] * AGENTS
        self.left = [QUOTA] * AGENTS
        self.pool = []

    def says(self, agent):
        """Returns whether a command is heard, which then counts against the quota;
        Enter is not asked about."""
        if self.left[agent] == 0:
            return False
        self.left[agent] -= 1
        return True


def counts(events, seed=bytes([7]) * 32):
    stream = words(seed)
    record = arrivals = matches = 0
    finish = EVENTS_OF_A_MATCH
    game = None
    for _ in range(events):
        if finish == EVENTS_OF_A_MATCH:
            game = Match()
            finish = 0
            matches += 1
        finish += 1
        if finish <= AGENTS or finish == EVENTS_OF_A_MATCH:
            record += 1
            continue
        word = next(stream)
        kind = word % 16
        agent = word // 16 % AGENTS
        if kind >= 10:
            if game.pool:
                agent = game.pool[word // 16 % len(game.pool)]
                game.pool.remove(agent)
                game.node[agent] = neighbour(game.node[agent], game.link[agent])
                game.link[agent] = None
                record += 1
                arrivals += 1
            continue
        if kind in (2, 3):
            next(stream)
        if game.says(agent):
            record += 1
            if 4 <= kind <= 8 and game.link[agent] is None:
                game.link[agent] = word // 256 % 4
                game.pool.append(agent)
    return events, record, arrivals, max(matches, 1)


if __name__ == "__main__":
    for name, count in zip(
        ("events", "kept", "arrivals", "matches"), counts(int(sys.argv[1]))
    ):
        print(name, count)
