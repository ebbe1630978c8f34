import sys

from client import Agent


def walk(agent, port, links):
    """Goes on in one direction over this many links."""
    here = agent.depart(port)
    for _ in range(links - 1):
        here = agent.depart(1 - here.came)
    return here


def note(agent, side, mine, board):
    """Writes how many nodes of this side are safe, beside what the other agent wrote."""
    safe = board.split()
    safe[side] = str(mine)
    swap = agent.write(board, " ".join(safe))
    while not swap.written:
        swap = agent.write(swap.board, " ".join(safe))
    return swap.board


def search(agent, key, nodes):
    agent.enter(key)
    swap = agent.write("", "0 0")
    side = 0 if swap.written else 1
    board = swap.board
    mine = 0
    while True:
        theirs = int(board.split()[1 - side])
        ahead = side if mine == 0 else 1 - walk(agent, side, mine).came
        if mine + theirs == nodes - 2:
            return agent.accuse(ahead)
        here = agent.depart(ahead)
        mine += 1
        board = note(agent, side, mine, walk(agent, here.came, mine).board)


if __name__ == "__main__":
    search(Agent.connect(sys.argv[1], int(sys.argv[2])), sys.argv[3], int(sys.argv[4]))
