import sys

from client import Agent

agent = Agent.connect(sys.argv[1], int(sys.argv[2]))
key = sys.argv[3]

board = agent.enter(key).board
for _ in range(5):
    now = int(board or 0) + 1
    swap = agent.write(board, str(now))
    board = swap.board
agent.leave()
