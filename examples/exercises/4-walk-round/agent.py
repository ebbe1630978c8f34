import sys

from client import Agent

agent = Agent.connect(sys.argv[1], int(sys.argv[2]))
key = sys.argv[3]

here = agent.enter(key)
nodes = 1
# walk round, and count

agent.write(here.board, str(nodes))
agent.leave()
