import sys

from client import Agent

agent = Agent.connect(sys.argv[1], int(sys.argv[2]))
key = sys.argv[3]

here = agent.enter(key)
# which side is this agent's?
side = 0
agent.depart(side)
agent.leave()
