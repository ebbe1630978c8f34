import sys

from client import Agent

agent = Agent.connect(sys.argv[1], int(sys.argv[2]))
key = sys.argv[3]

here = agent.enter(key)
here = agent.depart(0)
agent.write(here.board, str(here.came))
agent.leave()
