import sys

from client import Agent

agent = Agent.connect(sys.argv[1], int(sys.argv[2]))
key = sys.argv[3]

here = agent.enter(key)
# go through port 0 and come back, unless somebody is on the way there
here = agent.depart(0)
here = agent.depart(here.came)
agent.write(here.board, "safe")
agent.leave()
