import sys

from client import Agent

agent = Agent.connect(sys.argv[1], int(sys.argv[2]))
key = sys.argv[3]

here = agent.enter(key)
# go through port 0, and write there by which port you came

agent.leave()
