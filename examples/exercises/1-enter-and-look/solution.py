import sys

from client import Agent

agent = Agent.connect(sys.argv[1], int(sys.argv[2]))
key = sys.argv[3]

agent.enter(key)
here = agent.look()
print(here.ports, file=sys.stderr)
agent.leave()
