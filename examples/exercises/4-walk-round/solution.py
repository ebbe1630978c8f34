import sys

from client import Agent

agent = Agent.connect(sys.argv[1], int(sys.argv[2]))
key = sys.argv[3]

agent.enter(key)
agent.write("", "home")
here = agent.depart(0)
nodes = 1
while here.board != "home":
    nodes += 1
    here = agent.depart(1 - here.came)
agent.write(here.board, str(nodes))
agent.leave()
