import sys

from client import Agent

agent = Agent.connect(sys.argv[1], int(sys.argv[2]))
key = sys.argv[3]

agent.enter(key)
swap = agent.write("", "gone")
if swap.written:
    here = agent.depart(0)
    here = agent.depart(here.came)
    agent.write(here.board, "back")
    agent.leave()
else:
    for _ in range(10):
        here = agent.look()
        if here.board == "back":
            break
    agent.accuse(1 if here.board == "back" else 0)
