"""Agents that poll, hide, crash, sleep or are drawn, for tests of `explore`."""
from tests.support.matches import FAULTY

# a program that asks nothing, and tells now and then how far it is
LONG = """#!/usr/bin/env python3
import time
for states in (262144, 524288):
    print(f'{{"visited":{states},"depth":37}}', flush=True)
    time.sleep(0.3)
print('{"found":"solves","moves":1,"lost":0,"turns":4}')
print('{"states":600000}')
"""
ODD = (
    FAULTY
    + """
import hashlib


def polls(memory, reply):
    return memory, {"do": "leave" if "no" in reply else "look"}


def is_refused(memory, reply):
    return memory, {"do": "depart", "port": 9}


def enters_again(memory, reply):
    return memory, {"do": "enter", "key": "k0"}


def counts(agent, key):
    # six commands after it has entered, of which the last one is right
    agent.enter(key)
    for _ in range(4):
        agent.look()
    agent.depart(0)
    agent.accuse(0)


def knows(agent, key):
    agent.enter(key)
    agent.depart(0)
    agent.accuse(0)


def writes_first(agent, key):
    agent.write(agent.enter(key).board, "here")
    agent.depart(0)
    agent.accuse(0)


def gives_up(agent, key, sleep):
    # after four wakings without news it accuses its own port to the safe node
    here, wakings = agent.enter(key), 0
    while not here.board and wakings < 4:
        sleep(1)
        here, wakings = agent.look(), wakings + 1
    agent.leave() if here.board else agent.accuse(0)


def knows_and_raises(agent, key):
    knows(agent, key)
    raise KeyError("east")


def knows_and_sleeps(agent, key, sleep):
    knows(agent, key)
    sleep(1)
    sleep(1)
    sleep(1)
    sleep(1)


def knows_and_naps(agent, key, sleep):
    knows(agent, key)
    sleep(1)
    sleep(1)


def crashes_on_its_link(agent, key, sleep):
    agent.enter(key)
    agent._lines.send('{"do":"depart","port":1}')
    agent._lines.receive()
    raise AttributeError("nobody is told")


def stays_outside(agent, key, sleep):
    while True:
        sleep(1)


def ends(agent, key, seed, sleep):
    # it comes to its end in a way that is drawn, and sleeps or raises then
    for _ in range(drawn(seed, "outside") % 5):
        sleep(1)
    if drawn(seed, "enters") % 8:
        agent.enter(key)
        for _ in range(drawn(seed, "inside") % 4):
            sleep(1)
        try:
            if drawn(seed, "goes") % 3 == 0:
                agent.depart(1)
            elif drawn(seed, "goes") % 3 == 1:
                agent.leave()
            else:
                agent.accuse(1)
        except MatchOver:
            pass
    for _ in range(drawn(seed, "after") % 5):
        sleep(1)
    if drawn(seed, "raises") % 4 == 0:
        raise KeyError("west")


def enters_as_another(agent, key):
    # the keys of a game whose home base and ports are those of the network
    agent.enter({"k0": "k1-d11ffac8", "k1": "k0-9241b6b9"}[key[:2]])


def looks_first(agent, key):
    agent.look()


def hides(agent, key):
    # what it will do lies on the interpreter's stack alone: how often it still writes
    here = agent.enter(key)
    for _ in [0] * (1 if here.board else 2):
        here = None
        agent.write("", "a")
    agent.leave()


def drawn(*words):
    return int.from_bytes(hashlib.blake2b(repr(words).encode(), digest_size=4).digest(), "big")


def machine(memory, reply, seed, size):
    # what it does next is a function of a small number and of what it saw last
    if "no" in reply:
        return memory, {"do": "leave"}
    state, saw, put = memory or (0, (), "")
    if reply["ok"] != "woke":
        saw = reply["ok"], reply.get("from"), reply.get("board", put)
    what = drawn(seed, state, saw) % 16
    state = drawn(seed, state, saw, "next") % size
    command = command_of(what, saw[-1])
    return (state, saw, command.get("put", "")), command


def command_of(what, board):
    if what < 5:
        return {"do": "depart", "port": what % 2}
    if what < 8:
        return {"do": "write", "expect": board if what < 7 else "", "put": str(what)}
    if what < 12:
        return {"do": "look" if what < 10 else "sleep"}
    return {"do": "accuse", "port": what % 2} if what < 15 else {"do": "leave"}
"""
)
# an agent of its own: it enters, departs by port 0 and accuses port 0, and declares
# where it is
OWN = """
import json, socket, sys
line = socket.create_connection(("127.0.0.1", int(sys.argv[1]))).makefile("rw", newline="\\n")
for place, command in enumerate([{"do": "enter", "key": sys.argv[2]}, {"do": "look"}, {"do": "depart", "port": 0},
                                 {"do": "accuse", "port": 0}]):
    line.write(json.dumps({**command, **({"memory": place} if sys.argv[3] == "declares" else {})}) + "\\n")
    line.flush()
    if line.readline() == '{"ok":"gone"}\\n':
        line.readline()
"""
