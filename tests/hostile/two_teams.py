"""A served contest of two teams on a ring, and agents that play in it."""
import contextlib
import pathlib
import socket

from arena_lab.rules.networks import ring
from tests.support.counts import wants
from tests.support.servers import HOST, Server, enter, serve
from tests.support.session_lines import HERE, LOOK
from tests.support.tournaments import match, write_cup

# clients that may wait for admission at once
WAITING = 256
TEAMS = ("red", "blue")


def tournament(folder: pathlib.Path, quota: int = 1000) -> None:
    """A tournament of two teams, each with two agents on a ring of eight nodes."""
    write_cup(folder, [match(team, ring(8), [4], quota=quota) for team in TEAMS])


def serving(
    program: str, folder: pathlib.Path, *options: str, **extra: object
) -> Server:
    """A server of the tournament."""
    tournament(folder)
    return serve(program, folder, *options, **extra)


def goes_on(server: Server, what: str) -> None:
    """An agent is still answered, and the server has not ended."""
    entered_agent(server, "blue-1", f"an agent after {what}").close()
    wants(f"the server after {what}", server.child.poll(), None)


def entered_agent(
    server: Server, key: str, what: str = "an agent", source: str = HOST
) -> socket.socket:
    """An agent that has entered by this key and was answered."""
    client = server.connect(enter(key), source)
    wants(what, answer(client, len(HERE)), HERE)
    return client


def looks(client: socket.socket, what: str = "an agent") -> None:
    """An agent looks at an empty whiteboard of the home base, and is answered."""
    client.sendall(LOOK)
    wants(what, answer(client, len(HERE)), HERE)


def answer(client: socket.socket, count: int) -> bytes:
    """This many bytes of what a client is answered, or fewer at the end."""
    heard = b""
    with contextlib.suppress(OSError):
        while len(heard) < count:
            piece = client.recv(count - len(heard))
            if not piece:
                break
            heard += piece
    return heard
