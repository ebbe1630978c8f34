"""A stand-in for `arena serve`: sessions over TCP on the Python model, and turns by the
tournament's schedule."""
import contextlib
import pathlib
import socket
import threading
import time
from collections import defaultdict, deque
from typing import Deque, Dict, Iterator, NamedTuple

from arena_lab.rules.delays import Turns
from arena_lab.rules.fixtures import Tournament, read_tournament
from arena_lab.rules.limits import MAX_LINE
from arena_lab.rules.model import (
    ENDED,
    GONE,
    OUTSIDE,
    Match,
    Object,
    judge,
    spell,
)
from arena_lab.rules.printed import table
from arena_lab.rules.rehearsal import Item, Ready, SentReplies, Sessions
from arena_lab.support.ports import listen


class ServeOptions(NamedTuple):
    """How a contest goes: its turns, the seconds before each, how long it waits for
    agents and for sessions that have not ended, and whether a match closes once all is
    decided."""

    turns: int
    pause: float
    gather: float
    early: bool
    grace: float


class Contest:
    """The sessions of a tournament's matches under one lock, and the replies that were
    not sent yet."""

    def __init__(self, tournament: Tournament) -> None:
        self.teams = [fixture.team for fixture in tournament.fixtures]
        self.sessions = Sessions(
            [
                Ready(Match(fixture.setup), fixture.held, fixture.keys)
                for fixture in tournament.fixtures
            ]
        )
        self.matches = [ready_match.match for ready_match in self.sessions.ready]
        self.changed = threading.Condition()
        self._turns = [
            Turns(tournament.delays, tournament.seed, game)
            for game in range(len(self.teams))
        ]
        self._unsent: Dict[int, Deque[Object]] = defaultdict(deque)

    def take(self, conn: int, item: Item) -> None:
        """Takes a line of a client, or the end of its input. An agent that departs is
        given its delay."""
        with self.changed:
            replies = self.sessions.line(conn, item)
            seat = self.sessions.connections[conn].seat
            if seat and (conn, GONE) in replies:
                self._turns[seat[0]].departs(seat[1])
            self._reply(replies)

    def serve(self, conn: int, client: socket.socket) -> None:
        """Takes a client's lines, each once the lines before it are answered."""
        with client:
            with contextlib.suppress(OSError):
                for line in lines_of(client):
                    self.take(conn, line)
                    for reply in self._replies(conn):
                        client.sendall(spell(reply).encode() + b"\n")
                    if self.sessions.connections[conn].is_done:
                        return
            self.take(conn, None)

    def deal(self, game: int, course: ServeOptions) -> None:
        """Takes the turns of a match, and closes it."""
        with self.changed:
            self.changed.wait_for(
                lambda: all(
                    agent.standing != OUTSIDE for agent in self.matches[game].agents
                ),
                timeout=course.gather,
            )
        for _ in range(course.turns):
            if course.early and self._is_decided(game):
                break
            time.sleep(course.pause)
            self.turn(game)
        with self.changed:
            self._reply(self.sessions.close(game))

    def turn(self, game: int) -> None:
        """Lets the agent that the turn picks arrive, if its link is not held."""
        with self.changed:
            match = self.matches[game]
            agent = self._turns[game].take(len(match.agents), match.pool)
            if agent is not None:
                self._reply(self.sessions.deliver(game, agent))

    def _is_decided(self, game: int) -> bool:
        """Returns whether each agent has ended or is lost."""
        with self.changed:
            return all(
                agent.standing == ENDED or agent.lost
                for agent in self.matches[game].agents
            )

    def _reply(self, replies: SentReplies) -> None:
        for conn, reply in replies:
            self._unsent[conn].append(reply)
        self.changed.notify_all()

    def _replies(self, conn: int) -> Iterator[Object]:
        """Yields the replies to a client until its next line is taken. They are sent
        without the lock, so that a client that does not read delays nobody."""
        unsent = self._unsent[conn]
        while True:
            with self.changed:
                self.changed.wait_for(lambda: unsent or not self.sessions.waits(conn))
                if not unsent:
                    return
                reply = unsent.popleft()
            yield reply


def lines_of(client: socket.socket) -> Iterator[bytes]:
    """Yields a client's lines; overlong lines are truncated to one byte more than the
    limit."""
    reader = client.makefile("rb")
    line = b""
    while piece := reader.readline(MAX_LINE + 2):
        line = line or piece
        if piece.endswith(b"\n"):
            yield line.removesuffix(b"\n")
            line = b""


def host(listener: socket.socket, sessions: int, contest: Contest) -> None:
    """Serves this number of sessions to their ends."""
    threads = []
    for conn in range(sessions):
        client, _ = listener.accept()
        client.setsockopt(socket.IPPROTO_TCP, socket.TCP_NODELAY, 1)
        threads.append(
            threading.Thread(target=contest.serve, args=(conn, client), daemon=True)
        )
        threads[-1].start()
    for thread in threads:
        thread.join()


def serve_contest(
    tournament: str, port: int, sessions: int, prefix: str, course: ServeOptions
) -> None:
    """Serves a contest: writes its replays, and prints its table. The files must be
    right: ask `arena check`."""
    contest = Contest(read_tournament(tournament))
    with listen("127.0.0.1", port, sessions) as listener:
        print(f"listening {port}", flush=True)
        # daemons, so that a server that is interrupted ends
        threads = [
            threading.Thread(target=contest.deal, args=(game, course), daemon=True)
            for game in range(len(contest.matches))
        ]
        for thread in threads:
            thread.start()
        hosting = threading.Thread(
            target=host, args=(listener, sessions, contest), daemon=True
        )
        hosting.start()
        for thread in threads:
            thread.join()
        hosting.join(course.grace)
    for number, match in enumerate(contest.matches):
        pathlib.Path(f"{prefix}{number}.jsonl").write_text(
            match.replay(), encoding="utf-8"
        )
    print(
        table(
            [
                (team, judge(match))
                for team, match in zip(contest.teams, contest.matches)
            ]
        ),
        end="",
    )
