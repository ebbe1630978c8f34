"""Sessions on the Python model: connections, keys and queues of the matches of a
tournament, played as `arena rehearse` plays a script. Nothing is proved of it.

`Sessions` has any number of matches and takes bytes as they come. `Rehearsal` is the
engine that needs no build: one match, whose lines come whole, and the script that does
the same.
"""
from collections import deque
from typing import Collection, Deque, Dict, List, NamedTuple, Optional, Sequence, Tuple

from arena_lab.rules.fixtures import Fixture
from arena_lab.rules.limits import MAX_LINE
from arena_lab.rules.model import (
    AWAY,
    LAST,
    OVER,
    AgentState,
    Match,
    Object,
    Place,
    command_of,
    denial,
    spell,
    text_of,
)

# an agent: the numbers of its match and of itself
Seat = Tuple[int, int]
# replies or lines by connection, in order
SentReplies = List[Tuple[int, Object]]
SentLine = Tuple[int, str]
# what a connection's input holds that was not taken yet: lines, and then None if it has
# ended
Item = Optional[bytes]
BLANK = b" \t\r"


class Ready(NamedTuple):
    """A match, its held links, and the keys of its agents."""

    match: Match
    held: Collection[Place]
    keys: Sequence[str]


class Connection:
    """One client: the agent that it plays, what it sent, and whether it is to be sent
    anything more."""

    def __init__(self) -> None:
        self.seat: Optional[Seat] = None
        self.unfinished = b""
        self.items: Deque[Item] = deque()
        self.has_ended = self.is_done = False


class Sessions:
    """Connections to matches. Each call gives the replies that are sent, with the
    connections that are sent them."""

    def __init__(self, ready: Sequence[Ready]) -> None:
        self.ready = ready
        # the agent of each key, and the connection that plays it
        self.seats = {
            key: (game, agent)
            for game, ready_match in enumerate(ready)
            for agent, key in enumerate(ready_match.keys)
        }
        self.plays: Dict[str, int] = {}
        self.connections: Dict[int, Connection] = {}

    def bytes_of(self, conn: int, data: bytes) -> SentReplies:
        """Processes bytes from a client, and returns the replies."""
        connection = self._connection(conn)
        *lines, connection.unfinished = (connection.unfinished + data).split(b"\n")
        return [reply for line in lines for reply in self.line(conn, line)]

    def line(self, conn: int, item: Item) -> SentReplies:
        """Processes a line from a client, or the end of its input, and returns the
        replies."""
        connection = self._connection(conn)
        is_blank = item is not None and len(item) <= MAX_LINE and not item.strip(BLANK)
        if not is_blank and not connection.has_ended:
            connection.items.append(item)
            connection.has_ended = item is None
        return self._taken_by(conn)

    def draw(self, game: int, word: int) -> SentReplies:
        """Delivers the agent that a random word selects, and returns the replies."""
        pool = self.ready[game].match.pool
        return self.deliver(game, pool[word % len(pool)]) if pool else []

    def deliver(self, game: int, number: int) -> SentReplies:
        """Delivers an agent unless its link is held, and returns the replies."""
        match, held_links, keys = self.ready[game]
        agent = match.agents[number]
        reply = (
            None if (agent.node, agent.port) in held_links else match.deliver(number)
        )
        conn = self.plays.get(keys[number])
        return (
            []
            if reply is None or conn is None
            else [(conn, reply), *self._taken_by(conn)]
        )

    def close(self, game: int) -> SentReplies:
        """Closes a match, and returns the replies."""
        match, _, keys = self.ready[game]
        if match.closed:
            return []
        match.close()
        waiting = sorted(
            self.plays[key]
            for key in keys
            if key in self.plays and self.waits(self.plays[key])
        )
        for conn in waiting:
            self.connections[conn].is_done = True
        return [(conn, OVER) for conn in waiting]

    def enter(self, conn: int, key: str) -> Seat:
        """Has a connection play the agent of a key."""
        self.plays[key] = conn
        seat = self._connection(conn).seat = self.seats[key]
        return seat

    def waits(self, conn: int) -> bool:
        """Returns whether the connection's agent is on a link."""
        connection = self.connections[conn]
        if connection.seat is None or connection.is_done:
            return False
        game, agent = connection.seat
        return self.ready[game].match.agents[agent].standing == AWAY

    def _connection(self, conn: int) -> Connection:
        return self.connections.setdefault(conn, Connection())

    def _taken_by(self, conn: int) -> SentReplies:
        """Takes what a connection sent, until its agent is on a link."""
        connection = self.connections[conn]
        replies = []
        while connection.items and not connection.is_done and not self.waits(conn):
            reply = self._answer(conn, connection.items.popleft())
            if reply is not None:
                replies.append((conn, reply))
        return replies

    def _answer(self, conn: int, item: Item) -> Optional[Object]:
        """Returns the reply to a line; None (the end of the input) has no reply."""
        connection = self.connections[conn]
        if item is None:
            connection.is_done = True
            if connection.seat is not None:
                self._tell(connection.seat, {"do": "leave"})
            return None
        command = command_of(text_of(item))
        if connection.seat is None:
            reply = denial(command, self.seats, self.plays)
            if reply is not None:
                connection.is_done = True
                return reply
        reply = self._tell(connection.seat or self.enter(conn, command["key"]), command)
        connection.is_done = reply in LAST
        return reply

    def _tell(self, seat: Seat, command: Object) -> Object:
        game, agent = seat
        return self.ready[game].match.reply_to(agent, command)


class Rehearsal:
    """An engine: lines are fed to connections, deliveries are drawn, and the match is
    closed. Each call gives what came out, and `script` has the lines of the script that
    does the same."""

    def __init__(self, fixture: Fixture) -> None:
        self.fixture = fixture
        self.match = Match(fixture.setup)
        self.script: List[bytes] = []
        self._sessions = Sessions([Ready(self.match, set(fixture.held), fixture.keys)])

    def feed(self, number: int, line: bytes) -> List[SentLine]:
        """Processes a line from a client, and returns the lines to send."""
        self.script.append(b"%d %s" % (number, line))
        return lines_of(self._sessions.line(number, line))

    def end(self, number: int) -> List[SentLine]:
        """Processes the end of a client's input, and returns the lines to send."""
        self.script.append(b"end %d" % number)
        return lines_of(self._sessions.line(number, None))

    def draw(self, word: int) -> List[SentLine]:
        """Delivers the agent that a random word selects, and returns the lines to
        send."""
        self.script.append(b"draw 0 %d" % word)
        return lines_of(self._sessions.draw(0, word))

    def close(self) -> List[SentLine]:
        """Closes the match, and returns the lines to send."""
        self.script.append(b"close 0")
        return lines_of(self._sessions.close(0))

    def replay(self) -> bytes:
        """Returns the replay of the closed match."""
        return self.match.replay().encode()

    def stop(self) -> None:
        """Ends the engine; there is nothing to end here."""

    def set_alone(
        self, number: int, agent: AgentState, is_seated: bool, board: str
    ) -> None:
        """Sets the match to one agent, which plays over the connection of its number,
        with this text on the whiteboard in front of it; of the other agents and nodes
        nothing is kept."""
        self.match.set_alone(number, agent, board)
        self._sessions = Sessions(self._sessions.ready)
        if is_seated:
            self._sessions.enter(number, self.fixture.keys[number])
        self.script.clear()

    def is_seated(self, number: int) -> bool:
        """Returns whether the connection plays an agent."""
        return number in self._sessions.plays.values()


def lines_of(replies: SentReplies) -> List[SentLine]:
    """Replies as the lines that are sent."""
    return [(conn, spell(reply)) for conn, reply in replies]
