"""Bounds on the connections of a hall's web server, before a token is looked at: how
many an address has, how many bytes of its requests wait, and how long a request takes.
Where a bound is passed, a connection that waits is closed, so that a new one is taken."""
import collections
import functools
import socket
import time
from typing import Any, Callable, List, NamedTuple, Tuple, Type

from waitress.adjustments import Adjustments
from waitress.channel import HTTPChannel
from waitress.parser import HTTPRequestParser
from waitress.server import TcpWSGIServer

from arena_lab.hall.teams.guards import network_of

# connections that are taken in a turn, and bytes that come between two looks at what
# waits
AT_ONCE = 50
OFTEN = 1 << 20


class ConnectionBounds(NamedTuple):
    """How many connections there are, and of an address; how many bytes of requests
    wait, and of an address; within how many seconds the head of a request comes, and
    how many bytes of the rest come, and of an answer are taken, in a second."""

    all: int = 2_000
    of_address: int = 800
    bytes: int = 192 << 20
    bytes_of_address: int = 64 << 20
    head: float = 10.0
    rate: int = 64 << 10


class Request(HTTPRequestParser):
    """An HTTP request that is arriving, with its start time."""

    def __init__(self, channel: "Channel", adj: Any) -> None:
        super().__init__(adj)
        self.begun = time.monotonic()
        self._channel = channel

    def parse_header(self, header_plus: bytes) -> None:
        super().parse_header(header_plus)
        self._channel.is_of(self.headers.get("X_FORWARDED_FOR", ""))

    def length(self) -> int:
        """Returns the largest allowed length of its body in bytes."""
        return int(
            self.adj.max_request_body_size if self.chunked else self.content_length
        )


class Channel(HTTPChannel):
    """A connection with its client's address. Behind a reverse proxy the address is
    that of the last request, "" before the first."""

    def __init__(self, server: Any, sock: Any, addr: Any, adj: Any, map: Any) -> None:
        self.is_trusted = adj.trusted_proxy in ("*", addr[0])
        self.address = "" if self.is_trusted else network_of(str(addr[0]))
        self.parser_class = functools.partial(Request, self)
        # time since which the output buffer is empty, and bytes sent since then
        self.idle = time.monotonic()
        self.sent = 0
        super().__init__(server, sock, addr, adj, map)

    def is_of(self, forwarded_for: str) -> None:
        """Notes whose a request is, by the last address that the server before the hall
        names."""
        if self.is_trusted and forwarded_for:
            self.address = network_of(forwarded_for.rpartition(",")[2].strip())
            self.server.news = OFTEN

    def received(self, data: bytes) -> bool:
        self.server.news += len(data)
        return bool(super().received(data))

    def del_channel(self, map: Any = None) -> None:
        """Frees what has come of its request, too."""
        super().del_channel(map)
        if self.request is not None:
            self.request.close()

    def readable(self) -> bool:
        return self._fileno is not None and bool(super().readable())

    def writable(self) -> bool:
        return self._fileno is not None and bool(super().writable())

    def size(self) -> int:
        """The bytes of its requests that wait."""
        return sum(
            request.body_bytes_received
            for request in (*self.requests, self.request)
            if request
        )

    def smallness(self) -> int:
        """Sort key for closing connections: the most waiting bytes go first."""
        return -self.size()

    def waits(self) -> bool:
        """Returns whether no request is being answered."""
        return self.connected and not self.requests

    def send(self, data: bytes, do_close: bool = True) -> int:
        count = int(super().send(data, do_close=do_close))
        self.sent += count
        return count

    def is_late(self, bounds: ConnectionBounds) -> bool:
        """Returns whether the request arrives, or the client reads the response, too
        slowly. It is called repeatedly."""
        now = time.monotonic()
        if not self.total_outbufs_len:
            self.sent = 0
            self.idle = now
        request = self.request if self.waits() else None
        if request is not None:
            return bool(
                now - request.begun > bounds.head + request.length() / bounds.rate
            )
        return now - self.idle > bounds.head + self.sent / bounds.rate

    def age(self) -> Tuple[bool, float]:
        """Sort key for closing connections: the oldest incomplete request goes first,
        then the connection that has been silent longest."""
        begin = self.last_activity if self.request is None else self.request.begun
        return self.request is None, begin


class HallServer(TcpWSGIServer):
    """A waitress server with limits on connections. The reading thread closes
    connections only before it polls the others, because a new connection may reuse a
    closed descriptor."""

    channel_class = Channel
    bounds = ConnectionBounds()
    # bytes that have come since the last look; a connection counts as many
    news = 0

    def channels(self) -> List[Channel]:
        return list(self.active_channels.values())

    def handle_accept(self) -> None:
        """Takes several connections at once: each turn looks at all there are."""
        for _ in range(AT_ONCE):
            super().handle_accept()
        self.news = OFTEN

    def readable(self) -> bool:
        if self.news >= OFTEN:
            self.news = 0
            bounds = self.bounds
            self.end_some(lambda channel: 1, Channel.age, bounds.of_address, bounds.all)
            self.end_some(
                Channel.size, Channel.smallness, bounds.bytes_of_address, bounds.bytes
            )
        return bool(super().readable())

    def end_some(
        self,
        weigh: Callable[[Channel], int],
        order: Callable[[Channel], Any],
        of_address: int,
        of_all: int,
    ) -> None:
        """Ends connections that wait, in this order, where an address has too much:
        more than it may, or so much that all together have too much."""
        sizes: "collections.Counter[str]" = collections.Counter()
        for channel in self.channels():
            sizes[channel.address] += weigh(channel)
        while sum(min(size, of_address) for size in sizes.values()) > of_all:
            of_address = of_address * 9 // 10
        for channel in sorted(filter(Channel.waits, self.channels()), key=order):
            # whose a connection of a server before the hall is, its head will say
            is_over = (
                channel.address
                and weigh(channel)
                and sizes[channel.address] > of_address
            )
            if is_over and (of_address or sizes.total() > of_all):
                sizes[channel.address] -= weigh(channel)
                channel.handle_close()

    def maintenance(self, now: float) -> None:
        super().maintenance(now)
        for channel in self.channels():
            if channel.is_late(self.bounds):
                channel.handle_close()


def server_on(
    listener: socket.socket,
    application: Any,
    kind: Type[HallServer] = HallServer,
    **options: Any,
) -> HallServer:
    """Makes the server of an application by waitress's options, which answers whom the
    listener hears."""
    address = listener.getsockname()
    info = (listener.family, listener.type, listener.proto, address)
    adj = Adjustments(host=address[0], port=address[1], **options)
    return kind(
        application, {}, True, listener, adj=adj, sockinfo=info, bind_socket=False
    )
