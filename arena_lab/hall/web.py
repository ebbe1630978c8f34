"""Serves the pages of a hall by waitress, which waits for slow clients without a thread
of their own."""
import resource
import socket
from typing import Any, Dict

from django.conf import settings
from django.core.wsgi import get_wsgi_application

from arena_lab.hall.connections import HallServer, server_on

# threads that answer, and seconds after which a connection that says nothing is ended
THREADS = 16
SILENT = 20
# files that are open at a time, and connections with more than the hall has of them
FILES = 3 * HallServer.bounds.all
LOOPBACK = ("127.0.0.1", "::1", "localhost")
FORWARDED_HEADERS = {"x-forwarded-for", "x-forwarded-proto"}


def options(address: str, is_behind: bool) -> Dict[str, Any]:
    """Returns waitress's options. The client's address comes from the reverse proxy, if
    there is one, and is never taken from other clients."""
    server_options: Dict[str, Any] = {
        "threads": THREADS,
        "connection_limit": FILES,
        "channel_timeout": SILENT,
        "cleanup_interval": 1,
        "asyncore_use_poll": True,
        "max_request_header_size": 16 << 10,
        "max_request_body_size": 9 << 20,
        "ident": None,
        "clear_untrusted_proxy_headers": True,
    }
    if is_behind:
        server_options.update(
            trusted_proxy="127.0.0.1" if address in LOOPBACK else "*",
            trusted_proxy_headers=FORWARDED_HEADERS,
        )
    return server_options


def main(address: str, descriptor: str) -> None:
    """Serves the pages on a socket, which the hall has opened at this address."""
    _, limit = resource.getrlimit(resource.RLIMIT_NOFILE)
    resource.setrlimit(
        resource.RLIMIT_NOFILE, (min(limit, FILES) if limit > 0 else FILES, limit)
    )
    listener = socket.socket(fileno=int(descriptor))
    application = get_wsgi_application()
    server_on(listener, application, **options(address, settings.HALL.https)).run()
