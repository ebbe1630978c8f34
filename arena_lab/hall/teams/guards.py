"""What stands before each page: how often one may ask, what a browser may do with an
answer, and what errors say.

A team that asks too often is told so (429) before anything else is done for it, and
others are not slower for it. Who is not known is counted by address, so what strangers
try costs no team its requests.
"""
import collections
import hashlib
import ipaddress
import threading
import time
from typing import Callable, Optional, Tuple

from django.conf import settings
from django.core.cache import caches
from django.http import HttpRequest, HttpResponse, JsonResponse
from django.utils.connection import ConnectionProxy
from django.utils.translation import gettext as _

STRICT = (
    "default-src 'none'; style-src 'self'; script-src 'self'; img-src 'self' data:; font-src 'self'; "
    "connect-src 'self'; form-action 'self'; base-uri 'none'; frame-ancestors 'none'"
)
# policy of pages that quote strangers: only inline scripts run, and no request is
# possible, not even with cookies
SANDBOX_POLICY = (
    "sandbox allow-scripts; default-src 'none'; style-src 'unsafe-inline'; script-src 'unsafe-inline'; "
    "base-uri 'none'; form-action 'none'; frame-ancestors 'none'"
)
# such a page where the hall's own page has it in a frame
BOXED_INSIDE = SANDBOX_POLICY.replace(
    "frame-ancestors 'none'", "frame-ancestors 'self'"
)
# what each answer has: nothing is taken from elsewhere, framed or kept
HEADERS = {
    "Content-Security-Policy": STRICT,
    "X-Content-Type-Options": "nosniff",
    "Cache-Control": "no-store",
    "Referrer-Policy": "same-origin",
    "Cross-Origin-Resource-Policy": "same-origin",
}
# requests a minute of an address that nobody has logged in from, or of a teacher; and
# wrong tries of a team's token or of a teacher's password in ten minutes, from one
# address: others of a class behind it are not kept out
STRANGERS = 600
TRIES = 10
# what begins the names of teachers here, and of no team
STAFF = "@"
# request size in bytes, by the beginning of the path: files are handed in, drafts are
# texts, and forms of the teacher have fields for each team; and what all others have,
# also of a client without login
MAX_SENT = (8 << 20) + (64 << 10)
MAX_SENT_TO = {
    "/hand-ins/": MAX_SENT,
    "/api/hand-ins": MAX_SENT,
    "/api/drafts/": 256 << 10,
    "/api/trials": 256 << 10,
    "/teacher/": 256 << 10,
}
MAX_SENT_OTHERWISE = 64 << 10
# what is kept in mind at most
MAX_ENTRIES = 20_000
# where programs ask, and how they send their token
REST = "/api/"
BEARER = "bearer "
# prefix lengths in bits of IPv6 networks: of one client, and of one site, which has all
# the networks of clients in it
OF_ONE = 64
OF_SITE = 48


class Buckets:
    """How often each key may be used: each has a bucket of tries, which fills evenly
    within these seconds."""

    def __init__(self, seconds: float) -> None:
        self._seconds = seconds
        self._left: "collections.OrderedDict[str, Tuple[float, float]]" = (
            collections.OrderedDict()
        )
        self._lock = threading.Lock()

    def wait(self, key: str, limit: int) -> float:
        """Takes one of what is left, and gives 0; if nothing is left, gives the seconds
        to wait."""
        with self._lock:
            tokens = self._refilled(key, limit)
            is_enough = tokens >= 1
            self._put(key, tokens - 1 if is_enough else tokens)
        return 0.0 if is_enough else (1 - tokens) * self._seconds / limit

    def is_empty(self, key: str, limit: int) -> bool:
        """Returns whether the key's bucket is empty, without taking from it."""
        with self._lock:
            self._put(key, self._refilled(key, limit))
            return self._left[key][0] < 1

    def _refilled(self, key: str, limit: int) -> float:
        now = time.monotonic()
        tokens, then = self._left.pop(key, (float(limit), now))
        return min(float(limit), tokens + (now - then) * limit / self._seconds)

    def _put(self, key: str, tokens: float) -> None:
        self._left[key] = (tokens, time.monotonic())
        while len(self._left) > MAX_ENTRIES:
            self._left.popitem(last=False)

    def clear(self) -> None:
        with self._lock:
            self._left.clear()


requests = Buckets(60)
attempts = Buckets(600)
# whose credentials are known to be right: of the digest of a token or a session the
# team's name
known_teams = ConnectionProxy(caches, "known")


def address_of(request: HttpRequest) -> str:
    """Returns the client's address; waitress takes it from the reverse proxy, if there
    is one."""
    return network_of(str(request.META.get("REMOTE_ADDR", "")))


def site_of(request: HttpRequest) -> str:
    """Returns the client's IPv4 address, or the IPv6 network of its site."""
    return network_of(str(request.META.get("REMOTE_ADDR", "")), OF_SITE)


def network_of(address_text: str, bits: int = OF_ONE) -> str:
    """Returns an IPv4 address, or the network of an IPv6 address, since one client may
    use all addresses of the network."""
    try:
        address = ipaddress.ip_address(address_text.partition("%")[0])
    except ValueError:
        return address_text
    if address.version == 4 or address.ipv4_mapped:
        return str(getattr(address, "ipv4_mapped", None) or address)
    return str(ipaddress.ip_network((address, bits), strict=False))


def token_in(request: HttpRequest) -> Optional[str]:
    """The token that a program sends with a request of REST. Pages read none."""
    header = str(request.META.get("HTTP_AUTHORIZATION", ""))
    is_token = request.path.startswith(REST) and header.lower().startswith(BEARER)
    return header[len(BEARER) :].strip() if is_token else None


def credential_of(request: HttpRequest) -> Optional[str]:
    """Returns the digest of the request's token or session, whichever the hall
    checks."""
    token = token_in(request)
    session = request.COOKIES.get(settings.SESSION_COOKIE_NAME)
    credential = (
        f"token {token}"
        if token is not None
        else f"session {session}"
        if session
        else ""
    )
    return (
        hashlib.sha256(credential.encode(errors="replace")).hexdigest()
        if credential
        else None
    )


def has_tried_too_often(request: HttpRequest, name: str) -> bool:
    """Returns whether no token or password of this name is tried any more from this
    address: too many were wrong. A right one costs no try, however often it is tried at
    once. So each thread of the hall may look at one more wrong one."""
    return attempts.is_empty(f"{address_of(request)} {name[:40]}", TRIES)


def was_wrong(request: HttpRequest, name: str) -> None:
    """Counts a wrong token or password of this name."""
    attempts.wait(f"{address_of(request)} {name[:40]}", TRIES)


class Guards:
    """The middleware."""

    def __init__(self, answer: Callable[[HttpRequest], HttpResponse]) -> None:
        self._answer = answer

    def __call__(self, request: HttpRequest) -> HttpResponse:
        response = self._refused(request) or self._answer(request)
        for name, value in HEADERS.items():
            response.headers.setdefault(name, value)
        return response

    def _refused(self, request: HttpRequest) -> Optional[HttpResponse]:
        if request.path.startswith("/static/"):
            return None
        name = known_teams.get(credential_of(request))
        is_team = bool(name) and not str(name).startswith(STAFF)
        limit = settings.HALL.limits.requests if is_team else STRANGERS
        wait = requests.wait(f"known {name}" if name else address_of(request), limit)
        if wait:
            return too_many(wait)
        # the body of a request with a token is read after the token was verified
        is_known = bool(name or token_in(request))
        bound = max_sent_to(request.path) if is_known else MAX_SENT_OTHERWISE
        if length_of(request) > bound:
            text = _("that is too much: at most %(count)s KB")
            return refusal(413, text % {"count": bound >> 10})
        if any(word in request.GET for word in ("token", "key", "password")):
            # what stands in an address is kept by browsers, servers and logs
            return refusal(
                400,
                _(
                    "a token belongs into the header Authorization, and never into an address"
                ),
            )
        return None


def max_sent_to(path: str) -> int:
    """Returns how many bytes are sent with a request to a path at most."""
    bounds = (MAX_SENT_TO[begin] for begin in MAX_SENT_TO if path.startswith(begin))
    return next(bounds, MAX_SENT_OTHERWISE)


def length_of(request: HttpRequest) -> int:
    """Returns how many bytes are sent with a request. Without a word of that Django
    reads none."""
    header = str(request.META.get("CONTENT_LENGTH") or 0)
    return int(header) if header.isdecimal() and len(header) < 12 else MAX_SENT + 1


def refusal(status: int, text: str, **extra: str) -> HttpResponse:
    """A refusal as an object, which programs and people can read."""
    response = JsonResponse({"error": text}, status=status)
    for name, value in extra.items():
        response[name.replace("_", "-")] = value
    return response


def too_many(wait: float) -> HttpResponse:
    seconds = str(int(wait) + 1)
    return refusal(
        429,
        _("too many requests: wait %(seconds)s seconds") % {"seconds": seconds},
        Retry_After=seconds,
    )
