"""What the web servers of a contest and of a person who plays share: their answers, the
files of their own page, and whom they answer: who has the secret of the address that
was printed."""
import contextlib
import hashlib
import ipaddress
import re
import secrets
import socket
from typing import Any, Collection, Dict, List, Mapping

from arena_lab.pages.parts import fill_page, part
from arena_lab.support.missing import require
from arena_lab.support.ports import link_to

STRICT = (
    "default-src 'none'; style-src 'self'; script-src 'self'; connect-src 'self'; base-uri 'none'; "
    "form-action 'none'"
)
# the page of a match has its style and its script in itself
WHOLE = (
    "default-src 'none'; style-src 'unsafe-inline'; script-src 'unsafe-inline'; connect-src 'self'; "
    "base-uri 'none'; form-action 'none'"
)
JSON = "application/json"
TOKEN = "token"
NO_TOKEN = "open the whole address that the terminal shows: its token is missing here\n"


class Handlers:
    """The handlers of a web server whose own page is NAME.html, with the script NAME.js
    and the style NAME.css."""

    def __init__(self, name: str, title: str) -> None:
        self.web = require("aiohttp.web")
        self._name = name
        self._title = title

    def routes(self) -> List[Any]:
        get = self.web.get
        return [
            get("/", self.page),
            get(f"/{self._name}.js", self.script),
            get(f"/{self._name}.css", self.style),
        ]

    def reply(self, text: str, kind: str = "text/html", policy: str = STRICT) -> Any:
        """An answer."""
        return self.web.Response(text=text, content_type=kind, headers=headers(policy))

    async def page(self, _: Any) -> Any:
        return self.reply(fill_page(f"{self._name}.html", title=self._title))

    async def script(self, _: Any) -> Any:
        return self.reply(part(f"{self._name}.js"), "text/javascript")

    async def style(self, _: Any) -> Any:
        return self.reply(part(f"{self._name}.css"), "text/css")


def headers(policy: str) -> Dict[str, str]:
    """Returns the HTTP headers of each response, which forbid foreign resources,
    framing and caching."""
    return {
        "Content-Security-Policy": f"{policy}; frame-ancestors 'none'",
        "X-Content-Type-Options": "nosniff",
        "Referrer-Policy": "no-referrer",
        "Cache-Control": "no-store",
    }


def is_own_name(host: str, names: Collection[str]) -> bool:
    """Returns whether the host in a request is an IP address or one of these names.
    Other names may result from DNS rebinding by a foreign page that tries to read this
    server."""
    name = host.rpartition(":")[0] if re.search(r":\d+$", host) else host
    with contextlib.suppress(ValueError):
        ipaddress.ip_address(name.strip("[]"))
        return True
    return name.lower() in {"localhost", socket.gethostname().lower(), *names}


def refusal(headers: Mapping[str, str], names: Collection[str]) -> str:
    """Why a request is refused, by its headers, or nothing. A page elsewhere may lead
    to these pages, and not read them."""
    host, origin, site = (
        headers.get(name, "") for name in ("Host", "Origin", "Sec-Fetch-Site")
    )
    if not is_own_name(host, names):
        return f"this is no page of {host}: ask by the address of this machine, or name {host} by --host\n"
    is_other = origin not in ("", f"http://{host}") or site not in (
        "",
        "none",
        "same-origin",
    )
    if is_other and headers.get("Sec-Fetch-Mode") != "navigate":
        return "pages of other hosts may not read this one\n"
    return ""


def new_token() -> str:
    """Draws the secret of a server's address."""
    return secrets.token_urlsafe(18)


def cookie_of(token: str) -> str:
    """Names the cookie of a server: browsers send it to all ports of a host."""
    return f"arena-{hashlib.sha256(token.encode()).hexdigest()[:12]}"


def answering(
    handlers: Handlers, token: str, names: Collection[str] = (), **extra: Any
) -> Any:
    """The web server's application, which answers who has the token, for this machine
    and for hosts of these names. A browser that opens the page by the token keeps it in
    a cookie, and its address shows it no more."""
    web = handlers.web
    cookie = cookie_of(token)

    def is_token(text: str) -> bool:
        return secrets.compare_digest(text.encode(errors="replace"), token.encode())

    async def for_own_pages(request: Any, handler: Any) -> Any:
        by_address = is_token(request.query.get(TOKEN, ""))
        reason = refusal(request.headers, names)
        if not reason and not (by_address or is_token(request.cookies.get(cookie, ""))):
            reason = NO_TOKEN
        if reason:
            return web.Response(status=403, text=reason, headers=headers(STRICT))
        if by_address and request.path == "/":
            response = web.Response(
                status=303, headers={**headers(STRICT), "Location": "/"}
            )
            response.set_cookie(cookie, token, httponly=True, samesite="Lax")
            return response
        return await handler(request)

    app = web.Application(middlewares=[web.middleware(for_own_pages)], **extra)
    app.add_routes(handlers.routes())
    return app


def run(application: Any, listener: socket.socket, text: str, token: str) -> None:
    """Serves an application until it is interrupted, and prints its address with its
    token once it serves."""
    link = f"{link_to(listener)}?{TOKEN}={token}"
    require("aiohttp.web").run_app(
        application,
        sock=listener,
        access_log=None,
        shutdown_timeout=1,
        print=lambda *_: print(f"{text} {link}", flush=True),
    )
