"""A small provider of OpenID Connect on this machine, which a test tells how to err."""
import base64
import contextlib
import hashlib
import http.server
import json
import secrets
import threading
import time
import urllib.parse
from typing import Any, Callable, Dict, Tuple

from authlib.jose import JsonWebKey, jwt

CLIENT = "arena"
SECRET = "of the client"
ACCESS = "of the person"
# bytes of a piece of an answer
PIECE = 16
# what a token says unless a test says otherwise
PERSON = {"sub": "17", "email": "ada@example.edu", "email_verified": True}


def encode(data: Any) -> str:
    raw = data if isinstance(data, bytes) else json.dumps(data).encode()
    return base64.urlsafe_b64encode(raw).rstrip(b"=").decode()


def no_log(*words: Any) -> None:
    pass


class OidcProvider:
    """A provider with one person logged in, whose documents and tokens a test changes."""

    def __init__(self) -> None:
        self.key = self.new_key("first")
        self.person: Dict[str, Any] = dict(PERSON)
        self.claims: Dict[str, Any] = {}
        self.metadata: Dict[str, Any] = {}
        # makes another token of the claims of a right one
        self.sign: Callable[[Dict[str, Any]], str] = self.sign_right
        # what stands in the place of an answer, by its path
        self.answers: Dict[str, Tuple[int, Dict[str, str], bytes]] = {}
        # claims of the person in a document beside the token
        self.document: Dict[str, Any] = {}
        # seconds between pieces of an answer
        self.pause = 0.0
        self.requests: Dict[str, int] = {}
        self._codes: Dict[str, Dict[str, str]] = {}
        provider = self

        class Handler(http.server.BaseHTTPRequestHandler):
            def do_GET(self) -> None:
                provider.reply(self, "")

            def do_POST(self) -> None:
                length = int(self.headers["Content-Length"])
                provider.reply(self, self.rfile.read(length).decode())

            # requests are in no log
            log_request = no_log

        self._server = http.server.ThreadingHTTPServer(("127.0.0.1", 0), Handler)
        self.issuer = f"http://127.0.0.1:{self._server.server_port}/realms/uni"
        threading.Thread(target=self._server.serve_forever, daemon=True).start()

    def close(self) -> None:
        self._server.shutdown()
        self._server.server_close()

    def new_key(self, name: str) -> Any:
        options = {"kid": name, "use": "sig"}
        return JsonWebKey.generate_key("RSA", 2048, options=options, is_private=True)

    def sign_right(self, claims: Dict[str, Any]) -> str:
        header = {"alg": "RS256", "kid": self.key.as_dict()["kid"]}
        return str(jwt.encode(header, claims, self.key).decode())

    def reply(self, handler: Any, body: str) -> None:
        url = urllib.parse.urlsplit(handler.path)
        name = url.path.rpartition("/")[2]
        self.requests[name] = self.requests.get(name, 0) + 1
        status, headers, content = self.answers.get(name) or self.answer(
            name, dict(urllib.parse.parse_qsl(url.query or body)), handler.headers
        )
        handler.send_response(status)
        for header in ({"Content-Length": str(len(content))}, headers):
            for key, value in header.items():
                handler.send_header(key, value)
        handler.end_headers()
        with contextlib.suppress(OSError):
            for begin in range(0, len(content), PIECE):
                handler.wfile.write(content[begin : begin + PIECE])
                time.sleep(self.pause)

    def answer(
        self, name: str, query: Dict[str, str], headers: Any
    ) -> Tuple[int, Dict[str, str], bytes]:
        if name == "authorize":
            code = secrets.token_urlsafe(12)
            self._codes[code] = query
            answer = urllib.parse.urlencode({"code": code, "state": query["state"]})
            return 302, {"Location": f"{query['redirect_uri']}?{answer}"}, b""
        if name == "token":
            return self.token(query, headers)
        if name == "userinfo":
            is_right = headers["Authorization"] == f"Bearer {ACCESS}"
            return 200 if is_right else 401, {}, json.dumps(self.document).encode()
        document: Any = {"keys": [self.key.as_dict(is_private=False)]}
        if name == "openid-configuration":
            document = {
                "issuer": self.issuer,
                "authorization_endpoint": f"{self.issuer}/authorize",
                "token_endpoint": f"{self.issuer}/token",
                "jwks_uri": f"{self.issuer}/keys",
                "id_token_signing_alg_values_supported": ["RS256", "none", "HS256"],
                **self.metadata,
            }
        return 200, {}, json.dumps(document).encode()

    def token(
        self, query: Dict[str, str], headers: Any
    ) -> Tuple[int, Dict[str, str], bytes]:
        """Exchanges a code once, for the client with its secret and its verifier."""
        flow = self._codes.pop(query.get("code", ""), None)
        basic = base64.b64encode(f"{CLIENT}:{SECRET}".encode()).decode()
        digest = hashlib.sha256(query.get("code_verifier", "").encode()).digest()
        if (
            flow is None
            or headers["Authorization"] != f"Basic {basic}"
            or flow["code_challenge"] != encode(digest)
            or flow["redirect_uri"] != query["redirect_uri"]
        ):
            return 400, {}, b'{"error": "invalid_grant"}'
        now = int(time.time())
        claims = {
            "iss": self.issuer,
            "aud": CLIENT,
            "iat": now,
            "exp": now + 300,
            "nonce": flow["nonce"],
            **self.person,
            **self.claims,
        }
        claims = {name: value for name, value in claims.items() if value is not None}
        document = {
            "access_token": ACCESS,
            "token_type": "Bearer",
            "id_token": self.sign(claims),
        }
        return 200, {}, json.dumps(document).encode()
