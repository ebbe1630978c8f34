"""Asks a provider of OpenID Connect who somebody is. Debian's authlib exchanges codes and
checks tokens; here stand the bounds on what is asked, and what a token has to say."""
import contextlib
import secrets
import threading
import time
from typing import Any, Callable, Dict, Iterator, List, NamedTuple, Optional

from authlib.integrations.requests_client import OAuth2Session
from authlib.jose import JsonWebKey, JsonWebToken
from authlib.oidc.core import CodeIDToken
from django.conf import settings
from requests.adapters import HTTPAdapter
from urllib3.exceptions import HTTPError

from arena_lab.hall.sign_on.rules import (
    EMAIL,
    VERIFIED,
    is_safe_address,
    secret_in,
)

DISCOVERY = "/.well-known/openid-configuration"
ENDPOINTS = ("authorization_endpoint", "token_endpoint", "jwks_uri")
USER_INFO = "userinfo_endpoint"
# signatures by a key of the provider alone: none is by the client's secret, or absent
ALGORITHMS = [
    f"{kind}{bits}" for kind in ("RS", "PS", "ES") for bits in (256, 384, 512)
]
KEY_TYPES = ("RSA", "EC")
# seconds for a read or a connection, seconds for an answer, and bytes of an answer
STEP_SECONDS = 4.0
ANSWER_SECONDS = 8.0
MAX_BYTES = 256 << 10
CHUNK = 64
# threads of the hall that wait for the provider, so that others answer meanwhile
MAX_WAITING = 4
# seconds for which documents are kept, and in which unknown keys are asked for once
KEPT_SECONDS = 3600.0
AGAIN_SECONDS = 60.0
# seconds by which the clocks of two machines may differ
LEEWAY = 60


class ProviderError(Exception):
    """The provider does not answer, or not as its documents say."""


class BoundedAdapter(HTTPAdapter):
    """Sends a request whose answer comes in time and is not too large."""

    def send(self, request: Any, **options: Any) -> Any:
        limit = time.monotonic() + ANSWER_SECONDS
        response = super().send(
            request, **{**options, "timeout": STEP_SECONDS, "stream": True}
        )
        content = b""
        try:
            while chunk := response.raw.read(CHUNK, decode_content=True):
                content += chunk
                if len(content) > MAX_BYTES or time.monotonic() > limit:
                    raise ProviderError("the answer is too large or too slow")
        except HTTPError:
            raise ProviderError("the answer breaks off") from None
        finally:
            response.close()
        response._content = content
        response._content_consumed = True
        return response


class Flow(NamedTuple):
    """What a browser's session keeps until the provider has answered."""

    state: str
    nonce: str
    verifier: str
    back: str
    start: float


class Provider:
    """The provider of a hall, with its documents as long as they are kept."""

    def __init__(self) -> None:
        self._documents: Dict[str, Any] = {}
        self._times: Dict[str, float] = {}
        self._lock = threading.Lock()
        self._waiting = threading.BoundedSemaphore(MAX_WAITING)

    def clear(self) -> None:
        """Forgets the documents."""
        self._documents.clear()
        self._times.clear()

    def _session(self, **options: Any) -> Any:
        """Returns a session of the client, which follows no redirection."""
        rules = settings.HALL.sign_on
        session = OAuth2Session(
            rules.client,
            secret_in(settings.PLACE.folder),
            scope="openid email profile",
            code_challenge_method="S256",
            **options,
        )
        session.max_redirects = 0
        for scheme in ("https://", "http://"):
            session.mount(scheme, BoundedAdapter())
        return session

    def _document(
        self, address: str, check: Callable[[Any], None], seconds: float = KEPT_SECONDS
    ) -> Any:
        """Returns a document of the provider that is at most so many seconds old. One
        that a check refuses is not kept."""
        with self._lock:
            age = time.monotonic() - self._times.get(address, -KEPT_SECONDS)
            if address not in self._documents or age > seconds:
                with self._session() as session:
                    response = session.request("GET", address, withhold_token=True)
                    response.raise_for_status()
                    document = response.json()
                check(document)
                self._documents[address] = document
                self._times[address] = time.monotonic()
            return self._documents[address]

    def metadata(self) -> Dict[str, Any]:
        """Returns what the provider says of itself."""
        issuer = settings.HALL.sign_on.issuer
        return dict(self._document(issuer.rstrip("/") + DISCOVERY, check_metadata))

    def begin(self, back: str) -> Any:
        """Returns the address to which a browser goes, and its flow."""
        with self._turn(), self._session(redirect_uri=back) as session:
            metadata = self.metadata()
            state, nonce, verifier = (secrets.token_urlsafe(32) for _ in range(3))
            flow = Flow(state, nonce, verifier, back, time.time())
            address, _ = session.create_authorization_url(
                metadata["authorization_endpoint"],
                state=flow.state,
                nonce=flow.nonce,
                code_verifier=flow.verifier,
            )
        return address, flow

    def claims(self, flow: Flow, code: str) -> Dict[str, Any]:
        """Exchanges a code for the claims of a token that the provider has signed for
        this flow."""
        with self._turn():
            metadata = self.metadata()
            methods = metadata.get("token_endpoint_auth_methods_supported")
            is_basic = not methods or "client_secret_basic" in methods
            method = "client_secret_basic" if is_basic else "client_secret_post"
            with self._session(
                redirect_uri=flow.back, token_endpoint_auth_method=method
            ) as session:
                token = session.fetch_token(
                    metadata["token_endpoint"],
                    code=code,
                    code_verifier=flow.verifier,
                )
                claims = self._checked(token, flow.nonce, metadata)
                address = metadata.get(USER_INFO)
                if address and not set(needed_claims()) <= set(claims):
                    response = session.request("GET", address)
                    response.raise_for_status()
                    claims = join_claims(claims, response.json())
        return claims

    def _checked(
        self, token: Dict[str, Any], nonce: str, metadata: Dict[str, Any]
    ) -> Dict[str, Any]:
        claims = JsonWebToken(ALGORITHMS).decode(
            token["id_token"],
            key=lambda header, _: self._key(metadata["jwks_uri"], header.get("kid")),
            claims_cls=CodeIDToken,
            claims_options={
                "iss": {"essential": True, "value": metadata["issuer"]},
                "aud": {"essential": True, "value": settings.HALL.sign_on.client},
            },
            claims_params={
                "nonce": nonce,
                "client_id": settings.HALL.sign_on.client,
                "access_token": token.get("access_token"),
            },
        )
        claims.validate(leeway=LEEWAY)
        return dict(claims)

    def _key(self, address: str, name: Optional[str]) -> Any:
        """Returns the provider's key of this name. An unknown one is asked for again, but
        not more often than once a minute."""
        for seconds in (KEPT_SECONDS, AGAIN_SECONDS):
            keys: List[Any] = [
                key
                for key in self._document(address, check_keys, seconds)["keys"]
                if key.get("kty") in KEY_TYPES and key.get("use", "sig") == "sig"
            ]
            fitting = [key for key in keys if name in (None, key.get("kid"))]
            if len(fitting) == 1:
                return JsonWebKey.import_key(fitting[0])
        raise LookupError("the provider has no key of this name")

    @contextlib.contextmanager
    def _turn(self) -> Iterator[None]:
        """Holds one of the few threads that may wait for the provider. Raises
        ProviderError if all others hold theirs for long."""
        if not self._waiting.acquire(timeout=STEP_SECONDS):
            raise ProviderError("too many wait for it")
        try:
            yield
        finally:
            self._waiting.release()


def needed_claims() -> List[str]:
    """Returns the claims by which the hall tells who somebody is. Some providers put
    them into the document of the userinfo endpoint and not into the token."""
    rules = settings.HALL.sign_on
    names = [rules.claim, rules.team_claim, rules.teacher_claim]
    if rules.claim == EMAIL:
        names.append(VERIFIED)
    return [name for name in names if name]


def join_claims(claims: Dict[str, Any], document: Any) -> Dict[str, Any]:
    """Returns the claims of a token with those of a document of the same person. What
    the provider has signed counts first, and an address that the token names is not
    verified by a document that names another one."""
    if document["sub"] != claims["sub"]:
        raise ProviderError("it writes of another person")
    extra = dict(document)
    if EMAIL in claims and document.get(EMAIL) != claims[EMAIL]:
        extra.pop(VERIFIED, None)
    return {**extra, **claims}


def check_metadata(document: Any) -> None:
    if document["issuer"] != settings.HALL.sign_on.issuer:
        raise ProviderError("it names itself as another issuer")
    optional = [USER_INFO] if USER_INFO in document else []
    if not all(is_safe_address(document[name]) for name in (*ENDPOINTS, *optional)):
        raise ProviderError("it has an address without encryption")


def check_keys(document: Any) -> None:
    if not all(isinstance(key, dict) for key in document["keys"]):
        raise ProviderError("its keys are no keys")


PROVIDER = Provider()
