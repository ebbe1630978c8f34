"""The table [sign_on] of a hall's file: which provider says who somebody is, and what
its claims mean here."""
import pathlib
import stat
import urllib.parse
from typing import Any, Dict, NamedTuple

from arena_lab.support import fields
from arena_lab.support.fields import Field, FileFormatError, is_number, is_text

# the file of the client's secret in the hall's folder
SECRET_FILE = "sign-on.txt"
EMAIL = "email"
VERIFIED = "email_verified"
LOOPBACK = ("127.0.0.1", "localhost", "::1")


def is_safe_address(value: Any) -> bool:
    """Returns whether an address is encrypted, or of this machine."""
    url = urllib.parse.urlsplit(value if isinstance(value, str) else "")
    is_near = url.scheme == "http" and url.hostname in LOOPBACK
    return bool(url.hostname) and (url.scheme == "https" or is_near)


NAME = Field(lambda value: value == "" or is_text(value), "a text", "")
SIGN_ON = {
    "issuer": Field(
        lambda value: is_safe_address(value) and not set("?#") & set(value),
        "the provider's issuer, which begins with https://",
    ),
    "client": fields.TEXT,
    "name": NAME,
    "claim": fields.TEXT._replace(default=EMAIL),
    "team_claim": NAME,
    "new_teams": Field(is_number, "a whole number", 0),
    "teacher_claim": NAME,
    "teacher_value": NAME,
}


class SignOnRules(NamedTuple):
    """The provider's issuer and name, the client that the hall is there, and the claims
    that name a person, a team and a teacher; how many teams the first sign-ins make."""

    issuer: str
    client: str
    name: str
    claim: str
    team_claim: str
    new_teams: int
    teacher_claim: str
    teacher_value: str


def sign_on_of(table: Dict[str, Any]) -> SignOnRules:
    rules = SignOnRules(**fields.values_of(table, SIGN_ON, "sign_on"))
    if bool(rules.teacher_claim) != bool(rules.teacher_value):
        raise FileFormatError(
            "[sign_on] needs both teacher_claim and teacher_value, or neither"
        )
    return rules


def secret_in(folder: pathlib.Path) -> str:
    """Reads the client's secret. Raises FileFormatError if others can read it too."""
    path = folder / SECRET_FILE
    advice = f"write the client's secret of [sign_on] into {path}, and `chmod 600` it"
    try:
        status = path.lstat()
        if not stat.S_ISREG(status.st_mode) or status.st_mode & 0o077:
            raise FileFormatError(f"others may read {path}: {advice}")
        secret = path.read_text(encoding="utf-8").strip()
    except OSError:
        raise FileFormatError(advice) from None
    if not secret:
        raise FileFormatError(advice)
    return secret
