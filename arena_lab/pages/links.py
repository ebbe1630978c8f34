"""Links to the page that plays in the browser without a server (tools/play): the
fragment holds all that the page shows, packed, and no server sees it."""
import base64
import json
import zlib

from arena_lab.rules.model import Object
from arena_lab.support.faults import ArenaError

# some programs that pass addresses on cut longer ones off
MAX_LINK = 8_000


class LongLinkError(ArenaError):
    """A link has no room for a replay."""


def fragment_of(contents: Object) -> str:
    """Returns the text behind `#` of a link: an object, packed."""
    text = json.dumps(contents, ensure_ascii=False, separators=(",", ":"))
    archive = zlib.compress(text.encode(), 9)
    return base64.urlsafe_b64encode(archive).decode().rstrip("=")


def replay_link(address: str, replay: bytes) -> str:
    """The link that shows a replay on the page of this address."""
    link = f"{address}#{fragment_of({'version': 1, 'replay': replay.decode()})}"
    if len(link) > MAX_LINK:
        raise LongLinkError(
            f"the link would have {len(link):,} characters, and {MAX_LINK:,} are the most: the replay is too long; "
            "`arena-lab page REPLAY` writes a page of any length"
        )
    return link
