"""A web server for one person, who plays the agents of a match on a page. Before the
match ends it reveals only what the agents have observed."""
import contextlib
import json
from typing import Any, Dict, List, Protocol

from arena_lab.pages.match_page import page_of_replay
from arena_lab.pages.web_pages import (
    JSON,
    STRICT,
    WHOLE,
    Handlers,
    answering,
    headers,
    new_token,
    run,
)
from arena_lab.support.ports import listen

# limit on a request, in bytes
MAX_BYTES = 10_000


class PersonMatch(Protocol):
    """The match that is played: see arena_lab/play/human.py."""

    @property
    def is_over(self) -> bool:
        ...

    def may_say(self, agent: int) -> bool:
        ...

    def say(self, agent: int, command: Dict[str, Any]) -> None:
        ...

    def wait(self) -> None:
        ...

    def end(self) -> Any:
        ...

    def replay(self) -> bytes:
        ...

    def as_dict(self) -> Dict[str, Any]:
        ...


class PersonHandlers(Handlers):
    """The handlers of the web server."""

    def __init__(self, match: PersonMatch, title: str) -> None:
        super().__init__("play", title)
        self._match = match

    def routes(self) -> List[Any]:
        get = self.web.get
        post = self.web.post
        return [
            *super().routes(),
            get("/seen", self.get_state),
            get("/match", self.whole),
            post("/say", self.say),
            post("/wait", self.wait),
            post("/end", self.end),
        ]

    def _shown(self) -> Any:
        return self.reply(json.dumps(self._match.as_dict()), JSON)

    async def get_state(self, _: Any) -> Any:
        return self._shown()

    async def whole(self, _: Any) -> Any:
        """The page of the whole match, once it is over."""
        if not self._match.is_over:
            raise self.web.HTTPNotFound(
                text="the match is not over\n", headers=headers(STRICT)
            )
        return self.reply(
            page_of_replay(None, self._match.replay(), self._title), policy=WHOLE
        )

    async def say(self, request: Any) -> Any:
        message = await self._asked(request)
        agent = message.get("agent")
        command = message.get("command")
        if (
            not isinstance(agent, int)
            or isinstance(agent, bool)
            or not 0 <= agent < len(self._match.as_dict()["agents"])
            or not isinstance(command, dict)
            or not isinstance(command.get("do"), str)
        ):
            raise self.web.HTTPBadRequest(
                text="no agent says this\n", headers=headers(STRICT)
            )
        if self._match.may_say(agent):
            self._match.say(agent, command)
        return self._shown()

    async def wait(self, request: Any) -> Any:
        await self._asked(request)
        self._match.wait()
        return self._shown()

    async def end(self, request: Any) -> Any:
        await self._asked(request)
        if not self._match.is_over:
            self._match.end()
        return self._shown()

    async def _asked(self, request: Any) -> Dict[str, Any]:
        """The object of a request. A form of another page cannot send one of this
        kind."""
        message = None
        if request.content_type == JSON and (request.content_length or 0) <= MAX_BYTES:
            with contextlib.suppress(ValueError):
                message = json.loads(await request.text())
        if not isinstance(message, dict):
            raise self.web.HTTPBadRequest(
                text="no JSON object\n", headers=headers(STRICT)
            )
        return message


def application(match: PersonMatch, title: str, token: str) -> Any:
    """The web server's application, for pages of this machine alone."""
    return answering(PersonHandlers(match, title), token, client_max_size=MAX_BYTES)


def serve(match: PersonMatch, title: str, port: int) -> None:
    """Serves the page to this machine until it is interrupted."""
    token = new_token()
    app = application(match, title, token)
    with listen("127.0.0.1", port) as listener:
        run(app, listener, "play at", token)
