"""A web server that shows a contest while it goes on, and tells no more than
arena_lab/pages/screen.py allows."""
import asyncio
import contextlib
import json
import time
from typing import Any, Callable, Collection, Dict, List, Optional, Tuple

from arena_lab.pages.contest_pages import MatchRow
from arena_lab.pages.feeds import MatchFeed
from arena_lab.pages.judging import cut, footprints
from arena_lab.pages.match_page import page_of, read_replay, shown_of
from arena_lab.pages.screen import WatchedMatch, standings, teams
from arena_lab.pages.web_pages import (
    JSON,
    STRICT,
    WHOLE,
    Handlers,
    answering,
    headers,
    new_token,
    run,
)
from arena_lab.rules.model import Match, judge
from arena_lab.support.ports import listen

# seconds between two looks at the files, and how many watchers there may be
EVERY = 0.5
MAX_WATCHERS = 500
# seconds of silence after which a watcher's connection is probed
QUIET = 15


class ContestView:
    """The matches of a contest and their visible states. Watchers wait for the next
    version."""

    def __init__(
        self, matches: List[MatchRow], match_feeds: List[MatchFeed], is_open: bool
    ) -> None:
        self.is_open = is_open
        self.version = 0
        self._matches = matches
        self._feeds = match_feeds
        self._changed = asyncio.Condition()
        # of each match a number that rises whenever something happens in it
        self.grown = [0] * len(matches)
        self.rows = self._standings()

    def visible_match(self, number: int) -> Optional[Match]:
        """The match of a number, if its page may be shown."""
        may_open = self.is_open or any(
            row["match"] == number and row["page"] for row in self.rows
        )
        return (
            self._feeds[number].match
            if may_open and number < len(self._feeds)
            else None
        )

    def teams(self) -> Dict[str, Any]:
        """The standings of teams."""
        traps = [match.number for match in self._matches if match.is_trap]
        return teams(self.rows, [match.name for match in self._matches], traps)

    async def watch(self) -> None:
        """Looks at the files again and again."""
        while True:
            numbers = [number for number, feed in enumerate(self._feeds) if feed.look()]
            for number in numbers:
                self.grown[number] += 1
            rows = self._standings() if numbers else self.rows
            if rows != self.rows or numbers and self.is_open:
                self.rows = rows
                self.version = self.version + 1
                async with self._changed:
                    self._changed.notify_all()
            await asyncio.sleep(EVERY)

    async def after(self, version: int) -> None:
        """Waits until there is another version."""
        async with self._changed:
            await self._changed.wait_for(lambda: self.version != version)

    def _standings(self) -> List[Dict[str, Any]]:
        return standings(
            [
                WatchedMatch(
                    match.team,
                    feed.match,
                    None if feed.since is None else int(feed.since),
                    match.name,
                    feed.turn() if self.is_open else None,
                )
                for match, feed in zip(self._matches, self._feeds)
            ]
        )


def data_of(name: str, match: Match) -> Dict[str, Any]:
    """Returns the data of a page for a match that may still be running."""
    again = read_replay([json.dumps(match.head()), *map(json.dumps, match.log)])
    events = footprints(match)
    agents_present = sorted({event["agent"] for event in match.log if "agent" in event})
    verdict = str(judge(match)) if match.closed else "the match goes on"
    return shown_of(
        name, verdict, again, {agent: cut(agent, events) for agent in agents_present}
    )


class ProjectorHandlers(Handlers):
    """The handlers of the web server."""

    def __init__(self, contest: ContestView, title: str, turns: Dict[str, int]) -> None:
        super().__init__("watch", title)
        self._contest = contest
        self._turns = turns
        self._watchers = 0

    def routes(self) -> List[Any]:
        get = self.web.get
        return [
            *super().routes(),
            get("/standings", self.standings),
            get(r"/match/{number:\d{1,2}}", self.match),
            get(r"/match/{number:\d{1,2}}/data", self.data),
            get(r"/match/{number:\d{1,2}}/news", self.news),
        ]

    async def standings(self, request: Any) -> Any:
        """Tells what may be shown, now and whenever it changes."""
        return await self._events(
            request,
            lambda: {
                "rows": self._contest.rows,
                "open": self._contest.is_open,
                "teams": self._contest.teams(),
                **self._turns,
            },
        )

    async def news(self, request: Any) -> Any:
        """Tells whenever something has happened in a match."""
        number, _ = self._asked(request)
        return await self._events(
            request, lambda: {"grown": self._contest.grown[number]}
        )

    async def _events(
        self, request: Any, report_of: Callable[[], Dict[str, Any]]
    ) -> Any:
        """A stream of what is told, which is sent when it has changed, with the time of
        this machine."""
        if self._watchers >= MAX_WATCHERS:
            raise self.web.HTTPServiceUnavailable(
                text="too many watch this contest; try again later\n"
            )
        response = self.web.StreamResponse(
            headers={**headers(STRICT), "Content-Type": "text/event-stream"}
        )
        self._watchers += 1
        try:
            await response.prepare(request)
            last = None
            while True:
                version = self._contest.version
                now = report_of()
                text = json.dumps({"now": int(time.time()), **now})
                await response.write(
                    f"data: {text}\n\n".encode() if now != last else b": \n\n"
                )
                last = now
                with contextlib.suppress(asyncio.TimeoutError):
                    await asyncio.wait_for(self._contest.after(version), QUIET)
        except (ConnectionError, asyncio.CancelledError):
            return response
        finally:
            self._watchers -= 1

    def _asked(self, request: Any) -> Tuple[int, Match]:
        """The match that a request names, if its page may be shown."""
        number = int(request.match_info["number"])
        match = self._contest.visible_match(number)
        if match is None:
            raise self.web.HTTPNotFound(
                text="pages of matches come when all matches are closed\n",
                headers=headers(STRICT),
            )
        return number, match

    def _data(self, request: Any) -> Dict[str, Any]:
        number, match = self._asked(request)
        return {
            **data_of(f"match {number}", match),
            "news": None if match.closed else f"/match/{number}",
        }

    async def match(self, request: Any) -> Any:
        return self.reply(page_of(self._data(request)), policy=WHOLE)

    async def data(self, request: Any) -> Any:
        return self.reply(json.dumps(self._data(request)), JSON)


def application(
    handlers: ProjectorHandlers,
    contest: ContestView,
    token: str,
    names: Collection[str] = (),
) -> Any:
    """The web server's application, which looks at the files while it serves. It
    answers for this machine and for hosts of these names."""

    async def looking(_: Any) -> Any:
        task = asyncio.create_task(contest.watch())
        yield
        task.cancel()

    app = answering(handlers, token, names)
    app.cleanup_ctx.append(looking)
    return app


def show(
    contest: ContestView,
    title: str,
    address: Tuple[str, int],
    turns: Dict[str, int],
    names: Collection[str] = (),
) -> None:
    """Shows a contest at an address and port until it is interrupted. Names of hosts
    are those by which it may be asked for, besides addresses and this machine's
    name."""

    token = new_token()

    async def make_page() -> Any:
        handlers = ProjectorHandlers(contest, title, turns)
        return application(handlers, contest, token, names)

    with listen(*address) as listener:
        run(make_page(), listener, "watch", token)
