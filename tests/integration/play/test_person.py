"""The page on which a person plays agents: what its server tells, and whom it
answers."""
import asyncio
import json
import random
import unittest
from typing import Any, Callable, Coroutine, Dict

from aiohttp.test_utils import TestClient, TestServer

from arena_lab.pages.person import application
from arena_lab.play.human import HumanMatch
from arena_lab.rules.fixtures import fixture_of
from arena_lab.rules.model import Setup
from arena_lab.rules.networks import ring

TOKEN = "secret"
Asked = Callable[[Any], Coroutine[Any, Any, None]]


def with_client(ask: Asked) -> None:
    """Lets a client ask the server of a ring of four nodes."""

    async def talk() -> None:
        match = HumanMatch(
            fixture_of(Setup(4, ring(4).links, 0, [1], 2, 100, 64)), random.Random(1)
        )
        app = application(match, "ring:4", TOKEN)
        async with TestClient(TestServer(app)) as client:
            reply = await client.post("/end", json={})
            if reply.status != 403:
                raise AssertionError("a stranger ends the match")
            # the client sends the cookie with each later request
            await client.get("/", params={"token": TOKEN})
            await ask(client)

    asyncio.run(talk())


async def state_of(client: Any, agent: int, **command: object) -> Dict[str, Any]:
    answer = await client.post("/say", json={"agent": agent, "command": command})
    results: Dict[str, Any] = await answer.json()
    return results


class TestPerson(unittest.TestCase):
    def test_the_match_is_shown_once_it_is_over(self) -> None:
        async def ask(client: Any) -> None:
            state = await state_of(client, 0, do="enter")
            self.assertEqual("at a node", state["agents"][0]["standing"])
            await state_of(client, 0, do="depart", port=0)
            for _ in range(3):
                state = await (await client.post("/wait", json={})).json()
            self.assertEqual("on a link", state["agents"][0]["standing"])
            self.assertNotIn("hole", json.dumps(state))
            self.assertEqual(404, (await client.get("/match")).status)
            self.assertTrue((await (await client.post("/end", json={})).json())["over"])
            self.assertIn(
                "silent moves 1 lost 1", await (await client.get("/match")).text()
            )

        with_client(ask)

    def test_pages_elsewhere_play_nothing(self) -> None:
        async def ask(client: Any) -> None:
            enter = json.dumps({"agent": 0, "command": {"do": "enter"}})
            for headers in (
                {"Content-Type": "text/plain"},
                {"Content-Type": "application/x-www-form-urlencoded"},
                {
                    "Content-Type": "application/json",
                    "Origin": "http://elsewhere.example",
                },
                {"Content-Type": "application/json", "Host": "rebound.example"},
            ):
                answer = await client.post("/say", data=enter, headers=headers)
                self.assertIn(answer.status, (400, 403), headers)
            observations = await (await client.get("/seen")).json()
            self.assertEqual("outside", observations["agents"][0]["standing"])

        with_client(ask)

    def test_what_no_agent_says(self) -> None:
        async def ask(client: Any) -> None:
            for arguments in (
                [],
                {"agent": 2, "command": {"do": "enter"}},
                {"agent": True, "command": {"do": "enter"}},
                {"agent": 0, "command": "enter"},
                {"agent": 0, "command": {}},
            ):
                self.assertEqual(
                    400, (await client.post("/say", json=arguments)).status, arguments
                )

        with_client(ask)
