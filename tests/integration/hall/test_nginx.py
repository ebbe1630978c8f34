"""A hall behind Debian's nginx, by the file that the hall has for it. Tries of tokens
are limited by the address of who asks: nginx's own does not count, nor what a stranger
says of himself."""
import concurrent.futures
import pathlib
import re
import tempfile
import unittest
from typing import Any, List

from arena_lab.hall.teams.guards import TRIES
from tests.support.halls import ServedHall, Response, told_by
from tests.support.proxies import NAME, Nginx

HALL: List[ServedHall] = []
PROXY: List[Nginx] = []


def setUpModule() -> None:
    if Nginx.program_path() is None:
        raise unittest.SkipTest("Debian's nginx is not installed")
    folder = pathlib.Path(
        unittest.enterModuleContext(tempfile.TemporaryDirectory(prefix="hall-"))
    )
    hall = ServedHall(folder, f'https = true\nnames = ["{NAME}"]')
    unittest.addModuleCleanup(hall.stop)
    hall.start()
    HALL.append(hall)
    PROXY.append(Nginx(folder, hall.port))
    unittest.addModuleCleanup(PROXY[0].end)


class BehindNginx(unittest.TestCase):
    def setUp(self) -> None:
        self.tokens = HALL[0].tokens()
        self.proxy = PROXY[0]

    def rest(self, token: str, address: str, text: Any = ()) -> int:
        """Sends a request with forged forwarding headers from an address, and returns
        the status."""
        headers = [
            ("Authorization", f"Bearer {token}"),
            *(("X-Forwarded-For", it) for it in text),
        ]
        return self.proxy.ask("GET", "/api/networks", address, headers).status

    def tries(self, name: str, address: str, text: Any = lambda number: ()) -> int:
        """Returns how many wrong tokens of a team are tried from an address until no
        more is taken."""
        for number in range(100):
            status = self.rest(f"{name}.{number}", address, text(number))
            if status == 429:
                return number
            self.assertEqual(status, 401)
        return 100

    def test_tries_are_limited_by_the_address_of_who_asks(self) -> None:
        # a slow machine allows one more try after a minute; the token that worked
        # before costs no try
        self.assertIn(self.tries("amber", "127.0.0.2"), range(TRIES, TRIES + 5))
        self.assertEqual(self.rest(self.tokens["amber"], "127.0.0.2"), 429)
        self.assertEqual(self.rest(self.tokens["amber"], "127.0.0.3"), 200)

    def test_what_a_stranger_says_of_his_address_wins_nothing(self) -> None:
        """Neither more tries, nor that another address has none left."""
        count = self.tries(
            "birch",
            "127.0.0.4",
            lambda number: ["127.0.0.5", f"10.0.0.{number}, 127.0.0.5"],
        )
        self.assertIn(count, range(TRIES, TRIES + 5))
        self.assertEqual(self.rest("birch.x", "127.0.0.4", ["10.0.0.99"]), 429)
        self.assertEqual(self.rest(self.tokens["birch"], "127.0.0.5"), 200)

    def test_a_team_logs_in_by_the_page(self) -> None:
        page = self.proxy.ask("GET", "/login", "127.0.0.6", [])
        self.assertEqual(
            (page.status, page.headers["Strict-Transport-Security"]),
            (200, "max-age=31536000"),
        )
        cookie = page.headers["Set-Cookie"]
        self.assertIn("Secure", cookie)
        secret = re.search(rb'name="csrfmiddlewaretoken" value="(\w+)"', page.body)
        assert secret is not None
        response = self.post(
            cookie,
            f"csrfmiddlewaretoken={secret[1].decode()}&token={self.tokens['cedar']}",
        )
        self.assertEqual(
            (response.status, response.headers["Location"]), (302, "/matches")
        )
        self.assertEqual(self.post(cookie, f"token={self.tokens['cedar']}").status, 403)

    def post(self, cookie: str, body: str) -> Response:
        return self.proxy.ask(
            "POST",
            "/login",
            "127.0.0.6",
            [
                ("Cookie", cookie.partition(";")[0]),
                ("Referer", f"https://{NAME}/login"),
                ("Content-Type", "application/x-www-form-urlencoded"),
            ],
            body,
        )

    def test_a_class_that_asks_at_once_is_answered(self) -> None:
        """All of it comes from nginx's address."""
        with concurrent.futures.ThreadPoolExecutor(24) as pool:
            results = list(
                pool.map(
                    lambda _: self.rest(self.tokens["cedar"], "127.0.0.7"), range(72)
                )
            )
        self.assertEqual(results, [200] * 72)

    def test_who_asks_without_encryption_is_sent_to_the_other_port(self) -> None:
        response = told_by(self.proxy.plain, "GET", "/login", {"Host": NAME})
        self.assertEqual(
            (response.status, response.headers["Location"]),
            (301, f"https://{NAME}/login"),
        )


class Headers(unittest.TestCase):
    """What reaches the hall of a proxy that lets more headers through than nginx
    does."""

    def test_a_header_that_is_spelled_otherwise_is_no_address(self) -> None:
        """Caddy passes on X_Forwarded_For, which Python's interface of web servers
        cannot tell from the true one."""
        hall = HALL[0]
        results = []
        for number in range(TRIES + 5):
            results.append(
                told_by(
                    hall.port,
                    "GET",
                    "/api/networks",
                    {
                        "Authorization": f"Bearer cedar.{number}",
                        "X-Forwarded-For": "192.0.2.7",
                        "X_Forwarded_For": f"10.0.0.{number}",
                        "X-Forwarded-Proto": "https",
                    },
                ).status
            )
        self.assertIn(429, results)
