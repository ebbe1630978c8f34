"""The Python model: worked rows on the triangle."""
import unittest

from arena_lab.rules.model import (
    Match,
    Setup,
    Verdict,
    command_of,
    judge,
    outcome_of,
    rank,
)

TRIANGLE = [(0, 0, 1, 0), (1, 1, 2, 0), (2, 1, 0, 1)]
ENTER, LOOK, LEAVE = ({"do": word} for word in ("enter", "look", "leave"))


def depart(port: int) -> dict:
    return {"do": "depart", "port": port}


def accuse(port: int) -> dict:
    return {"do": "accuse", "port": port}


class Model(unittest.TestCase):
    def triangle(self, holes=(2,), dark=()) -> Match:
        return Match(Setup(3, TRIANGLE, 0, list(holes), 2, 10, 8, list(dark)))

    def test_a_guess_is_written_as_its_replay(self) -> None:
        match = self.triangle()
        match.reply_to(0, ENTER)
        match.reply_to(0, accuse(1))
        match.close()
        self.assertEqual(judge(match), ("guess 1", 0, 0))
        self.assertEqual(
            match.replay().splitlines(),
            [
                '{"agents":2,"board":8,"dark":[],"holes":[2],"home":0,"links":[[0,0,1,0],[0,1,2,1],[1,1,2,0]],"nodes":'
                '3,"quota":10,"replay":2}',
                '{"agent":0,"do":"enter","reply":{"board":"","from":null,"ok":"here","ports":2}}',
                '{"agent":0,"do":"accuse","port":1,"reply":{"ok":"noted"}}',
                '{"do":"close","reply":null}',
                '{"end":3}',
            ],
        )

    def test_verdicts(self) -> None:
        for commands, outcome in (
            ([], "silent"),
            ([accuse(1)], "solved"),
            ([accuse(0)], "wrong"),
        ):
            match = self.triangle()
            match.reply_to(0, ENTER)
            match.reply_to(0, depart(0))
            match.deliver(0)
            for command in commands:
                match.reply_to(0, command)
            match.close()
            self.assertEqual(outcome_of(match), outcome)

    def test_the_first_rule_that_holds(self) -> None:
        match = self.triangle()
        match.reply_to(0, ENTER)
        match.reply_to(1, ENTER)
        match.reply_to(0, accuse(1))
        self.assertEqual(outcome_of(match), "unfinished")
        # of several nodes that nobody has reached the least is the guess
        links = [(v, 0, (v + 1) % 5, 1) for v in range(5)]
        match = Match(Setup(5, links, 0, [4], 1, 10, 8))
        match.reply_to(0, ENTER)
        match.reply_to(0, accuse(1))
        self.assertEqual(outcome_of(match), "guess 1")
        self.assertEqual(outcome_of(self.triangle(holes=())), "silent")

    def test_the_order_of_the_table(self) -> None:
        rows = [
            (Verdict("solved", 2, 9), "z"),
            (Verdict("solved", 3, 0), "a"),
            (Verdict("solved", 3, 1), "a"),
            (Verdict("solved", 3, 1), "b"),
            (Verdict("guess 7", 0, 0), "a"),
            (Verdict("unfinished", 0, 0), "a"),
            (Verdict("silent", 0, 0), "a"),
            (Verdict("wrong", 0, 0), "a"),
        ]
        self.assertEqual(sorted(reversed(rows), key=lambda row: rank(*row)), rows)

    def test_a_dark_link_destroys_and_is_accused(self) -> None:
        match = self.triangle(holes=(), dark=[(0, 1)])
        match.reply_to(0, ENTER)
        match.reply_to(0, depart(1))
        match.deliver(0)
        match.reply_to(1, ENTER)
        for port in (0, 1):
            match.reply_to(1, depart(port))
            match.deliver(1)
        match.reply_to(1, accuse(1))
        match.close()
        self.assertEqual(judge(match), ("solved", 3, 1))

    def test_refusals_in_order(self) -> None:
        match = self.triangle()
        message = [
            match.reply_to(0, command)
            for command in (LOOK, ENTER, ENTER, depart(0), LOOK, LEAVE, LOOK)
        ]
        whys = [reply.get("no") or reply["ok"] for reply in message]
        self.assertEqual(
            whys, ["outside", "here", "twice", "gone", "away", "bye", "ended"]
        )

    def test_lines(self) -> None:
        for line, do in (
            ('{"do":"look","x":1}', "look"),
            ('{"do":"depart","port":1.0}', "bad"),
            ("[]", "bad"),
            ('{"do":"depart","port":true}', "bad"),
            ('{"do":"enter"}', "bad"),
            ("{", "bad"),
            ('{"do":"look","x":' + "1" * 400 + "}", "bad"),
            ('{"do":"depart","port":-0}', "bad"),
            ('{"do":"depart","port":0}', "depart"),
            ('{"do":"look","x":NaN}', "bad"),
            ('{"do":"look","x":1e999}', "bad"),
            ('{"do":"look","x":"\\ud800"}', "bad"),
            ('{"do":"look","x":"\\ud83d\\ude00"}', "look"),
            ('{"do":"look","x":' + "[" * 126 + "]" * 126 + "}", "look"),
            ('{"do":"look","x":' + "[" * 127 + "]" * 127 + "}", "bad"),
        ):
            self.assertEqual(command_of(line)["do"], do)
