"""Each mistake of a line has its sentence, as two languages spell it, and refused lines
are told for their agents."""
import unittest
from typing import Dict, List, Tuple

from arena_lab.play.mistakes import (
    ENTER,
    LINE,
    LONG,
    MISTAKES,
    PORT,
    MAX_SHOWN,
    UNENDED,
    RefusedLine,
    Refusals,
    likely,
    quote_line,
)
from arena_lab.rules.model import BAD, command_of, text_of

# of each mistake what is said of it, and two lines, as programs in two languages send
# them
ROWS: Dict[str, Tuple[str, List[bytes]]] = {
    "mark": (
        "a byte order mark stands before the line",
        [b'\xef\xbb\xbf{"do":"look"}', '\ufeff{"do":"enter","key":"k"}'.encode()],
    ),
    "utf16": (
        "as UTF-16 has",
        ['{"do":"look"}'.encode("utf-16"), '{"do":"look"}'.encode("utf-16-le")],
    ),
    "too_long": (
        "it is longer than 65,536 bytes",
        [b'{"do":"write","expect":"","put":"' + b"y" * 70_000 + b'"}', b"x" * 70_000],
    ),
    "not_utf8": (
        "it is not UTF-8",
        ['{"do":"write","expect":"","put":"é"}'.encode("latin-1"), b"\x80\x04\x95\x11"],
    ),
    "of_http": (
        "it is a request of HTTP",
        [b"GET / HTTP/1.1", b"POST /match HTTP/1.1"],
    ),
    "two_objects": (
        "two commands stand in one line",
        [b'{"do":"look"} {"do":"look"}', b'{"do":"look"}{"do":"depart","port":0}'],
    ),
    "encoded_twice": (
        "it was made JSON twice",
        [b'"{\\"do\\":\\"look\\"}"', b'"{\\"do\\": \\"depart\\", \\"port\\": 0}"'],
    ),
    # Python's str(dict), and an object of JavaScript as its literal
    "single_quotes": (
        "it has single quotes",
        [b"{'do': 'depart', 'port': 0}", b"{'do':'look'}"],
    ),
    # JavaScript's console.log, Java's Map.toString, Rust's Debug
    "names_without_quotes": (
        "the names of members have no double quotes",
        [b"{ do: 'depart', port: 0 }", b"{do=depart, port=0}", b"Depart { port: 0 }"],
    ),
    "over_several_lines": (
        "stands over several lines",
        [b"{", b'  "do": "depart",', b'    "port": 0', b"}"],
    ),
    "no_do": ('it has no member "do"', [b'{"command":"look"}', b'{"Do":"look"}']),
    "unknown": (
        "there is no command",
        [b'{"do":"move","port":1}', b'{"do":"DEPART","port":1}'],
    ),
    "port_as_text": (
        "the port is a text",
        [b'{"do":"depart","port":"0"}', b'{"do": "accuse", "port": "2"}'],
    ),
    "port_as_fraction": (
        "the port is a fraction",
        [b'{"do":"depart","port":0.0}', b'{"do":"depart","port":1e0}'],
    ),
    "port_out_of_range": (
        "the port is no number from 0",
        [b'{"do":"depart","port":-1}', b'{"do":"accuse","port":70000}'],
    ),
    "missing": (
        "a member is missing",
        [b'{"do":"depart"}', b'{"do":"write","put":"x"}'],
    ),
    "of_another_type": (
        "has to be a",
        [
            b'{"do":"write","expect":"","put":{"a":1}}',
            b'{"do":"write","expect":null,"put":"x"}',
            b'{"do":"depart","port":true}',
            b'{"do":"depart","port":null}',
        ],
    ),
    "bare_word": ("it is a word and no object", [b"look", b"depart 0", b'"leave"']),
    "broken": ("it is no JSON: ", [b'{"do":"look",}', b'{"do":"depart","port":0']),
    "no_object": ("it is a JSON value and no object", [b'[{"do":"look"}]', b"17"]),
    "debug": (
        "print what is for you to standard error",
        [b"debug: here", b"[agent 1] at a node of 2 ports"],
    ),
}


class Lines(unittest.TestCase):
    def test_each_mistake_has_a_row(self) -> None:
        self.assertEqual(list(ROWS), list(MISTAKES))
        self.assertGreaterEqual(len(ROWS), 15)

    def test_each_mistake_gets_its_sentence(self) -> None:
        for name, (row, lines) in ROWS.items():
            for line in lines:
                with self.subTest(name, line=line[:80]):
                    self.assertIn(row, likely(line))
                    self.assertEqual(
                        next(
                            mistake
                            for mistake, message in MISTAKES.items()
                            if message(RefusedLine(line))
                        ),
                        name,
                    )

    def test_a_line_of_the_table_is_no_command(self) -> None:
        for name, (_, lines) in ROWS.items():
            for line in lines:
                self.assertEqual(command_of(text_of(line)), BAD, line[:80])

    def test_the_sentence_says_what_to_write(self) -> None:
        self.assertIn('write {"do":"depart","port":0}', likely(b"depart 0"))
        self.assertIn("did you mean depart?", likely(b'{"do":"departs","port":0}'))
        self.assertIn('depart needs "port" too', likely(b'{"do":"depart"}'))
        self.assertIn('"port":7', likely(b'{"do":"depart","port":"7"}'))

    def test_what_is_shown_is_escaped_and_cut(self) -> None:
        self.assertEqual(
            quote_line(b"\x1b[2J\xff\xef\xbb\xbfa\x00"), "\\x1b[2J\\xff\\ufeffa\\x00"
        )
        self.assertEqual(
            quote_line(b"x" * 70_000), f"{'x' * MAX_SHOWN}.. (70,000 bytes)"
        )
        self.assertEqual(quote_line("é".encode() * MAX_SHOWN), "é" * MAX_SHOWN)
        # a line is shown whatever bytes it has, and so is its mistake
        for first in range(256):
            raw = bytes([first]) * 400
            self.assertTrue(quote_line(raw).isprintable() and likely(raw).isprintable())

    def test_deep_and_hostile_lines_have_a_sentence(self) -> None:
        for line in (
            b"[" * 60_000,
            b'{"a":' * 10_000,
            b'{"do":["look"]}',
            b"A" * 60_000,
            b"",
            b"\\ud83d",
            b'{"do":"depart","port":' + b"9" * 60_000 + b"}",
            b"{" + b'"a":1,' * 10_000,
            b'{"do":"write","expect":"\\ud83d","put":""}',
        ):
            with self.subTest(line[:40]):
                self.assertTrue(likely(line))


class Told(unittest.TestCase):
    def sentences(self, *args: Tuple[int, str, bytes]) -> List[str]:
        refusals = Refusals(["k0", "k1"])
        for agent, why, line in args:
            refusals.note(
                agent,
                why,
                line,
                lambda text: text.replace("/tmp/x/", ""),
                "the node has the ports 0 to 1",
            )
        return refusals.sentences()

    def test_the_first_line_and_their_number(self) -> None:
        self.assertEqual(
            self.sentences(
                (0, LINE, b"debug: here"),
                (0, LINE, b'{"do":"look",}'),
                (0, LINE, b"look"),
            ),
            [
                "agent 0: 3 lines were no commands; the first: `debug: here`: it is no JSON: print what is for you to "
                "standard error, and only commands where the server reads"
            ],
        )

    def test_agents_and_kinds_apart(self) -> None:
        output = self.sentences(
            (1, PORT, b'{"do":"depart","port":7}'),
            (0, LINE, b"look"),
            (0, LONG, b"{}"),
            (1, "spent", b""),
        )
        self.assertEqual(
            [it.partition(":")[0] for it in output], ["agent 0", "agent 0", "agent 1"]
        )
        self.assertIn(
            'named a port that its node does not have: `{"do":"depart","port":7}`: the node has the '
            "ports 0 to 1",
            output[2],
        )

    def test_neither_keys_nor_folders_are_told(self) -> None:
        output = self.sentences(
            (0, ENTER, b"{'do': 'enter', 'key': 'k0'}"), (1, LINE, b"opened /tmp/x/log")
        )
        self.assertIn(
            '\'key\': \'KEY\'}`: the first line is {"do":"enter","key":KEY}; it has single quotes',
            output[0],
        )
        self.assertIn("`opened log`", output[1])

    def test_a_line_without_a_line_feed(self) -> None:
        self.assertEqual(
            self.sentences((0, UNENDED, b'{"do":"look"}')),
            [
                'agent 0: what it sent last was not taken, as no line feed stands behind it: `{"do":"look"}`: end each '
                "line with a line feed, and flush"
            ],
        )
