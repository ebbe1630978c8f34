"""The JSON of what the program prints is one line, whatever its texts have."""
import json
import unittest

from arena_lab.rules import printed


class Lines(unittest.TestCase):
    def test_separators_of_lines_are_escaped(self) -> None:
        for separator in ("\x85", "\u2028", "\u2029", "\n", "\x1c"):
            result = {"notes": [f"a{separator}b\u00e9"]}
            line = printed.line_of(result)
            with self.subTest(separator):
                self.assertEqual(len(line.splitlines()), 1)
                self.assertEqual(json.loads(line), result)
