"""The bar of long work, on a terminal and elsewhere."""
import io
import os
import unittest
import unittest.mock
from typing import List

from tools.prove.bar import Bar, about, minutes, picture


class Bars(unittest.TestCase):
    class Terminal(io.StringIO):
        def isatty(self) -> bool:
            return True

    def lines(self, stream: io.StringIO, shares: List[float], quiet: float) -> str:
        bar = Bar(stream, quiet)
        for share in shares:
            bar.show(share, "work")
        bar.say("done")
        return stream.getvalue()

    def test_a_terminal_has_one_line(self) -> None:
        output = self.lines(self.Terminal(), [0, 0.5], 30)
        self.assertEqual(
            output,
            "\rarena: [....................]   0% work\x1b[K"
            "\rarena: [##########..........]  50% work\x1b[K\r\x1b[Karena: done\n",
        )

    def test_a_line_is_no_wider_than_the_terminal(self) -> None:
        stream = self.Terminal()
        with unittest.mock.patch(
            "shutil.get_terminal_size", return_value=os.terminal_size((30, 24))
        ):
            Bar(stream).show(0, "work")
        self.assertEqual(stream.getvalue(), "\rarena: [....................]\x1b[K")

    def test_elsewhere_a_line_comes_now_and_then(self) -> None:
        self.assertEqual(
            self.lines(io.StringIO(), [0, 0.5, 0.6], 30),
            "arena: [....................]   0% work\n" "arena: done\n",
        )
        self.assertEqual(self.lines(io.StringIO(), [0.5, 0.5, 0.6], 0).count("work"), 2)

    def test_times_and_pictures(self) -> None:
        self.assertEqual(
            (minutes(5.9), minutes(65), minutes(600)),
            ("5 s", "1 min 05 s", "10 min 00 s"),
        )
        self.assertEqual(
            (about(59), about(60), about(61)),
            ("less than a minute", "about 1 min", "about 2 min"),
        )
        self.assertEqual(
            (picture(1.0)[-4:], picture(0.999)[-4:], picture(2.0)[-4:]),
            ("100%", " 99%", "100%"),
        )
