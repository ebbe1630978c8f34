"""A walk through a hall in headless Chromium, where Chromium is installed."""
import importlib.util
import pathlib
import shutil
import tempfile
import unittest

from tests.support.matches import program

HAS_BROWSER = (
    importlib.util.find_spec("selenium") is not None
    and shutil.which("chromedriver") is not None
)


@unittest.skipUnless(
    HAS_BROWSER, "Debian's chromium-driver and python3-selenium are not installed"
)
class Browser(unittest.TestCase):
    def test_a_walk_through_a_hall(self) -> None:
        from tests.browser import hall_in_browser

        with tempfile.TemporaryDirectory() as folder:
            self.assertEqual(hall_in_browser.main(program(), pathlib.Path(folder)), 0)
