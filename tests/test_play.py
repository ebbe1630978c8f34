"""The page on which one writes agents: its folder is whole, and it works in Chromium."""
import importlib.util
import re
import shutil
import subprocess
import unittest

from arena_lab.support.missing import DEBIANS_PYTHON
from tests import TOP
from tests.support.output import InTemporary
from tools.play import folder

LACKING = folder.missing()
HAS_BROWSER = shutil.which("chromedriver") and importlib.util.find_spec("selenium")


class Page(unittest.TestCase):
    def test_it_has_each_word_in_three_languages(self) -> None:
        text = (folder.HERE / "words.js").read_text(encoding="utf-8")
        tongues = re.findall(
            r"^  (en|de|fr): \{\n(.*?)^  \},$", text, re.DOTALL | re.MULTILINE
        )
        keys = [re.findall(r"\b([a-z_]+): \"", body) for _, body in tongues]
        self.assertEqual([tongue for tongue, _ in tongues], ["en", "de", "fr"])
        self.assertEqual(keys[0], keys[1])
        self.assertEqual(keys[0], keys[2])
        page = (folder.HERE / "index.html").read_text(encoding="utf-8")
        words = set(re.findall(r"data-(?:word|label)=\"(\w+)\"", page))
        self.assertLessEqual(words, set(keys[0]))

    def test_its_scripts_stand_apart_and_are_all_there(self) -> None:
        page = (folder.HERE / "index.html").read_text(encoding="utf-8")
        self.assertNotRegex(page, r"<script>|\son\w+=|https?://")
        self.assertNotIn(
            "'unsafe-inline'", page.partition("script-src")[2].partition(";")[0]
        )
        written_files = {"arena.wasm.js", "worker.text.js", "kits.js", "editor.js"}
        scripts = {name for name in re.findall(r'<script src="([\w.]+)"', page)}
        self.assertEqual(
            scripts - written_files,
            {name for name in folder.PAGE if name.endswith(".js")},
        )

    def test_the_page_of_a_match_allows_its_own_script_alone(self) -> None:
        page = folder.replay_page()
        self.assertEqual(page.count("<script"), 1)
        self.assertRegex(page, r"script-src 'sha256-[\w+/=]+'")


@unittest.skipIf(LACKING, f"not installed: {LACKING}")
class Folder(InTemporary):
    @unittest.skipUnless(
        HAS_BROWSER, "Debian's chromium-driver or python3-selenium is not installed"
    )
    def test_it_works_in_a_browser_from_a_file(self) -> None:
        words = [
            DEBIANS_PYTHON,
            "-m",
            "tests.browser.play_in_browser",
            str(self.folder),
        ]
        result = subprocess.run(words, cwd=TOP, capture_output=True, text=True)
        self.assertEqual(result.returncode, 0, result.stdout + result.stderr)


if __name__ == "__main__":
    unittest.main()
