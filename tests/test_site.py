"""The site of the documents: what leads nowhere, and what a page asks of another machine,
is named; and the site as it is built has neither."""
import importlib.util
import os
import pathlib
import re
import shutil
import subprocess
import unittest
from typing import Dict

from arena_lab.support.missing import DEBIANS_PYTHON
from tests import TOP
from tests.support.output import InTemporary, write
from tests.test_gate import module
from tools import site_links
from tools.play import folder

HAS_BROWSER = shutil.which("chromedriver") and importlib.util.find_spec("selenium")
site = module(TOP / "tools" / "site")
THEOREMS = TOP / "docs" / "THEOREMS.md"

PAGES: Dict[str, str] = {
    "index.html": '<h1 id="top">A</h1><a href="#top">a</a><a href="b/c.html#d">b</a>'
    '<a href="https://debian.org">c</a><img src="data:,"><a href="b/">d</a>',
    "b/c.html": '<p id="d"><a href="../index.html">a</a><img src="e%20f.png">',
    "b/index.html": "",
    "b/e f.png": "",
}


class Links(InTemporary):
    def faults(self, **extra: str) -> list:
        for name, text in {**PAGES, **extra}.items():
            write(self.folder / name, text)
        return list(site_links.faults_in(self.folder))

    def test_links_that_lead_somewhere(self) -> None:
        self.assertEqual(self.faults(), [])

    def test_links_that_lead_nowhere_and_requests(self) -> None:
        text = (
            '<a href="absent.html">a</a><a href="b/c.html#e">b</a><a href="#f">c</a>'
            '<script src="https://debian.org/a.js"></script><img src="//debian.org/a">'
        )
        self.assertEqual(
            self.faults(**{"wrong.html": text}),
            [
                "wrong.html: absent.html: leads nowhere",
                "wrong.html: b/c.html#e: leads to no heading",
                "wrong.html: #f: leads to no heading",
                "wrong.html: https://debian.org/a.js: is requested of another machine",
                "wrong.html: //debian.org/a: is requested of another machine",
            ],
        )

    def test_links_of_documents_are_found_and_replaced(self) -> None:
        text = "[a](b.md#c), [d](https://e), ![f](g.png), [h](i.conf)"
        self.assertEqual([*site_links.links_of(text)], ["b.md", "g.png", "i.conf"])
        self.assertEqual(
            site_links.with_links(text, {"i.conf": "i.conf.txt"}),
            text.replace("i.conf", "i.conf.txt"),
        )


class Clauses(unittest.TestCase):
    def test_each_row_of_theorems_leads_to_a_contract(self) -> None:
        column = 0
        lacks = []
        for line in site.with_clauses(THEOREMS.read_text("utf-8")).split("\n"):
            cells = [cell.strip() for cell in line.split("|")]
            if "clause" in cells:
                column = cells.index("clause")
            elif len(cells) > column > 0 and not cells[column].startswith("---"):
                if "](../contracts/bhs_" not in cells[column]:
                    lacks.append(cells[column])
        # cases of a definition, and what calls in both directions
        self.assertEqual(
            lacks,
            [
                "the other cases",
                "the case `Exceeds`",
                "`Host` of `bhs_cli_explore`, which is a `Team` (`IsExchange`)",
            ],
        )

    def test_a_name_of_two_crates_is_of_the_one_that_the_section_names(self) -> None:
        text = "\n## Isolation\n\nLaws of `bhs_model::laws`: `equal_pasts`.\n"
        text += "\n## Results\n\nLaws of `bhs_view::laws`: `equal_pasts`.\n"
        self.assertEqual(
            re.findall(r"contracts/(\w+)\.md#(\S+)\)", site.with_clauses(text)),
            [("bhs_model", "laws-equal_pasts"), ("bhs_view", "laws-equal_pasts")],
        )


def has_mkdocs() -> bool:
    words = [DEBIANS_PYTHON, "-c", "import mkdocs, mkdocstrings_handlers.python"]
    is_there = pathlib.Path("/usr/share/mkdocs/themes/material").is_dir()
    return is_there and subprocess.run(words, stderr=subprocess.DEVNULL).returncode == 0


def files_of(folder: pathlib.Path) -> Dict[str, bytes]:
    return {
        str(path.relative_to(folder)): path.read_bytes()
        for path in folder.rglob("*")
        if path.is_file()
    }


class Site(InTemporary):
    def built(self, name: str, umask: int, **variables: str) -> pathlib.Path:
        """The folder of a site that is built with these variables."""
        out = self.folder / name
        words = [DEBIANS_PYTHON, str(TOP / "tools" / "site"), "--out", str(out)]
        result = subprocess.run(
            words,
            env={**os.environ, **variables},
            umask=umask,
            capture_output=True,
            text=True,
        )
        # the first build compiles the page's program, and shows how far it is
        errors = [
            line for line in result.stderr.splitlines() if "compiling" not in line
        ]
        self.assertEqual((result.returncode, errors), (0, []))
        return out

    def test_commands_on_a_network_are_followed_by_a_link_to_the_page(self) -> None:
        text = """Play:

    ./arena-lab run --network ring:8 --runs 3 \\
        --agent x
    ./arena-lab run --network ring:99

1. A list

    ./arena-lab run --network ring:8

End.
"""
        lines = site_links.with_play_links(text, "../", ["ring:8", "ring:3"])
        added_lines = [
            line for line in lines.split("\n") if line not in text.split("\n")
        ]
        self.assertEqual(len(added_lines), 1)
        self.assertLess(lines.index(added_lines[0]), lines.index("1. A list"))
        self.assertRegex(
            added_lines[0],
            r"^\[Open ring:8 in the browser\]\(\.\./play/index\.html#[\w-]+\)$",
        )
        self.assertIn("ring:8", folder.networks())

    @unittest.skipUnless(has_mkdocs(), "Debian's mkdocs-material is not installed")
    def test_it_is_built_and_each_link_leads_somewhere(self) -> None:
        out = self.built("site", 0o022, TZ="UTC", LC_ALL="C", SOURCE_DATE_EPOCH="1")
        far = {"TZ": "Pacific/Kiritimati", "LC_ALL": "C.UTF-8"}
        second = self.built("other", 0o077, SOURCE_DATE_EPOCH="1700000000", **far)
        files = files_of(out)
        self.assertEqual(files, files_of(second))
        self.assertLess(sum(map(len, files.values())), 7_500_000)
        here = str(TOP).encode()
        self.assertEqual([file for file, text in files.items() if here in text], [])
        for page, text in (
            ("index.html", "find the black hole in a network"),
            (
                "docs/THEOREMS.html",
                "contracts/bhs_model.html#laws-replies_are_of_pasts",
            ),
            ("contracts/bhs_model.html", 'id="laws-replies_are_of_pasts"'),
            ("api.html", 'id="arena_lab.api.explore"'),
            ("commands.html", "<code>arena-lab page</code>"),
            ("matches/guess0.html", "guess0.jsonl"),
            ("docs/PROTOCOLS.html", ">Open ring:8 in the browser</a>"),
        ):
            self.assertIn(text, (out / page).read_text(encoding="utf-8"), page)
        if HAS_BROWSER:
            module_name = "tests.browser.site_in_browser"
            words = [DEBIANS_PYTHON, "-m", module_name, str(out)]
            result = subprocess.run(words, cwd=TOP, capture_output=True, text=True)
            self.assertEqual(result.returncode, 0, result.stdout + result.stderr)
