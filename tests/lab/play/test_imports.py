"""Which files a program is made of: what it imports is found however it says so."""
import hashlib
import os
import pathlib
from typing import Dict

from arena_lab.play import imports
from arena_lab.play.imports import digest_named, files_behind, names_in
from arena_lab.play.parallel import other_files
from arena_lab.play.teams import INSIDE, OUTSIDE, AgentWords, digests_of
from tests.support.output import InTemporary

FILES = {
    "agent.py": "import one\nfrom two import three\n\n"
    "def search(agent, key):\n    import late\n    from four import *\n",
    "one.py": "import importlib\nimportlib.import_module('named')\n__import__('again')\n",
    "two/__init__.py": "from . import inner\n",
    "two/three.py": "from .deep.er import x\nimport agent\n",
    "two/inner.py": "",
    "two/deep/er.py": "x = 1\n",
    "two/unused.py": "",
    "late.py": "",
    "named.py": "",
    "again.py": "def broken(:\n",
    "unused.py": "",
    "four.py": "import json, missing\n",
    "data.txt": "import unused\n",
}


class Imports(InTemporary):
    def setUp(self) -> None:
        super().setUp()
        self.addCleanup(os.chdir, os.getcwd())
        self.folder = self.folder.resolve()
        for name, text in FILES.items():
            path = self.folder / name
            path.parent.mkdir(parents=True, exist_ok=True)
            path.write_text(text)

    def behind(self, name: str) -> Dict[str, str]:
        return files_behind(self.folder / name)

    def test_each_file_is_followed_once(self) -> None:
        results = {
            os.path.relpath(name, self.folder) for name in self.behind("agent.py")
        }
        self.assertEqual(
            results,
            {
                "agent.py",
                "one.py",
                "two/__init__.py",
                "two/three.py",
                "two/inner.py",
                "two/deep/er.py",
                "late.py",
                "named.py",
                "again.py",
                "four.py",
            },
        )

    def test_digests_are_those_of_the_files(self) -> None:
        for name, digest in self.behind("agent.py").items():
            self.assertEqual(
                digest, hashlib.sha256(pathlib.Path(name).read_bytes()).hexdigest()
            )
        before = self.behind("agent.py")
        (self.folder / "two" / "inner.py").write_text("# changed\n")
        changes = {
            name
            for name, digest in self.behind("agent.py").items()
            if before[name] != digest
        }
        self.assertEqual(changes, {str(self.folder / "two" / "inner.py")})

    def test_names_are_paths_from_the_working_folder(self) -> None:
        os.chdir(self.folder)
        self.assertEqual(
            sorted(files_behind(pathlib.Path("one.py"))),
            ["again.py", "named.py", "one.py"],
        )

    def test_what_is_not_in_python_is_not_looked_into(self) -> None:
        self.assertEqual(list(self.behind("data.txt")), [str(self.folder / "data.txt")])
        self.assertEqual(names_in(b"import a\n" + b"#" * imports.MAX_BYTES), ())
        self.assertEqual(names_in(b"\0"), ())

    def test_an_installed_package_is_one_of_the_files(self) -> None:
        (self.folder / "one.py").write_text("import setuptools, os\n")
        result = files_behind(self.folder / "one.py", [str(self.folder)])
        name = "package setuptools"
        if imports.package_digest("setuptools"):
            self.assertEqual(set(result), {str(self.folder / "one.py"), name})
            self.assertEqual(digest_named(name), result[name])
            self.assertEqual(other_files(result), [])
            self.assertEqual(other_files({**result, name: "other"}), [name])

    def test_an_agent_inside_has_its_client(self) -> None:
        path = self.folder / "two" / "inner.py"
        inside = AgentWords(INSIDE, str(path))
        outside = AgentWords(OUTSIDE, f"python3 {path} {{port}} {{key}}")
        self.assertEqual(
            [pathlib.Path(name).name for name in inside.digests()],
            ["inner.py", "client.py"],
        )
        self.assertEqual(list(outside.digests()), [str(path)])
        self.assertEqual(digests_of([inside, outside, inside]), inside.digests())
