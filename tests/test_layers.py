"""Folders of Python stand on each other in one order, the lab's packages too, and no
module imports one that imports it."""
import ast
import graphlib
import importlib
import importlib.util
import pathlib
import re
import unittest
from typing import Dict, Iterator, List, Set, Tuple

from arena_lab.__main__ import COMMANDS
from arena_lab.support.built import LAB, TOP

# in order: a package imports from itself and from lower packages only; the same holds
# for modules outside of packages
PACKAGES = (
    "support",
    "rules",
    "pages",
    "play",
    "search",
    "sweep",
    "sandbox",
    "submissions",
    "course",
    "hall",
    "api",
    "command_line",
    "commands",
    "__main__",
    "start",
)
# folders from the ground up: a folder imports from itself and from those before it, and
# of its own row from itself alone
FOLDERS = (
    ("arena_lab",),
    ("examples",),
    ("tests.support",),
    ("bench", "tools"),
    ("experiments",),
    ("tests",),
)
# these modules need Django and a hall, which no unit test has: they are read and not
# imported
HALL = "arena_lab.hall."
APP_MODULES = ("__init__", "admin", "api", "formats", "models", "views")


def modules() -> Dict[str, pathlib.Path]:
    """The lab's modules by their names behind `lab.`."""
    paths = [path.relative_to(LAB).with_suffix("") for path in LAB.rglob("*.py")]
    return {
        ".".join(path.parts).removesuffix(".__init__"): LAB / path.with_suffix(".py")
        for path in paths
        if path.parts != ("__init__",)
    }


def imports_of(text: str, names: Set[str]) -> Iterator[str]:
    """Which of the modules a file's text imports, when it is loaded or later."""
    for node in ast.walk(ast.parse(text)):
        results = []
        if isinstance(node, ast.Import):
            results = [it.name for it in node.names]
        elif isinstance(node, ast.ImportFrom) and node.module:
            results = [node.module, *(f"{node.module}.{it.name}" for it in node.names)]
        yield from names.intersection(
            name.removeprefix("arena_lab.")
            for name in results
            if name.startswith("arena_lab.")
        )


def other_programs() -> Iterator[pathlib.Path]:
    """Programs in Python beside the lab, which no type checker reads."""
    for folder in ("bench", "examples", "experiments", "tests", "tools"):
        for path in (TOP / folder).rglob("*"):
            if (
                path.suffix == ".py"
                or path.is_file()
                and path.read_bytes().startswith(b"#!/usr/bin/env python3")
            ):
                yield path


def row_of(module: str) -> Tuple[int, str]:
    """Where a module stands in FOLDERS, by the longest name of a folder that has it,
    and that folder."""
    _, row, folder = max(
        (len(folder), row, folder)
        for row, folders in enumerate(FOLDERS)
        for folder in folders
        if f"{module}.".startswith(f"{folder}.")
    )
    return row, folder


def folder_of(path: pathlib.Path) -> str:
    """The folder of a file, at most two below the top: `tests.program`."""
    return ".".join(path.relative_to(TOP).parent.parts[:2])


def modules_needed(text: str) -> Iterator[str]:
    """The modules of the repository that a file's text imports, when it is loaded or
    later."""
    tops = {it.partition(".")[0] for row in FOLDERS for it in row}
    for node in ast.walk(ast.parse(text)):
        if isinstance(node, ast.Import):
            yield from (
                it.name for it in node.names if it.name.partition(".")[0] in tops
            )
        elif (
            isinstance(node, ast.ImportFrom)
            and node.module
            and node.module.partition(".")[0] in tops
        ):
            for it in node.names:
                name = f"{node.module}.{it.name}"
                yield name if (TOP / name.replace(".", "/")).with_suffix(
                    ".py"
                ).exists() else node.module


def names_taken(text: str) -> Iterator[Tuple[str, str]]:
    """What a file takes out of the lab: modules, and names in them."""
    for node in ast.walk(ast.parse(text)):
        if (
            isinstance(node, ast.ImportFrom)
            and node.module
            and node.module.partition(".")[0] == "arena_lab"
        ):
            yield from ((node.module, it.name) for it in node.names)


def names_defined(module: str) -> Set[str]:
    """The names that a module defines or imports, by its text."""
    spec = importlib.util.find_spec(module)
    text = (
        pathlib.Path(spec.origin).read_text(encoding="utf-8")
        if spec and spec.origin
        else ""
    )
    results: Set[str] = set()
    for node in ast.parse(text).body:
        if isinstance(node, (ast.FunctionDef, ast.ClassDef)):
            results.add(node.name)
        elif isinstance(node, (ast.Import, ast.ImportFrom)):
            results.update(it.asname or it.name for it in node.names)
        else:
            results.update(
                node.id
                for node in ast.walk(node)
                if isinstance(node, ast.Name) and isinstance(node.ctx, ast.Store)
            )
    return results


def packages_of_table() -> List[str]:
    """The packages in the table of the lab's page."""
    table = (
        (LAB / "README.md")
        .read_text(encoding="utf-8")
        .partition("| package | what it has |")[2]
        .partition("\n\n")[0]
    )
    return re.findall(r"^\| `(\w+)` \|", table, re.MULTILINE)


class Folders(unittest.TestCase):
    def setUp(self) -> None:
        self.needed = [
            (path, name)
            for path in other_programs()
            for name in modules_needed(path.read_text(encoding="utf-8"))
        ]
        self.assertGreater(len(self.needed), 500)

    def test_a_folder_stands_on_those_before_it(self) -> None:
        for path, name in self.needed:
            (row, folder) = row_of(folder_of(path))
            (other_row, second) = row_of(name)
            with self.subTest(str(path.relative_to(TOP)), imports=name):
                self.assertTrue(other_row < row or second == folder)

    def test_no_folder_needs_one_that_needs_it(self) -> None:
        graph: Dict[str, Set[str]] = {}
        for path, name in self.needed:
            folder = folder_of((TOP / name.replace(".", "/")).with_suffix(".py"))
            graph.setdefault(folder_of(path), set()).update(
                {folder} - {folder_of(path)}
            )
        self.assertIn(
            "tests.runners", list(graphlib.TopologicalSorter(graph).static_order())
        )


class Packages(unittest.TestCase):
    def setUp(self) -> None:
        paths = modules()
        # a package's own file says what it is for, and imports nothing
        self.graph = {
            name: set(imports_of(path.read_text(encoding="utf-8"), set(paths)))
            - set(PACKAGES[: PACKAGES.index("hall")])
            for name, path in paths.items()
        }

    def test_each_module_stands_in_a_package(self) -> None:
        self.assertEqual({name.partition(".")[0] for name in self.graph}, set(PACKAGES))
        self.assertIn("rules.model", self.graph["rules.rehearsal"])

    def test_commands_have_a_module_each_and_no_other(self) -> None:
        names = {name for name in self.graph if name.startswith("commands.")}
        self.assertEqual(names, {f"commands.{name}" for name in COMMANDS})

    def test_the_name_of_a_module_stands_once(self) -> None:
        """Django names some modules alike in each application."""
        names = [
            path.stem
            for path in modules().values()
            if path.parent.name != "migrations" and path.stem not in APP_MODULES
        ]
        self.assertEqual({name for name in names if names.count(name) > 1}, set())

    def test_a_package_stands_on_those_below(self) -> None:
        for name, rest in self.graph.items():
            for second in rest:
                packages = [
                    PACKAGES.index(it.partition(".")[0]) for it in (name, second)
                ]
                with self.subTest(name, imports=second):
                    self.assertGreaterEqual(packages[0], packages[1])

    def test_no_module_imports_one_that_imports_it(self) -> None:
        order = list(graphlib.TopologicalSorter(self.graph).static_order())
        self.assertEqual(set(order), set(self.graph))

    def test_the_page_of_the_lab_lists_the_packages_in_order(self) -> None:
        self.assertEqual(
            packages_of_table(), list(PACKAGES[: PACKAGES.index("commands") + 1])
        )

    def test_the_head_of_each_module_says_what_it_has(self) -> None:
        silent = [
            name
            for name, path in modules().items()
            if "migrations" not in path.parts
            and not ast.get_docstring(ast.parse(path.read_text(encoding="utf-8")))
        ]
        self.assertEqual(silent, [])

    def test_what_others_take_out_of_the_lab_is_there(self) -> None:
        count = 0
        for path in other_programs():
            for module, name in names_taken(path.read_text(encoding="utf-8")):
                count += 1
                with self.subTest(str(path.relative_to(TOP)), module=module, name=name):
                    is_there = (
                        name in names_defined(module)
                        if module.startswith(HALL)
                        else hasattr(importlib.import_module(module), name)
                    )
                    self.assertTrue(
                        is_there or importlib.util.find_spec(f"{module}.{name}")
                    )
        self.assertGreater(count, 50)

    def test_a_cycle_and_a_package_above_are_told(self) -> None:
        names = {"rules.model", "commands.run", "api"}
        self.assertEqual(
            list(
                imports_of(
                    "def late():\n    from arena_lab.commands import run\n", names
                )
            ),
            ["commands.run"],
        )
        self.assertEqual(
            list(imports_of("import arena_lab.api as lab\n", names)), ["api"]
        )
