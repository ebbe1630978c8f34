"""Finds the files of a Python program (its own and those imported) by parsing the
sources."""
import ast
import functools
import hashlib
import importlib.util
import os
import pathlib
import sys
from importlib.machinery import PathFinder
from typing import Dict, Iterable, List, NamedTuple, Optional, Sequence, Set, Tuple

# calls that import the module whose name is their first argument
CALLS = ("import_module", "__import__")
SUFFIX = ".py"
# what stands before the name of an installed package
PACKAGE = "package "
# a longer text is not looked into: it may be a stranger's, and made to take long
MAX_BYTES = 1 << 18


class Module(NamedTuple):
    """A module: its file, unless it is a folder alone, and the package from which its
    own imports are relative."""

    file: Optional[pathlib.Path]
    package: str


class Reader:
    """Reads a program's files, each once, and follows imports that lead to these
    folders."""

    def __init__(self, folders: Sequence[str]) -> None:
        self.files: Dict[pathlib.Path, pathlib.Path] = {}
        # modules that none of the folders contains
        self.elsewhere: Set[str] = set()
        self._folders = folders

    def read_file(self, path: pathlib.Path, package: str = "") -> None:
        """Reads a file, and what it imports, however long the chain of imports is."""
        waiting = [(path, package)]
        while waiting:
            path, package = waiting.pop()
            if path.resolve() in self.files:
                continue
            self.files[path.resolve()] = path
            if path.suffix == SUFFIX:
                imported_files = [
                    file
                    for name in names_in(path.read_bytes())
                    for file in self._files_of(name, package)
                ]
                # the first is taken next
                waiting += reversed(imported_files)

    def follow(self, name: str, package: str = "") -> None:
        """Reads the module of a name, which a file of this package imports."""
        for file, inside in self._files_of(name, package):
            self.read_file(file, inside)

    def _files_of(self, name: str, package: str) -> List[Tuple[pathlib.Path, str]]:
        """The files of a module's name, each with the package from which its own
        imports are relative."""
        modules = modules_of(name, package, self._folders)
        if not modules and not name.startswith("."):
            self.elsewhere.add(name.partition(".")[0])
        return [(module.file, module.package) for module in modules if module.file]


@functools.lru_cache(maxsize=256)
def names_in(text: bytes) -> Tuple[str, ...]:
    """Returns the modules that a program imports at any place, and names imported from
    them, which may be modules as well."""
    try:
        nodes = list(ast.walk(ast.parse(text))) if len(text) <= MAX_BYTES else []
    except (MemoryError, RecursionError, SyntaxError, SystemError, ValueError):
        return ()
    import_names: List[str] = []
    for node in nodes:
        if isinstance(node, ast.Import):
            import_names += [name.name for name in node.names]
        elif isinstance(node, ast.ImportFrom):
            base = "." * node.level + (node.module or "")
            between = "" if base.endswith(".") else "."
            import_names += [
                base,
                *(
                    f"{base}{between}{name.name}"
                    for name in node.names
                    if name.name != "*"
                ),
            ]
        elif isinstance(node, ast.Call) and node.args:
            function = node.func
            first = node.args[0]
            name = (
                function.attr
                if isinstance(function, ast.Attribute)
                else getattr(function, "id", None)
            )
            if (
                name in CALLS
                and isinstance(first, ast.Constant)
                and isinstance(first.value, str)
            ):
                import_names.append(first.value)
    return tuple(dict.fromkeys(import_names))


def modules_of(name: str, package: str, folders: Sequence[str]) -> List[Module]:
    """Returns the modules that an import of this name executes, if the folders contain
    them."""
    try:
        full = (
            importlib.util.resolve_name(name, package) if name.startswith(".") else name
        )
    except ImportError:
        return []
    modules: List[Module] = []
    where = list(folders)
    path = ""
    for part in filter(None, full.split(".")):
        path = f"{path}.{part}" if path else part
        # by its last part: a folder without __init__.py would look its parent up among
        # loaded modules
        spec = PathFinder.find_spec(part, where)
        if spec is None:
            break
        inside = spec.submodule_search_locations
        file = pathlib.Path(spec.origin) if spec.origin and spec.has_location else None
        modules.append(
            Module(file, path if inside is not None else path.rpartition(".")[0])
        )
        if inside is None:
            break
        where = [
            folder
            for folder in (
                os.path.join(folder_of_part, part) for folder_of_part in where
            )
            if os.path.isdir(folder)
        ]
    return modules


def files_behind(
    path: pathlib.Path, folders: Sequence[str] = (), extra: Iterable[str] = ()
) -> Dict[str, str]:
    """Returns the SHA-256 of a file, of each file that it imports from its own folder
    or from `folders`, and of each installed package imported. `extra` names further
    modules. Names of files are relative to the working folder."""
    reader = Reader([str(path.parent.resolve()), *folders])
    reader.read_file(path)
    for name in extra:
        reader.follow(name)
    file_digests = {
        relative_name(file): digest_of(file) for file in reader.files.values()
    }
    packages = (
        {f"{PACKAGE}{name}": package_digest(name) for name in sorted(reader.elsewhere)}
        if folders
        else {}
    )
    return {
        **file_digests,
        **{name: digest for name, digest in packages.items() if digest},
    }


def relative_name(path: pathlib.Path) -> str:
    """A file's path from the working folder if it is in there, else its whole path."""
    if not path.is_absolute():
        return str(path)
    short = os.path.relpath(path)
    return str(path) if short.startswith(os.pardir) else short


def digest_of(path: pathlib.Path) -> str:
    """Returns the SHA-256 of a file, or "" if it does not exist."""
    return hashlib.sha256(path.read_bytes()).hexdigest() if path.is_file() else ""


def digest_named(name: str) -> str:
    """The SHA-256 of the file or of the installed package that a name in `files_behind`
    means."""
    return (
        package_digest(name[len(PACKAGE) :])
        if name.startswith(PACKAGE)
        else digest_of(pathlib.Path(name))
    )


def digest_of_all(paths: Iterable[pathlib.Path], folder: pathlib.Path) -> str:
    """The SHA-256 of files in a folder with their names."""
    digest = hashlib.sha256()
    for path in sorted(paths):
        digest.update(
            f"{path.relative_to(folder)} {digest_of(path)}\n".encode(
                errors="surrogateescape"
            )
        )
    return digest.hexdigest()


@functools.lru_cache(maxsize=None)
def package_digest(name: str) -> str:
    """Returns the SHA-256 over all files of an installed package; "" for the standard
    library and missing packages."""
    spec = None if name in sys.stdlib_module_names else PathFinder.find_spec(name)
    if spec is None:
        return ""
    if spec.submodule_search_locations is None:
        return digest_of(pathlib.Path(spec.origin)) if spec.origin else ""
    folder = pathlib.Path(list(spec.submodule_search_locations)[0])
    files = (
        path
        for path in folder.rglob("*")
        if path.is_file() and "__pycache__" not in path.parts
    )
    return digest_of_all(files, folder)
