"""Debian's packages that the tests need: which there are, which are missing, and how
they are installed."""
import os
import pathlib
import subprocess
import tomllib
from typing import Dict, List, Optional, Sequence

LIST = pathlib.Path(__file__).resolve().with_name("packages.toml")
# fails quickly without a network, but waits while another process installs
APT = [
    "apt-get",
    "-q",
    "-y",
    "-o",
    "Acquire::Retries=0",
    "-o",
    "Acquire::http::Timeout=20",
    "-o",
    "DPkg::Lock::Timeout=300",
]


def groups(table: str) -> Dict[str, List[str]]:
    """The groups of a table of the list."""
    packages: Dict[str, List[str]] = tomllib.loads(LIST.read_text(encoding="utf-8"))[
        table
    ]
    return packages


def package_names(*tables: str) -> List[str]:
    """The packages of these tables."""
    return [
        package
        for table in tables
        for group in groups(table).values()
        for package in group
    ]


def missing(packages: Sequence[str]) -> List[str]:
    """Returns the packages that are not installed."""
    try:
        result = subprocess.run(
            ["dpkg-query", "-W", "-f", "${Package} ${db:Status-Status}\n", *packages],
            capture_output=True,
            text=True,
        )
    except FileNotFoundError:
        return list(packages)
    there = {
        line.split()[0]
        for line in result.stdout.splitlines()
        if line.endswith(" installed")
    }
    return [package for package in packages if package not in there]


def advice(packages: Sequence[str]) -> str:
    """What installs these packages."""
    return f"apt-get install {' '.join(packages)}"


def apt(*words: str, folder: Optional[pathlib.Path] = None) -> bool:
    """Runs a command of apt-get in a folder, which tells on standard error what it
    does: whether it succeeded."""
    try:
        return (
            subprocess.run(
                [*APT, *words],
                cwd=folder,
                stdin=subprocess.DEVNULL,
                stdout=2,
                env={**os.environ, "DEBIAN_FRONTEND": "noninteractive"},
            ).returncode
            == 0
        )
    except FileNotFoundError:
        return False


def install(packages: Sequence[str]) -> str:
    """Installs missing packages, if run as root. Returns "" on success, else a line
    that names the packages to install."""
    absent = missing(packages)
    if absent and os.geteuid() == 0:
        words = ["install", "--no-install-recommends", *absent]
        apt(*words) or apt("update") and apt(*words)
        absent = missing(packages)
    return (
        f"not installed, and tests that need it are skipped; as root: {advice(absent)}"
        if absent
        else ""
    )


def fetch_source(package: str, folder: pathlib.Path) -> Optional[pathlib.Path]:
    """The archive of a package's sources, fetched into a folder from where this machine
    has its packages: nothing if it cannot be. No list of apt-get's own is changed."""
    source_list = folder / "sources.list"
    places = {
        "Dir::State::Lists": folder / "lists",
        "Dir::Cache": folder / "cache",
        "Dir::Etc::SourceList": source_list,
        "Dir::Etc::SourceParts": "/dev/null",
        "APT::Sandbox::User": "root",
    }
    for folder_name in ("lists/partial", "cache/archives/partial"):
        (folder / folder_name).mkdir(parents=True)
    try:
        result = subprocess.run(
            [
                APT[0],
                "indextargets",
                "--format",
                "deb-src $(REPO_URI) $(RELEASE) main",
                "Created-By: Packages",
                "Component: main",
            ],
            capture_output=True,
            text=True,
        )
    except FileNotFoundError:
        return None
    source_list.write_text(result.stdout.partition("\n")[0])
    options = [
        word for name, value in places.items() for word in ("-o", f"{name}={value}")
    ]
    apt(*options, "update", folder=folder) and apt(
        *options, "source", "--download-only", "--tar-only", package, folder=folder
    )
    return next(folder.glob(f"{package}_*.orig.tar.*"), None)
