"""The bill of materials of a release, in CycloneDX's form: the crates of the toolchain
that are linked into its programs, and after which Rust crate and version each is. The
same tree and toolchain give the same bytes."""
import json
import pathlib
import re
from typing import Any, Dict, List

from tools.prove import version
from tools.prove.prover import Libraries
from tools.prove.record import below_programs, programs_in

# how a toolchain crate names the Rust crate that it ports
PORTED_LINE = re.compile(r"\b(?:[Cc]rate|[Uu]pstream's) `([\w-]+)` (\d+(?:\.\d+)+)")
NEEDED_LINE = re.compile(r"^dep (\w+)$", re.M)


def linked_crates(kit: pathlib.Path, libraries: Libraries) -> List[str]:
    """The crates of the toolchain that the programs stand on, by name."""
    programs = programs_in(libraries)
    names = ["std"]
    for crate in [*below_programs(libraries, programs), *programs]:
        names += [library for library in libraries[crate] if library not in libraries]
    crates = list(dict.fromkeys(names))
    for name in crates:
        format_file = kit / "rlibs" / f"{name}.rlib" / "format"
        text = format_file.read_text() if format_file.is_file() else ""
        crates += [
            library for library in NEEDED_LINE.findall(text) if library not in crates
        ]
    return sorted(crates)


def component(kit: pathlib.Path, name: str) -> Dict[str, Any]:
    """Describes a crate of the toolchain, with the Rust crate that it ports, if its
    README names one."""
    page = kit / "rattle" / name / "README.md"
    match = PORTED_LINE.search(
        page.read_text(encoding="utf-8") if page.is_file() else ""
    )
    facts: Dict[str, Any] = {
        "type": "library",
        "name": name,
        "version": version.installed_version().partition(" ")[2],
        "group": "rattle",
    }
    if match:
        ancestor = {
            "type": "library",
            "name": match[1],
            "version": match[2],
            "purl": f"pkg:cargo/{match[1]}@{match[2]}",
        }
        facts["pedigree"] = {"ancestors": [ancestor]}
    return facts


def bill_of(kit: pathlib.Path, libraries: Libraries, glibc: str) -> str:
    """The whole bill. The programs also ask the system for a C library of this version
    or a newer one."""
    components = [component(kit, name) for name in linked_crates(kit, libraries)]
    components.append({"type": "library", "name": "glibc", "version": glibc})
    whole = {
        "bomFormat": "CycloneDX",
        "specVersion": "1.4",
        "version": 1,
        "metadata": {
            "component": {
                "type": "application",
                "name": "arena",
                "version": version.version(),
            }
        },
        "components": components,
    }
    return json.dumps(whole, indent=1, ensure_ascii=False) + "\n"
