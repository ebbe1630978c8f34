"""Writes the folder of the page on which one writes agents and has them played in the
browser. It works from a file and from any server of files.

    python3 -m tools.play.folder [--out FOLDER]

It has the program as a WebAssembly module (tools/port/module.py), the editor of a hall's
page, the kit in JavaScript, and the page of a match. tools/site has the folder as `play`.
"""
import argparse
import base64
import gzip
import hashlib
import json
import os
import pathlib
import re
import shutil
import sys
from typing import Dict, List

from arena_lab.course.answers import numberings_of
from arena_lab.course.exercises import (
    TOLD_COMMAND,
    Exercise,
    ExerciseMatch,
    exercises,
)
from arena_lab.pages.match_page import SCRIPTS
from arena_lab.pages.parts import fill_page, part
from arena_lab.rules.networks import network_named
from tools.port import crates, module

HERE = pathlib.Path(__file__).resolve().parent
OUT = crates.TOP / "out" / "play"
CODEMIRROR = pathlib.Path(
    os.environ.get("CODEMIRROR", "/usr/share/javascript/codemirror")
)
EDITOR = ("lib/codemirror.js", "lib/codemirror.css", "mode/javascript/javascript.js")
EDITOR += ("addon/edit/matchbrackets.js",)
STATIC = crates.TOP / "arena_lab" / "hall" / "static"
KIT = crates.TOP / "examples" / "agents" / "javascript"
PAGE = ("index.html", "play.css", "words.js", "networks.js", "exercises.js", "tasks.js")
PAGE += ("replay_data.js", "sharing.js", "fields.js", "checking.js", "play.js")
# the scripts of the worker, which is made of their text: a page from a file may load no worker
WORKER = ("arena.js", "networks.js", "guarded.js", "programs.js", "schedules.js")
WORKER += ("player.js", "exploring.js", "worker.js")
MODULE_TEXT = (
    "Choose the file of a module: what `arena-lab new wasm` and `make` make, or `wasm-rust`.\n"
    "Run plays it, and `Try every schedule` runs it by the interpreter whose source is proved.\n"
    "The arguments of the program are its own, as in careful.wasm:8.\n"
)


def missing() -> str:
    """What must be installed before the page can be made; empty if nothing is missing."""
    lacking = module.missing()
    if not CODEMIRROR.is_dir():
        lacking = f"{lacking or 'apt-get install'} libjs-codemirror"
    return lacking


def networks() -> List[str]:
    """Returns the networks of the page's menu."""
    text = (HERE / "fields.js").read_text(encoding="utf-8")
    menu = re.search(r"const NETWORKS = \[([^]]*)\]", text)
    return re.findall(r'"([^"]+)"', menu[1] if menu else "")


def kits() -> Dict[str, object]:
    """Returns the files of the JavaScript kit: `files` for the editor, `more` for the download."""

    def texts(*names: str) -> Dict[str, str]:
        return {name: (KIT / name).read_text(encoding="utf-8") for name in names}

    return {
        "javascript": {
            "title": "JavaScript",
            "main": "careful.js",
            "command": "node careful.js {host} {port} {key} {nodes}",
            "files": texts("careful.js", "client.js"),
            "more": texts("README.md", "package.json", "client.test.js"),
        }
    }


def exercise_texts() -> Dict[str, object]:
    """Returns what the exercises in JavaScript have of those in Python, by their names."""
    return {
        name: {
            "title": exercise.title,
            "text": exercise.text,
            "hint": exercise.hint,
            "agents": exercise.agents,
            "matches": [match_texts(exercise, match) for match in exercise.matches],
            "isTold": exercise.command == TOLD_COMMAND,
            "every": small_matches(exercise),
        }
        for name, exercise in exercises().items()
    }


def match_texts(exercise: Exercise, match: ExerciseMatch) -> Dict[str, object]:
    """Returns a match of an exercise; its links if its ports are numbered anew."""
    setup = exercise.fixture(match).setup
    links = {} if match.ports is None else {"links": setup.links}
    return {**match._asdict(), **links}


def small_matches(exercise: Exercise) -> List[Dict[str, object]]:
    """Returns the matches of which every schedule is tried: those of each numbering of the
    ports, with each black hole."""
    if not exercise.every:
        return []
    network = network_named(exercise.every)
    return [
        match_texts(exercise, ExerciseMatch(exercise.every, "fair", 0, [hole], ports))
        for ports in numberings_of(exercise, network)
        for hole in range(1, network.nodes)
    ]


def constants(**values: object) -> str:
    """A script that defines these."""
    lines = [f"const {name} = {json.dumps(value)};" for name, value in values.items()]
    return "\n".join(['"use strict";', *lines, ""])


def replay_page() -> str:
    """The page of a match, which waits until the page around it says what to show. It is
    in a sandbox, which loads no script from a file, so the page contains its script, and
    the policy allows the digest of that script."""
    page = fill_page("page.html", title="a match", scripts=(), shown={}, refused=())
    scripts = "\n".join(part(name) for name in SCRIPTS).replace('"use strict";', "")
    scripts = scripts.replace(
        'take(JSON.parse(byId("data").textContent));', "take(given);"
    )
    waiting = (HERE / "replay.js").read_text(encoding="utf-8")
    script = "\n" + waiting.replace("/* the page of a match */", scripts)
    digest = base64.b64encode(hashlib.sha256(script.encode()).digest()).decode()
    head = page.partition('<script type="application/json"')[0]
    head = head.replace("script-src 'unsafe-inline'", f"script-src 'sha256-{digest}'")
    return f"{head}<script>{script}</script>\n</body>\n</html>\n"


def write(out: pathlib.Path) -> None:
    """Writes the folder."""
    (out / "codemirror").mkdir(parents=True, exist_ok=True)
    for name in EDITOR:
        shutil.copyfile(CODEMIRROR / name, out / "codemirror" / pathlib.Path(name).name)
    for name in PAGE:
        shutil.copyfile(HERE / name, out / name)
    for name in ("editor.js", "write.css"):
        shutil.copyfile(STATIC / name, out / name)
    archive = gzip.compress(module.module().read_bytes(), 9, mtime=0)
    worker = "\n".join((HERE / name).read_text(encoding="utf-8") for name in WORKER)
    texts = {
        "arena.wasm.js": constants(ARENA_WASM=base64.b64encode(archive).decode()),
        "worker.text.js": constants(WORKER=worker),
        "kits.js": constants(
            KITS=kits(), MODULE_TEXT=MODULE_TEXT, EXERCISE_TEXTS=exercise_texts()
        ),
        "replay.html": replay_page(),
    }
    for name, text in texts.items():
        (out / name).write_text(text, encoding="utf-8")


def main() -> int:
    parser = argparse.ArgumentParser(
        "python3 -m tools.play.folder",
        description=__doc__,
        formatter_class=argparse.RawDescriptionHelpFormatter,
    )
    parser.add_argument("--out", metavar="FOLDER", type=pathlib.Path, default=OUT)
    args = parser.parse_args()
    lacking = missing()
    if lacking:
        print(f"play: the page cannot be made: {lacking}", file=sys.stderr)
        return 1
    write(args.out)
    print(args.out / "index.html")
    return 0


if __name__ == "__main__":
    sys.exit(main())
