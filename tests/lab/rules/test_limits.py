"""The limits that the lab, its tests and the benchmarks know are those of the program's
model, and stand in one place."""
import re
import unittest

from arena_lab.rules import limits
from arena_lab.support.built import TOP
from tools.size import tracked_files

RUST = re.compile(r"^pub const (MAX|SMALL)_(\w+): \w+ = ([\d_]+);", re.M)
# a limit that a module states by itself
STATED = re.compile(
    r"^(?:MAX|SMALL)_(?:AGENTS|NODES|QUOTA|BOARD|LINE|TEXT|SCRIPT)\b[^=\n]*= *\d",
    re.M,
)
# what no Python asks for: how many reads a rehearsal may take
ALONE = {"MAX_TURNS"}


class Limits(unittest.TestCase):
    def test_they_are_those_of_the_model(self) -> None:
        sources = (
            TOP / "crates" / path
            for path in ("bhs_model/src/limits.rt", "bhs_net/src/faults.rt")
        )
        model = {
            f"{kind}_{name}": int(number.replace("_", ""))
            for source in sources
            for kind, name, number in RUST.findall(source.read_text(encoding="utf-8"))
        }
        ours = {name: value for name, value in vars(limits).items() if name.isupper()}
        self.assertEqual(
            {name: value for name, value in model.items() if name not in ALONE}, ours
        )

    def test_no_other_module_states_one(self) -> None:
        texts = (
            (str(path.relative_to(TOP)), path.read_text(encoding="utf-8"))
            for path in tracked_files("*.py")
        )
        self.assertEqual(
            [
                (path, line)
                for path, text in texts
                for line in STATED.findall(text)
                if path != "arena_lab/rules/limits.py"
            ],
            [],
        )
