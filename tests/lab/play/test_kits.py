"""Kits are copied whole, to new folders, and their READMEs name the commands that
`./arena-lab new` names."""

from arena_lab.__main__ import main
from arena_lab.play.agent_files import AGENTS
from arena_lab.play.kits import KITS, BUILD_OUTPUTS, play_command, write_kit
from arena_lab.support.faults import ArenaError
from tests.support.output import InTemporary, run_call


class Kits(InTemporary):
    def test_a_kit_is_copied_without_what_building_made(self) -> None:
        for language, kit in KITS.items():
            with self.subTest(language):
                write_kit(language, self.folder / language)
                results = {path.name for path in (self.folder / language).iterdir()}
                kept_folder = {
                    path.name
                    for path in (AGENTS / language).iterdir()
                    if path.name not in BUILD_OUTPUTS
                }
                self.assertEqual(kept_folder | set(kit.shared_files), results)
                self.assertFalse(results & set(BUILD_OUTPUTS))

    def test_nothing_is_overwritten(self) -> None:
        (self.folder / "mine.py").write_text("mine\n")
        with self.assertRaises(ArenaError):
            write_kit("python", self.folder)
        self.assertEqual([self.folder / "mine.py"], list(self.folder.iterdir()))

    def test_readmes_have_the_commands(self) -> None:
        for language, kit in KITS.items():
            text = (AGENTS / language / "README.md").read_text(encoding="utf-8").split()
            for command in filter(None, (kit.build, kit.test, play_command(kit))):
                with self.subTest(language, command=command):
                    self.assertIn(
                        " ".join(command.split()), " ".join(text).replace('"', "")
                    )

    def test_it_says_how_to_go_on(self) -> None:
        status, output, _ = run_call(main, ["new", "c", str(self.folder / "my agent")])
        self.assertEqual(status, 0)
        for expectation in (
            f"cd '{self.folder / 'my agent'}'\n",
            "    make\n",
            "    make test\n",
            '--command "./careful {host} {port} {key} {nodes}"\n',
        ):
            self.assertIn(expectation, output)
