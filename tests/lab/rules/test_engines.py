"""Selects the program that plays, and names it."""
import os
import tempfile
from unittest import mock

from arena_lab.rules.engines import (
    EngineRefusedError,
    program_output,
    name_of,
    program_at,
)
from arena_lab.support import built
from tests.support.output import InTemporary, run_call


class Programs(InTemporary):
    def test_a_program_is_named_or_built(self) -> None:
        with tempfile.NamedTemporaryFile() as file:
            os.chmod(file.name, 0o755)
            self.assertEqual(program_at(file.name), file.name)
        self.assertEqual(
            str(EngineRefusedError("", 6)), "the program ended with status 6"
        )

    def test_a_program_that_is_not_proved_is_told(self) -> None:
        folder = self.folder.resolve()
        refusing = (
            f"echo '{built.UNPROVED_LINE}' >&2\necho 'replay: line 1' >&2\nexit 3\n"
        )
        for name, text, message in (
            ("one", refusing, built.UNPROVED_LINE + "\n"),
            ("two", "exit 0\n", ""),
        ):
            program = folder / name
            program.write_text(f"#!/bin/sh\n{text}")
            program.chmod(0o755)
            with mock.patch.object(built, "any_program", return_value=program):
                self.assertEqual(
                    run_call(program_at, None), (str(program), "", message)
                )
            self.assertEqual(
                name_of(str(program)), built.UNPROVED_NAME if message else built.UNKNOWN
            )
        with self.assertRaises(EngineRefusedError) as refusal:
            program_output(str(folder / "one"), "judge")
        self.assertEqual(str(refusal.exception), "replay: line 1")
