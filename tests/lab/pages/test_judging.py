"""What the Python model says of a replay: the verdict and causal pasts that the program
says of it."""

from arena_lab.pages import judging
from arena_lab.play.agent_files import TOP
from arena_lab.rules.engines import EngineRefusedError
from arena_lab.rules.model import Verdict
from tests.support.output import InTemporary

EXAMPLES = TOP / "examples"


class Judging(InTemporary):
    def test_verdicts_are_those_of_the_examples(self) -> None:
        for name, verdict in (
            ("first0.jsonl", Verdict("solved", 13, 1)),
            ("guess0.jsonl", Verdict("guess 1", 0, 0)),
            ("triangle0.jsonl", Verdict("silent", 1, 0)),
            ("guess.twin", Verdict("wrong", 0, 0)),
        ):
            self.assertEqual(judging.verdict_of(None, EXAMPLES / name), verdict)

    def test_a_causal_past_is_that_of_the_example(self) -> None:
        lines = (EXAMPLES / "first.explained").read_text(encoding="utf-8").splitlines()
        places = [int(line.partition(" ")[0]) for line in lines]
        self.assertEqual(
            judging.pasts_of(None, EXAMPLES / "first0.jsonl", [1]), {1: places}
        )

    def test_what_is_no_replay_is_refused(self) -> None:
        text = (EXAMPLES / "first0.jsonl").read_text(encoding="utf-8")
        lines = text.splitlines(keepends=True)
        path = self.folder / "it.jsonl"
        for bent in (
            "",
            "{}\n",
            "x",
            text[:-1],
            "".join(lines[:-2] + lines[-1:]),
            text.replace("noted", "bye"),
            text.replace('"agent":1', '"agent":9'),
            text.replace('"port":0', '"port":"0"'),
        ):
            path.write_text(bent, encoding="utf-8")
            with self.assertRaisesRegex(
                EngineRefusedError,
                "it.jsonl: this is no replay of a match by the rules",
            ):
                judging.verdict_of(None, path)
