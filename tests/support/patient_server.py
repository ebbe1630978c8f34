"""The server of the lab with turns that wait, so that no test goes by the clock.

    python3 -m tests.support.patient_server serve T --port N --sessions S --turns K --pause MS --replay P

A turn waits until an agent may arrive or be destroyed, however long its client takes.
If the input has ended no turn waits, so the matches are closed. The milliseconds of a
pause are not kept.
"""
import sys
import threading

from arena_lab.__main__ import main
from arena_lab.play import server

is_over = threading.Event()
contests = []


class PatientContest(server.Contest):
    def __init__(self, *args: object) -> None:
        super().__init__(*args)
        contests.append(self)

    def deal(self, game: int, course: server.ServeOptions) -> None:
        super().deal(game, course._replace(pause=0))

    def turn(self, game: int) -> None:
        match = self.matches[game]
        with self.changed:
            self.changed.wait_for(
                lambda: is_over.is_set()
                or any(not match.agents[it].lost for it in match.pool)
            )
            super().turn(game)


def wait_for_the_end() -> None:
    sys.stdin.read()
    is_over.set()
    for contest in contests:
        with contest.changed:
            contest.changed.notify_all()


if __name__ == "__main__":
    server.Contest = PatientContest
    threading.Thread(target=wait_for_the_end, daemon=True).start()
    sys.exit(main())
