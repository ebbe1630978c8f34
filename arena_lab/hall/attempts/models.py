"""Matches that teams practise. Nothing here says where black holes are: only the files
of a match do, until it is closed."""
import pathlib
from typing import Any, Dict

from django.conf import settings
from django.db import models
from django.db.models.signals import post_delete
from django.utils import timezone
from django.utils.translation import gettext_lazy as _

from arena_lab.hall.work_steps import StoredWork, Work, remove_folder
from arena_lab.hall.teams.models import Team

# what came of a match: the verdict of the program, or that nobody has entered; after a
# fault of the machine, such as a full disk, agents may have entered before it
ABSENT = "absent"
CUT = "cut"


class Attempt(StoredWork):
    """A match that a team has requested. Attempts of earlier versions may have several
    matches."""

    FOLDERS = "attempts"
    team = models.ForeignKey(Team, models.CASCADE, related_name="attempts")
    network = models.CharField(max_length=60)
    # the team has asked that its match be closed now
    closing = models.BooleanField(default=False)

    class Meta:
        verbose_name = _("match")
        verbose_name_plural = _("matches")
        ordering = ["-pk"]
        indexes = [models.Index(fields=["team", "asked"], name="attempts_of_team")]


post_delete.connect(remove_folder, Attempt)


class Match(models.Model):
    """A match of an attempt: address and port of its server, keys, and its verdict
    after the end."""

    attempt = models.ForeignKey(Attempt, models.CASCADE, related_name="matches")
    number = models.PositiveSmallIntegerField()
    run = models.PositiveSmallIntegerField()
    host = models.CharField(max_length=255)
    port = models.PositiveIntegerField()
    keys = models.JSONField()
    # map and home base, for networks whose teams receive them
    map = models.JSONField(null=True)
    since = models.DateTimeField(default=timezone.now)
    outcome = models.CharField(max_length=20, blank=True, default="")
    moves = models.PositiveIntegerField(default=0)
    lost = models.PositiveIntegerField(default=0)

    class Meta:
        verbose_name = _("match")
        verbose_name_plural = _("matches")
        ordering = ["number"]
        unique_together = [("attempt", "number")]

    @property
    def prefix(self) -> pathlib.Path:
        """With what the names of its files begin, as --replay names it."""
        return self.attempt.folder / f"run{self.run}" / f"match{self.number}" / "m"

    @property
    def replay(self) -> pathlib.Path:
        return self.prefix.with_name("m0.jsonl")

    @property
    def part(self) -> pathlib.Path:
        return self.prefix.with_name("m0.jsonl.part")

    @property
    def page(self) -> pathlib.Path:
        return self.prefix.with_name("m0.html")


class Pages(Work):
    """A job that writes the pages of a finished attempt."""

    attempt = models.OneToOneField(Attempt, models.CASCADE, related_name="pages")


class Worker(models.Model):
    """A process that claims work, and when it last announced itself, by the clock of the
    database."""

    name = models.CharField(max_length=8, unique=True)
    contact = models.DateTimeField()


def facts(network: str) -> Dict[str, Any]:
    """Returns the public facts of a network of the hall."""
    net = settings.HALL.nets.get(network)
    return (
        {}
        if net is None
        else {
            "nodes": net.network.nodes,
            "links": len(net.network.links),
            "agents": net.agents,
            "holes": net.holes,
            "quota": net.quota,
            "board": net.board,
        }
    )
