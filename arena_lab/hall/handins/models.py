"""Hand-ins of teams, what came of grading them, and contests."""
import datetime
import pathlib
from typing import Any, Dict

from django.conf import settings
from django.core.exceptions import ValidationError
from django.db import models
from django.db.models.signals import post_delete
from django.utils import timezone
from django.utils.translation import gettext_lazy as _

from arena_lab.hall.work_steps import Work, remove_folder
from arena_lab.hall.teams.models import Team


# a contest that is to begin now may begin by this much late
LATE = datetime.timedelta(minutes=1)


class Contest(models.Model):
    """A window in which programs are handed in that are graded on networks of their
    own."""

    name = models.CharField(_("name"), max_length=80)
    networks = models.JSONField(_("networks"))
    start = models.DateTimeField(_("start"))
    end = models.DateTimeField(_("end"))
    freeze = models.DateTimeField(
        _("freeze"),
        null=True,
        blank=True,
        help_text=_(
            "from then on its table does not change for teams until you unveil it"
        ),
    )

    class Meta:
        verbose_name = _("contest")
        verbose_name_plural = _("contests")
        ordering = ["-start"]

    def __str__(self) -> str:
        return str(self.name)

    def clean(self) -> None:
        """Refuses networks that the course does not have, and times that cannot be."""
        faults: Dict[str, Any] = {}
        unknown = sorted(set(self.networks or []) - set(settings.HALL.nets))
        if unknown or not self.networks:
            faults["networks"] = _("name networks of the course: %(names)s") % {
                "names": ", ".join(settings.HALL.nets)
            }
        before = (
            Contest.objects.filter(pk=self.pk).values_list("start", flat=True).first()
        )
        if self.start and self.start != before and self.start < timezone.now() - LATE:
            faults["start"] = _("the start has passed")
        if self.start and self.end and self.end <= self.start:
            faults["end"] = _("the end comes before the start")
        if (
            self.freeze
            and self.start
            and self.end
            and not self.start <= self.freeze <= self.end
        ):
            faults["freeze"] = _("the freeze is not between the start and the end")
        if faults:
            raise ValidationError(faults)


class Extension(models.Model):
    """A deadline of a team's own."""

    team = models.ForeignKey(Team, models.CASCADE)
    contest = models.ForeignKey(
        Contest,
        models.CASCADE,
        null=True,
        blank=True,
        help_text=_("empty for the deadline of the course"),
    )
    until = models.DateTimeField(_("deadline"))

    class Meta:
        verbose_name = _("deadline of a team")
        verbose_name_plural = _("deadlines of teams")
        ordering = ["-until"]

    def __str__(self) -> str:
        return f"{self.team}, {timezone.localtime(self.until):%Y-%m-%d %H:%M}"


class HandIn(models.Model):
    """A program handed in for the course or for a contest. Its files never change."""

    team = models.ForeignKey(Team, models.CASCADE, related_name="hand_ins")
    contest = models.ForeignKey(
        Contest, models.PROTECT, null=True, blank=True, related_name="hand_ins"
    )
    at = models.DateTimeField(default=timezone.now)
    name = models.CharField(max_length=80)
    size = models.PositiveIntegerField()
    files = models.PositiveIntegerField()
    digest = models.CharField(max_length=64)

    class Meta:
        verbose_name = _("hand-in")
        verbose_name_plural = _("hand-ins")
        ordering = ["-pk"]

    def __str__(self) -> str:
        return f"{self.pk}"

    @property
    def folder(self) -> pathlib.Path:
        return pathlib.Path(settings.PLACE.folder) / "hand-ins" / str(self.pk)


post_delete.connect(remove_folder, HandIn)


class Grading(Work):
    """A hand-in is graded at once, by draws of its own, or after the deadline by the
    secret draw, which is the same for all teams."""

    hand_in = models.ForeignKey(HandIn, models.CASCADE, related_name="gradings")
    is_secret = models.BooleanField(default=False)
    solved = models.PositiveIntegerField(default=0)
    matches = models.PositiveIntegerField(default=0)
    moves = models.PositiveIntegerField(default=0)
    lost = models.PositiveIntegerField(default=0)
    # the bytes of its results
    size = models.BigIntegerField(default=0)
    # of each network how many matches were solved, of how many
    networks = models.JSONField(default=dict)

    class Meta:
        verbose_name = _("grading")
        verbose_name_plural = _("gradings")
        ordering = ["-pk"]
        unique_together = [("hand_in", "is_secret")]

    @property
    def folder(self) -> pathlib.Path:
        """Returns the folder of its results."""
        return self.hand_in.folder / ("secret" if self.is_secret else "public")
