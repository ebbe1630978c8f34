"""Programs that teams write in the browser, one for each kit, and what came of trying
them."""
from django.db import models
from django.db.models.signals import post_delete
from django.utils import timezone
from django.utils.translation import gettext_lazy as _

from arena_lab.hall.work_steps import StoredWork, remove_folder
from arena_lab.hall.teams.models import Team


class Draft(models.Model):
    """A team's version of a kit, file by file. Each change increments a version number,
    so that members who write at the same time do not lose each other's changes."""

    team = models.ForeignKey(Team, models.CASCADE, related_name="drafts")
    language = models.CharField(max_length=40)
    files = models.JSONField(default=dict)
    version = models.PositiveIntegerField(default=0)
    at = models.DateTimeField(default=timezone.now)
    # the bytes of its files
    size = models.BigIntegerField(default=0)
    # of an exercise: whether an answer was right
    is_done = models.BooleanField(default=False)

    class Meta:
        verbose_name = _("draft")
        verbose_name_plural = _("drafts")
        unique_together = [("team", "language")]


class Trial(StoredWork):
    """A match, check or exploration of a draft. It stores the draft's files, and so
    also serves as an earlier version of the draft until they are deleted."""

    FOLDERS = "trials"
    team = models.ForeignKey(Team, models.CASCADE, related_name="trials")
    language = models.CharField(max_length=40)
    kind = models.CharField(max_length=10)
    network = models.CharField(max_length=60)
    scheduler = models.CharField(max_length=20)
    seed = models.PositiveIntegerField(default=0)
    files = models.JSONField(default=dict)
    # what came of it: see arena_lab/course/trials.py
    found = models.JSONField(null=True)
    has_page = models.BooleanField(default=False)

    class Meta:
        verbose_name = _("trial")
        verbose_name_plural = _("trials")
        ordering = ["-pk"]
        indexes = [models.Index(fields=["team", "asked"], name="trials_of_team")]


post_delete.connect(remove_folder, Trial)
