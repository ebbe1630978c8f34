"""What the teacher has shown."""
from django.db import models
from django.utils import timezone
from django.utils.translation import gettext_lazy as _

from arena_lab.hall.handins.models import Contest


class Reveal(models.Model):
    """The teacher shows something of the table of the course or of a contest: what its
    freeze hides, or what came of the secret draw."""

    FREEZE = "freeze"
    SECRET = "secret"
    contest = models.ForeignKey(
        Contest,
        models.CASCADE,
        null=True,
        blank=True,
        verbose_name=_("contest"),
        help_text=_("empty for the table of the course"),
    )
    what = models.CharField(
        _("what is shown"),
        max_length=10,
        default=FREEZE,
        choices=[
            (FREEZE, _("what the freeze hides")),
            (SECRET, _("what came of the secret draw")),
        ],
    )
    at = models.DateTimeField(default=timezone.now, editable=False)

    class Meta:
        verbose_name = _("unveiling")
        verbose_name_plural = _("unveilings")

    def __str__(self) -> str:
        return f"{self.get_what_display()}: {self.contest or _('the course')}"
