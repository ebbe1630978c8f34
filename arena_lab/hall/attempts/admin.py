"""What the teacher sees and does of matches."""
from typing import Any

from django.contrib import admin
from django.utils.html import format_html
from django.utils.translation import gettext_lazy as _

from arena_lab.hall.attempts import asking
from arena_lab.hall.attempts.models import Attempt
from arena_lab.hall.teams.admin import ReadOnlyAdmin


@admin.register(Attempt)
class Attempts(ReadOnlyAdmin):
    """All matches, newest first."""

    list_display = ("pk", "team", "network", "state", "asked", "outcomes", "link")
    list_filter = ("state", "network", "team")
    list_select_related = ("team",)
    fields = readonly_fields = (
        "team",
        "network",
        "state",
        "asked",
        "begun",
        "ended",
        "fault",
    )
    actions = ("close",)

    @admin.display(description=_("outcome"))
    def outcomes(self, attempt: Attempt) -> str:
        return (
            ", ".join(match.outcome for match in attempt.matches.all())
            if attempt.is_over
            else ""
        )

    @admin.display(description="")
    def link(self, attempt: Attempt) -> str:
        return format_html('<a href="/matches/{}">{}</a>', attempt.pk, _("look"))

    @admin.action(description=_("Close now"), permissions=["change"])
    def close(self, request: Any, chosen: Any) -> None:
        for attempt in chosen:
            if asking.close(attempt):
                self.log_change(request, attempt, "closed")
