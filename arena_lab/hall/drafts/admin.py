"""What the teacher sees and does of trials."""
from typing import Any

from django.contrib import admin
from django.utils.html import format_html
from django.utils.translation import gettext_lazy as _

from arena_lab.hall.drafts import trying
from arena_lab.hall.drafts.models import Trial
from arena_lab.hall.teams.admin import ReadOnlyAdmin


@admin.register(Trial)
class TrialTable(ReadOnlyAdmin):
    """All trials, newest first."""

    list_display = ("pk", "team", "language", "kind", "state", "asked", "fault", "link")
    list_filter = ("state", "kind", "language", "team")
    list_select_related = ("team",)
    fields = readonly_fields = (
        "team",
        "language",
        "kind",
        "network",
        "scheduler",
        "seed",
        "state",
        "asked",
        "begun",
        "ended",
        "fault",
    )
    actions = ("close",)

    @admin.display(description="")
    def link(self, trial: Trial) -> str:
        page = f"/write/trials/{trial.pk}/page"
        label = _("Watch it")
        return format_html('<a href="{}">{}</a>', page, label) if trial.has_page else ""

    @admin.action(description=_("Stop"), permissions=["change"])
    def close(self, request: Any, chosen: Any) -> None:
        for trial in chosen:
            if trying.close(trial):
                self.log_change(request, trial, "stopped")
