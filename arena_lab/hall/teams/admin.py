"""What the teacher sees and does of teams."""
from typing import Any, List

from django.conf import settings
from django.contrib import admin
from django.contrib.admin.models import LogEntry
from django.http import HttpResponse
from django.utils.translation import gettext_lazy as _

from arena_lab.hall.attempts.asking import own_bytes
from arena_lab.hall.keys import HEAD, new_tokens
from arena_lab.hall.standings.views import as_csv, attachment
from arena_lab.hall.teams.models import Entry, Message, Switch, Team

admin.site.site_header = admin.site.site_title = settings.HALL.title
admin.site.index_title = _("Teacher")


class ReadOnlyAdmin(admin.ModelAdmin):
    """An admin of rows that only the hall creates."""

    def has_add_permission(self, request: Any) -> bool:
        return False


@admin.register(Team)
class Teams(admin.ModelAdmin):
    """Teams: new key sheets, hidden or not."""

    list_display = ("name", "display", "hidden", "used_megabytes", "disk")
    list_editable = ("display", "hidden", "disk")
    search_fields = ("name", "display")
    actions = ("draw_tokens",)

    def get_queryset(self, request: Any) -> Any:
        return super().get_queryset(request).filter(is_guest=False)

    @admin.display(description=_("MB used"))
    def used_megabytes(self, team: Team) -> int:
        return own_bytes(team) >> 20

    @admin.action(
        description=_("New key sheets (earlier tokens end)"), permissions=["change"]
    )
    def draw_tokens(self, request: Any, chosen: Any) -> HttpResponse:
        rows: List[List[Any]] = [
            list(HEAD),
            *(list(row) for row in new_tokens(list(chosen), request.user)),
        ]
        return attachment(as_csv(rows), "keys.csv")


@admin.register(Switch)
class Switches(ReadOnlyAdmin):
    """Networks, which are open or closed."""

    list_display = ("network", "is_open")
    list_editable = ("is_open",)


@admin.register(Message)
class Messages(admin.ModelAdmin):
    """Announcements, and questions to be answered."""

    list_display = ("at", "team", "__str__", "answer", "is_public")
    list_filter = ("team", "is_public")
    list_select_related = ("team",)


class Log(ReadOnlyAdmin):
    """A log, which nobody changes."""

    def has_change_permission(self, request: Any, row: Any = None) -> bool:
        return False

    def has_delete_permission(self, request: Any, row: Any = None) -> bool:
        return False


@admin.register(Entry)
class Entries(Log):
    """The hall's log: requests of teams, and actions of the hall."""

    list_display = ("at", "who", "what")
    search_fields = ("who", "what")


@admin.register(LogEntry)
class Doings(Log):
    """Django's log of the actions of teachers and tutors."""

    list_display = ("action_time", "user", "content_type", "__str__")
    list_filter = ("user", "content_type")
    list_select_related = ("user", "content_type")
