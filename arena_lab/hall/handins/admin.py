"""What the teacher sees, does and shows of hand-ins and contests."""
from typing import Any, Sequence

from django import forms
from django.conf import settings
from django.contrib import admin
from django.core.exceptions import ValidationError
from django.utils import timezone
from django.utils.html import format_html
from django.utils.translation import gettext_lazy as _

from arena_lab.hall import machine
from arena_lab.hall.handins.models import Contest, Extension, Grading, HandIn
from arena_lab.hall.handins.windows import window_of
from arena_lab.hall.standings.models import Reveal
from arena_lab.hall.standings.team_tables import teams_without_grade
from arena_lab.hall.teams.admin import ReadOnlyAdmin
from arena_lab.hall.teams.models import Team


@admin.register(Grading)
class Gradings(ReadOnlyAdmin):
    """All gradings, newest first."""

    list_display = (
        "pk",
        "team",
        "hand_in",
        "is_secret",
        "state",
        "solved",
        "matches",
        "moves",
        "lost",
        "fault",
        "link",
    )
    list_filter = ("state", "is_secret", "hand_in__contest", "hand_in__team")
    list_select_related = ("hand_in", "hand_in__team")
    fields = readonly_fields = list_display[1:-1]
    actions = ("again",)

    @admin.display(description=_("team"))
    def team(self, grading: Grading) -> str:
        return str(grading.hand_in.team)

    @admin.display(description="")
    def link(self, grading: Grading) -> str:
        return format_html(
            '<a href="/hand-ins/{}/result/">{}</a>', grading.hand_in_id, _("look")
        )

    @admin.action(description=_("Grade again"), permissions=["change"])
    def again(self, request: Any, chosen: Any) -> None:
        for grading in chosen.filter(state__in=machine.ENDED):
            hand_in = grading.hand_in
            is_secret = grading.is_secret
            grading.delete()
            new_grading = Grading.objects.create(hand_in=hand_in, is_secret=is_secret)
            self.log_change(
                request,
                new_grading,
                f"hand-in {hand_in.pk} of {hand_in.team.name} is graded again",
            )


@admin.register(HandIn)
class HandIns(ReadOnlyAdmin):
    """All hand-ins, newest first, with their sources."""

    list_display = ("pk", "team", "contest", "at", "name", "files", "size", "link")
    list_filter = ("contest", "team")
    list_select_related = ("team", "contest")
    fields = readonly_fields = (
        "team",
        "contest",
        "at",
        "name",
        "files",
        "size",
        "digest",
    )

    @admin.display(description="")
    def link(self, hand_in: HandIn) -> str:
        return format_html('<a href="/hand-ins/{}">{}</a>', hand_in.pk, _("look"))


class ContestForm(forms.ModelForm):
    """The form of a contest, whose networks are chosen."""

    networks = forms.MultipleChoiceField(
        label=_("networks"), widget=forms.CheckboxSelectMultiple
    )

    def __init__(self, *args: Any, **options: Any) -> None:
        super().__init__(*args, **options)
        if "networks" in self.fields:
            self.fields["networks"].choices = [
                (name, name) for name in settings.HALL.nets
            ]


@admin.register(Contest)
class Contests(admin.ModelAdmin):
    """Contests in the admin. A started contest keeps its fields."""

    form = ContestForm
    list_display = ("name", "start", "end", "freeze")

    def get_readonly_fields(self, request: Any, contest: Any = None) -> Sequence[str]:
        return (
            ("networks", "start")
            if contest is not None and contest.start <= timezone.now()
            else ()
        )


@admin.register(Extension)
class Extensions(admin.ModelAdmin):
    """Deadlines of teams."""

    list_display = ("team", "contest", "until")


class RevealForm(forms.ModelForm):
    """The form of an unveiling. A table in which hand-ins are not graded is not unveiled
    unawares."""

    anyway = forms.BooleanField(
        label=_("anyway"),
        required=False,
        help_text=_("unveil it also if hand-ins are not graded"),
    )

    def clean(self) -> Any:
        values = super().clean()
        window = window_of(values.get("contest"))
        if (
            values.get("what") != Reveal.SECRET
            or values.get("anyway")
            or window is None
        ):
            return values
        teams_left = Team.objects.filter(
            pk__in=teams_without_grade(window), hidden=False
        )
        if teams_left:
            raise ValidationError(
                _("The last hand-ins of these teams are not graded: %(names)s")
                % {"names": ", ".join(map(str, teams_left))}
            )
        return values


@admin.register(Reveal)
class Reveals(admin.ModelAdmin):
    """Shows what a freeze hides, or what came of the secret draw."""

    form = RevealForm
    list_display = ("contest", "what", "at")
