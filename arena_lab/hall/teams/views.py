"""Pages for login and logout of teams."""
from typing import Any, Callable

from django import forms
from django.db import transaction
from django.db.models import Q
from django.http import Http404, HttpResponse
from django.shortcuts import get_object_or_404, redirect, render
from django.utils.translation import gettext_lazy as _
from django.views.decorators.debug import sensitive_post_parameters
from django.views.decorators.http import require_POST
from rest_framework.exceptions import Throttled

from arena_lab.hall.teams import logins
from arena_lab.hall.teams.models import Message, Team

# how many questions of a team may wait for an answer
MAX_WAITING = 5


class Token(forms.Form):
    """The form of a token."""

    token = forms.CharField(
        label=_("Token"),
        max_length=100,
        widget=forms.PasswordInput(
            attrs={"autocomplete": "current-password", "autofocus": True}
        ),
    )


@sensitive_post_parameters()
def login(request: Any) -> HttpResponse:
    """Asks for a token."""
    form = Token(request.POST or None)
    status = 400 if request.method == "POST" else 200
    if form.is_valid():
        try:
            team = logins.team_of_token(request, form.cleaned_data["token"])
        except Throttled:
            team = None
            status = 429
        if team is not None:
            logins.log_in(request, team)
            return redirect("/matches")
        form.add_error("token", logins.WAIT if status == 429 else logins.WRONG)
        status = max(status, 403)
    return render(request, "login.html", {"form": form}, status=status)


@require_POST
def logout(request: Any) -> HttpResponse:
    request.session.flush()
    return redirect("/")


def for_teams(view: Callable[..., HttpResponse]) -> Callable[..., HttpResponse]:
    """A page for teams alone."""

    def view_for(request: Any, *words: Any, **options: Any) -> HttpResponse:
        return view(request, *words, **options) if request.team else redirect("/login")

    return view_for


class Question(forms.ModelForm):
    """The form of a question."""

    class Meta:
        model = Message
        fields = ["text"]
        labels = {"text": _("Your question")}
        widgets = {"text": forms.Textarea(attrs={"rows": 4})}


@for_teams
def messages(request: Any) -> HttpResponse:
    """Announcements, questions and answers, and a form for a question of the team that
    asks."""
    form = Question(request.POST if request.method == "POST" else None)
    status = 200
    if form.is_bound:
        with transaction.atomic():
            # requests at the same time are taken one after the other
            Team.objects.select_for_update().get(pk=request.team.pk)
            waiting = Message.objects.filter(team=request.team, answer="").count()
            if waiting < MAX_WAITING and form.is_valid():
                Message.objects.create(
                    team=request.team, text=form.cleaned_data["text"]
                )
                return redirect("/messages")
        status = 400 if waiting < MAX_WAITING else 429
        if status == 429:
            form.add_error("text", _("your questions wait for answers: wait for one"))
    rows = Message.objects.filter(
        Q(team=None) | Q(team=request.team) | Q(is_public=True) & ~Q(answer="")
    )
    return render(
        request, "messages.html", {"messages": rows[:100], "form": form}, status=status
    )


def owned_row(
    request: Any, kind: Any, number: int, right: str, who: str = "team"
) -> Any:
    """Returns the row of this number if it belongs to the requesting team, or if staff
    with the permission `right` asks; else raises Http404."""
    row = get_object_or_404(kind.objects.select_related("team"), pk=number)
    if (
        getattr(request, who) == row.team
        or request.user.is_staff
        and request.user.has_perm(right)
    ):
        return row
    raise Http404
