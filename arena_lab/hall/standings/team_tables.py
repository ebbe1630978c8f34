"""Computes the table of the course or of a contest, at present or at its freeze."""
from typing import Any, Dict, List, NamedTuple, Set

from django.db import models
from django.utils import timezone

from arena_lab.hall import machine
from arena_lab.hall.handins.models import Grading
from arena_lab.hall.handins.windows import Moment, Window, last_of_teams
from arena_lab.hall.standings import ranking
from arena_lab.hall.standings.models import Reveal
from arena_lab.hall.teams.models import Team


class StandingsTable(NamedTuple):
    """A table of standings: networks, a row per team, whether it is of the secret draw,
    and the time of the freeze."""

    networks: List[str]
    rows: List[Dict[str, Any]]
    is_secret: bool
    frozen: Moment

    @property
    def ungraded_teams(self) -> List[str]:
        """The names of the teams whose last hand-in is not graded."""
        return [row["name"] for row in self.rows if not row["graded"]]


def is_shown(window: Window, what: str, since: Moment = None) -> bool:
    """Returns whether the teacher has shown something of a window, since a moment if
    one is named."""
    reveals = Reveal.objects.filter(contest=window.contest, what=what)
    return bool((reveals if since is None else reveals.filter(at__gte=since)).exists())


def frozen_at(window: Window) -> Moment:
    """Returns the time of a table's freeze, or None. Unveiling ends earlier freezes,
    but not later ones."""
    if (
        window.freeze is None
        or timezone.now() < window.freeze
        or is_shown(window, Reveal.FREEZE, window.freeze)
    ):
        return None
    return window.freeze


def tables(window: Window, for_teacher: bool) -> List[StandingsTable]:
    """The table that a team sees: that of the secret draw once it is shown, before that
    the one of what each hand-in came to at once. The teacher sees both, with hidden
    teams and with what is frozen."""
    secret = {
        "hand_in__contest": window.contest,
        "is_secret": True,
        "state": machine.OVER,
    }
    is_shown_to = for_teacher or is_shown(window, Reveal.SECRET)
    tables_shown = (
        [table(window, True, for_teacher)]
        if is_shown_to and Grading.objects.filter(**secret).exists()
        else []
    )
    return tables_shown + (
        [table(window, False, for_teacher)] if for_teacher or not tables_shown else []
    )


def table(window: Window, is_secret: bool, for_teacher: bool) -> StandingsTable:
    """One of the two tables of a window."""
    frozen = None if for_teacher or is_secret else frozen_at(window)
    teams = Team.objects.filter(is_guest=False)
    if not for_teacher:
        teams = teams.filter(hidden=False)
    names = window.secret if is_secret else window.public
    graded = graded_teams(window, is_secret, frozen)
    missing = teams_without_grade(window) if is_secret else set()
    places = ranking.league(
        [
            graded[team.pk]._replace(team=team.name)
            for team in teams
            if team.pk in graded and team.pk not in missing
        ]
    )
    team_names = {team.name: str(team) for team in teams}
    rows = [
        {
            "place": rank,
            "team": graded_team.team,
            "name": team_names.pop(graded_team.team),
            "absent": False,
            "graded": True,
            "solved": graded_team.solved,
            "matches": graded_team.matches,
            "moves": graded_team.moves,
            "lost": graded_team.lost,
            "cells": [cell(graded_team.networks.get(word)) for word in names],
        }
        for rank, graded_team in places
    ]
    last = 1 + len(rows)
    rows += [
        {
            "place": last,
            "team": team.name,
            "name": str(team),
            "absent": team.pk not in missing,
            "graded": team.pk not in missing,
            "solved": 0,
            "matches": 0,
            "moves": 0,
            "lost": 0,
            "cells": [None] * len(names),
        }
        for team in teams
        if team.name in team_names
    ]
    return StandingsTable(list(names.values()), rows, is_secret, frozen)


def teams_without_grade(window: Window) -> Set[int]:
    """The teams whose last hand-in is not graded by the secret draw."""
    over = set(
        Grading.objects.filter(is_secret=True, state=machine.OVER).values_list(
            "hand_in", flat=True
        )
    )
    return {team for team, last in last_of_teams(window).items() if last not in over}


def cell(counts: Any) -> Any:
    """Returns the cell of a team and a network."""
    return None if counts is None else {"solved": counts[0], "matches": counts[1]}


def graded_teams(
    window: Window, is_secret: bool, before: Moment
) -> Dict[int, ranking.GradedTeam]:
    """Returns the result of each team's last graded hand-in. Hand-ins after a freeze
    are hidden."""
    rows = Grading.objects.filter(
        hand_in__contest=window.contest, is_secret=is_secret, state=machine.OVER
    ).order_by()
    if before is not None:
        rows = rows.filter(hand_in__at__lt=before)
    last = (
        rows.values("hand_in__team").annotate(last=models.Max("hand_in")).values("last")
    )
    return {
        grading.hand_in.team_id: ranking.GradedTeam(
            "",
            grading.solved,
            grading.matches,
            grading.moves,
            grading.lost,
            grading.networks,
        )
        for grading in rows.filter(hand_in__in=last).select_related("hand_in")
    }
