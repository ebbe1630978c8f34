"""The apps of a hall, each with tables of its own, as the teacher reads their names."""
from django.apps import AppConfig
from django.utils.translation import gettext_lazy as _


class Teams(AppConfig):
    name = "arena_lab.hall.teams"
    verbose_name = _("Teams")


class Attempts(AppConfig):
    name = "arena_lab.hall.attempts"
    verbose_name = _("Matches")


class HandIns(AppConfig):
    name = "arena_lab.hall.handins"
    verbose_name = _("Hand-ins")


class Writing(AppConfig):
    name = "arena_lab.hall.drafts"
    verbose_name = _("Programs that teams write")


class Standings(AppConfig):
    name = "arena_lab.hall.standings"
    verbose_name = _("Standings")
