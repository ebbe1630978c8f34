"""Teams, which networks are open, and the hall's log."""
import datetime
import hashlib
import hmac
import secrets
from typing import Optional

from django.conf import settings
from django.core.validators import RegexValidator
from django.db import models
from django.utils import timezone
from django.utils.translation import gettext_lazy as _

from arena_lab.hall.hall_files import TEAM

# what parts a team's name from the rest of its token
DOT = "."


class Team(models.Model):
    """A team. Of its token the hall keeps a digest."""

    name = models.CharField(
        _("name"),
        max_length=16,
        unique=True,
        validators=[RegexValidator(f"^{TEAM.pattern}$")],
        help_text=_(
            "1 to 16 characters out of a to z, 0 to 9 and -, which does not come first"
        ),
    )
    display = models.CharField(_("display name"), max_length=80, blank=True)
    hidden = models.BooleanField(
        _("hidden"), default=False, help_text=_("is in no standings that teams see")
    )
    disk = models.PositiveIntegerField(
        _("MB of files"),
        null=True,
        blank=True,
        help_text=_("empty for what the course gives each team"),
    )
    digest = models.CharField(max_length=64, blank=True, editable=False)
    # somebody without a token, who writes and tries for a day
    is_guest = models.BooleanField(default=False, editable=False)
    # the digest of the person for whom a sign-in has made the team
    identity = models.CharField(max_length=64, null=True, unique=True, editable=False)
    # sessions of an earlier token are no sessions any more
    generation = models.PositiveIntegerField(default=0, editable=False)

    class Meta:
        verbose_name = _("team")
        verbose_name_plural = _("teams")
        ordering = ["name"]

    # what Django and its REST framework ask of who is logged in
    is_authenticated = is_active = True
    is_staff = False

    def __str__(self) -> str:
        return str(self.display or self.name)

    def new_token(self) -> str:
        """Draws a token, which no one can ask for again; earlier ones and their
        sessions end."""
        token = f"{self.name}{DOT}{secrets.token_urlsafe(18)}"
        self.digest = digest_of(token)
        self.generation = self.generation + 1
        self.save(update_fields=["digest", "generation"])
        return token


def digest_of(token: str) -> str:
    """Returns the stored digest of a token. Tokens have 144 random bits, which
    exhaustive search cannot find."""
    return hmac.new(
        settings.SECRET_KEY.encode(), token.encode(), hashlib.sha256
    ).hexdigest()


def team_of(token: str) -> Optional[Team]:
    """The team of a token, or nothing. How long the answer takes does not depend on how
    much of it is right."""
    name = token.partition(DOT)[0]
    team = (
        Team.objects.filter(name=name).first()
        if TEAM.fullmatch(name.lstrip("-"))
        else None
    )
    is_right = hmac.compare_digest(team.digest if team else "", digest_of(token))
    return team if is_right else None


class Message(models.Model):
    """An announcement to all teams, or a team's question with its answer."""

    team = models.ForeignKey(
        Team,
        models.CASCADE,
        null=True,
        blank=True,
        help_text=_("empty for an announcement"),
    )
    at = models.DateTimeField(default=timezone.now, editable=False)
    text = models.TextField(_("text"), max_length=2_000)
    answer = models.TextField(_("answer"), max_length=2_000, blank=True)
    is_public = models.BooleanField(
        _("for all"),
        default=False,
        help_text=_("all teams see the question once it has an answer"),
    )

    class Meta:
        verbose_name = _("message")
        verbose_name_plural = _("messages")
        ordering = ["-pk"]

    def __str__(self) -> str:
        return str(self.text)[:60]


class Entry(models.Model):
    """A line of the audit log: who did what. It contains no token, key or password."""

    at = models.DateTimeField(default=timezone.now, db_index=True)
    who = models.CharField(max_length=40)
    what = models.CharField(max_length=300)

    class Meta:
        verbose_name = _("line of the log")
        verbose_name_plural = _("log")
        ordering = ["-at", "-pk"]


class Switch(models.Model):
    """A network that the teacher has closed, or opened again. A network without a
    switch is open."""

    network = models.CharField(_("network"), max_length=60, unique=True)
    is_open = models.BooleanField(_("open"), default=True)

    class Meta:
        verbose_name = _("network")
        verbose_name_plural = _("networks")
        ordering = ["network"]

    def __str__(self) -> str:
        return str(self.network)


def note(who: object, what: str) -> None:
    """Writes a line of the log."""
    Entry.objects.create(who=str(who)[:40], what=what[:300])


def today() -> datetime.datetime:
    """When today began, by the hall's time zone."""
    return timezone.localtime().replace(hour=0, minute=0, second=0, microsecond=0)
