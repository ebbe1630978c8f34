"""Texts of the editor page in the reader's language; its script contains none."""
from typing import Dict

from django.utils.translation import gettext as _


def words() -> Dict[str, str]:
    return {
        "saved": _("saved"),
        "saving": _("saving .."),
        "unsaved": _("not saved yet, kept in this browser"),
        "theirs": _("take theirs"),
        "mine": _("keep mine"),
        "waits": _("waits for its turn"),
        "play": _("plays"),
        "check": _("checks"),
        "explore": _("tries every schedule"),
        "seconds": _("s"),
        "stopped": _("stopped"),
        "failed": _("not tried"),
        "right": _("right"),
        "mend": _("to mend"),
        "line": _("line"),
        "event": _("event"),
        "agent": _("agent"),
        "handed_in": _("handed in as"),
        "program": _("program"),
        "next": _("next"),
        "matches": _("matches"),
        "hand_ins": _("hand-ins"),
        "gradings": _("gradings"),
        "drafts": _("drafts"),
        "trials": _("trials"),
        "limit": _("at most"),
        "clear": _(
            "Delete the earlier versions of all programs? What is in the editor or was handed in stays."
        ),
        "old": _("This browser has what you wrote on an older version."),
        "anew": _(
            "Begin anew from the kit? What you wrote stays in the earlier versions if you have tried it."
        ),
    }
