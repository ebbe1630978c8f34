"""Attempts as dicts for REST and pages. Before the close they contain only what the
agents received, and nothing about black holes and lost agents."""
from typing import Any, Dict, List, Optional

from django.conf import settings
from django.utils import timezone

from arena_lab.hall import machine
from arena_lab.hall.attempts import seen
from arena_lab.hall.attempts.models import Attempt, Match, facts
from arena_lab.hall.packing import packed_path


def attempt(attempt: Attempt) -> Dict[str, Any]:
    """An attempt with its matches."""
    matches = (
        list(attempt.matches.all())
        if attempt.state in (machine.RUNNING, machine.OVER)
        else []
    )
    matches_shown = [
        match(match_row, attempt)
        for match_row in matches
        if attempt.is_over or match_row.run == attempt.runs
    ]
    return {
        **brief(attempt),
        "facts": facts(attempt.network),
        "minutes": settings.HALL.minutes,
        "matches": matches_shown,
    }


def brief(attempt: Attempt) -> Dict[str, Any]:
    """An attempt in a line."""
    verdicts = (
        [verdict(match_row) for match_row in attempt.matches.all()]
        if attempt.is_over
        else []
    )
    return {
        "id": attempt.pk,
        "network": attempt.network,
        "state": attempt.state,
        "asked": time_of(attempt.asked),
        "begun": time_of(attempt.begun),
        "ended": time_of(attempt.ended),
        "fault": attempt.fault,
        "solved": sum(verdict["outcome"] == "solved" for verdict in verdicts),
        "verdicts": verdicts,
    }


def verdict(row: Match) -> Dict[str, Any]:
    return {"outcome": row.outcome, "moves": row.moves, "lost": row.lost}


def match(row: Match, of: Attempt) -> Dict[str, Any]:
    """Returns a match as a dict: address, keys, messages to its agents, and the verdict
    after its end."""
    facts: Dict[str, Any] = {
        "number": row.number,
        "host": row.host,
        "port": row.port,
        "keys": row.keys,
        "map": row.map,
        "verdict": None,
        "agents": None,
        "after": None,
        "page": None,
    }
    if of.is_over:
        match_end = seen.match_end(row.replay)
        page = (
            f"/matches/{of.pk}/{row.number}/page"
            if packed_path(row.page).exists()
            else None
        )
        facts.update(
            verdict=verdict(row), after=match_end and match_end._asdict(), page=page
        )
    else:
        facts.update(agents=seen.part(row.part, len(row.keys)).as_list())
    return facts


def time_of(moment: Any) -> Optional[str]:
    return (
        None
        if moment is None
        else timezone.localtime(moment).isoformat(timespec="seconds")
    )


def attempts(team: Any) -> List[Dict[str, Any]]:
    """The newest attempts of a team, at most fifty."""
    return [
        brief(attempt_row)
        for attempt_row in Attempt.objects.filter(team=team).prefetch_related(
            "matches"
        )[:50]
    ]
