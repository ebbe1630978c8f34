"""REST for what teams write and try."""
from typing import Any, Dict

from rest_framework import serializers
from rest_framework.exceptions import NotFound
from rest_framework.response import Response
from rest_framework.viewsets import ViewSet

from arena_lab.hall.attempts import asking
from arena_lab.hall.drafts import written_kits, trying, views, writing
from arena_lab.hall.drafts.models import Trial
from arena_lab.hall.handins import taking
from arena_lab.hall.teams.logins import ByToken, ByWriter


class HandedDraft(serializers.Serializer):
    """A program that a script hands in."""

    files = serializers.JSONField()
    contest = serializers.IntegerField(
        default=None, allow_null=True, min_value=1, max_value=999_999_999
    )


def members_of(request: Any) -> Dict[str, Any]:
    """Returns the request's JSON object, or {} if it sent something else."""
    return request.data if isinstance(request.data, dict) else {}


class Writers(ViewSet):
    """Base of views for teams and guests."""

    authentication_classes = [ByToken, ByWriter]


class Space(Writers):
    """What fills the space of a team."""

    def retrieve(self, request: Any) -> Response:
        space = asking.space_of(request.user)
        return Response({"limit": asking.bytes_of(request.user), **space})


class Drafts(Writers):
    """The drafts of a team."""

    def list(self, request: Any) -> Response:
        drafts = [
            writing.draft_of(request.user, language)
            for language in written_kits.languages()
        ]
        return Response([writing.draft_dict(draft) for draft in drafts])

    def retrieve(self, request: Any, language: str) -> Response:
        return Response(writing.draft_dict(writing.draft_of(request.user, language)))

    def update(self, request: Any, language: str) -> Response:
        members = members_of(request)
        draft = writing.save(
            request.user, language, members.get("files"), members.get("version")
        )
        # who sends has the files
        return Response({**writing.draft_dict(draft), "files": None})

    def destroy(self, request: Any, language: str) -> Response:
        writing.delete(request.user, language)
        return Response(status=204)

    def hand_in(self, request: Any, language: str) -> Response:
        handed_draft = HandedDraft(data=request.data)
        handed_draft.is_valid(raise_exception=True)
        hand_in_data = handed_draft.validated_data
        hand = writing.hand_in(
            request.user, language, hand_in_data["files"], hand_in_data["contest"]
        )
        return Response(
            taking.hand_in_dict(hand),
            status=201,
            headers={"Location": f"/api/hand-ins/{hand.pk}"},
        )


class Trials(Writers):
    """The trials of a team."""

    def list(self, request: Any) -> Response:
        return Response(
            [trying.brief(trial) for trial in trying.kept_trials(request.user)]
        )

    def create(self, request: Any) -> Response:
        trial = trying.ask(request.user, members_of(request))
        return Response(
            trying.trial_dict(trial),
            status=201,
            headers={"Location": f"/api/trials/{trial.pk}"},
        )

    def clear(self, request: Any) -> Response:
        """Deletes all that have ended."""
        trying.delete_all(request.user)
        return Response(status=204)

    def retrieve(self, request: Any, number: int) -> Response:
        return Response(trying.trial_dict(views.own_trial(request, number)))

    def destroy(self, request: Any, number: int) -> Response:
        trial = views.own_trial(request, number)
        if trial.team != request.user:
            raise NotFound
        trying.delete(trial)
        return Response(status=204)

    def close(self, request: Any, number: int) -> Response:
        """Stops it."""
        trial: Trial = views.own_trial(request, number)
        trying.close(trial)
        trial.refresh_from_db()
        return Response(trying.trial_dict(trial))

    def files(self, request: Any, number: int) -> Response:
        """The program as it was."""
        return Response(views.own_trial(request, number).files)

    def replay(self, request: Any, number: int) -> Any:
        """The replay of the match that was tried, or that shows what to mend."""
        return views.replay(request, number)
