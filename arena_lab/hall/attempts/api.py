"""REST for attempts: a script asks for a match, plays it, and asks what came of it."""
from typing import Any

from rest_framework import serializers
from rest_framework.response import Response
from rest_framework.views import APIView
from rest_framework.viewsets import ViewSet

from arena_lab.hall.attempts import asking, shown, views
from arena_lab.hall.attempts.models import facts


class AttemptRequest(serializers.Serializer):
    """The request of a script for an attempt."""

    network = serializers.CharField(max_length=60)


class Networks(APIView):
    """Lists the networks on which a team may request attempts."""

    def get(self, request: Any) -> Response:
        return Response(
            [
                {
                    "name": offer.net.name,
                    "open": offer.is_open,
                    "map": offer.net.has_map,
                    **facts(offer.net.name),
                }
                for offer in asking.offers()
            ]
        )


class Attempts(ViewSet):
    """The attempts of a team."""

    def list(self, request: Any) -> Response:
        return Response(shown.attempts(request.user))

    def create(self, request: Any) -> Response:
        attempt_request = AttemptRequest(data=request.data)
        attempt_request.is_valid(raise_exception=True)
        attempt = asking.ask(request.user, attempt_request.validated_data["network"])
        return Response(
            shown.attempt(attempt),
            status=201,
            headers={"Location": f"/api/matches/{attempt.pk}"},
        )

    def retrieve(self, request: Any, number: int) -> Response:
        return Response(shown.attempt(views.own_attempt(request, number)))

    def close(self, request: Any, number: int) -> Response:
        """Closes it as it stands."""
        attempt = views.own_attempt(request, number)
        asking.close(attempt)
        attempt.refresh_from_db()
        return Response(shown.attempt(attempt))

    def replay(self, request: Any, number: int, match: int) -> Any:
        """Sends the replay of a finished match."""
        return views.replay(request, number, match)
