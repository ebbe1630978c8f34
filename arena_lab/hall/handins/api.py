"""REST for hand-ins."""
from typing import Any

from rest_framework import serializers
from rest_framework.parsers import MultiPartParser
from rest_framework.response import Response
from rest_framework.viewsets import ViewSet

from arena_lab.hall.handins import taking, views
from arena_lab.hall.handins.models import HandIn


class Sent(serializers.Serializer):
    """The request of a script that hands in a program."""

    file = serializers.FileField(max_length=80, allow_empty_file=True)
    contest = serializers.IntegerField(
        default=None, allow_null=True, min_value=1, max_value=999_999_999
    )


class HandIns(ViewSet):
    """The hand-ins of a team. Files are sent as forms, which go to the disk: an object
    of that size would take much memory."""

    parser_classes = [MultiPartParser]

    def list(self, request: Any) -> Response:
        return Response(
            [
                taking.hand_in_dict(hand_in)
                for hand_in in HandIn.objects.filter(team=request.user)[:50]
            ]
        )

    def create(self, request: Any) -> Response:
        serializer = Sent(data=request.data)
        serializer.is_valid(raise_exception=True)
        hand_in = taking.take_upload(request.user, **serializer.validated_data)
        return Response(
            taking.hand_in_dict(hand_in),
            status=201,
            headers={"Location": f"/api/hand-ins/{hand_in.pk}"},
        )

    def retrieve(self, request: Any, number: int) -> Response:
        return Response(taking.hand_in_dict(views.own_hand_in(request, number)))
