"""What REST answers if something is refused."""
from typing import Any, Dict, Optional

from django.utils.translation import gettext as _
from rest_framework import exceptions
from rest_framework.response import Response
from rest_framework.views import exception_handler


def error_response(fault: Exception, context: Dict[str, Any]) -> Optional[Response]:
    """Returns the REST response to an exception: an object with `error`, a line that
    says what to change."""
    if isinstance(fault, RecursionError):
        # lists in lists in lists
        fault = exceptions.ParseError()
    response = exception_handler(fault, context)
    if response is not None:
        detail = (
            fault.detail
            if isinstance(fault, exceptions.APIException)
            else _("there is no such thing")
        )
        response.data = {"error": first_of(detail)}
    return response


def first_of(detail: Any) -> str:
    """The first line of what REST says of faults."""
    while isinstance(detail, (dict, list)):
        detail = next(iter(detail.values() if isinstance(detail, dict) else detail), "")
    return str(detail)
