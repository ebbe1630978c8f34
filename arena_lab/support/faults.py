"""The one base of all faults that end a command of the lab with a line."""


class ArenaError(Exception):
    """Something ends a command; the text says what to change."""

    # the command's exit status
    status = 2
