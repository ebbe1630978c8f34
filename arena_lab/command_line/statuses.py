"""What the exit status of each command of the lab says: one table, of which the help of
a command has its part."""
from typing import Dict, Tuple

# of all commands
ALWAYS = {
    0: "all went well",
    2: "the command line is refused, or what it names",
    130: "it was stopped too early to say",
    143: "it was terminated",
}
# of commands for which the program plays, judges or reads: what it says itself
BY_PROGRAM = {
    3: "a file is refused, by its text or shape",
    4: "a replay could not have happened, or is of another match",
    5: "memory ran out",
    6: "reading or writing failed",
    7: "threads ran out",
}
A_TEAM_FAILS = "a team fails, or engines differ"
# by command: the meaning of exit status 1, and whether the program's own statuses may
# occur
EXIT_MEANINGS: Dict[str, Tuple[str, bool]] = {
    "new": ("", False),
    "examples": ("", False),
    "exercise": ("the program is not right", False),
    "try": ("", True),
    "play": ("", False),
    "run": (A_TEAM_FAILS, True),
    "check": ("the agent is not right, or engines differ", True),
    "hunt": (A_TEAM_FAILS, True),
    "explore": ("a schedule fails, or engines differ", True),
    "adversary": (A_TEAM_FAILS, True),
    "invariant": ("a turn leaves the invariant", True),
    "replay": ("something differs, or the team fails", True),
    "serve": ("", False),
    "network": ("", False),
    "tournament": ("", True),
    "sweep": (A_TEAM_FAILS, True),
    "grade": ("a match does not repeat, or could not be played", True),
    "hall": ("", True),
    "json": ("`explore` finds a schedule that fails, or `attest` a difference", True),
    "verify": ("something differs, or the bounds do not follow", True),
    "page": ("engines differ", True),
    "watch": ("", True),
}


def statuses(command: str = "") -> Dict[int, str]:
    """Returns the meaning of each exit status of a command, or of all commands."""
    fails, is_programs = EXIT_MEANINGS[command] if command else (A_TEAM_FAILS, True)
    meanings = {
        **ALWAYS,
        **({1: fails} if fails else {}),
        **(BY_PROGRAM if is_programs else {}),
    }
    return dict(sorted(meanings.items()))


def exit_statuses(command: str = "") -> str:
    """The end of a help text."""
    rows = [f"  {status:<3}  {text}" for status, text in statuses(command).items()]
    return "\n".join(["exit status:", *rows])
