"""Writes to standard output the filter of system calls for programs behind walls
(arena_lab/sandbox/sandboxes.py), for bubblewrap: `python3 filter.py TABLE LANGUAGE
[CALL ..]`

It allows what the table (arena_lab/sandbox/calls.toml) has for the language, and these
calls besides. All others are answered ENOSYS, as if the system had none, but where the
table names another error. Needs Debian's python3-seccomp, which Debian's Python sees.
"""
import errno
import itertools
import sys
import tomllib
from typing import Any, Dict, Iterator, List, Sequence, Set

import seccomp

# mask of an int argument, since the kernel ignores other bits; and the name of the
# union of all languages
INT = 0xFFFFFFFF
ANY = "any"
# what libseccomp says of a name that it does not know
UNKNOWN = -1
Table = Dict[str, Any]


def allowed_calls(table: Table, language: str) -> Set[str]:
    """Returns the calls of a language that are allowed for all arguments or for
    some."""
    languages: Dict[str, Any] = table["languages"]
    chosen = list(languages.values()) if language == ANY else [languages[language]]
    return {
        call for row in [table["every"], *chosen] for call in row["calls"]
    } | by_arguments(table)


def by_arguments(table: Table) -> Set[str]:
    """Returns the calls that are allowed for some arguments only."""
    return {row["call"] for row in table["arguments"]}


def make_filter(
    table: Table, language: str, extra: Sequence[str] = ()
) -> "seccomp.SyscallFilter":
    """The filter of a language, which allows these calls besides."""
    syscall_filter = seccomp.SyscallFilter(seccomp.ERRNO(errno.ENOSYS))
    for call in sorted(
        (allowed_calls(table, language) | set(extra)) - by_arguments(table)
    ):
        if seccomp.resolve_syscall(seccomp.Arch(), call) == UNKNOWN:
            sys.exit(f"{call} is no call of Linux: write names as `strace` shows them")
        syscall_filter.add_rule(seccomp.ALLOW, call)
    for row in table["arguments"]:
        action = (
            seccomp.ERRNO(number_of(row["error"])) if "error" in row else seccomp.ALLOW
        )
        for conditions in conditions_of(row):
            syscall_filter.add_rule(action, row["call"], *conditions)
    for row in [*table["answers"], *table["never"]]:
        error = number_of(row.get("error", "EPERM"))
        for call in row["calls"] if error != errno.ENOSYS else ():
            syscall_filter.add_rule(seccomp.ERRNO(error), call)
    return syscall_filter


def number_of(error: Any) -> int:
    """Returns the number of a named error, or 0."""
    return 0 if error == 0 else int(getattr(errno, error))


def conditions_of(row: Table) -> Iterator[List["seccomp.Arg"]]:
    """The conditions under which a row of arguments holds, each as what must hold
    together."""
    mask = row.get("mask", INT)
    for condition in row["rows"]:
        for values in itertools.product(*condition.values()):
            yield [
                seccomp.Arg(int(index), seccomp.MASKED_EQ, mask, value)
                for index, value in zip(condition, values)
            ]


def main(path: str, language: str, *extra: str) -> None:
    with open(path, "rb") as file:
        make_filter(tomllib.load(file), language, extra).export_bpf(sys.stdout)


if __name__ == "__main__":
    main(*sys.argv[1:])
