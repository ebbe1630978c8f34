"""Man pages, and completions for bash, zsh and fish, made of the help texts of the
program and of the lab."""
import os
import re
import subprocess
from typing import Dict, List, NamedTuple, Optional, Tuple

WIDTH = 90
# a line that begins a part of a help text, such as `Options:`, and one that names an
# option
HEADING = re.compile(r"^([A-Za-z][A-Za-z ]*):$", re.M)
OPTION = re.compile(r"^ +(?:-\w(?: [A-Z.]+)?, )?(--[a-z][\w-]*)", re.M)
COMMAND = re.compile(r"^ {2,4}([a-z]+)  ", re.M)


class Help(NamedTuple):
    """The help text of a command, and the words by which one asks for the command."""

    words: str
    about: str
    text: str

    def name(self) -> str:
        """The name of its page."""
        return self.words.replace(" ", "-")

    def options(self) -> List[str]:
        """Its long options, in order."""
        return list(dict.fromkeys(OPTION.findall(self.text)))


def of_program(program: str) -> List[Help]:
    """Returns the help texts of the program and all its commands."""
    first = help_text(program, "--help")
    commands = [
        name for name in COMMAND.findall(part_of(first, "Commands")) if name != "help"
    ]
    helps = [
        Help("arena", "a contest server for black hole search by mobile agents", first)
    ]
    for name in commands:
        about = re.search(rf"^ +{name}  (.*)$", first, re.M)
        helps.append(
            Help(
                f"arena {name}",
                about[1] if about else "",
                help_text(program, name, "--help"),
            )
        )
    return helps


def help_text(program: str, *words: str) -> str:
    """What the program says for these words, without what one that is not proved says
    of itself."""
    result = subprocess.run(
        [program, *words],
        stdin=subprocess.DEVNULL,
        stdout=subprocess.PIPE,
        stderr=subprocess.DEVNULL,
        check=True,
    )
    return result.stdout.decode()


def part_of(text: str, heading: str) -> str:
    """The part of a help text under a heading."""
    parts = HEADING.split(text)
    return dict(zip(parts[1::2], parts[2::2])).get(heading, "")


def statuses_of(text: str) -> List[Tuple[str, str]]:
    """The exit statuses that a help text tells, each with what it says."""
    part = part_of(text, "Exit status") or part_of(text, "exit status")
    rows: List[List[str]] = []
    for line in part.splitlines():
        match = re.match(r"^ {2}(\d+) +(.*)$", line)
        if match:
            rows.append([*match.groups()])
        elif rows and line.strip():
            rows[-1][1] += f" {line.strip()}"
    return [(status, text) for status, text in rows]


def of_lab() -> List[Help]:
    """Returns the help texts of the lab and all its commands."""
    from arena_lab import INSTALLED_COMMAND
    from arena_lab.__main__ import COMMANDS, parser

    before = os.environ.get("COLUMNS")
    os.environ["COLUMNS"] = str(WIDTH)
    try:
        lab_parser = parser(INSTALLED_COMMAND)
        commands = next(
            action for action in lab_parser._actions if action.dest == "command"
        ).choices
        helps = [
            Help(
                INSTALLED_COMMAND,
                "plays agents under a schedule that you choose",
                lab_parser.format_help(),
            )
        ]
        return helps + [
            Help(
                f"{INSTALLED_COMMAND} {name}",
                COMMANDS[name].about,
                commands[name].format_help(),
            )
            for name in COMMANDS
        ]
    finally:
        del os.environ["COLUMNS"]
        if before is not None:
            os.environ["COLUMNS"] = before


def escape(text: str) -> str:
    """Text as troff takes it: no line of it is a request."""
    lines = text.replace("\\", "\\e").replace("-", "\\-").split("\n")
    return "\n".join(
        "\\&" + line if line.startswith((".", "'")) else line for line in lines
    )


def page_of(help_text: Help, version: str, day: str, related: List[str]) -> str:
    """A man page: the help text under headings, as it is laid out."""
    parts = HEADING.split(f"DESCRIPTION:\n{help_text.text}")
    body = "".join(
        f".SH {heading.upper()}\n.nf\n{escape(text.strip(chr(10)))}\n.fi\n"
        for heading, text in zip(parts[1::2], parts[2::2])
        if text.strip()
    )
    also = ", ".join(f".BR {name} (1)" for name in related if name != help_text.name())
    see = (
        "".join(f".BR {name} (1)\n" for name in related if name != help_text.name())
        if also
        else ""
    )
    about = help_text.about.rstrip(".")
    return (
        f'.TH {help_text.name().upper().replace("-", chr(92) + "-")} 1 "{day}" "arena {version}"\n'
        f".SH NAME\n{escape(help_text.name())} \\- {escape(about)}\n{body}"
        + (f".SH SEE ALSO\n{see}" if see else "")
    )


def pages(helps: List[Help], version: str, day: str) -> Dict[str, str]:
    """All man pages, by the names of their files. Each names its command's first page,
    and that one names all."""
    texts = {}
    for help_text in helps:
        first = help_text.words.split(" ")[0]
        related = (
            [
                help_text.name()
                for help_text in helps
                if help_text.words.split(" ")[0] == first
            ]
            if help_text.words == first
            else [first]
        )
        texts[f"{help_text.name()}.1"] = page_of(help_text, version, day, related)
    return texts


def completion(helps: List[Help]) -> str:
    """A script by which bash completes the commands, their options, and names of
    files."""
    tables = []
    for first in dict.fromkeys(help_text.words.split(" ")[0] for help_text in helps):
        own_helps = [
            help_text for help_text in helps if help_text.words.split(" ")[0] == first
        ]
        commands = [
            help_text.words.split(" ")[1]
            for help_text in own_helps
            if " " in help_text.words
        ]
        cases = "".join(
            f"        {help_text.words.split(' ')[1]}) options=\"{' '.join(help_text.options())}\" ;;\n"
            for help_text in own_helps
            if " " in help_text.words
        )
        tables.append(
            TABLE.format(
                name=first.replace("-", "_"),
                command=first,
                commands=" ".join(commands),
                options=" ".join(own_helps[0].options()),
                cases=cases,
            )
        )
    return HEAD + "\n".join(tables)


HEAD = """# completes the commands of arena and arena-lab in bash; made of their help texts

"""
TABLE = """_{name}() {{
    local word=${{COMP_WORDS[COMP_CWORD]}} options
    COMPREPLY=()
    if [ "$COMP_CWORD" -eq 1 ]; then
        COMPREPLY=($(compgen -W "{commands} {options}" -- "$word"))
        return
    fi
    case ${{COMP_WORDS[1]}} in
{cases}    esac
    case $word in
        -*) COMPREPLY=($(compgen -W "$options" -- "$word")) ;;
        *) COMPREPLY=($(compgen -f -- "$word")) ;;
    esac
}}
complete -o filenames -F _{name} {command}
"""


def in_quotes(text: str) -> str:
    """A word of a shell."""
    text_in_quotes = text.replace("'", "'\\''")
    return f"'{text_in_quotes}'"


def describe(help: Help) -> str:
    """Returns the one-line description of a command."""
    return help.about.split("\n")[0].rstrip(".")


def by_program(helps: List[Help]) -> Dict[str, List[Help]]:
    """The commands of each program, the program itself first."""
    helps_by_program: Dict[str, List[Help]] = {}
    for help_text in helps:
        helps_by_program.setdefault(help_text.words.split(" ")[0], []).append(help_text)
    return helps_by_program


def zsh_completion(helps: List[Help]) -> str:
    """A script by which zsh does the same, and says what each command does."""
    programs = by_program(helps)
    tables = []
    for program, (first, *commands) in programs.items():
        descriptions = [
            in_quotes(f"{help_text.words.split(' ')[1]}:{describe(help_text)}")
            for help_text in commands
        ]
        cases = "".join(
            f"        {help_text.words.split(' ')[1]}) options=({' '.join(help_text.options())}) ;;\n"
            for help_text in commands
        )
        tables.append(
            ZSH.format(
                name=program.replace("-", "_"),
                commands=" ".join(descriptions),
                options=" ".join(first.options()),
                cases=cases,
            )
        )
    calls = "".join(
        f"    {program}) _{program.replace('-', '_')} ;;\n" for program in programs
    )
    return (
        f"#compdef {' '.join(programs)}\n{COMPLETION_HEAD}\n"
        + "\n".join(tables)
        + f"\ncase $service in\n{calls}esac\n"
    )


def fish_completion(program: str, helps: List[Help]) -> str:
    """A script by which fish does the same for one program."""
    first, *commands = by_program(helps)[program]
    lines = [COMPLETION_HEAD, *fish_options(program, "__fish_use_subcommand", first)]
    for help_text in commands:
        name = help_text.words.split(" ")[1]
        lines.append(
            f"complete -c {program} -f -n __fish_use_subcommand -a {name} "
            f"-d {in_quotes(describe(help_text))}"
        )
        lines += fish_options(
            program, f"'__fish_seen_subcommand_from {name}'", help_text
        )
    return "\n".join(lines) + "\n"


def fish_options(program: str, when: str, help: Help) -> List[str]:
    return [
        f"complete -c {program} -n {when} -l {option[2:]}" for option in help.options()
    ]


COMPLETION_HEAD = "# completes commands and options; made of the help texts"
ZSH = """_{name}() {{
    local -a commands options
    commands=({commands})
    if (( CURRENT == 2 )); then
        options=({options})
        _describe command commands
        compadd -- $options
        return
    fi
    case $words[2] in
{cases}    esac
    if [[ $PREFIX == -* ]]; then
        compadd -- $options
    else
        _files
    fi
}}
"""


def completions(helps: List[Help]) -> Dict[str, str]:
    """The completions of all shells, by where they stand below `share`."""
    texts = {
        "bash-completion/completions/arena": completion(helps),
        "zsh/vendor-completions/_arena": zsh_completion(helps),
    }
    for program in by_program(helps):
        path = f"fish/vendor_completions.d/{program}.fish"
        texts[path] = fish_completion(program, helps)
    return texts


def whole(program: Optional[str]) -> List[Help]:
    """Returns the help texts of the lab, and of the program if one is given."""
    return [*(of_program(program) if program else []), *of_lab()]
