"""Which line of a program has sent each of its commands, while somebody watches: the
client of the kit is given some lines more, by which it says so on standard error.

These lines are in no program that is handed in or kept. A program may write such marks
itself; they say nothing but lines of its own files, which its team alone is shown.
"""
import re
from typing import Any, Dict, List, NamedTuple, Sequence, Tuple

from arena_lab.play.last_words import MARK
from arena_lab.submissions.submission import Submission, SubmissionEntry

# a mark: the number of the command, the file and the line
MARK_PATTERN = re.compile(rf"(?:{MARK}|\\x1e)(\d{{1,5}}) ([\w.-]{{1,60}}):(\d{{1,6}})$")
# what is put behind the client in Python: a mark for each line that is sent, by the
# frame that called the client, and where a program is that sends nothing for seconds
PYTHON = """

def _marks(send):
    def marked(self, line):
        frame = sys._getframe(1)
        while frame is not None and frame.f_code.co_filename == __file__:
            frame = frame.f_back
        _sent[0] += 1
        if frame is not None:
            file = frame.f_code.co_filename.rpartition("/")[2]
            sys.stderr.write(f"\\x1e{_sent[0]} {file}:{frame.f_lineno}\\n")
            sys.stderr.flush()
        return send(self, line)
    return marked


def _waits(receive):
    def waited(self):
        faulthandler.cancel_dump_traceback_later()
        try:
            return receive(self)
        finally:
            faulthandler.dump_traceback_later(SILENT)
    return waited


import faulthandler
_sent = [0]
faulthandler.dump_traceback_later(SILENT)
Lines.send, Lines.receive = _marks(Lines.send), _waits(Lines.receive)
"""
JAVASCRIPT = """

let _sent = 0;
const _ask = Agent.prototype.ask;
Agent.prototype.ask = function (command) {
    const frames = new Error().stack.split("\\n").filter((it) => !/client\\.js:|node:/.test(it));
    const from = frames.map((it) => /([\\w.-]+):(\\d+):\\d+\\)?$/.exec(it)).find(Boolean);
    _sent += 1;
    if (from) require("node:fs").writeSync(2, `\\x1e${_sent} ${from[1]}:${from[2]}\\n`);
    return _ask.call(this, command);
};
"""
# before the last line of the header, which ends it
C = """
static inline int arena_mark(const char *file, int line)
{
    extern int arena_sent;
    return fprintf(stderr, "\\x1e%d %s:%d\\n", ++arena_sent, file, line);
}
#ifndef ARENA_CLIENT
#define agent_join(...) (arena_mark(__FILE__, __LINE__), agent_join(__VA_ARGS__))
#define agent_look(...) (arena_mark(__FILE__, __LINE__), agent_look(__VA_ARGS__))
#define agent_write(...) (arena_mark(__FILE__, __LINE__), agent_write(__VA_ARGS__))
#define agent_depart(...) (arena_mark(__FILE__, __LINE__), agent_depart(__VA_ARGS__))
#define agent_accuse(...) (arena_mark(__FILE__, __LINE__), agent_accuse(__VA_ARGS__))
#define agent_leave(...) (arena_mark(__FILE__, __LINE__), agent_leave(__VA_ARGS__))
#endif
"""
C_BEFORE = "#define ARENA_CLIENT\nint arena_sent;\n"
ENDS = "#endif"
# the class of the client in C++ under another name, and one in its place whose calls say
# where they stand; `join` says where it was called
CPP = """#define ARENA_FROM const char *file = __builtin_FILE(), int line = __builtin_LINE()
class Agent : public Unmarked {
public:
    using Unmarked::Unmarked;
    Here enter(const std::string &key, ARENA_FROM) { return mark(file, line), Unmarked::enter(key); }
    Here look(ARENA_FROM) { return mark(file, line), Unmarked::look(); }
    Swap write(const std::string &expect, const std::string &put, ARENA_FROM)
    {
        return mark(file, line), Unmarked::write(expect, put);
    }
    Here depart(int port, ARENA_FROM) { return mark(file, line), Unmarked::depart(port); }
    void accuse(int port, ARENA_FROM) { mark(file, line), Unmarked::accuse(port); }
    void leave(ARENA_FROM) { mark(file, line), Unmarked::leave(); }

private:
    static void mark(const char *file, int line)
    {
        static int sent = 0;
        fprintf(stderr, "\\x1e%d %s:%d\\n", ++sent, file, line);
    }
};

"""
CPP_CHANGES = (
    ("#pragma once\n", "#pragma once\n#include <cstdio>\n"),
    ("class Agent {\npublic:\n    Agent(", "class Unmarked {\npublic:\n    Unmarked("),
    ("// Connects and enters.", CPP + "// Connects and enters."),
    (
        "&port, const std::string &key)\n",
        "&port, const std::string &key, ARENA_FROM)\n",
    ),
    ("agent.enter(key);", "agent.enter(key, file, line);"),
)


class SentBy(NamedTuple):
    """The place of a program that sent a command; no place has line 0."""

    file: str
    line: int


NOWHERE = SentBy("", 0)


def mark_program(submission: Submission, silent: float) -> Submission:
    """The program with a client that marks what it sends, if it has a kit's client. A
    program in Python that sends nothing for so many seconds says where it is."""
    python = PYTHON.replace("SILENT", f"{silent:g}")
    texts = {
        name: text
        for name, text in (
            ("client.py", behind(submission, "client.py", python, "class Lines")),
            ("client.js", behind(submission, "client.js", JAVASCRIPT, "class Agent")),
            ("client.h", in_header(submission)),
            ("client.c", in_client(submission)),
            ("client.hpp", in_class(submission)),
        )
        if text
    }
    return Submission(
        {
            name: SubmissionEntry(entry.kind, texts[name].encode(), entry.is_program)
            if name in texts
            else entry
            for name, entry in submission.entries.items()
        }
    )


def text_of(submission: Submission, name: str) -> str:
    return (submission.content_of(name) or b"").decode(errors="replace")


def behind(submission: Submission, name: str, extra: str, has: str) -> str:
    """Returns the client's text with extra lines appended, or "" if the client is not
    the kit's."""
    text = text_of(submission, name)
    return text + extra if has in text else ""


def in_header(submission: Submission) -> str:
    text = text_of(submission, "client.h")
    before, ends, rest = text.rpartition(ENDS)
    return before + C + ends + rest if "agent_look" in text else ""


def in_client(submission: Submission) -> str:
    text = text_of(submission, "client.c")
    return C_BEFORE + text if in_header(submission) and text else ""


def in_class(submission: Submission) -> str:
    text = text_of(submission, "client.hpp")
    for old, new in CPP_CHANGES:
        if text.count(old) != 1:
            return ""
        text = text.replace(old, new)
    return text


def split_errors(
    errors: Dict[int, str]
) -> Tuple[Dict[int, str], Dict[int, List[SentBy]]]:
    """Splits standard error of programs into their own output and the marks of sending
    lines, by agent."""
    outputs: Dict[int, str] = {}
    places: Dict[int, Dict[int, SentBy]] = {}
    for agent, text in errors.items():
        lines = []
        senders = places.setdefault(agent, {})
        for line in text.split("\n"):
            mark = MARK_PATTERN.match(line)
            if mark is None:
                lines.append(line)
            else:
                senders[int(mark[1])] = SentBy(mark[2], int(mark[3]))
        outputs[agent] = "\n".join(lines).strip()
    return outputs, {agent: in_order(senders) for agent, senders in places.items()}


def in_order(senders: Dict[int, SentBy]) -> List[SentBy]:
    """The places by the numbers of commands. What was cut has none."""
    return [
        senders.get(number, NOWHERE) for number in range(1, max(senders, default=0) + 1)
    ]


def along(log: Sequence[Any], places: Dict[int, List[SentBy]]) -> List[SentBy]:
    """Returns for each event of a log the source line that sent it, or NOWHERE."""
    iterators = {agent: iter(senders) for agent, senders in places.items()}
    return [
        NOWHERE
        if event["do"] in ("deliver", "close")
        else next(iterators.get(event["agent"], iter(())), NOWHERE)
        for event in log
    ]
