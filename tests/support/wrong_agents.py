"""Wrong agents by rule: sample agents with one change each, of the syntax tree of those
in Python, and of the text of those in JavaScript and C. Whether a change makes an agent
wrong at all is for a grading to say."""
import ast
import copy
import re
from typing import Iterator, List, NamedTuple, Sequence, Tuple

# what a change is: its rule, and the new node or statement
Change = Tuple[str, ast.AST]
FLIPS = {
    ast.Eq: (ast.NotEq, ast.GtE, ast.LtE),
    ast.NotEq: (ast.Eq, ast.GtE, ast.LtE),
    ast.Lt: (ast.LtE, ast.GtE),
    ast.LtE: (ast.Lt, ast.GtE),
    ast.Gt: (ast.GtE,),
    ast.GtE: (ast.Gt,),
    ast.In: (ast.NotIn,),
    ast.NotIn: (ast.In,),
    ast.Is: (ast.IsNot,),
    ast.IsNot: (ast.Is,),
}
SIDES = ("side", "ahead", "port", "other")
COUNTS = ("nodes", "links", "mine", "theirs", "target", "steps")


class Mutant(NamedTuple):
    """A wrong agent: the rule, the line, what stood there, and the whole text."""

    rule: str
    line: int
    before: str
    text: str


def name_in(node: ast.AST) -> str:
    if isinstance(node, ast.Name):
        return node.id
    return node.attr if isinstance(node, ast.Attribute) else ""


def one_minus(node: ast.AST) -> ast.AST:
    return ast.BinOp(ast.Constant(1), ast.Sub(), node)  # type: ignore[arg-type]


def is_one_minus(node: ast.AST) -> bool:
    return (
        isinstance(node, ast.BinOp)
        and isinstance(node.op, ast.Sub)
        and isinstance(node.left, ast.Constant)
        and node.left.value == 1
    )


def labels(node: ast.AST) -> Iterator[Change]:
    """Drops the label of an arrival."""
    caller = isinstance(node, ast.Call) and name_in(node.func) in ("back", "_port")
    if caller or isinstance(node, ast.Attribute) and node.attr == "came":
        yield from (("label", ast.Constant(port)) for port in (0, 1))
    if isinstance(node, ast.Call) and name_in(node.func) == "_port":
        yield "label", node.args[0]
    if (
        isinstance(node, ast.Call)
        and name_in(node.func) == "depart"
        and isinstance(node.args[0], ast.BinOp)
    ):
        for name in ("port", "side"):
            yield "label", ast.Call(node.func, [ast.Name(name, ast.Load())], [])


def compares(node: ast.AST) -> Iterator[Change]:
    """Swaps a comparison, or trusts one of two conditions."""
    if isinstance(node, ast.Compare):
        for second in FLIPS.get(type(node.ops[0]), ()):
            again = copy.deepcopy(node)
            again.ops[0] = second()
            yield "compare", again
    if isinstance(node, ast.BoolOp):
        op = ast.And() if isinstance(node.op, ast.Or) else ast.Or()
        yield "compare", ast.BoolOp(op, node.values)
        yield from (("compare", value) for value in node.values)


def loops(node: ast.AST) -> Iterator[Change]:
    """Goes through a loop once."""
    once: ast.expr = ast.List([ast.Constant(0)], ast.Load())
    if isinstance(node, ast.While):
        yield "loop", ast.For(ast.Name("_", ast.Store()), once, node.body, [], None)
    if isinstance(node, ast.For):
        again = copy.deepcopy(node)
        whole = ast.Call(ast.Name("list", ast.Load()), [again.iter], [])
        again.iter = ast.Subscript(
            whole, ast.Slice(None, ast.Constant(1), None), ast.Load()
        )
        yield "loop", again


def writes(node: ast.AST) -> Iterator[Change]:
    """Takes a write for done, or what it came to for a success."""
    if isinstance(node, ast.Call) and name_in(node.func) in ("swap", "say", "put"):
        yield "write", ast.Constant(True)
    if isinstance(node, ast.Attribute) and node.attr == "written":
        yield "trust", ast.Constant(True)
    if isinstance(node, (ast.If, ast.While, ast.IfExp)):
        for value in (True, False):
            if not (isinstance(node, ast.While) and value):
                again = copy.deepcopy(node)
                again.test = ast.Constant(value)
                yield "trust", again


def numbers(node: ast.AST) -> Iterator[Change]:
    """Is off by one, takes the other side, or a fact that holds in few matches."""
    if isinstance(node, ast.Constant) and type(node.value) is int:
        yield from (("off by one", ast.Constant(node.value + by)) for by in (1, -1))
    is_read = isinstance(getattr(node, "ctx", None), ast.Load)
    if not is_read or not isinstance(node, (ast.Name, ast.Attribute)):
        return
    if name_in(node) in COUNTS:
        for op in (ast.Add(), ast.Sub()):
            yield "off by one", ast.BinOp(copy.deepcopy(node), op, ast.Constant(1))
    if name_in(node) in SIDES:
        yield "sides", one_minus(copy.deepcopy(node))
    if name_in(node) == "home":
        yield "fact", ast.Constant(0)


RULES = (labels, compares, loops, writes, numbers)


def changes(node: ast.AST) -> Iterator[Change]:
    """All changes of a node."""
    for rule in RULES:
        yield from rule(node)
    if is_one_minus(node):
        yield "sides", node.right  # type: ignore[attr-defined]


def left_out(row: ast.stmt) -> Iterator[Change]:
    """Yields mutations that remove a statement; the call of an assignment stays."""
    if isinstance(row, ast.Assign):
        yield "look again", ast.Expr(row.value)
    elif isinstance(row, (ast.AugAssign, ast.Continue, ast.Break, ast.If)):
        yield "statement", ast.Pass()
    elif isinstance(row, ast.Expr) and not isinstance(row.value, ast.Constant):
        yield "statement", ast.Pass()


def places(top: ast.AST) -> Iterator[Tuple[ast.AST, str, int, ast.AST]]:
    """Yields each node below `top` with its parent, field and index (-1 outside of
    lists)."""
    for parent in ast.walk(top):
        for field, value in ast.iter_fields(parent):
            if field in ("decorator_list", "returns", "annotation", "func"):
                continue
            rows = value if isinstance(value, list) else [value]
            for index, node in enumerate(rows):
                if isinstance(node, ast.AST) and not isinstance(node, ast.arguments):
                    yield parent, field, index if isinstance(value, list) else -1, node


def put_node(parent: ast.AST, field: str, index: int, node: ast.AST) -> None:
    """Puts a node where another stood."""
    if index < 0:
        setattr(parent, field, node)
    else:
        getattr(parent, field)[index] = node


def of_python(text: str, within: Sequence[str]) -> Iterator[Mutant]:
    """The mutants of a file in Python: changes in functions and classes of these
    names."""
    tree = ast.parse(text)
    observations = {ast.unparse(tree)}
    tops = [it for it in tree.body if getattr(it, "name", None) in within]
    for parent, field, position, node in [it for top in tops for it in places(top)]:
        results = list(changes(node))
        results += left_out(node) if isinstance(node, ast.stmt) else []
        for rule, new in results:
            put_node(parent, field, position, new)
            whole = ast.unparse(ast.fix_missing_locations(tree))
            put_node(parent, field, position, node)
            if whole not in observations and is_python(whole):
                observations.add(whole)
                before = ast.unparse(node).splitlines()[0]
                yield Mutant(rule, getattr(node, "lineno", 0), before, whole + "\n")


def is_python(text: str) -> bool:
    try:
        compile(text, "agent.py", "exec")
    except (SyntaxError, ValueError):
        return False
    return True


# (rule, pattern, replacement)
TEXT_RULES: Tuple[Tuple[str, str, str], ...] = (
    ("label", r"1 - (\(await [^;]*\)|\S*here)(\.came)", r"1"),
    ("label", r"(found|here)\.came", r"0"),
    ("sides", r"\[1 - ((?:\w|->)*side)\]", r"[\1]"),
    ("sides", r"\b1 - ", r""),
    ("compare", r" === | == ", r" >= "),
    ("compare", r" !== | != ", r" < "),
    ("compare", r"!\*", r"*"),
    ("off by one", r"\bnodes - 2\b", r"nodes - 1"),
    ("off by one", r"\bnodes - 2\b", r"nodes - 3"),
    ("off by one", r"\blinks > 0\b", r"links > 1"),
    ("off by one", r"\bmore = 1\b", r"more = 0"),
    ("trust", r"\bwritten = false\b", r"written = true"),
    ("trust", r"if \(swap\.written\)", r"if (true)"),
    ("trust", r"swap\.written \? 0 : 1", r"0"),
    ("trust", r"written \? 0 : 1", r"0"),
    ("write", r"^(\s*)safe\[side\] = mine;", r"\1"),
    ("write", r"^(\s*)search->safe\[search->side\] = search->mine;", r"\1"),
    ("look again", r"^(\s*)board = swap\.board;", r"\1"),
    ("look again", r"^(\s*)read_board\(.*\);", r"\1"),
    ("statement", r"^(\s*)(?:search->)?mine(?:\+\+| \+= 1);", r"\1"),
)


def of_text(text: str, first: str, last: str) -> Iterator[Mutant]:
    """The mutants of a program in another language, between the lines that begin so."""
    lines = text.splitlines(keepends=True)
    begin = next(it for it, line in enumerate(lines) if line.startswith(first))
    end = next(it for it, line in enumerate(lines) if line.startswith(last))
    observations: List[str] = [text]
    for number in range(begin, end):
        for rule, before, after in TEXT_RULES:
            line = re.sub(before, after, lines[number], count=1)
            whole = "".join([*lines[:number], line, *lines[number + 1 :]])
            if whole not in observations:
                observations.append(whole)
                yield Mutant(rule, number + 1, lines[number].strip(), whole)
