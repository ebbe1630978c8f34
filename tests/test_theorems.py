"""The sentences of docs/THEOREMS.md name each premise of the definitions that their
clauses state, and the sizes up to which a file can meet the premises."""
import pathlib
import re
import unittest
from typing import Dict, Iterator, List, NamedTuple, Set, Tuple

from tests import TOP

THEOREMS = TOP / "docs" / "THEOREMS.md"
SPECS = "crates/{}/specs/{}.antt"
# where functions, clauses and definitions are, and how they begin there
NAMED_IN = ("crates/*/src/**/*.rt", "crates/*/specs/**/*.antt")
NAMES = (
    r"\bfn (\w+)",
    r"\bensures (\w+) \{",
    r"^ *(?:abbrev )?pub (?:record |data )?(\w+)",
    r"^abbrev pub (\w+)",
    r"\b(?:struct|enum|mod) (\w+)",
    r"^    (\w+) ?[({,]",
)


class Theorem(NamedTuple):
    """A function whose contract is the theorem, and the definition that says it: its
    crate, its file, its name."""

    function: str
    crate: str
    file: str
    name: str


DISPLAYED = [
    Theorem("equal_pasts", "bhs_model", "Laws", "EqualPasts"),
    Theorem(
        "rehearsals::equal_pasts_are_answered_alike",
        "bhs_theorems_isolation",
        "Calls",
        "EqualPastsAreAnsweredAlike",
    ),
    Theorem(
        "contests::equal_pasts_are_sent_equal_bytes",
        "bhs_theorems_isolation",
        "ContestMet",
        "EqualPastsAreSentEqualBytes",
    ),
    Theorem(
        "every_arrival_in_contests",
        "bhs_theorems_isolation",
        "ContestTime",
        "EveryArrivalInContests",
    ),
    Theorem("twins_look_alike", "bhs_model", "Laws", "TwinsLookAlike"),
    Theorem("hole_looks_slow", "bhs_model", "Laws", "HoleLooksSlow"),
    Theorem("cuts_suffice", "bhs_model", "Laws", "CutsSuffice"),
    Theorem("replies_are_of_pasts", "bhs_model", "Laws", "AmongMatches"),
    Theorem(
        "the_halves_solve_all_rings",
        "bhs_protocols",
        "HalvesLaws",
        "HalvesSolveAllRings",
    ),
    Theorem(
        "the_halves_bound_is_attained",
        "bhs_protocols",
        "Attained",
        "HalvesAttainOnAllRings",
    ),
    Theorem(
        "the_shuttle_solves_all_rings",
        "bhs_protocols",
        "AllRings",
        "ShuttleSolvesAllRings",
    ),
    Theorem(
        "two_agents_with_a_map_solve",
        "bhs_protocols_mapped",
        "MapLaws",
        "TwoAgentsWithAMapSolve",
    ),
    Theorem(
        "two_agents_with_a_map_solve",
        "bhs_protocols_mapped",
        "MapLaws",
        "IsSearchedFrom",
    ),
    Theorem("tours_suffice", "bhs_protocols_mapped", "Tours", "HalvesSolveWithATour"),
    Theorem(
        "one_loss_is_needed_and_suffices",
        "bhs_protocols_mapped",
        "MapLaws",
        "OneLossIsNeededAndSuffices",
    ),
    Theorem(
        "the_triangle_is_solved",
        "bhs_protocols_triangle",
        "Triangle",
        "TriangleIsSolved",
    ),
    Theorem("one_alone_fails", "bhs_protocols", "Alone", "OneAloneFailsOnNetworks"),
    Theorem(
        "accusations_come_last", "bhs_protocols", "LastWord", "AccusationsComeLast"
    ),
    Theorem("a_loss_is_needed", "bhs_protocols", "Losses", "EachBlackHoleDestroys"),
    Theorem("solvers_find", "bhs_protocols", "LastWord", "SolversFind"),
    Theorem("two_must_move", "bhs_protocols_bounds", "Bound", "TwoMustMove"),
    Theorem("two_must_move", "bhs_protocols_bounds", "Bound", "TwoMustMoveMore"),
    Theorem("two_must_move", "bhs_protocols_bounds", "Bound", "TwoMustMoveOnAllRings"),
    Theorem("two_must_move", "bhs_protocols_bounds", "Bound", "TwoMustMoveAtRest"),
    Theorem(
        "the_halves_are_within_two", "bhs_protocols_bounds", "Bound", "EveryTeamMoves"
    ),
    Theorem(
        "the_halves_are_within_two",
        "bhs_protocols_bounds",
        "Bound",
        "EveryTeamMovesMore",
    ),
    Theorem(
        "the_halves_are_within_two",
        "bhs_protocols_bounds",
        "Bound",
        "HalvesSolveWithinTwice",
    ),
    Theorem(
        "no_team_solves_two_sizes", "bhs_protocols", "Sizes", "NoTeamFindsOnTwoSizes"
    ),
    Theorem(
        "no_team_solves_two_sizes", "bhs_protocols", "Sizes", "NoTeamSolvesTwoSizes"
    ),
    Theorem(
        "many_agents_are_needed",
        "bhs_protocols_unmapped",
        "Unmapped",
        "ManyAgentsAreNeededToFind",
    ),
    Theorem(
        "many_agents_are_needed",
        "bhs_protocols_unmapped",
        "Unmapped",
        "ManyAgentsAreNeeded",
    ),
    Theorem(
        "many_agents_are_needed",
        "bhs_protocols_unmapped",
        "Unmapped",
        "ManyAgentsAreNeededToFindWithLinks",
    ),
    Theorem(
        "many_agents_are_needed",
        "bhs_protocols_unmapped",
        "Unmapped",
        "ManyAgentsAreNeededWithLinks",
    ),
    Theorem("charters_solve", "bhs_protocols_charts", "ChartLaws", "ChartersSolve"),
    Theorem("one_more_suffices", "bhs_protocols_charts", "Exactly", "LinksSuffice"),
    Theorem(
        "one_more_suffices", "bhs_protocols_charts", "Exactly", "ThreeLinksSuffice"
    ),
    Theorem(
        "one_more_suffices",
        "bhs_protocols_charts",
        "Exactly",
        "RegularNetworksSuffice",
    ),
    Theorem("exactly_four", "bhs_protocols_charts", "Exactly", "ExactlyFour"),
    Theorem("exactly_one_more", "bhs_protocols_charts", "Exactly", "ExactlyOneMore"),
    Theorem("nobody_finds", "bhs_protocols_unmapped", "Ambiguity", "NobodyFinds"),
    Theorem("nobody_finds", "bhs_protocols_unmapped", "Ambiguity", "NobodySolves"),
    Theorem(
        "no_team_passes_a_cut", "bhs_protocols_mapped", "Cuts", "NoTeamLooksBehindACut"
    ),
    Theorem("no_team_passes_a_cut", "bhs_protocols_mapped", "Cuts", "NoTeamPassesACut"),
]
# what a premise looks like, and a word that its sentence, or the head of its section,
# must have
PREMISES: Dict[str, str] = {
    r".*\.quota ≡ .*\.quota": "equal quota",
    r".*\.board ≡ .*\.board": "equal quota and whiteboard size",
    r"IsPlaying .*": "open matches",
    r"\(?past .* ≡ past .*|its_past .*|\(state_of .*\)\.past .*": "pasts",
    r"TookPart .*": "has ended and settled",
    r"IsToldAll .*": "told all that its agent met",
    r"fed one ≡ fed two|commands_fed .*": "equal commands",
    r"StillPlays .*": "neither their matches nor their inputs have ended",
    r"HasEnded .*": "given back settled",
    r"schedule_of .*": "one oblivious schedule",
    r"HasArrival .*": "arrived anywhere in its past in both",
    r"departed_at .*": "departed after equally many turns",
    r"Twins .*": "equal except for what destroys",
    r"SlowInstead .*": "those links are held for good",
    r"IsSetOn .*": "each ring",
    r"IsRing .*": "ring",
    r"world\.agents ≡ 2": "two agents",
    r"Finds .*": "find the black hole whichever other node it is",
    r"fibonacci k \+ 2 ≤ n": "f_k at most n - 2",
    r"SolvesWithin .*": "solve a ring with every black hole within",
    r"IsSetAt .*": "whichever other node is the black hole",
    r"4 ≤ (setup|world)\.board": "whiteboards of at least 4 bytes",
    r"most_commands .* ≤ (setup|world)\.quota": "quota of at least H",
    r"\(nodes_of net - 2\) .* ≤ setup\.quota": "quota of at least C",
    r"3 ≤ setup\.quota": "quota of at least 3",
    r"nodes_of net ≡ 3": "three nodes",
    r"setup\.agents ≡ 2": "By a guide",
    r"IsNetwork net": "network of a file",
    r"(setup\.)?home < nodes_of net": "home base",
    r"IsTour .*": "tour that passes each node once",
    r"HasOneHole .*": "other than the home base is the black hole",
    r"hole < .*|hole ≢ .*": "black hole",
    r"IsAtRest .*": "comes to rest",
    r"SolvesEverywhere .*": "solves with every black hole",
    r"Finds \(?world.*": "finds each black hole",
    r"SomeoneHasAccused .*": "before it accuses",
    r"node < .*|node ≢ .*": "all other nodes",
    r"3 ≤ world\.net\.nodes": "three nodes or more",
    r"3 ≤ (n|size)": "at least 3",
    r"n ≢ size": "two different sizes",
    r"(Finds|Solves)Size n .*": "rings, of m",
    r"(Finds|Solves)Size size .*": "of n nodes",
    r"3 ≤ degree": "d be from 3",
    r"4 ≤ degree": "d be 4 or more",
    r"degree \+ 6 ≤ nodes": "n from d + 6",
    r"nodes ≤ MAX_NODES": "to 4,096",
    r"2 \* degree \+ 2 ≤ MAX_NODES": "to 2,047",
    r"terms\.agents ≤ degree": "d agents or fewer",
    r"(FindsOn|Solves)Networks \(2 .*": "with any number of links",
    r"(Finds|Solves)WithLinks \(2 .*": "all networks of a file with 2 d + 2 nodes, 4 d links and greatest degree d",
    r"CanSearch .*": "know n and can tell these links",
    r"degree < terms\.agents": "More than d",
    r"4 ≤ terms\.agents": "Four",
    r"CanChart .*": "whiteboards and quota as in the row above",
    r"(FindsOn|Solves)Networks nodes .*": "all networks of a file with n nodes and greatest degree d",
    r"IsPortLabelled net": "simple graph with port labels",
    r"setup\.home < nodes_of net|setup\.home ≢ cut": "any other home base",
    r"IsCutIn net cut": "without which some two others are not joined",
}


def definition(theorem: Theorem) -> str:
    """The text of a definition, on one line and without comments."""
    text = (TOP / SPECS.format(theorem.crate, theorem.file)).read_text(encoding="utf-8")
    block = re.search(
        rf"^(?:abbrev )?pub (?:record )?{theorem.name}\b.*?(?=\n\n|\Z)|^abbrev pub {theorem.name} .*?(?=\n\n|\Z)",
        text,
        re.DOTALL | re.MULTILINE,
    )
    if block is None:
        raise ValueError(f"{theorem.name} is not in {theorem.file}")
    return re.sub(r"\s+", " ", re.sub(r"--.*", "", block[0]))


def parts_of(text: str) -> Iterator[str]:
    """The parts between arrows that stand in no bracket."""
    depth = 0
    part = ""
    for letter in text:
        depth += (letter in "({") - (letter in ")}")
        if letter == "→" and depth == 0:
            yield part.strip()
            part = ""
        else:
            part += letter
    yield part.strip()


def is_binder(part: str) -> bool:
    """Returns whether a part names what the statement is about, as `(net : Network)
    (hole : ℕ)` does."""
    return bool(re.fullmatch(r"(\([^()]* : [^()]*(\([^()]*\))?[^()]*\) ?)+", part))


def premises(theorem: Theorem) -> List[str]:
    """The premises of a definition: what stands before its last arrow, of each field if
    it is a record."""
    text = definition(theorem)
    if " where " in text:
        bodies = [
            field.partition(" : ")[2]
            for field in text.partition(" where ")[2].split(" pub ")
        ]
    else:
        bodies = [text.partition(" = ")[2]]
    return [
        part
        for body in bodies
        for part in list(parts_of(body))[:-1]
        if not is_binder(part)
    ]


def sentence(function: str) -> str:
    """The row of the page that names a function as its clause, and the head of its
    section."""
    sections = THEOREMS.read_text(encoding="utf-8").split("\n## ")
    for section in sections:
        for row in section.split("\n"):
            if row.startswith("| ") and re.search(rf"\b{function}`", row):
                head = " ".join(
                    line for line in section.split("\n") if not line.startswith("|")
                )
                return re.sub(r"\s+", " ", f"{row} {head}")
    raise ValueError(f"no row names {function}")


def clauses() -> Iterator[str]:
    """What the rows name as their clauses: functions, clauses, definitions and crates.
    The column has this head."""
    column = 0
    for line in THEOREMS.read_text(encoding="utf-8").split("\n"):
        cells = [cell.strip() for cell in line.split("|")]
        if "clause" in cells:
            column = cells.index("clause")
        elif len(cells) > column > 0:
            yield from re.findall(r"`([\w:]+)`", cells[column])


def laws() -> Iterator[Tuple[pathlib.Path, str]]:
    """The functions that do nothing, and the file of each: their contracts are laws."""
    law = re.compile(r"^pub fn (\w+)(?:(?!^(?:pub )?fn ).)*?^\{\}$", re.M | re.S)
    for path in sorted(TOP.glob("crates/*/src/**/*.rt")):
        for match in law.finditer(path.read_text(encoding="utf-8")):
            yield path, match[1]


def shown_of(root: str, module: str) -> Set[str]:
    """What the root of a crate shows to others of a module that it keeps to itself."""
    uses = re.findall(rf"^pub use {module}::(\w+|\{{[^}}]*\}});", root, re.M)
    return {name for use in uses for name in re.findall(r"\w+", use)}


def is_public(path: pathlib.Path, name: str) -> bool:
    """Returns whether other crates may call a function. Nothing stands on a program."""
    root = path.parent / "lib.rt"
    if path == root or not root.exists():
        return True
    text = root.read_text(encoding="utf-8")
    is_shown = bool(re.search(rf"^pub mod {path.stem};$", text, re.M))
    return is_shown or name in shown_of(text, path.stem)


class Theorems(unittest.TestCase):
    def test_each_law_is_the_contract_of_a_public_call(self) -> None:
        results = list(laws())
        self.assertGreater(len(results), 80)
        for path, name in results:
            with self.subTest(crate=path.parts[-3], law=name):
                self.assertTrue(is_public(path, name))

    def test_each_premise_has_its_words(self) -> None:
        for theorem in DISPLAYED:
            row = sentence(theorem.function)
            for premise in premises(theorem):
                with self.subTest(theorem.function, premise=premise):
                    words = [
                        word
                        for pattern, word in PREMISES.items()
                        if re.fullmatch(pattern, premise)
                    ]
                    self.assertTrue(
                        words, f"a premise that the table of this test lacks: {premise}"
                    )
                    self.assertTrue(
                        any(word.lower() in row.lower() for word in words),
                        f"the sentence of {theorem.function} does not say: {' or '.join(words)}",
                    )

    def test_clauses_that_are_named_are_there(self) -> None:
        text = "\n".join(
            path.read_text(encoding="utf-8")
            for pattern in NAMED_IN
            for path in sorted(TOP.glob(pattern))
        )
        there = {
            name
            for pattern in NAMES
            for name in re.findall(pattern, text, re.MULTILINE)
        }
        names = {name for name in clauses() if not re.fullmatch(r"bhs_\w+", name)}
        self.assertGreater(len(names), 80)
        self.assertEqual(
            sorted(name for name in names if name.rpartition("::")[2] not in there), []
        )

    def test_the_sizes_are_those_up_to_which_a_file_has_the_quota(self) -> None:
        law = (TOP / SPECS.format("bhs_protocols", "Quotas")).read_text(
            encoding="utf-8"
        )
        sizes = [f"{int(nodes):,} nodes" for nodes in re.findall(r"\(n ≤ (\d+) →", law)]
        self.assertEqual(len(sizes), 2)
        for page in ("README.md", "docs/THEOREMS.md", "docs/PROTOCOLS.md"):
            text = re.sub(r"\s+", " ", (TOP / page).read_text(encoding="utf-8"))
            with self.subTest(page):
                self.assertEqual([size for size in sizes if size not in text], [])
