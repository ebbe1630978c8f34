"""Pages escape what strangers write, and are given all that they ask for."""

from arena_lab.course import league
from arena_lab.course.league import Failure
from arena_lab.pages import contest_pages, match_page, parts
from arena_lab.rules.model import Verdict
from arena_lab.sweep import report
from tests.support.course_files import TEAM, Folder, row

HOSTILE = "</script></td><b>\" onload='x' & {{ 7 * 7 }}{% raise %}\u202e"
TAMED = "&lt;/script&gt;&lt;/td&gt;&lt;b&gt;&#34; onload=&#39;x&#39; &amp; {{ 7 * 7 }}{% raise %}"
TITLE = "<i>'\""


class Escapes(Folder):
    def check(self, text: str, times: int = 1) -> None:
        """That a page has the hostile text as a text, so often, and no other way."""
        self.assertEqual(text.count(TAMED), times)
        self.assertNotIn("<b>", text)
        self.assertNotIn("</td><b", text)

    def test_what_programs_and_hand_ins_say_of_a_failed_match(self) -> None:
        rows = [row(0, "a", 9, "silent", HOSTILE), row(1, "a", 4)]
        grid = self.course().grid._replace(title=TITLE)
        pages = league.pages(grid, rows, {0: Failure(0, 5, True, HOSTILE, True)}, "it")
        self.assertEqual(set(pages), {"league.html", "team-a.html"})
        self.check(pages["team-a.html"], 2)
        for text in pages.values():
            self.assertIn("&lt;i&gt;&#39;&#34;", text)
            self.assertNotIn("<i>", text)
        self.assertIn('href="team-a.html"', pages["league.html"])

    def test_each_fault_has_a_line(self) -> None:
        faults = [
            'agent 0: has ended with status 1: "x"; agent 1: forged, \\r',
            "agent 1: has connected twice",
        ]
        message = ["nobody accused", "agent 1 still stood at node 3"]
        pages = league.pages(
            self.course().grid,
            [row(0, "a", 9, "silent", *faults)],
            {0: Failure(0, 5, False, "", False, told=message)},
            "it",
        )
        self.assertEqual(pages["team-a.html"].count("<li>agent"), 3)
        self.assertIn("<li>nobody accused</li>", pages["team-a.html"])

    def test_equal_failures_are_one_card(self) -> None:
        hung = "agent 0: has sent no line for 20 s"
        second = "agent 1: has connected twice"
        rows = [
            row(0, "a", 9, "silent", hung),
            row(1, "a", 9, "silent", hung),
            row(2, "a", 9, "silent", hung),
            row(4, "a", 9, "silent", second),
        ]
        settings = {it: Failure(it, 5, it == 2, "", True) for it in (0, 1, 2, 4)}
        page = league.pages(self.course().grid, rows, settings, "it")["team-a.html"]
        # one card per network, and one for the other fault
        self.assertEqual(page.count('<section class="match">'), 3)
        self.assertEqual(page.count("<li>agent"), 3)
        self.assertIn('<h3 id="match-2">', page)
        self.assertIn("and 1 other match alike", page)
        self.assertIn(
            '<li id="match-0">alike: match 0, black hole 1, fair 0: silent, 9 moves, 1 lost (<a href="',
            page,
        )

    def test_the_league_has_the_kinds_of_failures(self) -> None:
        rows = [row(0, "a", 9), row(1, "a", 9, "wrong"), row(2, "b", 9), row(3, "b", 1)]
        grid = self.course("", TEAM + TEAM.replace('"a"', '"b"')).grid
        text = league.pages(grid, rows, {1: Failure(1, 5, False, "", False)}, "it")[
            "league.html"
        ]
        self.assertIn('<span class="kind wrong">1 wrong</span>', text)
        self.assertIn("an agent accused a link that leads to no black hole", text)

    def test_names_of_teams_and_networks_of_a_contest(self) -> None:
        view = [
            contest_pages.MatchRow(0, HOSTILE, "ring.toml", Verdict("solved", 1, 0)),
            contest_pages.MatchRow(1, "a", HOSTILE, None),
        ]
        self.check(contest_pages.page_of(HOSTILE, view), 5)

    def test_names_and_faults_of_a_sweep(self) -> None:
        rows = [row(0, "a", 9, "silent", HOSTILE)]
        run = report.KeptRun(rows[0], f'a"{HOSTILE}')
        text = parts.fill_page(
            "report.html",
            title=TITLE,
            about="",
            plot=parts.as_is("<svg></svg>"),
            head=report.HEAD,
            groups=[],
            links={},
            kept=[run],
            every_head=report.MATCHES,
            fails=report.FAILS,
            every=[[HOSTILE] * len(report.MATCHES)],
        )
        self.check(text, 2 + len(report.MATCHES))
        self.assertIn("<svg></svg>", text)

    def test_whiteboards_of_a_match_end_no_script(self) -> None:
        text = match_page.page_of({"name": HOSTILE, "match": {"texts": [HOSTILE]}})
        self.check(text)
        self.assertEqual(text.count("</script>"), 2)
        self.assertIn("\\u003c/script>\\u003c/td>\\u003cb>", text)

    def test_a_page_without_what_it_asks_for_is_a_fault(self) -> None:
        with self.assertRaisesRegex(Exception, "'(title|styles|matches)' is undefined"):
            parts.fill_page("contest.html", solved=0)
