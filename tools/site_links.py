"""Links of Markdown and of pages: where they lead, and which lead nowhere."""
import html.parser
import pathlib
import re
import urllib.parse
from typing import Collection, Dict, Iterator, List, NamedTuple, Set, Tuple

from arena_lab.pages.links import fragment_of

LINK = re.compile(r"\]\(([^)\s#]+)")
# commands behind a paragraph, which belongs to no list
COMMANDS = re.compile(r"(?m)^(?![-*|]|\d+\.)\S.*\n\n((?:    .*\n)+)")
NETWORK = re.compile(r"--network ([\w:]+)(?!\S)")
# where the page on which one writes agents stands in the site
PLAY = "play/index.html"
# what a browser requests by itself when it shows a page
REQUESTING_TAGS = {"img", "script", "link", "iframe", "source"}


def links_of(text: str) -> Iterator[str]:
    """Where a text in Markdown leads, on this machine."""
    return (link for link in LINK.findall(text) if "://" not in link)


def with_links(text: str, new_links: Dict[str, str]) -> str:
    """The text with these links instead."""
    return LINK.sub(lambda match: f"]({new_links.get(match[1], match[1])}", text)


def with_play_links(text: str, up: str, networks: Collection[str]) -> str:
    """The text in which commands on one of these networks are followed by a link that
    opens it on the page on which one writes agents; `up` leads to the site's top."""

    def link_behind(match: "re.Match[str]") -> str:
        names = [name for name in NETWORK.findall(match[1]) if name in networks]
        if not names:
            return match[0]
        fields = {"network": names[0]}
        contents = {"version": 1, "start": "javascript", "files": {}, "fields": fields}
        address = f"{up}{PLAY}#{fragment_of(contents)}"
        return f"{match[0]}\n[Open {names[0]} in the browser]({address})\n"

    return COMMANDS.sub(link_behind, text)


class Page(html.parser.HTMLParser):
    """Collects anchors, links and requested resources of a page."""

    def __init__(self, text: str) -> None:
        super().__init__()
        self.places: Set[str] = set()
        self.links: List[Tuple[str, bool]] = []
        self.feed(text)

    def handle_starttag(self, tag: str, attributes: List[Tuple[str, object]]) -> None:
        for name, value in attributes:
            if name in ("id", "name"):
                self.places.add(str(value))
            elif name in ("href", "src") and value:
                self.links.append((str(value), tag in REQUESTING_TAGS))


class Link(NamedTuple):
    """A link of a page, and whether a browser requests it by itself."""

    page: pathlib.Path
    to: str
    is_requested: bool


def faults_in(folder: pathlib.Path) -> Iterator[str]:
    """A line for each link of a site that leads nowhere, and for each request of another
    machine."""
    folder = folder.resolve()
    pages = {
        path: Page(path.read_text(encoding="utf-8", errors="replace"))
        for path in sorted(folder.rglob("*.html"))
    }
    for path, page in pages.items():
        for to, is_requested in page.links:
            why = fault_of(Link(path, to, is_requested), pages)
            if why:
                yield f"{path.relative_to(folder)}: {to}: {why}"


def fault_of(link: Link, pages: Dict[pathlib.Path, Page]) -> str:
    """Returns the error of a broken link, or ""."""
    url = urllib.parse.urlsplit(link.to)
    if url.scheme == "data":
        return ""
    if url.scheme or url.netloc:
        return "is requested of another machine" if link.is_requested else ""
    name = urllib.parse.unquote(url.path)
    target = (link.page.parent / name).resolve() if name else link.page
    if target.is_dir():
        target /= "index.html"
    if not target.is_file():
        return "leads nowhere"
    anchor = urllib.parse.unquote(url.fragment)
    if target.as_posix().endswith(f"/{PLAY}"):
        # the page takes what a link holds from its fragment
        return ""
    if anchor and target in pages and anchor not in pages[target].places:
        return "leads to no heading"
    return ""
