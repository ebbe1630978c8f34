"""Finds a word in the site of the documents, as headless Chromium opens it from a file and
from a server.

    /usr/bin/python3 -m tests.browser.site_in_browser SITE

SITE is a folder that `tools/site` has written. The browser's console must show no error.
"""
import contextlib
import functools
import http.server
import pathlib
import sys
import threading
from typing import Iterator, List

from selenium import webdriver
from selenium.webdriver.support.ui import WebDriverWait

from tests.browser.watch_in_browser import SECONDS, browser

WORD = "whiteboard"
PAGE = "docs/AGENTS.html"
ASKS = """
document.querySelector("[data-md-toggle=search]").click();
const field = document.querySelector("input.md-search__input");
field.focus();
field.value = arguments[0];
field.dispatchEvent(new KeyboardEvent("keyup", { bubbles: true }));"""
LINKS = """
return [...document.querySelectorAll("a.md-search-result__link")].map((link) => link.href)"""


@contextlib.contextmanager
def serve(site: pathlib.Path) -> Iterator[str]:
    """Serves the site on this machine; gives its address."""
    handler = functools.partial(
        http.server.SimpleHTTPRequestHandler, directory=str(site)
    )
    with http.server.ThreadingHTTPServer(("127.0.0.1", 0), handler) as server:
        threading.Thread(target=server.serve_forever, daemon=True).start()
        yield f"http://127.0.0.1:{server.server_address[1]}"
        server.shutdown()


def links_to(page: webdriver.Chrome, address: str) -> List[str]:
    """Returns the links that a page's search gives for WORD."""
    page.get(f"{address}/{PAGE}")
    page.execute_script(ASKS, WORD)
    WebDriverWait(page, SECONDS).until(lambda _: page.execute_script(LINKS))
    errors = [entry for entry in page.get_log("browser") if entry["level"] == "SEVERE"]
    if errors:
        raise SystemExit(f"the console says {errors}")
    return list(page.execute_script(LINKS))


def main(site: pathlib.Path) -> int:
    page = browser()
    try:
        with serve(site) as address:
            for top in (site.resolve().as_uri(), address):
                links = links_to(page, top)
                if not all(link.startswith(f"{top}/") for link in links):
                    raise SystemExit(f"the search of {top} leads to {links}")
    finally:
        page.quit()
    print("2 passed, 0 failed")
    return 0


if __name__ == "__main__":
    sys.exit(main(pathlib.Path(sys.argv[1])))
