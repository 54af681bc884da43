#!/usr/bin/env python3
"""Makes sites of six kinds of folder by bivdrazo-render: each page is reached from the site's first
one by links, each relative link points to a file of the site, a second run writes nothing, nothing
that isn't published is in the site, and a page that is taken back is gone.

    folders_test.py RENDER FOLDER

FOLDER must not exist.
"""

import html.parser
import pathlib
import subprocess
import sys
import urllib.parse

import folders

SOURCES = {"book": 6 + 6 * 7, "rules": 302, "manual": 60, "interface": 32, "design": 4 * 7,
           "service": 24}
LISTS = {"book": 1 + 6 * 2, "rules": 0, "manual": 1, "interface": 0, "design": 6, "service": 0}
SKIPPED = {"book": "6 drafts, 1 name with _", "rules": "1 node_modules", "design": "4 drafts"}
TAGS = set("html head meta title style body nav details summary ul ol li a main h1 h2 h3 h4 h5 h6 "
           "p code pre em strong del table thead tbody tr th td blockquote hr br img sup section "
           "input div".split())


class Reader(html.parser.HTMLParser):
    """The links, the tags, and the number of first headings of a page."""

    def __init__(self, text):
        super().__init__()
        self.urls, self.tags, self.headings, self.current = [], set(), 0, 0
        self.feed(text)
        self.close()

    def handle_starttag(self, tag, attrs):
        attrs = dict(attrs)
        self.tags.add(tag)
        self.headings += tag == "h1"
        self.current += attrs.get("aria-current") == "page"
        self.urls += [attrs[name] for name in ("href", "src") if name in attrs]


def read(site):
    """The pages of a site."""
    return {path: Reader(path.read_text(encoding="utf-8")) for path in site.rglob("*.html")}


def target(path, url):
    """The file that a relative URL of a page points to; none for another URL."""
    parts = urllib.parse.urlsplit(url)
    if parts.scheme or parts.netloc or parts.path.startswith("/"):
        return None
    return (path.parent / urllib.parse.unquote(parts.path)).resolve() if parts.path else path


def reached(site, pages):
    """The pages that links reach from the first one."""
    seen, left = set(), [site / "index.html"]
    while left:
        page = left.pop()
        if page in pages and page not in seen:
            seen.add(page)
            left += [target(page, url) for url in pages[page].urls]
    return seen


def run(render, source, site):
    """One run, and what it says."""
    command = [render, "--lang", "en", "--number-ids", "--heading-ids", "slug", "--toc",
               "--out-dir", site, source]
    done = subprocess.run(command, capture_output=True, text=True, check=True)
    return done.stderr.replace("bivdrazo-render: ", "").splitlines()


def check(render, source, site):
    """Checks a kind of folder."""
    name = source.name
    number = SOURCES[name] + LISTS[name]
    said = run(render, source, site)
    copied = ", 1 file copied" if name == "rules" else ""
    wanted = [f"not published: {SKIPPED[name]}"] if name in SKIPPED else []
    assert said == wanted + [f"{number} pages written{copied}"], said
    pages = read(site)
    assert len(pages) == number, name
    assert reached(site, pages) == set(pages), set(pages) - reached(site, pages)
    for path, page in pages.items():
        assert page.tags <= TAGS, f"{path}: {page.tags - TAGS}"
        assert page.headings >= 1 and page.current == 1, path
        for url in page.urls:
            found = target(path, url)
            assert found is None or found.is_file() and site in found.parents, f"{path}: {url}"
    text = "".join(path.read_text(encoding="utf-8") for path in pages)
    assert "<!-- " not in text and "&lt;!--" not in text, name
    assert run(render, source, site)[-1] == f"0 pages written, {number} unchanged", name
    sources = {site / path.relative_to(source).with_suffix(".html"): path
               for path in source.rglob("*.md")}
    page = sorted(path for path in pages if path.stem != "index" and path in sources)[1]
    sources[page].unlink()
    assert "1 removed" in run(render, source, site)[-1], name
    assert not page.exists(), page
    left = read(site)
    assert reached(site, left) == set(left) == set(pages) - {page}, name


def main(render, folder):
    """Checks all kinds."""
    folder = pathlib.Path(folder).resolve()
    for source in folders.write(folder):
        check(render, source, folder / "sites" / source.name)
    print("six kinds of folder: passed")


if __name__ == "__main__":
    main(*sys.argv[1:])
