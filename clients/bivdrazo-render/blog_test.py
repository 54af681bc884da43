#!/usr/bin/env python3
"""A blog of ten pages with front matter, footnotes, tables, images and folders, made by
bivdrazo-render: each relative link of each page points to a file of the site, and to an id in it.

    blog_test.py RENDER FOLDER

FOLDER must not exist.
"""

import html.parser
import pathlib
import subprocess
import sys
import urllib.parse

POST = """---
title: 'Post {number} & more'
date: 2026-11-{number:02}
tags: [a, b]
---

# Part {number}

![a picture](../images/{number}.png "p") and a note[^n], [next]({next}.md#part-{next}), [home][].

| a | b |
|---|:-:|
| `{number}` | [about](../about.md) |

[^n]: A note with [a file](../files/data%20{number}.csv).

[home]: ../index.md
"""
PAGES = {
    "index.md": "+++\ntitle = \"The blog\"\n+++\n\n# Welcome\n\n"
                + "".join(f"- [post](posts/{number}.md)\n" for number in range(1, 8)),
    "about.md": "# About *me*\n\n![me](images/me.png)\n\n[the archive](posts/old/archive.md)\n",
    "posts/old/archive.md": "text\n\n[up](../1.md#user-content-fn-1) [about](../../about.html)\n",
    **{f"posts/{number}.md": POST.format(number=number, next=number % 7 + 1)
       for number in range(1, 8)},
}
FILES = ["images/me.png", *(f"images/{number}.png" for number in range(1, 8)),
         *(f"files/data {number}.csv" for number in range(1, 8))]
UNUSED = ["images/unused.png", ".git/config", "posts/.draft.md"]


class Links(html.parser.HTMLParser):
    """The URLs, the ids, the title and the tags of a page."""

    def __init__(self, text):
        super().__init__()
        self.urls, self.ids, self.tags, self.title = [], set(), [], ""
        self.feed(text)
        self.close()

    def handle_starttag(self, tag, attrs):
        self.tags.append(tag)
        self.urls += [value for name, value in attrs if name in ("href", "src")]
        self.ids |= {value for name, value in attrs if name == "id"}

    def handle_data(self, data):
        if self.tags and self.tags[-1] == "title" and not self.title:
            self.title = data


def write(folder):
    """Writes the blog."""
    for name, text in [*PAGES.items(), *((name, name) for name in FILES + UNUSED)]:
        path = folder / name
        path.parent.mkdir(parents=True, exist_ok=True)
        path.write_text(text, encoding="utf-8")


def check_links(site, pages):
    """Checks that each link points to a file of the site, and to an id in it."""
    for path, page in pages.items():
        for url in page.urls:
            parts = urllib.parse.urlsplit(url)
            assert not parts.scheme and not parts.netloc, f"{path}: {url}"
            name = urllib.parse.unquote(parts.path)
            target = (path.parent / name).resolve() if name else path
            assert target.is_file() and site in target.parents, f"{path}: {url}"
            if parts.fragment:
                assert parts.fragment in pages[target].ids, f"{path}: {url}"


def main(render, folder):
    """Makes the blog and its site twice, and checks them."""
    folder = pathlib.Path(folder).resolve()
    source, site = folder / "source", folder / "site"
    write(source)
    command = [render, "--lang", "en", "--number-ids", "--heading-ids", "slug", "--toc",
               "--out-dir", site, source]
    told = []
    for _ in range(2):
        done = subprocess.run(command, capture_output=True, text=True, check=True)
        told.append(done.stderr)
    wanted = ["bivdrazo-render: 12 pages written, 15 files copied\n",
              "bivdrazo-render: 0 pages written, 12 unchanged\n"]
    assert told == wanted, told
    wanted = {name.replace(".md", ".html") for name in PAGES} | set(FILES)
    wanted |= {"posts/index.html", "posts/old/index.html"}
    found = {str(path.relative_to(site)) for path in site.rglob("*") if path.is_file()}
    assert found == wanted, found ^ wanted
    pages = {path: Links(path.read_text(encoding="utf-8")) for path in site.rglob("*.html")}
    check_links(site, pages)
    titles = [pages[site / name].title for name in
              ("index.html", "about.html", "posts/old/archive.html", "posts/3.html")]
    assert titles == ["The blog", "About me", "archive", "Post 3 & more"], titles
    tags = set(pages[site / "posts/3.html"].tags)
    assert {"table", "img", "section", "h1", "h2"} <= tags, tags
    text = (site / "posts/3.html").read_text(encoding="utf-8")
    assert "tags:" not in text and '<h1 id="part-3">Part 3</h1>' in text, text
    assert '<li><a href="#part-3">Part 3</a></li>' in text, text
    assert '<a rel="next" href="4.html">Post 4 &amp; more</a>' in text, text
    print("a blog of ten pages: passed")


if __name__ == "__main__":
    main(*sys.argv[1:])
