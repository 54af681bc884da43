#!/usr/bin/env python3
"""Looks at the pages of a site in Chromium, without a window: prints each page that scrolls
sideways on a phone, and each that links don't reach from the first one; then the status is 1.

    browser.py SITE [WIDTH]

WIDTH is that of the phone in CSS pixels, by default 375. Not a part of clients/check, since it
requires Debian's package chromium. The pages are shown in frames of that width, which a page beside
them measures.
"""

import json
import pathlib
import re
import subprocess
import sys
import tempfile

FRAMES = """<!doctype html><meta charset="utf-8"><body><pre id="found">unfinished</pre><script>
const pages = PAGES, found = {};
async function look(page) {
    const frame = document.createElement("iframe");
    frame.style = "width: WIDTHpx; height: 700px; border: 0";
    const loaded = new Promise(done => frame.onload = done);
    frame.src = page;
    document.body.append(frame);
    await loaded;
    const root = frame.contentDocument.documentElement;
    const links = [...frame.contentDocument.querySelectorAll("a[href]")];
    found[page] = {wide: root.scrollWidth, links: links.map(link => link.href.split(/[?#]/)[0])};
    frame.remove();
}
(async () => {
    for (const page of pages) await look(page);
    document.getElementById("found").textContent = JSON.stringify(found);
})();
</script>"""
AT_ONCE = 50


def look(pages, width):
    """What Chromium finds in these pages."""
    with tempfile.TemporaryDirectory() as folder:
        frames = pathlib.Path(folder, "frames.html")
        text = FRAMES.replace("PAGES", json.dumps(pages)).replace("WIDTH", str(width))
        frames.write_text(text, encoding="utf-8")
        command = ["chromium", "--headless", "--no-sandbox", "--disable-gpu",
                   "--allow-file-access-from-files", f"--user-data-dir={folder}/profile",
                   "--virtual-time-budget=600000", "--dump-dom", frames.as_uri()]
        done = subprocess.run(command, capture_output=True, text=True, check=True, timeout=600)
    found = re.search(r'<pre id="found">(.*?)</pre>', done.stdout, re.S).group(1)
    return json.loads(found.replace("&amp;", "&").replace("&lt;", "<").replace("&gt;", ">"))


def main(site, width="375"):
    """Looks at all pages."""
    site = pathlib.Path(site).resolve()
    pages = [path.as_uri() for path in sorted(site.rglob("*.html"))]
    found = {}
    for start in range(0, len(pages), AT_ONCE):
        found.update(look(pages[start:start + AT_ONCE], width))
    assert set(found) == set(pages)
    seen, left = set(), [(site / "index.html").as_uri()]
    while left:
        page = left.pop()
        if page in found and page not in seen:
            seen.add(page)
            left += found[page]["links"]
    wide = {page: found[page]["wide"] for page in pages if found[page]["wide"] > int(width)}
    bad = [f"{page}: {pixels} wide" for page, pixels in wide.items()]
    bad += [f"{page}: not reached" for page in pages if page not in seen]
    print("\n".join(bad + [f"{len(pages)} pages at {width} px: {len(bad)} complaints"]))
    return bool(bad)


if __name__ == "__main__":
    sys.exit(main(*sys.argv[1:]))
