#!/usr/bin/env python3
"""Makes a real browser, Debian's chromium, read the output of `mdevents` for the attacks in
bench/standard/attacks.json.

    /usr/bin/python3 bench/standard/browser.py PROGRAM CASES [CHROMIUM]

PROGRAM is the built `mdevents`, and CASES the built `md_cases`, which makes pages. Each text is
written into a document of its own, by the browser's parser as it reads a page, and inserted into a
`div` of another. Both documents may have no script element, no attribute whose name begins with
`on`, and, unless an option allows them, no `href` and no `src` with a scheme that isn't permitted,
by the browser's own `URL`; and nothing may run: no call of `alert`, `confirm`, `prompt` or `eval`.
Besides, each attack is the title of an empty page (`md_page::page`), whose document must have
exactly this title and an empty body. It fails, with status 1, on each of these, and if it doesn't
find them in texts that have them.
"""

import itertools
import json
import pathlib
import subprocess
import sys
import tempfile

from html5 import ATTACKS, LETS_ANY, attacks, script

# Texts with faults, each with a word of the fault that must be found.
BAD = [
    ("<p><script>alert(1)</script></p>", "script"),
    ("<p><script>alert(1)</script></p>", "ran"),
    ("<p onclick='alert(1)'>x</p>", "onclick"),
    ("<img src='data:,' onerror='alert(1)'>", "ran"),
    ("<svg onload='alert(1)'></svg>", "ran"),
    ("<a href=' java\nscript:alert(1)'>x</a>", "javascript"),
    ("<img src='irc:x'>", "irc"),
]
BAD_PAGE = ["<!doctype html><title></title>x</title><body>", "</title>x", "the title"]

PAGE = """<!doctype html><meta charset="utf-8"><body><script>
const PERMITTED = {
  href: ['http', 'https', 'irc', 'ircs', 'mailto', 'xmpp'], src: ['http', 'https'],
};
const told = (url, base) => {
  try { return new URL(url, base).protocol.slice(0, -1) } catch { return null }
};
// A URL's own scheme: the one that it has on two bases with different schemes.
const schemeOf = (url) => {
  const one = told(url, 'http://h/');
  return one === told(url, 'ftp://h/') ? one : null;
};
const faultsOf = (root, isAny) => {
  const faults = [];
  for (const element of root.querySelectorAll('*')) {
    if (element.localName === 'script') faults.push('a script element');
    for (const {name, value} of element.attributes) {
      if (name.startsWith('on')) faults.push('the attribute ' + name);
      const scheme = name in PERMITTED && schemeOf(value);
      if (scheme && !isAny && !PERMITTED[name].includes(scheme))
        faults.push(name + ' with the scheme ' + scheme);
    }
  }
  return faults;
};
const opened = (ran) => {
  const frame = document.body.appendChild(document.createElement('iframe'));
  for (const name of ['alert', 'confirm', 'prompt', 'eval'])
    frame.contentWindow[name] = () => { ran.push('ran ' + name) };
  return frame;
};
const wait = (time) => new Promise((done) => setTimeout(done, time));
const titleFaults = (document, title) => [
  ...(document.querySelectorAll('title').length === 1
    && document.querySelector('title').textContent === title
    ? [] : ['the title is not ' + title]),
  ...(document.body.children.length || document.body.textContent.trim()
    ? ['something stands in the body'] : []),
];
const judged = async (texts) => {
  const open = texts.map(([text, isAny, title]) => {
    const ran = [], page = opened(ran), part = opened(ran), document = page.contentDocument;
    const before = title === null ? '<!doctype html><meta charset="utf-8"><body>' : '';
    document.open(); document.write(before + text); document.close();
    const div = part.contentDocument.body.appendChild(part.contentDocument.createElement('div'));
    if (title === null) div.innerHTML = text; else ran.push(...titleFaults(document, title));
    return {ran, page, part, document, div, isAny};
  });
  await wait(200);
  return open.map(({ran, page, part, document, div, isAny}) => {
    const faults = [...faultsOf(document, isAny), ...faultsOf(div, isAny), ...ran];
    page.remove(); part.remove();
    return faults;
  });
};
(async () => {
  const answers = [];
  for (let at = 0; at < TEXTS.length; at += 50)
    answers.push(...await judged(TEXTS.slice(at, at + 50)));
  document.body.textContent = JSON.stringify(answers);
})();
</script></body>"""


def faults_of(texts, chromium):
    """The browser's findings in each text; a text has a flag for an option that allows any
    protocol, and a page's title.
    """
    with tempfile.TemporaryDirectory() as folder:
        page = pathlib.Path(folder) / "page.html"
        given = json.dumps(texts).replace("<", "\\u003c")
        page.write_text(PAGE.replace("<script>", f"<script>\nconst TEXTS = {given};", 1),
                        encoding="utf-8")
        options = ["--headless", "--no-sandbox", "--disable-gpu",
                   f"--user-data-dir={folder}/profile"]
        command = [chromium, *options, "--virtual-time-budget=600000", "--dump-dom", page.as_uri()]
        ran = subprocess.run(command, capture_output=True, text=True, check=True, timeout=600)
    inside = ran.stdout.split("<body>", 1)[1].split("</body>", 1)[0]
    return json.loads(inside.replace("&amp;", "&").replace("&lt;", "<").replace("&gt;", ">"))


def pages_of(titles, program):
    """The empty page with each title, as the program of the worked cases prints it."""
    arguments = [title.replace("\n", "\\n") for title in titles]
    asked = [f"%%%% {number}: page\n? compiled page {argument}\n--\n\n"
             for number, argument in enumerate(arguments)]
    given = "worked cases\n" + "".join(asked)
    answers = subprocess.run([program], input=given.encode(), capture_output=True,
                             check=True).stdout.decode()
    for number, argument in enumerate(arguments):
        head = f"%%%% {number}: page\ncompiled page {argument}: "
        yield answers.split(head, 1)[1].split("</html>", 1)[0] + "</html>"


def main():
    program, cases, chromium = sys.argv[1], sys.argv[2], (sys.argv[3:] or ["chromium"])[0]
    texts, sources = [], []
    for lines, (text, nodes) in itertools.product(ATTACKS["ways"], attacks()):
        source = script(lines, text, nodes)
        if source is None:
            continue
        ran = subprocess.run([program], input=source, capture_output=True, check=True)
        texts.append([ran.stdout.decode(), LETS_ANY in lines, None])
        sources.append(source)
    count = len(texts)
    titles = [text for text, _ in attacks() if "\0" not in text]
    for title, page in zip(titles, pages_of(titles, cases), strict=True):
        texts.append([page, False, title.replace("\r\n", "\n").replace("\r", "\n")])
        sources.append(title.encode())
    bad = [([text, False, None], word) for text, word in BAD] + [([BAD_PAGE[0], False, BAD_PAGE[1]],
                                                                  BAD_PAGE[2])]
    found = faults_of([text for text, _ in bad] + texts, chromium)
    assert len(found) == len(bad) + len(texts)
    for (text, word), faults in zip(bad, found, strict=False):
        assert any(word in fault for fault in faults), (text, faults)
    failures = 0
    for source, (text, _, _), faults in zip(sources, texts, found[len(bad) :], strict=True):
        failures += bool(faults)
        if faults:
            print(f"{faults}\n  in {text[:300]!r}\n  of {source[:300]!r}")
    print(f"{count} texts, each as a page and inside a div, and {len(texts) - count} titles: "
          f"{failures} with faults")
    sys.exit(1 if failures or not texts else 0)


if __name__ == "__main__":
    main()
