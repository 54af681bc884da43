"""Documents for the Markdown parser of our own, and the expected result of each.

AS_GFM are read as cmark-gfm reads them, with the permitted differences. BY_OPTIONS are options,
documents, and the HTML of each under these options; RESOLVED are bases, and URLs with their
resolutions against the base. The expected results are from the specifications (GFM, RFC 3986), or
from the clients' tests; none of them is this parser's own output.
"""

import html
import html.entities

AS_GFM = [
    # Containers.
    "> a\nb\n\nc\n", ">a\n>b\n> > c\nd\n", "> a\n\n> b\n", "> ```\n> ", "> - a\nb\n",
    "- a\n\n\t- b\n\t  c\n- d\n", "1. a\n2) b\n", "1. a\n- b\n+ c\n", "-\n\n  a\n", "-\n  a\n",
    "- x\n\n\t\ty\n", "- a\n -b\n  - c\n   - d\n", "10. a\n\n    b\n", "1234567890. a\n",
    "a\n2. b\n", "a\n1. b\n", "a\n-\nb\n", "- a\n\n\n- b\n", "- a\n- \n\n- c\n", "-\n\n- b\n",
    "- [a]: b\n\n- c\n", "* a\n*\n\n* c\n", "- a\n  > b\n  ```\n  c\n  ```\n- d\n",
    "- a\n- b\n\n  [r]: /u\n- d\n", "- # a\n- b\n", "- a\n  # b\n  c\n", "3. a\n\n   b\n-\n",
    "- a\n-\nb\n", "- > - a\n", "-\ta\n\n\tb\n", "- ***\n- a\n",
    # Leaves.
    "~~~ r\n x\n\n~~~\ny", "- ```\n  a\n ", "- ```\n\n ", " ```\n ", " ```\n\n\n ", "- ~~~\n\n\t",
    "> - ```\n>   a\n> ", "```\na\n", "```r s\na\n```\n", "`````\n```\n`````\n", "``` a`b\n",
    "  ```\n   a\n b\n  ```\n", "~~~ a`b ~ c\nd\n~~~~\ne\n", "\ta\n\n\t b\n\nc\n",
    "    a\n\n\n    b\n\n", "a\n    b\n", "# a #\n####### b\n", "#\n## \n###\ta\t##\t\n",
    "# a \\#\n# b#\n#c\n", "a\nb\n=\nc\n---\n***\n", "a\n=b\n=\n", "=\n\na\n\n---\n",
    "* * *\n_ _ _\n-- -\n--\n", "|\n|-\n", "|\n|-|\n", "|a|\n|-\n", "a | b\n:-|-\n1 | 2\n|\n> d\n",
    "|a|b|\n|:-|-:|\n|c\n", "|a|\n|:-:|\n|b|c|\n\nd\n", "|a|b|\n|-|\n", "| a \\| b |\n| - |\n",
    "a\n|b|\n|-|\n|c|\n", "- |a|\n  |-|\n  |b|\n", "|a|\n|-|\n```\nb\n```\n",
    "|a\\\\|b|\n|-|\n|\\|c\\\\\\|\\\\\\\\|d|\n", "\\\\|a\n",
    "<div>\n*a*\n\n<!-- b\n\nc -->\nd\n", "<b>\n*c*\n</b>\n\nd\n", "a\n<b>\nc\n", "a\n<div>\nb\n",
    "<script>\n\na\n</script> b\nc\n", "<?a\n\nb?>\nc\n", "<!A\n\nb>\nc\n",
    "<![CDATA[\n\na]]>\nb\n", "<b c='d'\n", "</b>\na\n", "<DIV\na\n", "> <div>\na\n",
    # Definitions.
    "[A b]: /x 'y\nz'\n[c]: /d\n\n[a  B]: /e\nf\n\n[a b] [c]\n",
    "[A\nb]: /x\n[a B]: /y\n\n[a b] [c][A B]\n", "[a]: <>\n\n[a]\n", "[a]:\n/b\n'c'\n\n[a]\n",
    "[a]: b 'c' d\n\n[a]\n", "a\n[b]: c\n\n[b]\n", "[a]\n\n[a]: <b\\>c> (d)\n",
    "# [a]\n[a]: b\n> c\n", "[\u1e9e]\n\n[SS]: /a\n", "[ ]: a\n", "[a]: \n\n[a]\n",
    # Definitions at an end of a list make no list loose.
    "- a\n- b\n\n  [x]: /y\n", "- a\n\n  [x]: /y\n\nc [x]\n", "- a\n- b\n\n  [x]: /y\n- c\n",
    "- a\n  - b\n\n    [x]: /y\n", "- a\n  - b\n\n  [x]: /y\n", "> - a\n>\n>   [x]: /y\n",
    "- a\n\n  [x]: /y\n\n  b\n", "- a\n\n  [x]: /y\n  # b\n", "- a\n  # b\n\n  [x]: /y\n",
    "- a\n  - b\n\n    [x]: /y\n- c\n", "- a\n\n  b\n  ===\n", "- a\n\n  |b|\n  |-|\n",
    # NUL is U+FFFD in labels and URLs too.
    "[a\ufffdb] [c\0]\n\n[a\0b]: /d\n[c\ufffd]: /e\n", "[a\0\nb]\n\n[a\ufffd b]: /c\n",
    "<http://a\0b>\n", "http://a\0b.c/\0&amp;\n", "[a](b\0c) ![d](<e\0>)\n\n[f\0]: g\0 'h\0'\n",
    # Footnotes.
    "x[^1]\n\n[^1]:    text\n", "x[^1]\n\n[^1]:\t\ttext\n\n    more\n",
    "x[^1]\n\n[^1]:      - a\n      b\n",
    "x[^1]\n\n> [^1]:     # a\n", "x[^1][^2]\n\n[^1]:     [^2]:     a\n",
    "x[^1]\n\n[^1]:     \n      a\n",
    # What is dropped calls nothing.
    "a\n\n[^1]: b[^2]\n\n[^2]: c\n", "a[^3]\n\n[^1]: b[^2]\n\n[^2]: c\n\n[^3]: d\n",
    "[^1]: b[^3]\n\n[^3]: d\n\na[^3]\n", "a[^1]\n\n[^1]: b\n\n    [^2]: c[^1]\n", "[^1]: b[^1]\n",
    "x[^1]\n\n[^1]: [^1]: a[^2]\n\n[^2]: b\n", "[^1]: [^1]: a[^1]\n",
    "[^1]: b[^2]\n\n[^2]: c[^1]\n", "[^1]: b\n\n    [^2]: c\n\na[^2]\n",
    "[^a]: b\n\n    c\n\nd[^a]\n", "[^A] [^a]\n\n[^a]: b\n", "> [^a]: b\n\n[^a]\n", "[^a]\n",
    "a[^b]\n\n[^b]: - c\n", "[^a]: b\n", "a[^a][^a]\n\n[^a]: b\n",
    # Tasks.
    "- [ ] \n", "- [ ] \n- [x] \n- c\n", "- [ ] \n  a\n", "- [ ] \n  - a\n", "1. [x]  \n\na\n",
    "- [x] a\n- [ ] b\n- [X] c\n", "- [y] a\n- [x]b\n", "1. [x] a\n", "[x] a\n",
    # Links in angle brackets.
    "<a+b:c>d\n", "<a:b>\n", "<ab:c d>\n", "<a!b@c-d.e>\n", "<a@-b>\n", "<a@b.>\n", "<@b>\n",
    "<http://a.b?c&amp;d>\n", "<http://a\\b>\n", "<irc://a>\n",
    # Bare links.
    "x>www.a.b x|www.c.d <e>www.f.g\n", "a |www.b.c\n", ">www.a.b\n>www.c.d\n",
    "|a|www.b.c|\n|-|-|\n",
    "nmailto:a@b.c 1xmpp:d@e.f (mailto:g@h.i)\n", "MAILTO:a@b.c Xmpp:d@e.f\n",
    "a@b.c@d a@b.c@d.e\n",
    "http://-a.b http://.c http://\u2014d.e http://\u00e9.f\n", "https://a.b/[c] https://a.b/[c\n",
    "x https://a.b/(c)). d\n", "irc://a\n", "http://a_b.c\n", "(www.a.b&amp;)\n", "xwww.a.b\n",
    "a.b+c@d.e-\n", "a.b+c@d.e.\n", "www.a.bc.\n", "www.a.bc/d_e_f*\n", "mailto:a@b.c\n",
    "http://a.b<c\n", "*www.a.bc*\n", "~www.a.bc~\n", "www.a_b.cd\n", "www.a.b_c\n",
    "HTTPS://a.bc\n", "`www.a.bc`\n", "[www.a.bc](d)\n", "a@b_c.de\n", "a@b\n",
    "_www.a.b_\n", "www.a_www.c\n", "xwww.a_www.c\n", "xwww._www.a_b.c.d\n", "*www.a_b_*\n",
    "_www.a_www.c.d_\n", "_http://a.b_\n", "x[^a]\n\n[^a]:www.a.b\n",
    # Characters beside marks.
    "a\u00a0*b*\n", "a*\u00a0b*\n", "\u20ac*b*c\n", "a*\u20acb*c\n", "\u3001*b*c\n",
    "a*\u3001b*c\n", "a*\U00010100b*c\n", "\U00010100_b_\n", "\u00fc_b_c\n", "a_b_\u00fc\n",
    "a*$b*c\n", "a_\u3001b_\n",
    # Marks.
    "**a *b***\n", "*a_b*c `` ` `` \\*\n", "***a** b*\n", "***a* b**\n", "*a **b*\n", "**a*b**c*\n",
    "a**b\n", "__a__b__\n", "_a*b_c*\n", "****a****\n", "*a\nb*\n", "~~a~~b~\n", "~~~a~~~\n",
    "~a~~b~\n", "[a](<b c> 'd') ![e*f*][g]\n\n[g]: /h\n", "[a [b](c) d](e)\n", "![a [b](c) d](e)\n",
    "[a](b \")\n", "[a](b \"this text stays\n) more\n", "[a](b ')\n", "![a](b \")\n",
    "# [a](<b> ')\n",
    "|[a](b \")|\n|-|\n", "- [a](b \")\n", "x[^1]\n\n[^1]: [a](b \")\n", "[a](b (c)\n",
    "[a](b (c(d) e\n",
    "[a](b \"c\nd)\n", "[a](b\n')\n", "[a](b 'c) [d](e 'f')\n", "[a](b\n'c\nd')\n", "[a] (b)\n",
    "[a](b c)\n", '[a](b"c")\n', '[a](\\(b\\) "\\"")\n',
    "[a](b(c)d)\n", "[a](b(c)\n", "[*a](b)*\n", "<https://a?b&amp;c> &copy;\n", "a  \nb\\\nc\nd\n",
    "a   \n\nb\\\n", "`a\nb`\n", "`` a ``` b ``\n", "` `` `\n", "`  `\n", "\\a\\!\\\\\n",
    "\u00e9  \nb\u00e9\n",
    "a <!-- b\nc --> d\n", "a <b\nc='d'> e\n", "a <?b?> <!C d> <![CDATA[e]]>\n",
    # References.
    "&amp;a &sup; &sup1; &#1234567; &#Xa0F;\n",
    "&amp a &; &nosuch; &#; &#x;\n", "&#0; &#xd800; &#1114112;\n",
    "[a](b&auml; 'c&quot;')\n", "```&auml;\n```\n",
    # The beginning and the end of a document.
    "\ufeff# a\n", "a", "", "\n", "\n\na\n\n", "# a", "- a", "> a", "```\na", "a\n\n\n", "   \n",
    "a\\", "a  ",
]

BASE = "--base=https://a.b/c/d?e"
BY_OPTIONS = [
    # A text that isn't empty ends with a line ending.
    ((), [
        ("a", "<p>a</p>\n"),
        ("", ""),
        ("[a]: b", ""),
        ("***", "<hr />\n"),
        ("a\r\rb", "<p>a</p>\r<p>b</p>\r"),
        ("\ufeff", ""),
        ("\ufeffa", "<p>a</p>\n"),
        ("a\ufeff", "<p>a\ufeff</p>\n"),
    ]),
    # References by a number have up to seven digits, or six hexadecimal ones.
    ((), [
        ("&#1234567; &#12345678; &#xabcdef; &#xabcdef0;\n",
         "<p>\ufffd &amp;#12345678; \ufffd &amp;#xabcdef0;</p>\n"),
    ]),
    # A bare link ends before a closing bracket that it doesn't open.
    ((), [
        ("[https://a.b]\n", '<p>[<a href="https://a.b">https://a.b</a>]</p>\n'),
        ("[see https://a.b/[c], and www.d.e.]f\n",
         '<p>[see <a href="https://a.b/%5Bc%5D">https://a.b/[c]</a>, and <a '
         'href="http://www.d.e">www.d.e</a>.]f</p>\n'),
        ("[https://a.b](c d) [https://a.b][c]\n",
         '<p>[<a href="https://a.b">https://a.b</a>](c d) [<a '
         'href="https://a.b">https://a.b</a>][c]</p>\n'),
        ("https://a.b/c]d [e [f](g) https://h.i]\n",
         '<p><a href="https://a.b/c">https://a.b/c</a>]d [e <a href="g">f</a> <a '
         'href="https://h.i">https://h.i</a>]</p>\n'),
    ]),
    # A bare link ends before a mark that closes emphasis, whatever follows.
    ((), [
        ("_www.a.b_ @\n", '<p><em><a href="http://www.a.b">www.a.b</a></em> @</p>\n'),
        ("_http://a.b_ c\n", '<p><em><a href="http://a.b">http://a.b</a></em> c</p>\n'),
    ]),
    # A bare link begins with its protocol.
    ((), [
        (".mailto:a@b.c\n", '<p>.<a href="mailto:a@b.c">mailto:a@b.c</a></p>\n'),
        ("www.! www.)\n", "<p>www.! www.)</p>\n"),
    ]),
    # NUL ends a bare link that begins with `www.`, and a label of a footnote has none.
    ((), [
        ("www.a.b\0c\n", '<p><a href="http://www.a.b">www.a.b</a>\ufffdc</p>\n'),
        ("[^a\0]\n\n[^a\0]: b\n", '<p><a href="b">^a\ufffd</a></p>\n'),
    ]),
    # No footnote is shown that only footnotes call which aren't shown.
    ((), [
        ("[^a]: [^b]\n\n[^b]: [^c]\n\n[^c]: [^d]\n\n[^d]: e\n\nwww.f.gh\n",
         '<p><a href="http://www.f.gh">www.f.gh</a></p>\n'),
        ("[^a]: b[^c]\n\n[^a]: d[^e]\n\n[^c]: f\n\n[^e]: g\n\nh\n", "<p>h</p>\n"),
    ]),
    # A tab before HTML stays.
    ((), [
        (">\t<div>\n>\ta\n", "<blockquote>\n\t&lt;div&gt;\n\ta\n</blockquote>\n"),
        ("- <div>\n\ta\n", "<ul>\n<li>\n&lt;div&gt;\n\ta\n</li>\n</ul>\n"),
    ]),
    (("--html=without-comments",), [
        (">\t<!-- a -->b\n", "<blockquote>\n\tb\n</blockquote>\n"),
    ]),
    # Math.
    (("--math",), [
        ("- $$\n  a\n ",
         '<ul>\n<li>\n<pre><code class="language-math math-display">a\n\n</code></pre>\n</li>\n'
         '</ul>\n'),
        ("$a$ $$b$$ $ c$ $d $ $e$f\n",
         '<p><code class="language-math math-inline">a</code> <code class="language-math '
         'math-inline">b</code> $ c$ $d $ $e$f</p>\n'),
        ("$$\na\n$$\nb\n",
         '<pre><code class="language-math math-display">a\n</code></pre>\n<p>b</p>\n'),
        ("\\$a$ `$b$`\n", "<p>$a$ <code>$b$</code></p>\n"),
    ]),
    ((), [
        ("$a$\n", "<p>$a$</p>\n"),
        ("$$\na\n$$\n", "<p>$$\na\n$$</p>\n"),
    ]),
    # Front matter.
    (("--front-matter",), [
        ("---\na: b\n---\n# c\n", "<h1>c</h1>\n"),
        ("---\na: b\n---\n---\n", "<hr />\n"),
        ("---\na: b\n", "<hr />\n<p>a: b</p>\n"),
        ("\n---\na\n---\n", "<hr />\n<h2>a</h2>\n"),
        ("\ufeff---\na\n---\nb", "<p>b</p>\n"),
        ("---\n---\na\n", "<p>a</p>\n"),
        ("---\na\n---", ""),
    ]),
    ((), [
        ("---\na\n---\n", "<hr />\n<h2>a</h2>\n"),
    ]),
    # Syntax that may be left out.
    (("--no-footnotes",), [
        ("a[^b]\n\n[^b]: c\n", '<p>a<a href="c">^b</a></p>\n'),
        ("a[^b]\n", "<p>a[^b]</p>\n"),
    ]),
    (("--no-tables",), [
        ("|a|\n|-|\n", "<p>|a|\n|-|</p>\n"),
    ]),
    (("--no-bare-links",), [
        ("www.a.bc http://a.b a@b.c <http://a.b>\n",
         '<p>www.a.bc http://a.b a@b.c <a href="http://a.b">http://a.b</a></p>\n'),
    ]),
    # Hard breaks.
    (("--hard-breaks",), [
        ("a\nb ![c\nd](e)\n", '<p>a<br />\nb <img src="e" alt="c\nd" /></p>\n'),
        ("a\\\nb  \nc\n", "<p>a<br />\nb<br />\nc</p>\n"),
        ("# a\nb", "<h1>a</h1>\n<p>b</p>\n"),
    ]),
    ((), [
        ("a\nb\n", "<p>a\nb</p>\n"),
    ]),
    # HTML as text.
    ((), [
        ("a <b>c</b>\n\n<div>\n<!-- d -->\n",
         "<p>a &lt;b&gt;c&lt;/b&gt;</p>\n&lt;div&gt;\n&lt;!-- d --&gt;\n"),
        ("- a\n- <div>\n  b\n- c",
         "<ul>\n<li>a</li>\n<li>\n&lt;div&gt;\nb\n</li>\n<li>c</li>\n</ul>\n"),
    ]),
    (("--html=text",), [
        ("<b>\n", "&lt;b&gt;\n"),
        ("<!-- a -->", "&lt;!-- a --&gt;\n"),
    ]),
    # HTML left out: the text between two tags stays.
    (("--html=left-out",), [
        ("a <b>c</b>\n\n<div>\nd\n", "<p>a c</p>\n"),
        ("- <b>\n- <div>\n\n> <p>\n",
         "<ul>\n<li></li>\n<li></li>\n</ul>\n<blockquote>\n</blockquote>\n"),
        ("`<b>` \\<b> &lt;b>", "<p><code>&lt;b&gt;</code> &lt;b&gt; &lt;b&gt;</p>\n"),
        ("a <!-- b --> c <?d?> <!E> <![CDATA[f]]> g\n", "<p>a  c    g</p>\n"),
        ("<div>\n", ""),
        ("a\n<div>\n", "<p>a</p>\n"),
        ("<b>a</b>\n", "<p>a</p>\n"),
        ("<b></b>\n", "<p></p>\n"),
        ("- a\n  <div>\n- b\n", "<ul>\n<li>a</li>\n<li>b</li>\n</ul>\n"),
        ("- a\n\n  <div>\n- b\n", "<ul>\n<li>\n<p>a</p>\n</li>\n<li>\n<p>b</p>\n</li>\n</ul>\n"),
        ("- <div>\n\n  a\n", "<ul>\n<li>\n<p>a</p>\n</li>\n</ul>\n"),
        ("- <div>\n\n- b\n", "<ul>\n<li></li>\n<li>\n<p>b</p>\n</li>\n</ul>\n"),
        ("- <!-- a -->\n  b\n", "<ul>\n<li>b</li>\n</ul>\n"),
        ("- a\n  <div>\n\n  # b\n", "<ul>\n<li>\n<p>a</p>\n<h1>b</h1>\n</li>\n</ul>\n"),
        ("*a<b>c*d\n", "<p><em>ac</em>d</p>\n"),
        ("![a <b>c](d)\n", '<p><img src="d" alt="a c" /></p>\n'),
        ("a<b\nc='d'>e\n", "<p>ae</p>\n"),
        ("a < b > c\n", "<p>a &lt; b &gt; c</p>\n"),
        ("# <b>a</b>\n", "<h1>a</h1>\n"),
        ("[<b>a</b>](c)\n", '<p><a href="c">a</a></p>\n'),
        ("|<b>a</b>|\n|-|\n", "<table>\n<thead>\n<tr>\n<th>a</th>\n</tr>\n</thead>\n</table>\n"),
    ]),
    # Comments left out: all else is text.
    (("--html=without-comments",), [
        ("a<!-- b --> <i>c", "<p>a &lt;i&gt;c</p>\n"),
        ("> <!-- a\n> b\n> -->\n\nc", "<blockquote>\n</blockquote>\n<p>c</p>\n"),
        ("<div><!-- a --></div>\n", "&lt;div&gt;&lt;/div&gt;\n"),
        ("<!-- a\n\nb", ""),
        ("<!-- a -->\nb\n", "<p>b</p>\n"),
        (">\t<!-- a\n>\tb -->\n", "<blockquote>\n</blockquote>\n"),
        ("a<!--\nb\n-->c\n", "<p>ac</p>\n"),
        ("<div>a<!--b-->c<!-- d\n", "&lt;div&gt;ac\n"),
        ("<div><!-->a<!--->b\n", "&lt;div&gt;ab\n"),
        ("<div><!-- - -- -> --> <!- a ->\n", "&lt;div&gt; &lt;!- a -&gt;\n"),
        ("<!---->\n", ""),
        ("  <!-- a --> \n", ""),
        ("<!-- a --> b\n", " b\n"),
        ("<div>\n<!-- a\nb -->\nc\n", "&lt;div&gt;\n\nc\n"),
        ("<div>\na <!-- b\nc --> d\n", "&lt;div&gt;\na  d\n"),
        ("<div>\n<!-- a -->\n", "&lt;div&gt;\n"),
        ("- <!-- a -->\n- b\n", "<ul>\n<li></li>\n<li>b</li>\n</ul>\n"),
        ("`<!-- a -->` \\<!-- b -->\n", "<p><code>&lt;!-- a --&gt;</code> &lt;!-- b --&gt;</p>\n"),
        ("a <? b ?> <!C>\n", "<p>a &lt;? b ?&gt; &lt;!C&gt;</p>\n"),
        ("```\n<!-- a -->\n```\n", "<pre><code>&lt;!-- a --&gt;\n</code></pre>\n"),
    ]),
    # URLs against a base.
    ((BASE,), [
        ("[x](f) ![y](../g) [z](#h)",
         '<p><a href="https://a.b/c/f">x</a> <img src="https://a.b/g" alt="y" /> <a '
         'href="#h">z</a></p>\n'),
        ("[x](javascript:f) <i@j.k>", '<p><a href="">x</a> <a href="mailto:i@j.k">i@j.k</a></p>\n'),
        ("[x]() [x](<>) ![x]()\n",
         '<p><a href="">x</a> <a href="">x</a> <img src="" alt="x" /></p>\n'),
        ("[x](<f g> 'h')\n", '<p><a href="https://a.b/c/f%20g" title="h">x</a></p>\n'),
        ("[x](\\.\\./f&amp;g\\)) [x](&#46;&period;/&#x67;)\n",
         '<p><a href="https://a.b/f&amp;g)">x</a> <a href="https://a.b/g">x</a></p>\n'),
        ("[x](&amp;amp; '&amp;amp;')\n",
         '<p><a href="https://a.b/c/&amp;amp;" title="&amp;amp;">x</a></p>\n'),
        ("[x](a\\\\b) [x](&#35;f)\n",
         '<p><a href="https://a.b/c/a%5Cb">x</a> <a href="#f">x</a></p>\n'),
        ("[x] [y][x] ![x]\n\n[x]: ?f 'g&amp;'\n",
         '<p><a href="https://a.b/c/d?f" title="g&amp;">x</a> <a href="https://a.b/c/d?f" '
         'title="g&amp;">y</a> <img src="https://a.b/c/d?f" alt="x" title="g&amp;" /></p>\n'),
        ("[x] [y] [x]\n\n[x]: #f\n[y]: http://g/../h\n",
         '<p><a href="#f">x</a> <a href="http://g/../h">y</a> <a href="#f">x</a></p>\n'),
        ("[x] [x]\n\n[x]: f 'g\\*" + "h" * 300 + "'\n",
         '<p><a href="https://a.b/c/f" title="g*' + "h" * 300 + '">x</a> '
         '<a href="https://a.b/c/f" title="g*' + "h" * 300 + '">x</a></p>\n'),
        ("http://f/../g www.f.gh f@g.hi <http://f/../g> <http://f&amp;g>\n",
         '<p><a href="http://f/../g">http://f/../g</a> <a href="http://www.f.gh">www.f.gh</a> '
         '<a href="mailto:f@g.hi">f@g.hi</a> <a href="http://f/../g">http://f/../g</a> <a '
         'href="http://f&amp;g">http://f&amp;g</a></p>\n'),
        ("[f\u00e9](\u00e9\u4e00)", '<p><a href="https://a.b/c/%C3%A9%E4%B8%80">f\u00e9</a></p>\n'),
        ("a", "<p>a</p>\n"),
        ("", ""),
    ]),
    (("--base=javascript:g",), [
        ("[x](f)", '<p><a href="">x</a></p>\n'),
    ]),
    (("--base=/docs/",), [
        ("[x](..//evil.com/)", '<p><a href="/.//evil.com/">x</a></p>\n'),
    ]),
    (("--base=docs",), [
        ("[x](./a:b)", '<p><a href="./a:b">x</a></p>\n'),
    ]),
    # Several at once.
    (("--math", "--front-matter", "--no-bare-links", "--hard-breaks",
      "--no-tables", "--number-ids", "--html=left-out", BASE), [
        ("---\na\n---\n$b$ c@d.e\n| f |\n|---|[^g]\n\n[^g]: <i>h</i> [j](k)\n",
         '<p><code class="language-math math-inline">b</code> c@d.e<br />\n| f |<br />\n'
         '|---|<sup><a href="#user-content-fn-1" id="user-content-fnref-1-1" '
         'data-footnote-ref="" aria-describedby="footnote-label">1</a></sup></p>\n<section '
         'data-footnotes="" class="footnotes"><h2 id="footnote-label" '
         'class="sr-only">Footnotes</h2>\n<ol>\n<li id="user-content-fn-1">\n<p>h <a '
         'href="https://a.b/c/k">j</a> <a href="#user-content-fnref-1-1" '
         'data-footnote-backref="" aria-label="Back to content" '
         'class="data-footnote-backref">\u21a9</a></p>\n</li>\n</ol>\n</section>\n'),
    ]),
]

# The examples of RFC 3986, 5.4.1 and 5.4.2, and bases without an authority, against which no path
# becomes a host, and none a scheme (3.3 and 4.2).
RESOLVED = {
    "http://a/b/c/d;p?q": [
        ("g", "http://a/b/c/g"), ("./g", "http://a/b/c/g"), ("g/", "http://a/b/c/g/"),
        ("/g", "http://a/g"), ("//g", "http://g"), ("?y", "http://a/b/c/d;p?y"),
        ("//g/../h", "http://g/h"), ("//g/h/./i/..?j", "http://g/h/?j"),
        ("//g?y/../x", "http://g?y/../x"), ("///g/.//../h", "http:///g/h"),
        ("g?y", "http://a/b/c/g?y"), ("g#s", "http://a/b/c/g#s"), ("g?y#s", "http://a/b/c/g?y#s"),
        (";x", "http://a/b/c/;x"), ("g;x?y#s", "http://a/b/c/g;x?y#s"), (".", "http://a/b/c/"),
        ("./", "http://a/b/c/"), ("..", "http://a/b/"), ("../", "http://a/b/"),
        ("../g", "http://a/b/g"), ("../..", "http://a/"), ("../../g", "http://a/g"),
        ("../../../g", "http://a/g"), ("/./g", "http://a/g"), ("/../g", "http://a/g"),
        ("g.", "http://a/b/c/g."), (".g", "http://a/b/c/.g"), ("..g", "http://a/b/c/..g"),
        ("./../g", "http://a/b/g"), ("./g/.", "http://a/b/c/g/"), ("g/./h", "http://a/b/c/g/h"),
        ("g/../h", "http://a/b/c/h"), ("g;x=1/../y", "http://a/b/c/y"),
        ("g?y/../x", "http://a/b/c/g?y/../x"), ("http:g", "http:g"), ("#s", "#s"), ("g:h", ""),
    ],
    "http://a": [
        ("g", "http://a/g"), ("?b", "http://a?b"), ("//b", "http://b"),
    ],
    "/docs/": [
        ("..//evil.com/", "/.//evil.com/"), ("../..//evil.com", "/.//evil.com"),
        ("/.//evil.com/", "/.//evil.com/"), ("./a:b", "/docs/a:b"), ("//a.b/c", "//a.b/c"),
        ("..", "/"),
    ],
    "docs/": [
        ("..//evil.com/", ".//evil.com/"), ("../a:b", "./a:b"), ("..", "./"),
        ("a/b:c", "docs/a/b:c"),
    ],
    "": [
        ("./a:b", "./a:b"), ("a/..//evil.com", ".//evil.com"), ("?a:b", "?a:b"), ("a#b:c", "a#b:c"),
    ],
    "1a:b": [
        ("?c", "./1a:b?c"),
    ],
    "http://a/b/": [
        ("..//evil.com/", "http://a//evil.com/"), ("./c:d", "http://a/b/c:d"),
    ],
}

# Each is read alike at every offset in a line.
MARKED = [
    "*b*", "_b_", "**b**", "`b`", "~~b~~", "[b](c)", "![b](c)", "<http://b.c>", "<b@c.de>", "<b>c",
    "\\*", "&amp;", "www.b.cd", "http://b.c", "b@c.de", "$b$", "[^b", "]", "!", ":", ".",
]


def escaped(text):
    """A text as HTML."""
    return html.escape(text, quote=False).replace('"', "&quot;")


def references():
    """A document with each name of a character reference, and its HTML."""
    names = sorted(html.entities.html5)
    lines = [f"a&{name}b" for name in names]
    texts = ["a" + html.entities.html5[name] + "b" if name.endswith(";") else f"a&{name}b"
             for name in names]
    return "\n".join(lines) + "\n", "<p>" + escaped("\n".join(texts)) + "</p>\n"


def behind(count):
    """A text of so many bytes, at least two, that ends with a space."""
    return "aa " * (count % 2) + "a " * ((count - 3 * (count % 2)) // 2)


def deep(depth, most):
    """A document with so many marks of quotes, of which at most `most` are read, and its HTML."""
    text = "&gt;" * (depth - most)
    return ">" * depth, "<blockquote>\n" * most + f"<p>{text}</p>\n" + "</blockquote>\n" * most


def nested(depth, most):
    """Documents with so many nested spans and brackets, of which at most `most` are read, and their
    HTML.
    """
    deep = depth - min(depth, most)
    depth -= deep
    spans = [("*", "<em>", "</em>"), ("**", "<strong>", "</strong>"), ("~", "<del>", "</del>")]
    cases = [(f"{mark}a " * (depth + deep) + "b" + f" c{mark}" * (depth + deep),
              "<p>" + f"{start}a " * depth + f"{mark}a " * deep + "b" + f" c{mark}" * deep
              + f" c{end}" * depth + "</p>\n")
             for mark, start, end in spans]
    images = "![a " * deep + "b" + "](c)" * deep
    link = "[" * deep + "a](b)" + "]" * (deep - 1) if deep else '<a href="b">a</a>'
    around = depth if deep else depth - 1
    return cases + [
        ("![a " * (depth + deep) + "b" + "](c)" * (depth + deep),
         '<p><img src="c" alt="' + "a " * depth + images + '" /></p>\n'),
        ("[" * (depth + deep) + "a](b)" + "]" * (depth + deep - 1),
         "<p>" + "[" * around + link + "]" * around + "</p>\n"),
    ]
