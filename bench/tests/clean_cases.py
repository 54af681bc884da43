"""Texts on which sanitizers of HTML fell, or nearly fell: each must be cleaned."""

ATTACKS = r'''
<script>alert(1)</script>
<SCRIPT SRC=http://a.b/x.js></SCRIPT>
<scr<script>ipt>alert(1)</scr</script>ipt>
<script/xss src="http://a.b/x.js"></script>
<script\x20type="text/javascript">javascript:alert(1);</script>
<<script>alert(1);//<</script>
<script src=http://a.b/x.js?<b>
<script>a=/b/;alert(a.source)</script>
<script><!--<script>alert(1)</script>--></script><img src=x onerror=alert(1)>
<script><!--</script><img src=x onerror=alert(1)>-->
<noscript><p title="</noscript><img src=x onerror=alert(1)>">
<noscript><style></noscript><img src=x onerror=alert(1)></style>
<noscript><!-- </noscript><img src=x onerror=alert(1)> -->
<img src=x onerror=alert(1)>
<img src=x onerror="alert(1)"//
<img/src=x/onerror=alert(1)>
<img src="x" onerror = alert(1)>
<img src='x' ONERROR='alert(1)'>
<img src=x:alert(alt) onerror=eval(src) alt=0>
<img """><script>alert(1)</script>">
<img src="javascript:alert(1)">
<img src=javascript:alert(1)>
<img src=JaVaScRiPt:alert(1)>
<img src=`javascript:alert(1)`>
<img src=&#106;&#97;&#118;&#97;&#115;&#99;&#114;&#105;&#112;&#116;&#58;alert(1)>
<img src=&#0000106&#0000097&#0000118&#0000097&#0000115&#0000099&#0000114&#0000105&#0000112&#0000116&#0000058alert(1)>
<img src=&#x6A&#x61&#x76&#x61&#x73&#x63&#x72&#x69&#x70&#x74&#x3A;alert(1)>
<img src="jav	ascript:alert(1)">
<img src="jav&#x09;ascript:alert(1)">
<img src="jav&#x0A;ascript:alert(1)">
<img src="jav&#x0D;ascript:alert(1)">
<img src=" &#14; javascript:alert(1)">
<img src="data:image/svg+xml;base64,PHN2ZyBvbmxvYWQ9YWxlcnQoMSk+">
<img dynsrc="javascript:alert(1)">
<img lowsrc="javascript:alert(1)">
<img srcset="x 1x, javascript:alert(1) 2x">
<img src=x style="behavior:url(#default#VML)">
<a href="javascript:alert(1)">x</a>
<a href="JAVASCRIPT:alert(1)">x</a>
<a href="java&#10;script:alert(1)">x</a>
<a href="java&Tab;script:alert(1)">x</a>
<a href="java&NewLine;script:alert(1)">x</a>
<a href="javascript&colon;alert(1)">x</a>
<a href="javascript&#58alert(1)">x</a>
<a href="&#1;javascript:alert(1)">x</a>
<a href="&#x20;&#x20;javascript:alert(1)">x</a>
<a href="&nbsp;javascript:alert(1)">x</a>
<a href="vbscript:msgbox(1)">x</a>
<a href="livescript:x">x</a>
<a href="data:text/html,<script>alert(1)</script>">x</a>
<a href="data:text/html;base64,PHNjcmlwdD5hbGVydCgxKTwvc2NyaXB0Pg==">x</a>
<a href="feed:javascript:alert(1)">x</a>
<a href="view-source:javascript:alert(1)">x</a>
<a href="jar:javascript:alert(1)!/x">x</a>
<a href="x:javascript:alert(1)">x</a>
<a href="://javascript:alert(1)">x</a>
<a href="javascript://%0aalert(1)">x</a>
<a href='javascript:alert("1")' onclick="alert(1)">x</a>
<a href="http://a.b" href="javascript:alert(1)">x</a>
<a href="javascript:alert(1)" href="http://a.b">x</a>
<a/href="javascript:alert(1)">x</a>
<a xlink:href="javascript:alert(1)">x</a>
<a href=//a.b>x</a>
<a href="\x6A\x61vascript:alert(1)">x</a>
<a href=javascript&#x3A;alert(1)&#13;>x</a>
<a name="javascript:alert(1)" id=x>x</a>
<a href="?a=b&lt=1&copy=2&notin;&amp=3">x</a>
<b onmouseover=alert(1)>x</b>
<b style="x:expression(alert(1))">x</b>
<b/onclick="alert(1)">x</b>
<b "onclick=alert(1)>x</b>
<b =onclick=alert(1)>x</b>
<b a=b'c"d=e onclick=alert(1)>x</b>
<b title='"><img src=x onerror=alert(1)>'>x</b>
<b title="'><img src=x onerror=alert(1)>">x</b>
<b title=`><img src=x onerror=alert(1)>`>x</b>
<b title=a&quot;onclick=alert(1)>x</b>
<b title="&quot; onclick=&quot;alert(1)">x</b>
<b title="&lt;img src=x onerror=alert(1)&gt;">x</b>
<b title="a
b" lang=x>x</b>
<b title="</b><script>alert(1)</script>">x</b>
<style>@import'http://a.b/x.css';</style>
<style><img src="</style><img src=x onerror=alert(1)//">
<style>*{x:expression(alert(1))}</style>
<style><!--</style><img src=x onerror=alert(1)>-->
<title><img src="</title><img src=x onerror=alert(1)>">
<textarea><img src="</textarea><img src=x onerror=alert(1)>">
<xmp><p title="</xmp><img src=x onerror=alert(1)>">
<iframe><img src="</iframe><img src=x onerror=alert(1)>">
<noembed><img src="</noembed><img src=x onerror=alert(1)>">
<noframes><p title="</noframes><img src=x onerror=alert(1)>">
<plaintext><img src=x onerror=alert(1)></plaintext>
<listing>&lt;img onerror=alert(1) src&gt;</listing>
<template><script>alert(1)</script></template><b>x</b>
<template><template></template><img src=x onerror=alert(1)></template>
<iframe src=javascript:alert(1)></iframe>
<iframe srcdoc="<script>alert(1)</script>"></iframe>
<object data="data:text/html,<script>alert(1)</script>"></object>
<embed src="javascript:alert(1)">
<applet code=x></applet><param name=src value=javascript:alert(1)>
<form action="javascript:alert(1)"><input type=submit></form>
<form><button formaction="javascript:alert(1)">x</button></form>
<isindex action=javascript:alert(1) type=image>
<input onfocus=alert(1) autofocus>
<select><option><style></option></select><img src=x onerror=alert(1)></style>
<select><template><style></template></select><img src=x onerror=alert(1)></style>
<video><source onerror="alert(1)"></video>
<audio src=x onerror=alert(1)></audio>
<details open ontoggle=alert(1)>x</details>
<body onload=alert(1)>x</body>
<body background="javascript:alert(1)">
<html manifest=x onclick=alert(1)><head><base href="javascript:alert(1)//"><a href="/x">y</a>
<meta http-equiv=refresh content="0;url=javascript:alert(1)">
<link rel=stylesheet href="javascript:alert(1)">
<frameset onload=alert(1)><frame src=javascript:alert(1)></frameset>
<marquee onstart=alert(1)>x</marquee>
<table background="javascript:alert(1)"><td background="javascript:alert(1)">x
<div style="background:url(javascript:alert(1))">x</div>
<div style=xss:expr/*x*/ession(alert(1))>x</div>
<xml><i><b>&lt;img src="javas<!-- -->cript:alert(1)"&gt;</b></i></xml>
<?xml version="1.0"?><html:script xmlns:html="http://www.w3.org/1999/xhtml">alert(1)</html:script>
<!--[if gte IE 4]><script>alert(1)</script><![endif]-->
<!--><img src=x onerror=alert(1)>-->
<!---><img src=x onerror=alert(1)>-->
<!-- --!><img src=x onerror=alert(1)>-->
<!-- -- ><img src=x onerror=alert(1)>-->
<!-- <!-- --><img src=x onerror=alert(1)>-->
<!--<img src="--><img src=x onerror=alert(1)//">
<!x><img src=x onerror=alert(1)>
<!DOCTYPE x [<!ENTITY a "<img src=x onerror=alert(1)>">]>
<![CDATA[<img src=x onerror=alert(1)>]]>
<![if !vml]><img src=x onerror=alert(1)><![endif]>
<? <img src=x onerror=alert(1)> ?>
</ <img src=x onerror=alert(1)>>
</><img src=x onerror=alert(1)>
</p/onclick=alert(1)>x
<p/><p title="/>x
<%<!--'%><script>alert(1);</script -->
<svg><script>alert(1)</script></svg>
<svg onload=alert(1)>x
<svg/onload=alert(1)//
<svg><style><img title="</style><img src=x onerror=alert(1)>">
<svg></p><style><a id="</style><img src=1 onerror=alert(1)>">
<svg></br><style><a title="</style><img src=1 onerror=alert(1)>"></svg>
<svg><p><style><g title="</style><img src onerror=alert(1)>">
<svg><style>&lt;img src=x onerror=alert(1)&gt;</style></svg>
<svg><![CDATA[><img src=x onerror=alert(1)>]]></svg>
<svg><title><style><!--</style><img src=x onerror=alert(1)>--></title></svg>
<svg><desc><noscript><img title="</noscript><img src=x onerror=alert(1)>"></desc></svg>
<svg><foreignObject><math><mi><style><img title="</style><img src=x onerror=alert(1)>">
<svg><animate onbegin=alert(1) attributeName=x></svg>
<svg><a xlink:href="javascript:alert(1)"><text>x</text></a></svg>
<svg><use xlink:href="data:image/svg+xml,x#x"></svg>
<svg><set attributeName=href to=javascript:alert(1) /></svg>
<svg><annotation-xml encoding="text/html"><img src=x onerror=alert(1)></annotation-xml></svg>
<math><mtext><table><mglyph><style><!--</style><img title="--&gt;&lt;img src=1 onerror=alert(1)&gt;">
<math><mtext><table><mglyph><style><math><img src onerror=alert(1)>
<math><mtext><mglyph><style><img src=x onerror=alert(1)></style></mglyph></mtext></math>
<math><mtext></form><form><mglyph><style></math><img src onerror=alert(1)>
<form><math><mtext></form><form><mglyph><style></math><img src onerror=alert(1)>
<math><annotation-xml encoding="text/html"><style></math><img src=x onerror=alert(1)>
<math><mi><table><malignmark><style><img title="</style><img src=x onerror=alert(1)>">
<math><maction actiontype="statusline#http://a.b" xlink:href="javascript:alert(1)">x</maction></math>
<math href="javascript:alert(1)">x</math>
<math><a xlink:href="javascript:alert(1)">x</a></math>
<table><math><mtext><tr><td><style></math><img src=x onerror=alert(1)>
<table><tr><td><svg><desc><td><style></svg><img src=x onerror=alert(1)>
<table><a href="javascript:alert(1)">x<tr><td><a>y
<table><tr><a><td><b><table><td></b><img src=x onerror=alert(1)>
<table><caption><svg><table><style></svg><img src=x onerror=alert(1)>
<a><table><a href=javascript:alert(1)>x</a></table></a>
<b><a><b></a><a></b><table></a><b>
<p><b><i><u></p><p>x<div></b></i>y</u></div>
<li><ul></li><li><ol></ul><dd></li></ol>x
<h1><h2></h1><div></h2><h3>x
<pre><code></pre><b>x</code></b>
<pre>

<b></pre>x</b>
<p>a</p </p><img src=x onerror=alert(1)>
<img src="x
" title='"'onerror=alert(1)'>
<a title="<!--" href="x">y</a>-->
<a title="&#x3c;/a&#x3e;&#x3c;script&#x3e;alert(1)">y</a>
&lt;script&gt;alert(1)&lt;/script&gt;
&amp;lt;script&amp;gt;alert(1)
&#60script&#62alert(1)&#60/script&#62
&#x3c;script&#x3e;alert(1)&ltscript&gtalert(1)
&ltimg src=x onerror=alert(1)&gt
<img src=x alt="&gt;&lt;script&gt;alert(1)&lt;/script&gt;">
<ımg src=x onerror=alert(1)><ſcript>alert(1)</ſcript>
<K><ſtyle></ſtyle><img src=x onerror=alert(1)>
＜script＞alert(1)＜/script＞
<img src=x onerror=alert(1) title=&#8232;>
<div title="‮">x</div>
'''

SPECIAL = (
    b"<img\x00 src=x onerror=alert(1)>", b"<scr\x00ipt>alert(1)</script>",
    b"<a href=\"java\x00script:alert(1)\">x</a>", b"<\x00script>alert(1)</script>",
    b"<img src=x\x0conerror=alert(1)>", b"<img\x0bsrc=x\x0bonerror=alert(1)>",
    b"<img src=x\ronerror=alert(1)>", b"<a\thref\n=\r\"javascript:alert(1)\"\x0c>x</a>",
    b"<a href=\"\x01\x02javascript:alert(1)\">x</a>", b"<b title=\"\x00\">\x00</b>",
    b"<!--\x00-\x00-\x00>--><b>x</b>", b"a\r\nb\rc&#13;d<pre>\r\n\r\nx</pre>",
    "<a href=\"\u2028javascript:alert(1)\">x</a>".encode(),
    "<a href=\"\ufeffjavascript:alert(1)\">x</a>".encode(),
    b"<" * 50, b"<a" * 50, b"</" * 50, b"<!" * 50, b"&" * 50, b"&#" * 50, b"<a b='" * 20,
    b"<!--" * 20, b"<svg>" * 20 + b"<img src=x onerror=alert(1)>", b"<template>" * 20 + b"x",
    b"<b>" * 600 + b"x", b"<div>" * 600 + b"x" + b"</div>" * 600 + b"y", b"<ul><li>" * 400 + b"x",
    b"<table><tr><td>" * 300 + b"x", b"<ul>" * 600 + b"x", b"<a><b><i>" * 40 + b"<p>x" * 40,
)


def attacks():
    """The texts, each as bytes: those of ATTACKS are divided by a line that begins with a mark."""
    texts, lines = [], []
    for line in ATTACKS.strip("\n").split("\n"):
        if lines and line[:1] in "<&＜":
            texts.append("\n".join(lines).encode())
            lines = []
        lines.append(line)
    texts.append("\n".join(lines).encode())
    return texts + list(SPECIAL)
