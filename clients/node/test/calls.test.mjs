// Tests of each call, option and error, in this thread.
import assert from 'node:assert/strict';
import { createRequire } from 'node:module';
import { describe, it } from 'node:test';
import { runInNewContext } from 'node:vm';

import bivdrazo, {
  CLEAN_TAGS,
  clean,
  cleanAsync,
  BivdrazoError,
  contents,
  frontMatter,
  isSafeHtml,
  markdownToHtml,
  markdownWithHeadings,
} from '../index.mjs';

const require = createRequire(import.meta.url);
const NOTE = 'a[^b]\n\n[^b]: c\n';
const TABLE = '|a|\n|-|\n';

/** Each option: a document, values of the option, and a part of the HTML with each. */
const BY_OPTION = [
  ['footnotePrefix', NOTE, ['x-', '<li id="x-fn-b">'], ['', '<li id="fn-b">']],
  ['numberIds', NOTE, [true, '<li id="user-content-fn-1">'], [false, '"user-content-fn-b"']],
  ['footnoteLabel', NOTE, ['\u00c9<', '>\u00c9&lt;</h2>']],
  ['footnoteBackLabel', NOTE, ['Up', 'aria-label="Up"']],
  ['hardBreaks', 'a\nb', [true, '<p>a<br />\nb</p>\n'], [false, '<p>a\nb</p>\n']],
  ['bareLinks', 'a@b.org', [true, '<p><a href="mailto:a@b.org">'], [false, '<p>a@b.org</p>\n']],
  [
    'html',
    'a <b>c</b> <!-- d -->',
    ['text', '&lt;b&gt;c&lt;/b&gt; &lt;!-- d --&gt;'],
    ['left-out', '<p>a c </p>\n'],
    ['without-comments', '<p>a &lt;b&gt;c&lt;/b&gt; </p>\n'],
    ['kept', '<p>a <b>c</b> </p>\n'],
    ['kept-or-text', '<p>a <b>c</b> </p>\n'],
  ],
  ['math', '$a$', [true, 'math-inline'], [false, '<p>$a$</p>\n']],
  ['frontMatter', '---\na: b\n---\nc\n', [true, '<p>c</p>\n'], [false, '<h2>a: b</h2>']],
  ['footnotes', NOTE, [true, 'data-footnotes'], [false, '<p>a<a href="c">^b</a></p>\n']],
  ['tables', TABLE, [true, '<table>'], [false, '<p>|a|\n|-|</p>\n']],
  ['base', '[a](b)', ['https://c.d', '<p><a href="https://c.d/b">a</a></p>\n']],
  ['rel', '[a](b) [c](#d)', ['"', '<a href="b" rel="&quot;">a</a> <a href="#d">c</a>']],
  ['headingIds', '# a\n## b', ['x', '<h1 id="x1">a</h1>\n<h2 id="x2">b</h2>\n']],
  ['headingSlugs', '# A b', [true, '<h1 id="a-b">A b</h1>\n'], [false, '<h1>A b</h1>\n']],
  ['maxInput', 'abc', [3, '<p>abc</p>\n'], [Infinity, '<p>abc</p>\n']],
  ['maxOutput', 'abc', [11, '<p>abc</p>\n'], [2 ** 64, '<p>abc</p>\n']],
  ['maxWork', 'abc', [1000, '<p>abc</p>\n'], [Infinity, '<p>abc</p>\n']],
  ['maxDepth', '> > a', [1, '<p>&gt; &gt; a</p>'], [0, '<blockquote>\n<blockquote>']],
];

/** What a call throws. */
function thrown(call) {
  try {
    call();
  } catch (error) {
    return error;
  }
  return assert.fail('nothing is thrown');
}

describe('texts', () => {
  it('renders strings', () => {
    assert.equal(markdownToHtml('**a** <b>'), '<p><strong>a</strong> &lt;b&gt;</p>\n');
    assert.equal(markdownToHtml(''), '');
    assert.equal(markdownToHtml('a\0\u{1fa90}'), '<p>a\ufffd\u{1fa90}</p>\n');
    assert.equal(markdownToHtml('\u00e9 \u044f \ufffd'), '<p>\u00e9 \u044f \ufffd</p>\n');
    assert.equal(markdownToHtml('a', undefined), '<p>a</p>\n');
    assert.equal(markdownToHtml('a', {}), '<p>a</p>\n');
    assert.equal(markdownToHtml('a', { rel: undefined }), '<p>a</p>\n');
  });

  it('renders buffers', () => {
    assert.equal(markdownToHtml(Buffer.from('*\u00e9*')), '<p><em>\u00e9</em></p>\n');
    assert.equal(markdownToHtml(new Uint8Array(0)), '');
    const whole = new TextEncoder().encode('x*a*y');
    assert.equal(markdownToHtml(whole.subarray(1, 4)), '<p><em>a</em></p>\n');
    const shared = new Uint8Array(new SharedArrayBuffer(2)).fill(97);
    assert.equal(markdownToHtml(shared), '<p>aa</p>\n');
    const other = runInNewContext('new Uint8Array([97])');
    assert.equal(markdownToHtml(other), '<p>a</p>\n');
  });

  it('renders large texts', () => {
    for (const letter of ['a', '\u00e9', '\u044f', '\u{1fa90}']) {
      const text = letter.repeat(500_000);
      assert.equal(markdownToHtml(text), `<p>${text}</p>\n`);
    }
    const quotes = '"'.repeat(100_000);
    assert.equal(markdownToHtml(quotes), `<p>${'&quot;'.repeat(100_000)}</p>\n`);
  });

  it('is the same for both kinds of modules', () => {
    assert.equal(require('../index.js'), bivdrazo);
    assert.deepEqual(Object.keys(bivdrazo).sort(), [
      'BivdrazoError',
      'CLEAN_PROTOCOLS',
      'CLEAN_TAGS',
      'clean',
      'cleanAsync',
      'contents',
      'frontMatter',
      'isSafeHtml',
      'markdownToHtml',
      'markdownToHtmlAsync',
      'markdownWithHeadings',
      'markdownWithHeadingsAsync',
    ]);
  });
});

describe('options', () => {
  for (const [name, text, ...values] of BY_OPTION) {
    it(name, () => {
      for (const [value, part] of values) {
        const html = markdownToHtml(text, { [name]: value });
        assert.ok(html.includes(part), `${name}: ${value}: ${html}`);
      }
    });
  }

  it('has them all', () => {
    const all = Object.fromEntries(BY_OPTION.map(([name, , [value]]) => [name, value]));
    assert.equal(Object.keys(all).length, 19);
    const options = { ...all, maxInput: 100, maxOutput: 100, maxDepth: 9 };
    assert.equal(markdownToHtml('a', options), '<p>a</p>\n');
  });
});

describe('kept HTML', () => {
  it('has the tags that authors may write', () => {
    for (const [text, kept, keptOrText] of [
      ['H<sub>2</sub>O', 'H<sub>2</sub>O', 'H<sub>2</sub>O'],
      ['a <font>b</font>', 'a b', 'a &lt;font&gt;b&lt;/font&gt;'],
      ['<b>a <i>b</b> c</i>', '<b>a b</b> c', '<b>a &lt;i&gt;b</b> c&lt;/i&gt;'],
      ['a<!-- b -->', 'a', 'a'],
      ['a <script>b</script>', 'a b', 'a &lt;script&gt;b&lt;/script&gt;'],
      ['<a href="javascript:b" onclick="c">d</a>', '<a>d</a>', '<a>d</a>'],
    ]) {
      assert.equal(markdownToHtml(text, { html: 'kept' }), `<p>${kept}</p>\n`);
      assert.equal(markdownToHtml(text, { html: 'kept-or-text' }), `<p>${keptOrText}</p>\n`);
    }
  });

  it('gets attributes, and has limits', () => {
    const text = '<h2>A <a href="b">c</a></h2>\n';
    const wanted = '<h2 id="a-c">A <a href="b" rel="ugc">c</a></h2>\n';
    const options = { html: 'kept', rel: 'ugc', headingSlugs: true, maxInput: text.length };
    const fits = { ...options, maxOutput: wanted.length };
    assert.equal(markdownToHtml(text, fits), wanted);
    for (const less of [{ maxInput: text.length - 1 }, { maxOutput: wanted.length - 1 }]) {
      assert.throws(() => markdownToHtml(text, { ...fits, ...less }));
    }
    assert.throws(() => markdownToHtml(text, { html: 'kept', maxWork: 1 }));
  });
});

describe('headings', () => {
  it('have ids', () => {
    const page = markdownWithHeadings('# A *b*\n\n## c<\nd\n', { headingIds: 'x-' });
    assert.deepEqual(page, {
      html: '<h1 id="x-1">A <em>b</em></h1>\n<h2 id="x-2">c&lt;</h2>\n<p>d</p>\n',
      headings: [
        { level: 1, number: 1, text: 'A b', id: 'x-1' },
        { level: 2, number: 2, text: 'c&lt;', id: 'x-2' },
      ],
    });
    assert.equal(markdownWithHeadings('# a').headings[0].id, '1');
    assert.deepEqual(markdownWithHeadings('a').headings, []);
  });

  it('have ids made of their texts', () => {
    const ids = (text) => markdownWithHeadings(text, { headingSlugs: true }).headings
      .map(({ id }) => id);
    assert.deepEqual(ids('# A\n# a'), ['a', 'a-1']);
    assert.deepEqual(ids('# \u00c9t\u00e9 & \u044f'), ['\u00e9t\u00e9--\u044f']);
  });

  it('with a line feed have a space', () => {
    const { headings } = markdownWithHeadings('a\nb\n===\n');
    assert.deepEqual(headings, [{ level: 1, number: 1, text: 'a b', id: '1' }]);
  });

  it('have contents', () => {
    const text = '# a\n## *b* & [c](d)\n# <e>';
    const { headings } = markdownWithHeadings(text, { headingSlugs: true });
    assert.equal(
      contents(headings),
      '<ul>\n<li><a href="#a">a</a>\n<ul>\n<li><a href="#b--c">b &amp; c</a></li>\n</ul>\n</li>\n' +
        '<li><a href="#e">&lt;e&gt;</a></li>\n</ul>\n',
    );
    assert.equal(contents([]), '');
  });
});

describe('front matter', () => {
  it('is found', () => {
    assert.equal(frontMatter('---\ntitle: \u00e9\n---\n# b\n'), 'title: \u00e9\n');
    assert.equal(frontMatter(Buffer.from('---\n---\n')), '');
    assert.equal(frontMatter('# b\n'), null);
    assert.equal(frontMatter(''), null);
  });
});

describe('whether HTML is safe', () => {
  const ATTACKS = [
    '<script>alert(1)</script>',
    '<ScRiPt>alert(1)</sCrIpT>',
    '<p onclick="alert(1)">a</p>',
    '<img src="a" onerror="alert(1)" />',
    '<img src=a onerror=alert(1)>',
    '<a href="javascript:alert(1)">a</a>',
    '<a href="JaVaScRiPt:alert(1)">a</a>',
    '<a href="java&#115;cript:alert(1)">a</a>',
    '<a href="javascript&colon;alert(1)">a</a>',
    '<a href="data:text/html,a">a</a>',
    '<img src="data:image/svg+xml,a" alt="b" />',
    '<a href="a" href="javascript:alert(1)">a</a>',
    '<svg onload="alert(1)"></svg>',
    '<iframe src="https://a.b"></iframe>',
    '<form action="https://a.b"></form>',
    '<style>body { display: none }</style>',
    '<p style="position: fixed">a</p>',
    '</div></div><p>a</p>',
    '<p>a',
    'a <!-- b',
    '<a href="a"><a href="b">c</a></a>',
    "<p title='</p><script>alert(1)</script>'>a</p>",
    '<plaintext>a',
    'a\0b',
    'a\ud800',
    '\udfff',
  ];

  it('is', () => {
    for (const text of ['', 'a', '\u{1fa90}\ufffd', '<p>a &amp; <em>b</em></p>\n']) {
      assert.equal(isSafeHtml(text), true);
      assert.equal(isSafeHtml(Buffer.from(text)), true);
    }
    assert.equal(isSafeHtml('<p>a</p>'.repeat(100_000)), true);
    assert.equal(isSafeHtml(Buffer.from([0x61, 0xff])), true);
  });

  it("isn't", () => {
    for (const text of ATTACKS) assert.equal(isSafeHtml(text), false, text);
    assert.equal(isSafeHtml('<blockquote>'.repeat(100_000)), false);
    assert.equal(isSafeHtml(Buffer.from('<script>')), false);
  });

  it('is for what was rendered and stored', () => {
    const html = markdownToHtml(
      '# a <b>\n\n- [x] *c* [d](e "f")\n\n|g|\n|-|\n|h[^i]|\n\n[^i]: j\n',
      { rel: 'nofollow ugc' },
    );
    assert.match(html, / rel="nofollow ugc"/);
    const stored = JSON.parse(JSON.stringify({ html })).html;
    assert.equal(isSafeHtml(stored), true);
    assert.equal(isSafeHtml(`${stored}<script>`), false);
    assert.equal(isSafeHtml(stored.slice(0, -2)), false);
  });

  it('of another type is an error', () => {
    for (const text of [undefined, null, 7, {}, []]) {
      assert.throws(() => isSafeHtml(text), /^TypeError.*text: expected a string or a Uint8Array/);
    }
  });
});

describe('cleaning', () => {
  const CLEANED = [
    ['', ''],
    ['a & b < c', 'a &amp; b &lt; c'],
    ['<p onclick=f()>one<script>f()</script><p>two', '<p>one</p><p>two</p>'],
    ['<b>1<p>2</b>3', '<b>1</b><p><b>2</b>3</p>'],
    ["<a href=' javascript:alert(1)'>a</a>", '<a>a</a>'],
    ['<table><tr><td>1', '<table><tbody><tr><td>1</td></tr></tbody></table>'],
    ['<h1 class=a>\u00e9\u{1fa90}', '<h1>\u00e9\u{1fa90}</h1>'],
  ];
  const HOSTILE = [
    '<svg><style><img title="</style><img src=x onerror=alert(1)>">',
    '<noscript><p title="</noscript><img src=x onerror=alert(1)>">',
    '<math><mtext></form><form><mglyph><style></math><img src onerror=alert(1)>',
    '<a href="java&#115;cript:alert(1)">a</a>',
    'a\0b',
    '<blockquote>'.repeat(100_000),
  ];

  it('keeps what is listed', async () => {
    for (const [html, wanted] of CLEANED) {
      assert.equal(clean(html), wanted);
      assert.equal(clean(Buffer.from(html)), wanted);
      assert.equal(await cleanAsync(html), wanted);
    }
  });

  it('makes safe HTML of attacks', () => {
    for (const html of HOSTILE) {
      const made = clean(html);
      assert.equal(isSafeHtml(made), true, html);
      assert.doesNotMatch(made, /<script|javascript:/);
    }
  });

  it('has options', async () => {
    const html = '<p>a <b>b</b><h1>c</h1>d';
    assert.equal(clean(html, { tags: ['p'] }), '<p>a b</p>c\nd');
    assert.equal(clean(html, { tags: [] }), 'a b\nc\nd');
    assert.equal(clean(html, { tags: CLEAN_TAGS }), clean(html));
    assert.equal(clean('<ul><li>a', { tags: ['ul'] }), '<ul><li>a</li></ul>');
    const links = '<a href=http://a>b</a><a href=https://c>d</a>';
    const wanted = '<a>b</a><a href="https://c">d</a>';
    assert.equal(clean(links, { protocols: ['https'] }), wanted);
    assert.equal(await cleanAsync(links, { protocols: ['https'] }), wanted);
    assert.equal(clean('<p>a', { maxInput: 4, maxOutput: 8 }), '<p>a</p>');
    assert.equal(clean('"'.repeat(10_000)), '&quot;'.repeat(10_000));
  });

  it('has errors', async () => {
    const code = (name) => ({ code: `ERR_BIVDRAZO_${name}` });
    assert.throws(() => clean('<p>a', { maxInput: 3 }), { ...code('INPUT_TOO_LONG'), limit: 3 });
    assert.throws(() => clean('<p>a', { maxOutput: 7 }), { ...code('OUTPUT_TOO_LONG'), limit: 7 });
    await assert.rejects(cleanAsync('<p>a', { maxInput: 3 }), code('INPUT_TOO_LONG'));
    assert.throws(() => clean('a\ud800'), { ...code('LONE_SURROGATE'), index: 1 });
    assert.throws(() => clean(Buffer.from([0x61, 0xff])), { ...code('NOT_UTF8'), index: 1 });
    for (const options of [{ tags: ['font'] }, { tags: ['P'] }, { protocols: ['javascript'] }]) {
      assert.throws(() => clean('a', options), RangeError);
    }
    for (const options of [{ tags: 'p' }, { tags: [7] }, { tag: ['p'] }, null]) {
      assert.throws(() => clean('a', options), TypeError);
    }
    assert.throws(() => clean(7), /^TypeError.*text: expected a string or a Uint8Array/);
  });
});

describe('errors', () => {
  const fails = (text, options, code, fields) => {
    const error = thrown(() => markdownToHtml(text, options));
    assert.ok(error instanceof BivdrazoError && error instanceof Error);
    assert.deepEqual({ code: error.code, ...error }, {
      name: 'BivdrazoError', code: `ERR_BIVDRAZO_${code}`, ...fields,
    });
    return error.message;
  };

  it('of limits', () => {
    assert.match(fails('abc', { maxInput: 2 }, 'INPUT_TOO_LONG', { limit: 2 }), /than 2 bytes/);
    assert.match(fails('\u00e9', { maxInput: 1 }, 'INPUT_TOO_LONG', { limit: 1 }), /input/);
    assert.match(fails('abc', { maxOutput: 10 }, 'OUTPUT_TOO_LONG', { limit: 10 }), /HTML/);
    assert.match(fails('abc', { maxWork: 0 }, 'TOO_MUCH_WORK', { limit: 0 }), /work than 0/);
    const hostile = `[a]: ${'b'.repeat(100_000)}\n\n${'[a] '.repeat(10_000)}`;
    const least = 2 ** 20 + 64 * hostile.length;
    fails(hostile, undefined, 'TOO_MUCH_WORK', { limit: least });
  });

  it('of lone surrogates', () => {
    fails('ab\ud800c', undefined, 'LONE_SURROGATE', { index: 2 });
    fails('\udfff', undefined, 'LONE_SURROGATE', { index: 0 });
    fails('\u{1fa90}\ufffd\ud83e', undefined, 'LONE_SURROGATE', { index: 3 });
    fails('\ud800\u{1fa90}', undefined, 'LONE_SURROGATE', { index: 0 });
    assert.match(fails('a', { rel: 'b\udc00' }, 'LONE_SURROGATE', { index: 1 }), /^rel: /);
    assert.match(fails('a', { headingIds: '\ud800' }, 'LONE_SURROGATE', { index: 0 }),
      /^headingIds: /);
    assert.equal(thrown(() => frontMatter('a\ud800')).index, 1);
  });

  it('of bytes', () => {
    fails(Buffer.from([97, 255]), undefined, 'NOT_UTF8', { index: 1 });
    fails(Buffer.from([0xed, 0xa0, 0x80]), undefined, 'NOT_UTF8', { index: 0 });
    assert.equal(thrown(() => frontMatter(Buffer.from([255]))).code, 'ERR_BIVDRAZO_NOT_UTF8');
  });

  it('of types', () => {
    const wrong = [undefined, null, 7, {}, [], new Uint16Array(2), new ArrayBuffer(2),
      Symbol('a'), Object.create(Uint8Array.prototype)];
    for (const text of wrong) {
      const error = thrown(() => markdownToHtml(text));
      assert.ok(error instanceof TypeError);
      assert.match(error.message, /^text: expected a string or a Uint8Array, not /);
      assert.throws(() => frontMatter(text), TypeError);
    }
    for (const options of [null, 7, 'a', true]) {
      assert.throws(() => markdownToHtml('a', options), /^TypeError.*options: expected an object/);
      assert.throws(() => markdownWithHeadings('a', options), TypeError);
    }
    for (const [name] of BY_OPTION) {
      for (const value of [null, {}, Symbol('a')]) {
        const error = thrown(() => markdownToHtml('a', { [name]: value }));
        assert.ok(error instanceof TypeError && error.message.startsWith(`${name}: expected `));
        assert.equal(error.code, 'ERR_INVALID_ARG_TYPE');
      }
    }
    assert.throws(() => markdownToHtml('a', { sanitize: true }), /^TypeError.*sanitize: no option/);
    assert.throws(() => contents('a'), /headings: expected an array/);
    assert.throws(() => contents([{ level: 1, text: 7, id: 'a' }]), /text: expected a string/);
  });

  it('of values', () => {
    for (const value of [-1, 0.5, NaN, -Infinity]) {
      const error = thrown(() => markdownToHtml('a', { maxInput: value }));
      assert.ok(error instanceof RangeError && error.message.startsWith('maxInput: '));
      assert.equal(error.code, 'ERR_OUT_OF_RANGE');
    }
    assert.throws(() => markdownToHtml('a', { html: 'raw' }), /html: expected one of text, left/);
  });
});
