'use strict';

/**
 * Markdown to safe HTML: the calls for Node. index.d.ts describes them; docs/use/NODE.md is the
 * page about them.
 */

const path = require('node:path');
const { isUint8Array } = require('node:util').types;

const PLACE = `${process.platform}-${process.arch}`;
const MISSING = 'ERR_BIVDRAZO_NO_LIBRARY';

/** The library, which is a file for each system. */
function load() {
  const file = process.env.BIVDRAZO_NODE || path.join(__dirname, 'out', PLACE, 'bivdrazo.node');
  try {
    return require(path.resolve(file));
  } catch (cause) {
    const message = `${file} can't be loaded (there is one for linux-x64 and linux-arm64): `;
    throw Object.assign(new Error(message + cause.message, { cause }), { code: MISSING });
  }
}

const native = load();

/** An error of a call: its code begins with `ERR_BIVDRAZO_`. */
class BivdrazoError extends Error {
  constructor(code, message, fields) {
    super(message);
    this.name = 'BivdrazoError';
    this.code = `ERR_BIVDRAZO_${code}`;
    Object.assign(this, fields);
  }
}

/** What an argument is, for an error. */
function shown(value) {
  return value === null ? 'null' : Array.isArray(value) ? 'an array' : `a ${typeof value}`;
}

/** The error for an argument of another type, which names it. */
function typeError(name, expected, value) {
  const message = `${name}: expected ${expected}, not ${shown(value)}`;
  return Object.assign(new TypeError(message), { code: 'ERR_INVALID_ARG_TYPE' });
}

/** The error for an argument of the right type that isn't a value, which names it. */
function rangeError(name, expected, value) {
  const message = `${name}: expected ${expected}, not ${String(value)}`;
  return Object.assign(new RangeError(message), { code: 'ERR_OUT_OF_RANGE' });
}

function flag(name, value) {
  if (typeof value !== 'boolean') throw typeError(name, 'a boolean', value);
  return value ? 1 : 0;
}

function string(name, value) {
  if (typeof value !== 'string') throw typeError(name, 'a string', value);
  return value;
}

function limit(name, value) {
  if (typeof value !== 'number') throw typeError(name, 'a number', value);
  if (!(value >= 0 && (Number.isInteger(value) || value === Infinity))) {
    throw rangeError(name, 'an integer from 0 on, or Infinity', value);
  }
  return value;
}

const HTML = ['text', 'left-out', 'without-comments', 'kept', 'kept-or-text'];

function html(name, value) {
  const number = HTML.indexOf(string(name, value));
  if (number < 0) throw rangeError(name, `one of ${HTML.join(', ')}`, value);
  return number;
}

/** Each option in the order of the library's arguments, which follow the text: its name, what reads
 *  it, and its default. */
const OPTIONS = [
  ['headingSlugs', flag, 0],
  ['numberIds', flag, 0],
  ['hardBreaks', flag, 0],
  ['bareLinks', flag, 1],
  ['html', html, 0],
  ['math', flag, 0],
  ['frontMatter', flag, 0],
  ['footnotes', flag, 1],
  ['tables', flag, 1],
  ['footnotePrefix', string, null],
  ['footnoteLabel', string, null],
  ['footnoteBackLabel', string, null],
  ['base', string, null],
  ['rel', string, null],
  ['headingIds', string, null],
  ['maxInput', limit, Infinity],
  ['maxOutput', limit, Infinity],
  ['maxWork', limit, null],
  ['maxDepth', limit, 0],
];
const DEFAULTS = [null, ...OPTIONS.map((option) => option[2])];
const BY_NAME = new Map(OPTIONS.map(([name, read], at) => [name, { at: at + 1, read }]));
const FIRST_TEXT = OPTIONS.findIndex(([name]) => name === 'footnotePrefix');

/** The text, if it is one; a Uint8Array may be of another realm, as in Jest. */
function textOf(text) {
  if (typeof text !== 'string' && !isUint8Array(text)) {
    throw typeError('text', 'a string or a Uint8Array', text);
  }
  return text;
}

/** The library's arguments, from their defaults and the options by name. */
function argumentsBy(text, options, defaults, byName) {
  const values = defaults.slice();
  values[0] = textOf(text);
  if (options === undefined) return values;
  if (typeof options !== 'object' || options === null) {
    throw typeError('options', 'an object', options);
  }
  for (const name of Object.keys(options)) {
    const option = byName.get(name);
    if (option === undefined) {
      throw Object.assign(new TypeError(`${name}: no option has this name`), {
        code: 'ERR_INVALID_ARG_VALUE',
      });
    }
    if (options[name] !== undefined) values[option.at] = option.read(name, options[name]);
  }
  return values;
}

function argumentsOf(text, options) {
  return argumentsBy(text, options, DEFAULTS, BY_NAME);
}

/** The elements and protocols that clean() may keep. */
const TAGS =
  'a abbr b blockquote br cite code del details dfn div em figcaption figure h1 h2 h3 h4 h5 h6 ' +
  'hr i img ins kbd li mark ol p pre q s samp small span strong sub summary sup table tbody td ' +
  'tfoot th thead tr u ul';
const KEPT = {
  tags: Object.freeze(TAGS.split(' ')),
  protocols: Object.freeze(['http', 'https', 'irc', 'ircs', 'mailto', 'xmpp']),
};

/** Names as the library reads them. */
function names(option, value) {
  if (!Array.isArray(value)) throw typeError(option, 'an array', value);
  for (const name of value) {
    if (!KEPT[option].includes(string(option, name))) {
      throw rangeError(option, `some of ${KEPT[option].join(', ')}`, name);
    }
  }
  return value.join(' ');
}

/** What reads an option of clean(). */
const CLEAN_OPTIONS = new Map([
  ['tags', { at: 1, read: names }],
  ['protocols', { at: 2, read: names }],
  ['maxInput', { at: 3, read: limit }],
  ['maxOutput', { at: 4, read: limit }],
]);

/** The error that the library answers. */
function errorOf([code, index, number]) {
  switch (code) {
    case 'INPUT_TOO_LONG':
      return new BivdrazoError(code, `the input has more than ${number} bytes`, { limit: number });
    case 'OUTPUT_TOO_LONG':
      return new BivdrazoError(code, `the HTML has more than ${number} bytes`, { limit: number });
    case 'TOO_MUCH_WORK':
      return new BivdrazoError(code, `there is more work than ${number}`, { limit: number });
    case 'NOT_UTF8':
      return new BivdrazoError(code, `the text isn't UTF-8 from byte ${index} on`, { index });
    case 'LONE_SURROGATE': {
      const name = number === 0 ? 'text' : OPTIONS[FIRST_TEXT + number - 1][0];
      return new BivdrazoError(code, `${name}: a lone surrogate at index ${index}`, { index });
    }
    case 'MEMORY':
      return new BivdrazoError(code, 'out of memory', {});
    default:
      return new BivdrazoError(code, 'the library refused the call', {});
  }
}

/** The two texts that the library answers. */
function textsOf(made) {
  if (made.length === 3) throw errorOf(made);
  return made;
}

/** A text without the library's escapes. */
function unescaped(text) {
  return text
    .replaceAll('&lt;', '<')
    .replaceAll('&gt;', '>')
    .replaceAll('&quot;', '"')
    .replaceAll('&amp;', '&');
}

/** The HTML and its headings, from what the library answers. */
function pageOf([html, list], prefix) {
  const lines = list.split('\0').slice(1);
  const ids = lines.filter((line) => line.startsWith('#'));
  const headings = lines
    .filter((line) => !line.startsWith('#'))
    .map((line, at) => {
      const [, level, number, text] = /^(\d) (\d+) ([^]*)$/.exec(line);
      const id = ids.length > 0 ? unescaped(ids[at].slice(1)) : prefix + number;
      return {
        level: Number(level),
        number: Number(number),
        text: text.replaceAll('\n', ' '),
        id,
      };
    });
  return { html, headings };
}

/** The options with ids of headings. */
function withIds(options = {}) {
  if (typeof options !== 'object' || options === null) {
    throw typeError('options', 'an object', options);
  }
  return { ...options, headingIds: options.headingIds ?? '' };
}

function markdownToHtml(text, options) {
  return textsOf(native.render(...argumentsOf(text, options)))[0];
}

async function markdownToHtmlAsync(text, options) {
  return textsOf(await native.renderLater(...argumentsOf(text, options)))[0];
}

function markdownWithHeadings(text, options) {
  const given = withIds(options);
  return pageOf(textsOf(native.render(...argumentsOf(text, given))), given.headingIds);
}

async function markdownWithHeadingsAsync(text, options) {
  const given = withIds(options);
  return pageOf(textsOf(await native.renderLater(...argumentsOf(text, given))), given.headingIds);
}

/** A text as Markdown: punctuation is escaped, and a line ending becomes a space. */
function quoted(text) {
  return text.replace(/[!-/:-@[-`{-~]/g, '\\$&').replace(/[\n\r]/g, ' ');
}

function contents(headings) {
  if (!Array.isArray(headings)) throw typeError('headings', 'an array', headings);
  const levels = [];
  let document = '';
  for (const { level, text, id } of headings) {
    while (levels.length > 0 && levels[levels.length - 1] >= level) levels.pop();
    const label = quoted(unescaped(string('text', text)).trim() || string('id', id));
    document += `${'  '.repeat(levels.length)}- [${label}](<#${quoted(string('id', id))}>)\n`;
    levels.push(level);
  }
  const options = { bareLinks: false, footnotes: false, tables: false, maxWork: Infinity };
  return markdownToHtml(document, options);
}

function frontMatter(text) {
  const found = native.frontMatter(textOf(text));
  if (Array.isArray(found)) throw errorOf(found);
  return found;
}

function cleanArgumentsOf(html, options) {
  return argumentsBy(html, options, [null, null, null, Infinity, Infinity], CLEAN_OPTIONS);
}

function clean(html, options) {
  return textsOf(native.clean(...cleanArgumentsOf(html, options)))[0];
}

async function cleanAsync(html, options) {
  return textsOf(await native.cleanLater(...cleanArgumentsOf(html, options)))[0];
}

function isSafeHtml(text) {
  const found = native.isSafeHtml(textOf(text));
  if (!Array.isArray(found)) return found;
  if (found[0] === 'LONE_SURROGATE') return false;
  throw errorOf(found);
}

module.exports = {
  BivdrazoError,
  CLEAN_PROTOCOLS: KEPT.protocols,
  CLEAN_TAGS: KEPT.tags,
  clean,
  cleanAsync,
  contents,
  frontMatter,
  isSafeHtml,
  markdownToHtml,
  markdownToHtmlAsync,
  markdownWithHeadings,
  markdownWithHeadingsAsync,
};
