// Renders documents with one way in Node:
//
//     in_node.cjs WAY < DOCUMENTS > HTML
//
// DOCUMENTS are frames: a count of bytes in decimal digits, a line feed, the document. The ways are
// those of WAYS; Debian's modules are found with NODE_PATH=/usr/share/nodejs. sanitize-html permits
// all elements that the renderers make.
'use strict';
const { readFileSync, writeSync } = require('node:fs');
const path = require('node:path');

const TAGS = `a blockquote br code dd del div dl dt em h1 h2 h3 h4 h5 h6 hr i img input li ol p pre s
  section span strong sub sup table tbody td th thead tr ul`.split(/\s+/);
const ATTRIBUTES = {
  '*': ['class', 'id'],
  a: ['href', 'title'],
  img: ['src', 'alt', 'title'],
  input: ['checked', 'disabled', 'type'],
  ol: ['start'],
  td: ['align'],
  th: ['align'],
};

/** Ours. */
function bivdrazo() {
  return require(path.join(__dirname, '..', 'node')).markdownToHtml;
}

/** marked, as GFM. */
function marked() {
  const { marked: render } = require('marked');
  return (document) => render(document);
}

/** markdown-it with HTML unchanged, tables, strikethrough and bare links. */
function markdownIt() {
  const renderer = require('markdown-it')({ html: true, linkify: true });
  return (document) => renderer.render(document);
}

/** A way, and sanitize-html behind it. */
function cleaned(way) {
  const render = way();
  const clean = require('sanitize-html');
  const options = { allowedTags: TAGS, allowedAttributes: ATTRIBUTES };
  return (document) => clean(render(document), options);
}

const WAYS = {
  bivdrazo,
  marked,
  'markdown-it': markdownIt,
  'marked, sanitize-html': () => cleaned(marked),
  'markdown-it, sanitize-html': () => cleaned(markdownIt),
};

const render = WAYS[process.argv[2]]();
const input = readFileSync(0);
const parts = [];
for (let at = 0; at < input.length; ) {
  const end = input.indexOf('\n', at);
  const length = Number(input.subarray(at, end));
  parts.push(Buffer.from(render(input.toString('utf8', end + 1, end + 1 + length))));
  at = end + 1 + length;
}
const output = Buffer.concat(parts);
for (let at = 0; at < output.length; ) at += writeSync(1, output, at);
