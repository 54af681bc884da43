// Renders documents from standard input by the package for Node, for ports_test.py, as port.c does.
// For each it writes the status, which is 0, or 1 for an error, and the length; and then the HTML and
// a line feed.
import { readFileSync, writeSync } from 'node:fs';
import { markdownToHtml } from '../node/index.mjs';

const SLUGS = {
  headingIds: 'h-', headingSlugs: true, math: true, frontMatter: true, numberIds: true,
};

const input = readFileSync(0);
const parts = [];
for (let at = 0; at < input.length; ) {
  const end = input.indexOf('\n', at);
  const [kind, length] = input.subarray(at, end).toString().split(' ');
  at = end + 1 + Number(length);
  try {
    const document = input.subarray(end + 1, at);
    const html = Buffer.from(markdownToHtml(document, kind === 'S' ? SLUGS : undefined));
    parts.push(Buffer.from(`0 0 0 ${html.length}\n`), html, Buffer.from('\n'));
  } catch {
    parts.push(Buffer.from('1 0 0 0\n\n'));
  }
}
const output = Buffer.concat(parts);
for (let at = 0; at < output.length; ) at += writeSync(1, output, at);
