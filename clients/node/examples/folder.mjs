// Renders each Markdown file below a folder as a page with a table of contents, into another folder.
//
//     node folder.mjs SOURCE TARGET
//
// Node's threads render several files at a time.
import { mkdir, readFile, readdir, writeFile } from 'node:fs/promises';
import path from 'node:path';
import { contents, markdownWithHeadingsAsync } from 'bivdrazo';

const AT_ONCE = 8;
const OPTIONS = { headingSlugs: true, numberIds: true, frontMatter: true };

/** The paths of the Markdown files below a folder, from there, in order. */
async function filesBelow(folder, below = '') {
  const found = [];
  for (const entry of await readdir(path.join(folder, below), { withFileTypes: true })) {
    const name = path.join(below, entry.name);
    if (entry.isDirectory()) found.push(...(await filesBelow(folder, name)));
    else if (entry.isFile() && name.endsWith('.md')) found.push(name);
  }
  return found.sort();
}

/** Renders a file of the source. */
async function render(source, target, name) {
  const markdown = await readFile(path.join(source, name));
  const { html, headings } = await markdownWithHeadingsAsync(markdown, OPTIONS);
  const file = path.join(target, name.replace(/\.md$/, '.html'));
  await mkdir(path.dirname(file), { recursive: true });
  const page = `<!doctype html>\n<meta charset="utf-8" />\n<nav>\n${contents(headings)}</nav>\n${html}`;
  await writeFile(file, page);
}

/** Renders names until there are none. */
async function renderAll(source, target, names) {
  for (let name = names.shift(); name !== undefined; name = names.shift()) {
    try {
      await render(source, target, name);
    } catch (error) {
      console.error(`${name}: ${error.message}`);
      process.exitCode = 1;
    }
  }
}

const [source, target] = process.argv.slice(2);
if (target === undefined) {
  console.error('usage: node folder.mjs SOURCE TARGET');
  process.exit(2);
}
const names = await filesBelow(source);
console.log(`${names.length} files`);
await Promise.all(Array.from({ length: AT_ONCE }, () => renderAll(source, target, names)));
