// Tests of the examples, the package's README and a missing library. The examples import the
// package by its name, so they are run beside a node_modules that has it.
import assert from 'node:assert/strict';
import { spawn, spawnSync } from 'node:child_process';
import { cpSync, mkdirSync, mkdtempSync, readFileSync, rmSync, symlinkSync, writeFileSync }
  from 'node:fs';
import { tmpdir } from 'node:os';
import path from 'node:path';
import { after, before, describe, it } from 'node:test';
import { fileURLToPath } from 'node:url';

const PACKAGE = path.dirname(path.dirname(fileURLToPath(import.meta.url)));
let folder;

before(() => {
  folder = mkdtempSync(path.join(tmpdir(), 'bivdrazo-'));
  mkdirSync(path.join(folder, 'node_modules'));
  symlinkSync(PACKAGE, path.join(folder, 'node_modules', 'bivdrazo'));
  cpSync(path.join(PACKAGE, 'examples'), folder, { recursive: true });
});
after(() => rmSync(folder, { recursive: true }));

/** Runs Node in the folder. */
function run(words, env = {}) {
  return spawnSync(process.execPath, words, {
    cwd: folder, encoding: 'utf8', env: { ...process.env, ...env },
  });
}

describe('examples', () => {
  it('of README', () => {
    const readme = readFileSync(path.join(PACKAGE, 'README.md'), 'utf8');
    const [, code] = /```js\n([^]*?)```/.exec(readme);
    assert.ok(code.split('\n').length <= 11);
    writeFileSync(path.join(folder, 'readme.mjs'), code);
    assert.equal(run(['readme.mjs']).stdout, '<p><strong>a</strong> &lt;b&gt;</p>\n');
  });

  it('for CommonJS', () => {
    const code = "process.stdout.write(require('bivdrazo').markdownToHtml('*a*'))";
    assert.equal(run(['-e', code]).stdout, '<p><em>a</em></p>\n');
  });

  it('of a folder', () => {
    mkdirSync(path.join(folder, 'source', 'b'), { recursive: true });
    writeFileSync(path.join(folder, 'source', 'a.md'), '---\nc: d\n---\n# A\n\n## b\n');
    writeFileSync(path.join(folder, 'source', 'b', 'c.md'), '*x* <script>\n');
    writeFileSync(path.join(folder, 'source', 'b', 'd.md'), Buffer.from([97, 255]));
    writeFileSync(path.join(folder, 'source', 'e.txt'), 'f');
    const done = run(['folder.mjs', 'source', 'target']);
    assert.deepEqual([done.status, done.stdout], [1, '3 files\n']);
    assert.equal(done.stderr, "b/d.md: the text isn't UTF-8 from byte 1 on\n");
    const read = (name) => readFileSync(path.join(folder, 'target', name), 'utf8').split('\n');
    assert.deepEqual(read('a.html').slice(2), [
      '<nav>', '<ul>', '<li><a href="#a">A</a>', '<ul>', '<li><a href="#b">b</a></li>', '</ul>',
      '</li>', '</ul>', '</nav>', '<h1 id="a">A</h1>', '<h2 id="b">b</h2>', '',
    ]);
    assert.equal(read('b/c.html').at(-2), '<p><em>x</em> &lt;script&gt;</p>');
    assert.equal(run(['folder.mjs']).status, 2);
  });

  it('of a server', async () => {
    const server = spawn(process.execPath, ['server.mjs', '0'], { cwd: folder });
    try {
      const url = await new Promise((resolve, reject) => {
        server.stdout.once('data', (line) => resolve(String(line).trim()));
        server.once('exit', reject);
      });
      const send = (text) => fetch(url, { method: 'POST', body: new URLSearchParams({ text }) });
      const page = await (await send('a[^b] <i onload=c>\n\n[^b]: [d](e)')).text();
      assert.match(page, /<li><p>a<sup><a href="#comment-1-fn-b"/);
      assert.match(page, /&lt;i onload=c&gt;/);
      assert.match(page, /<a href="e" rel="nofollow ugc">d<\/a>/);
      const used = `[a]: ${'b'.repeat(9000)}\n\n${'[a] '.repeat(200)}`;
      for (const text of ['a'.repeat(10_001), used, 'a'.repeat(100_000)]) {
        const refused = await send(text);
        assert.equal(refused.status, 413, await refused.text());
      }
      assert.equal((await (await fetch(url)).text()).split('<li><p>').length, 2);
    } finally {
      server.kill();
    }
  });
});

describe('a library', () => {
  const code = "try { require('bivdrazo') } catch (e) { console.log(e.code, e.message) }";

  it('that is missing is named', () => {
    const { stdout } = run(['-e', code], { BIVDRAZO_NODE: '/none/bivdrazo.node' });
    assert.match(stdout, /^ERR_BIVDRAZO_NO_LIBRARY \/none\/bivdrazo\.node can't be loaded/);
  });

  it('that is something else is named', () => {
    writeFileSync(path.join(folder, 'text.node'), 'no library');
    const { stdout } = run(['-e', code], { BIVDRAZO_NODE: path.join(folder, 'text.node') });
    assert.match(stdout, /^ERR_BIVDRAZO_NO_LIBRARY \S*text\.node can't be loaded/);
  });
});
