// Tests of the promises, which other threads keep, and of workers.
import assert from 'node:assert/strict';
import { describe, it } from 'node:test';
import { Worker, isMainThread, parentPort, workerData } from 'node:worker_threads';
import { fileURLToPath } from 'node:url';

import { markdownToHtml, markdownToHtmlAsync, markdownWithHeadingsAsync } from '../index.mjs';

const WORKERS = 32;
const ROUNDS = 200;

/** A document of a worker, and its HTML. */
function document(number, round) {
  return [`*${number}* \u044f${'a'.repeat(round)}`,
    `<p><em>${number}</em> \u044f${'a'.repeat(round)}</p>\n`];
}

/** In a worker: renders its documents, and answers whether each was right. */
async function work(number) {
  for (let round = 0; round < ROUNDS; round++) {
    const [text, html] = document(number, round);
    if (markdownToHtml(text) !== html || (await markdownToHtmlAsync(text)) !== html) return round;
  }
  return ROUNDS;
}

/** How many rounds of a worker were right. */
function rounds(number) {
  return new Promise((resolve, reject) => {
    const worker = new Worker(fileURLToPath(import.meta.url), { workerData: number });
    worker.on('message', resolve);
    worker.on('error', reject);
  });
}

if (isMainThread) {
  describe('promises', () => {
    it('have the same texts', async () => {
      assert.equal(await markdownToHtmlAsync('**a**'), markdownToHtml('**a**'));
      assert.deepEqual(await markdownWithHeadingsAsync('# a', { headingSlugs: true }), {
        html: '<h1 id="a">a</h1>\n', headings: [{ level: 1, number: 1, text: 'a', id: 'a' }],
      });
    });

    it('are rejected with the same errors', async () => {
      await assert.rejects(markdownToHtmlAsync('abc', { maxInput: 2 }),
        { code: 'ERR_BIVDRAZO_INPUT_TOO_LONG', limit: 2 });
      await assert.rejects(markdownToHtmlAsync('a\ud800'),
        { code: 'ERR_BIVDRAZO_LONE_SURROGATE', index: 1 });
      await assert.rejects(markdownToHtmlAsync(Buffer.from([255])),
        { code: 'ERR_BIVDRAZO_NOT_UTF8', index: 0 });
      await assert.rejects(markdownToHtmlAsync(7), TypeError);
      await assert.rejects(markdownToHtmlAsync('a', { rel: 7 }), /rel: expected a string/);
    });

    it('take the buffer as it is at the call', async () => {
      const buffer = Buffer.from('a'.repeat(100_000));
      const promise = markdownToHtmlAsync(buffer);
      buffer.fill('b');
      assert.equal(await promise, `<p>${'a'.repeat(100_000)}</p>\n`);
    });

    it("don't block", async () => {
      const text = '*a* [b](c) `d`\n\n'.repeat(200_000);
      let ticks = 0;
      const timer = setInterval(() => ticks++, 1);
      const html = await markdownToHtmlAsync(text);
      clearInterval(timer);
      assert.ok(html.length > text.length);
      assert.ok(ticks >= 5, `${ticks} ticks while a text of ${text.length} bytes was rendered`);
    });

    it('are kept many at a time', async () => {
      const pairs = Array.from({ length: 1000 }, (_, number) => document(number, number));
      const made = await Promise.all(pairs.map(([text]) => markdownToHtmlAsync(text)));
      assert.deepEqual(made, pairs.map(([, html]) => html));
    });
  });

  describe('workers', () => {
    it(`render in ${WORKERS} threads`, async () => {
      const numbers = Array.from({ length: WORKERS }, (_, number) => number);
      const found = await Promise.all(numbers.map(rounds));
      assert.deepEqual(found, numbers.map(() => ROUNDS));
    });

    it('may end while they render', async () => {
      const worker = new Worker(fileURLToPath(import.meta.url), { workerData: -1 });
      await new Promise((resolve) => { worker.once('message', resolve); });
      assert.equal(await worker.terminate(), 1);
    });
  });
} else if (workerData < 0) {
  for (let count = 0; count < 20; count++) markdownToHtmlAsync('*a* '.repeat(100_000));
  parentPort.postMessage('rendering');
  setInterval(() => {}, 1000);
} else {
  parentPort.postMessage(await work(workerData));
}
