// A page of comments, which strangers write in Markdown; with Node's own server.
//
//     node server.mjs [PORT]
//
// GET / shows the comments, POST / with a form's field `text` adds one. A comment that exceeds a
// limit is refused, with status 413; one that isn't UTF-8, with 400.
import { createServer } from 'node:http';
import { markdownToHtml } from 'bivdrazo';

const LIMITS = { maxInput: 10_000, maxOutput: 100_000, maxWork: 50_000, rel: 'nofollow ugc' };
const LONGEST_BODY = 3 * LIMITS.maxInput + 100; // a form writes a byte as up to three

const FORM = '<form method="post"><textarea name="text"></textarea><button>Send</button></form>\n';
const comments = [];

/** The comment as HTML; the ids of its footnotes differ from those of the others. */
function rendered(text, number) {
  return markdownToHtml(text, { ...LIMITS, footnotePrefix: `comment-${number}-` });
}

/** The body of a request, up to a limit. */
async function bodyOf(request) {
  const parts = [];
  let length = 0;
  for await (const part of request) {
    length += part.length;
    if (length > LONGEST_BODY) throw Object.assign(new Error('the body is too long'), { status: 413 });
    parts.push(part);
  }
  return Buffer.concat(parts).toString();
}

/** The status for an error. */
function statusOf({ status, code = '' }) {
  if (status) return status;
  return code.startsWith('ERR_BIVDRAZO_') ? (code.includes('TOO_') ? 413 : 400) : 500;
}

const server = createServer(async (request, response) => {
  try {
    if (request.method === 'POST') {
      const text = new URLSearchParams(await bodyOf(request)).get('text') ?? '';
      comments.push(rendered(text, comments.length + 1));
      response.writeHead(303, { Location: '/' }).end();
      return;
    }
    const list = comments.map((html) => `<li>${html}</li>\n`).join('');
    response.writeHead(200, { 'Content-Type': 'text/html; charset=utf-8' });
    response.end(`<!doctype html>\n<title>Comments</title>\n<ol>\n${list}</ol>\n${FORM}`);
  } catch (error) {
    response.writeHead(statusOf(error), { 'Content-Type': 'text/plain; charset=utf-8' });
    response.end(`${error.message}\n`);
  }
});

server.listen(Number(process.argv[2] ?? 8080), '127.0.0.1', () => {
  console.log(`http://127.0.0.1:${server.address().port}/`);
});
