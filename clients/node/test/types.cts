// Compiled by tsc, never run: the same in a CommonJS module.
import bivdrazo = require('bivdrazo');

const html: string = bivdrazo.markdownToHtml('a', { rel: 'ugc' });
const page: bivdrazo.Page = bivdrazo.markdownWithHeadings(html);
// @ts-expect-error: no text
bivdrazo.markdownToHtml(page);
