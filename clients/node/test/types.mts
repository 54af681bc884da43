// Compiled by tsc, never run: what TypeScript accepts and refuses, in an ES module.
import bivdrazo, {
  BivdrazoError,
  clean,
  cleanAsync,
  contents,
  frontMatter,
  isSafeHtml,
  markdownToHtml,
  markdownToHtmlAsync,
  markdownWithHeadings,
  markdownWithHeadingsAsync,
  type CleanOptions,
  type ErrorCode,
  type Heading,
  type Options,
  type Page,
} from 'bivdrazo';

const options: Options = { rel: 'ugc', maxInput: 10, html: 'left-out', tables: undefined };
const html: string = markdownToHtml('a', options) + bivdrazo.markdownToHtml(new Uint8Array(1));
const later: Promise<string> = markdownToHtmlAsync('a');
const page: Page = markdownWithHeadings('a', { headingSlugs: true });
const pageLater: Promise<Page> = markdownWithHeadingsAsync('a');
const headings: readonly Heading[] = page.headings;
const list: string = contents(headings);
const found: string | null = frontMatter('a');
const isSafe: boolean = isSafeHtml(list) && isSafeHtml(new Uint8Array(1));
const choice: CleanOptions = { tags: bivdrazo.CLEAN_TAGS, protocols: ['https'], maxInput: 9 };
const cleaned: string = clean(list, choice) + clean(new Uint8Array(1));
const cleanedLater: Promise<string> = cleanAsync(cleaned);
try {
  markdownToHtml('a');
} catch (error) {
  if (error instanceof BivdrazoError) {
    const code: ErrorCode = error.code;
    const limit: number | undefined = error.limit;
    console.log(code, limit, error.index, html, later, pageLater, list, found, isSafe);
    console.log(cleanedLater);
  }
}

// @ts-expect-error: no text
markdownToHtml(7);
// @ts-expect-error: no text
isSafeHtml(null);
// @ts-expect-error: tags are an array
clean('a', { tags: 'p' });
// @ts-expect-error: an option of another type
markdownToHtml('a', { rel: 7 });
// @ts-expect-error: no such option
markdownToHtml('a', { sanitize: true });
// @ts-expect-error: no such value
markdownToHtml('a', { html: 'raw' });
// @ts-expect-error: null isn't undefined
markdownToHtml('a', { rel: null });
// @ts-expect-error: a promise is no string
const wrong: string = markdownToHtmlAsync('a');
