/** How to treat HTML in the document. */
export type DocumentHtml = 'text' | 'left-out' | 'without-comments' | 'kept' | 'kept-or-text';

/** The options of a call. The HTML is safe under all of them. */
export interface Options {
  /** The prefix of the ids of footnotes, by default `user-content-`; each document of a page needs a
   *  different one. */
  footnotePrefix?: string | undefined;
  /** Use numbers in the ids of footnotes; then no two ids of the HTML are equal. */
  numberIds?: boolean | undefined;
  /** The heading of the footnotes, by default `Footnotes`. */
  footnoteLabel?: string | undefined;
  /** The label of the link back, by default `Back to content`. */
  footnoteBackLabel?: string | undefined;
  /** Write `<br />` for a soft break. */
  hardBreaks?: boolean | undefined;
  /** Make links of bare URLs and addresses; by default true. */
  bareLinks?: boolean | undefined;
  /** How to treat HTML in the document: `text`, the default, prints it as text; `left-out` leaves it
   *  out; `without-comments` leaves out comments and prints the rest as text; `kept` keeps the tags
   *  that authors may write and leaves out the rest; `kept-or-text` prints the rest as text. */
  html?: DocumentHtml | undefined;
  /** Read `$a$`, and blocks between lines of `$$`, as math. */
  math?: boolean | undefined;
  /** Leave out text between lines of `---` at the beginning, which frontMatter() returns. */
  frontMatter?: boolean | undefined;
  /** Read footnotes; by default true. */
  footnotes?: boolean | undefined;
  /** Read tables; by default true. */
  tables?: boolean | undefined;
  /** The base URL of relative URLs in links and images. */
  base?: string | undefined;
  /** The `rel` of each link whose URL isn't empty and doesn't begin with `#`. */
  rel?: string | undefined;
  /** The prefix of the ids of headings; their numbers follow. */
  headingIds?: string | undefined;
  /** Make the id of each heading from its text, nearly as GitHub does, after headingIds. */
  headingSlugs?: boolean | undefined;
  /** The limit on the length of the document in bytes of UTF-8; Infinity, the default, is none. */
  maxInput?: number | undefined;
  /** The limit on the length of the HTML in bytes of UTF-8; Infinity, the default, is none. */
  maxOutput?: number | undefined;
  /** The limit on the work, by default 2^20, and 64 for each byte of the document. */
  maxWork?: number | undefined;
  /** The limit on the number of open nodes: a document that nests deeper is shown as it is written,
   *  as one paragraph; 0, the default, is none. */
  maxDepth?: number | undefined;
}

/** A heading that got an id. */
export interface Heading {
  /** Its level, from 1 to 6. */
  level: number;
  /** Its number, from 1. */
  number: number;
  /** Its text, without tags and escaped as in HTML. */
  text: string;
  /** Its id, not escaped. */
  id: string;
}

/** HTML, and its headings. */
export interface Page {
  html: string;
  headings: Heading[];
}

/** The codes of a BivdrazoError. */
export type ErrorCode =
  | 'ERR_BIVDRAZO_INPUT_TOO_LONG'
  | 'ERR_BIVDRAZO_OUTPUT_TOO_LONG'
  | 'ERR_BIVDRAZO_TOO_MUCH_WORK'
  | 'ERR_BIVDRAZO_NOT_UTF8'
  | 'ERR_BIVDRAZO_LONE_SURROGATE'
  | 'ERR_BIVDRAZO_MEMORY'
  | 'ERR_BIVDRAZO_FAILED';

/** Why there is no HTML. */
export class BivdrazoError extends Error {
  code: ErrorCode;
  /** The limit that was exceeded, with `.._TOO_LONG` and `.._TOO_MUCH_WORK`. */
  limit?: number;
  /** The index of the first lone surrogate in its string, or of the first byte that isn't UTF-8. */
  index?: number;
}

/**
 * Renders a Markdown document as safe HTML, with tables, strikethrough, tasks, footnotes and bare
 * links. The document is a string, or UTF-8 in a Uint8Array, of which Buffer is one.
 *
 * Throws a BivdrazoError; a TypeError for an argument of another type or an unknown option; or a
 * RangeError for an option that isn't one of its values. Both name the argument.
 */
export function markdownToHtml(text: string | Uint8Array, options?: Options): string;

/** The same, rendered by another thread; the promise is rejected with the same errors. */
export function markdownToHtmlAsync(text: string | Uint8Array, options?: Options): Promise<string>;

/** Renders a document as markdownToHtml() does, and returns also the headings, which all get ids. */
export function markdownWithHeadings(text: string | Uint8Array, options?: Options): Page;

/** The same, rendered by another thread. */
export function markdownWithHeadingsAsync(
  text: string | Uint8Array,
  options?: Options,
): Promise<Page>;

/** The names of the elements that clean() may keep. */
export const CLEAN_TAGS: readonly string[];

/** The protocols that clean() may leave in URLs. */
export const CLEAN_PROTOCOLS: readonly string[];

/** The options of clean(). The HTML is safe under all of them. */
export interface CleanOptions {
  /** The names of the elements that stay, some of CLEAN_TAGS; by default all of them. `table`
   *  brings the elements that a table needs, `ul` and `ol` bring `li`, and `pre` brings `code`. The
   *  text of an element that doesn't stay does. */
  tags?: readonly string[] | undefined;
  /** The protocols that URLs may have, some of CLEAN_PROTOCOLS; by default all of them. Images have
   *  http and https at most. A URL without a protocol stays. */
  protocols?: readonly string[] | undefined;
  /** The limit on the length of the input in bytes of UTF-8; Infinity, the default, is none. */
  maxInput?: number | undefined;
  /** The limit on the length of the HTML in bytes of UTF-8; Infinity, the default, is none. */
  maxOutput?: number | undefined;
}

/**
 * Makes safe HTML of any HTML: what is listed of its elements and attributes stays, the rest is
 * left out, and text stays, except for that of script, style and others. isSafeHtml() is true of it.
 *
 * Throws as markdownToHtml() does, and a RangeError for a name that isn't in CLEAN_TAGS or
 * CLEAN_PROTOCOLS.
 */
export function clean(html: string | Uint8Array, options?: CleanOptions): string;

/** The same, cleaned by another thread; the promise is rejected with the same errors. */
export function cleanAsync(html: string | Uint8Array, options?: CleanOptions): Promise<string>;

/** A table of contents, as safe HTML: a list of links to headings, nested by their levels. */
export function contents(headings: readonly Heading[]): string;

/** The text between lines of `---` at the beginning of a document; null if there is none. */
export function frontMatter(text: string | Uint8Array): string | null;

/**
 * Whether a text is safe HTML, whoever wrote it: so a text that comes back from a database can be
 * inserted into a page again. A string with a lone surrogate isn't; bytes needn't be UTF-8.
 *
 * It is safe exactly if it has a reading as HTML with the elements and attributes of a short list,
 * in which no link stands in a link, links and images have no protocol or a permitted one, and
 * elements nest at most 485 deep. Then it has no other reading.
 *
 * Throws a BivdrazoError only if memory runs out.
 */
export function isSafeHtml(text: string | Uint8Array): boolean;
