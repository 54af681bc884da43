// The calls for ES modules.
import bivdrazo from './index.js';

export const {
  BivdrazoError,
  CLEAN_PROTOCOLS,
  CLEAN_TAGS,
  clean,
  cleanAsync,
  contents,
  frontMatter,
  isSafeHtml,
  markdownToHtml,
  markdownToHtmlAsync,
  markdownWithHeadings,
  markdownWithHeadingsAsync,
} = bivdrazo;
export default bivdrazo;
