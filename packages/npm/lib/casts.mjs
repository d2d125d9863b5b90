// Casts: the pair of `/** @type {T} */ (a)`, or with `@satisfies`, by which TypeScript's checker takes `a` for a `T`. A pair is one where such a comment
// stands right before its `(`, or before other comments there. The tree has no parentheses, so `check` reports the pair and `unwrap` takes it out; here it
// is kept.

const WORD = /@(?:type|satisfies)\b/;
const BLANKS = /\s/,
  LINE_END = /[\n\r\u2028\u2029]/;
// A line that has a comment of its own at its end, alone or behind another comment.
const LINE_COMMENT = /^(?:.*\*\/)?\s*(?=\/\/)/;

// (of a longer line a comment at its end isn't looked for: many pairs may stand on one)
const LONG_LINE = 400;

/** Whether a text may have casts at all. */
export const mayHaveCasts = (text) => WORD.test(text);

const isCastComment = (comment) => comment.length > '/**/'.length && comment.startsWith('/**') && WORD.test(comment);

/** The comment that ends at an index with a star and a slash: where it begins. A `/*` in it is looked for last. */
function startOf(text, end) {
  const before = text.lastIndexOf('*/', end - 3),
    from = before < 0 ? 0 : before + 2,
    between = text.slice(from, end);
  const first = between.indexOf('/**'),
    last = between.lastIndexOf('/*', between.length - 4);
  if (last < 0) return -1;
  return from + (first >= 0 && isCastComment(between.slice(first)) ? first : last);
}

/** Whether the pair whose `(` is at an index, and which groups, is a cast. */
export function isCast(text, open) {
  for (let end = open;;) {
    while (end > 0 && BLANKS.test(text[end - 1])) end--;
    let line = end;
    while (line > 0 && end - line < LONG_LINE && !LINE_END.test(text[line - 1])) line--;
    const found = LINE_COMMENT.exec(text.slice(line, end)),
      start = found || !text.endsWith('*/', end) ? -1 : startOf(text, end);
    if (!found && start < 0) return false;
    if (!found && isCastComment(text.slice(start, end))) return true;
    end = found ? line + found[0].length : start;
  }
}

// What may stand between a comment and the code behind it.
const BETWEEN = /(?:\s|\/\*[^]*?\*\/|\/\/[^\n\r\u2028\u2029]*)*/y,
  OPENING = /(?:\(\s*)*/y;

/** How many parentheses open behind each comment of a cast. */
function openings(text) {
  const found = [];
  let code = 0,
    count = 0;
  for (let start = text.indexOf('/**'), end; start >= 0; start = text.indexOf('/**', end)) {
    end = text.indexOf('*/', start + 3) + 2;
    if (end < 2) break;
    if (!isCastComment(text.slice(start, end))) continue;
    // (of comments that stand together the code is the same)
    if (end > code) {
      BETWEEN.lastIndex = end;
      OPENING.lastIndex = code = end + BETWEEN.exec(text)[0].length;
      count = OPENING.exec(text)[0].replace(/[^(]/g, '').length;
    }
    found.push(count);
  }
  return found;
}

/** Whether a text with the same comments lacks the pair of a cast: `unwrap` may take one that isn't reported, where one elsewhere does as well. */
export function losesCast(text, other) {
  const before = openings(text),
    after = openings(other);
  return before.length !== after.length || before.some((count, at) => after[at] < count);
}

/** Whether a report of `check` is of a cast's pair. */
export const isOfCast = (text, { rule, start }) => rule === 'no-extra-parens' && isCast(text, start);
