// What a refused text may contain that a language lacks, by a table of patterns (hints.json): a guess by the text around the place, which promises nothing.
// Here is nothing of Node's, so that pages have it too.

const MOST_BEFORE = 4000,
  MOST_AT = 400;

/** `syntaxHint` and `earlyHint` by a table. */
export function hintsOf(table) {
  const rows = table.rows.map((it) => ({ ...it, before: new RegExp(it.before, 'u'), at: new RegExp(`^(?:${it.at})`, 'u') }));
  const early = table.early.map((it) => ({ ...it, at: new RegExp(`^(?:${it.at})`, 'u') }));
  return {
    /** The hint for a syntax error at an index of a text of a language, or null. */
    syntaxHint(text, index, language) {
      const before = text.slice(Math.max(0, index - MOST_BEFORE), index),
        at = text.slice(index, index + MOST_AT);
      return rows.find((it) => !it.readBy?.includes(language) && it.at.test(at) && it.before.test(before)) ?? null;
    },
    /** The hint for an early error, or null. */
    earlyHint(number, text, index, language) {
      const at = text.slice(index, index + MOST_AT).split('\n')[0];
      return early.find((it) => it.number === number && !it.readBy?.includes(language) && it.at.test(at)) ?? null;
    },
  };
}
