// The words of the documents that the language server shows: of each rule all before "What differs from ESLint", of early errors and refusals the
// tables of docs/USAGE.md, and the version of the package. prepack.mjs writes them to lib/texts.json.
import { readFileSync, readdirSync } from 'node:fs';

/** A page without its links, which lead to pages that an editor doesn't have. */
const withoutLinks = (text) => text.replace(/\[([^\]]*)\]\((?!http)[^)]*\)/g, '$1');

/** The first and the last cell of the rows of a table of three columns whose first cell is of a form. */
function rowsOf(page, first) {
  return Array.from(page.matchAll(new RegExp(`^\\| ${first} \\| (.*?) \\| (.*?) \\|$`, 'gm')), ([, key, second, third]) => [
    key,
    withoutLinks(second),
    withoutLinks(third),
  ]);
}

/** What was found, if it is all that is there. */
function whole(found, names, what) {
  const lacking = names.filter((it) => !found[it]);
  if (names.length === 0 || lacking.length > 0) throw new Error(`the documents have no ${what} ${lacking.join(', ')}`);
  return found;
}

/** The pages of the rules, without links, by the names under which they stand beside the server: reports lead to them. */
export function pagesOf(top) {
  const folder = new URL('docs/rules/', top),
    names = readdirSync(folder).filter((it) => it !== 'README.md');
  return Object.fromEntries(names.map((it) => [it, withoutLinks(readFileSync(new URL(it, folder), 'utf8'))]));
}

/** The words, by the repository's folder. */
export function textsOf(top) {
  const read = (name) => readFileSync(new URL(name, top), 'utf8');
  const pages = readdirSync(new URL('docs/rules/', top))
      .filter((it) => it !== 'README.md')
      .sort(),
    usage = read('docs/USAGE.md');
  const ruleOf = (name) =>
    withoutLinks(
      read(`docs/rules/${name}`)
        .replace(/^# .*\n+/, '')
        .split('\n## What differs from ESLint')[0]
        .trim()
    );
  const rules = Object.fromEntries(pages.map((it) => [it.replace(/\.md$/, ''), ruleOf(it)]));
  const early = Object.fromEntries(rowsOf(usage, '(\\d+)').map(([number, what]) => [number, what]));
  const refusals = Object.fromEntries(rowsOf(usage, '`jslint: ([^`]*)`').map(([line, , advice]) => [line, advice]));
  return {
    version: JSON.parse(read('packages/npm/package.json')).version,
    rules: whole(rules, Array.from(read('docs/rules/README.md').matchAll(/^\| \[([\w-]+)\]/gm), (it) => it[1]), 'rule'),
    early: whole(early, Object.keys(early).map((_, at) => String(at + 1)), 'early error'),
    refusals: whole(
      refusals,
      ['syntax error at L:C', 'nested too deep', 'not UTF-8 at byte N', 'longer than 16777216 bytes', "can't be unwrapped", 'out of memory'],
      'refusal'
    ),
  };
}
