// Comments that turn a report off, as jslint-files reads them: `// jslint-disable-next-line RULE, RULE` and `// jslint-disable-line RULE`.
//
// The program knows no such comments: here reports are left out. Whether such words are a comment, and not a part of a string or a template, is asked of
// the proved calls: `fix` drops comments, so other words in their place leave the fixed text as it is exactly if they stand in one. `no-extra-parens`
// isn't turned off, since `unwrap` and `fix` would take the pair all the same.
import { texts } from './texts.mjs';

const WORDS = /\/\/[^\S\n\r\u2028\u2029]*jslint-disable-(next-line|line)(?![\w-])([^\n\r\u2028\u2029]*)/g;
const LINE_END = /\r\n|[\n\r\u2028\u2029]/g;
export const KEPT = 'no-extra-parens';
// How many comments are tried one by one, where not all are some.
const MOST_TRIED = 100;

/** Where the lines of a text begin. */
export const lineStarts = (text) => [0, ...Array.from(text.matchAll(LINE_END), (it) => it.index + it[0].length)];

/** The number of the line that an index is on, from 0. */
export function lineAt(starts, index) {
  let low = 0,
    high = starts.length - 1;
  while (low < high) {
    const middle = (low + high + 1) >> 1;
    if (starts[middle] <= index) low = middle;
    else high = middle - 1;
  }
  return low;
}

/** A comment: its place, the line that it is about, and the rules that it names, or null for all. */
class Directive {
  constructor(match, starts) {
    const names = match[2]
        .split('--')[0]
        .split(/[\s,]+/)
        .filter(Boolean),
      isNext = match[1] === 'next-line';
    Object.assign(this, { start: match.index, end: match.index + match[0].length, names: names.length ? new Set(names) : null, isUsed: false });
    this.about = lineAt(starts, match.index) + (isNext ? 1 : 0);
  }

  turnsOff({ rule }) {
    return rule !== KEPT && (this.names === null || this.names.has(rule));
  }

  /** What is to be said of the comment itself. */
  faults() {
    const unknown = [...this.names ?? []].filter((it) => !Object.hasOwn(texts.rules, it)).sort(),
      said = unknown.map((it) => `'${it}' is no rule`);
    if (this.names?.has(KEPT)) said.push(`${KEPT} is not turned off: fix and unwrap take the pair all the same`);
    else if (!this.isUsed && unknown.length === 0) said.push('this comment turns no report off');
    return said.map((message) => ({ start: this.start, end: this.end, rule: 'suppression', message }));
  }
}

/** The comments of a text that turn reports off. `fixed` gives the fixed text of one, or null where that is refused. */
function directivesOf(text, starts, fixed) {
  const matches = [...text.matchAll(WORDS)],
    before = matches.length ? fixed(text) : null;
  if (before === null) return [];
  const areComments = (some) => {
    const pieces = [];
    let at = 0;
    for (const it of some) {
      pieces.push(text.slice(at, it.index), `//${'-'.repeat(it[0].length - 2)}`);
      at = it.index + it[0].length;
    }
    return fixed(pieces.join('') + text.slice(at)) === before;
  };
  const found = areComments(matches) ? matches : matches.slice(0, MOST_TRIED).filter((it) => areComments([it]));
  return found.map((it) => new Directive(it, starts));
}

/** The reports that no comment turns off, and one for each comment that does nothing or names no rule, in the order of their places. */
export function withoutSuppressed(text, reports, fixed) {
  if (!text.includes('jslint-disable-')) return reports;
  const starts = lineStarts(text),
    directives = directivesOf(text, starts, fixed);
  if (directives.length === 0) return reports;
  const about = new Map();
  for (const it of directives) about.set(it.about, [...about.get(it.about) ?? [], it]);
  const left = reports.filter((it) => {
    const these = (about.get(lineAt(starts, it.start)) ?? []).filter((each) => each.turnsOff(it));
    for (const each of these) each.isUsed = true;
    return these.length === 0;
  });
  return [...left, ...directives.flatMap((it) => it.faults())].sort((a, b) => a.start - b.start);
}

/** The edits that may turn a rule off for the line of an index, the likelier first: whether one does is tried before it is offered. */
export function suppressingEdits(text, index, rule) {
  const starts = lineStarts(text),
    line = lineAt(starts, index),
    start = starts[line],
    lineEnd = /^[^\r\n]*\r\n/.test(text) ? '\r\n' : '\n';
  const above = line === 0 ? '' : text.slice(starts[line - 1], start),
    end = start + /^[^\n\r\u2028\u2029]*/.exec(text.slice(start))[0].length;
  const named = /^([ \t]*\/\/[ \t]*jslint-disable-next-line[ \t]+[\w-]+(?:[ \t]*,[ \t]*[\w-]+)*)/.exec(above);
  const here = /\/\/[ \t]*jslint-disable-line[ \t]+[\w-]+(?:[ \t]*,[ \t]*[\w-]+)*/.exec(text.slice(start, end));
  const put = (at, words) => ({ start: at, end: at, text: words });
  return [
    ...(named ? [put(starts[line - 1] + named[0].length, `, ${rule}`)] : []),
    ...(here ? [put(start + here.index + here[0].length, `, ${rule}`)] : []),
    put(start, `${/^[ \t]*/.exec(text.slice(start, index))[0]}// jslint-disable-next-line ${rule}${lineEnd}`),
    put(end, ` // jslint-disable-line ${rule}`),
  ];
}
