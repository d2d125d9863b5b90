// Small changes of a text, each judged by proved calls before it is offered. What is proved (README, "What is proved"):
//
// - Two accepted texts with the same fixed text have the same tree: the fixed text of an accepted text has its tree, and derives nothing else.
// - The unwrapped text has each token but grouping parentheses, in order, with the comments before it. So two texts whose unwrapped texts differ in
//   blanks alone have the same comments, blanks aside.
//
// What a changed text does when it runs is nowhere proved.
import { isOfCast, losesCast, mayHaveCasts } from './casts.mjs';
import { applied, editsBetween } from './edits.mjs';

const WORD = /[$_\p{ID_Continue}\u200d\u200c\\#]/u;
const OPERATOR = /[+\-/*<>=&|?!.%^]/;

/** Whether two characters that come together could be read as one token, or begin a comment. */
function runTogether(left, right) {
  if (!left || !right) return false;
  return (WORD.test(left) && (WORD.test(right) || right === '.')) || (OPERATOR.test(left) && OPERATOR.test(right));
}

/** The edits that take out a pair, with the blanks inside beside it. */
function pairEdits(text, { start, end }) {
  const inner = text.slice(start + 1, end - 1),
    lead = /^[ \t]*/.exec(inner)[0].length,
    trail = lead < inner.length ? /[ \t]*$/.exec(inner)[0].length : 0;
  const first = start + 1 + lead,
    last = end - 1 - trail;
  return [
    { start, end: first, text: runTogether(text[start - 1], text[first]) ? ' ' : '' },
    { start: last, end, text: runTogether(text[last - 1], text[end]) ? ' ' : '' },
  ];
}

/** The places of the names that a pattern binds. */
function boundIn(pattern) {
  switch (pattern?.type) {
    case undefined:
      return [];
    case 'Identifier':
      return [pattern.start];
    case 'ArrayPattern':
      return pattern.elements.flatMap(boundIn);
    case 'ObjectPattern':
      return pattern.properties.flatMap((it) => boundIn(it.type === 'RestElement' ? it : it.value));
    case 'AssignmentPattern':
      return boundIn(pattern.left);
    default:
      return boundIn(pattern.argument);
  }
}

/** All `let` declarations of a tree: where each begins, whether it is at the top, and the places of the names that it binds. */
function letDeclarations(tree) {
  const found = [],
    left = [tree],
    top = new Set(tree.body);
  while (left.length) {
    const node = left.pop();
    if (node.type === 'VariableDeclaration' && node.kind === 'let') {
      found.push({ start: node.start, isTop: top.has(node), names: node.declarations.flatMap((it) => boundIn(it.id)) });
    }
    for (const it of Object.values(node)) if (it !== null && typeof it === 'object') left.push(it);
  }
  return found;
}

function differsInOneWord(a, b, word, other) {
  if (b.length !== a.length + other.length - word.length) return false;
  let at = 0;
  while (at < a.length && a.charCodeAt(at) === b.charCodeAt(at)) at++;
  // (`let` and `const` have no first letter in common)
  return a.startsWith(word, at) && b.startsWith(other, at) && a.slice(at + word.length) === b.slice(at + other.length);
}

const withoutBlanks = (text) => text.replace(/\s+/g, '');

/** Whether a stretch has characters that may begin a comment, or begins with a line of `#!`, which `fix` drops too. */
export const mayHaveComments = (text) => /^#!|\/[/*]/.test(text);

/** Judges changes of one accepted text. What is worked out of the text itself is kept for the following change. */
export class Judge {
  /** `commands` are those of core.mjs; `answered` makes null of a refusal. */
  constructor(commands, answered, text) {
    Object.assign(this, { commands, answered, text, known: new Map() });
  }

  once(name, call) {
    if (!this.known.has(name)) this.known.set(name, call());
    return this.known.get(name);
  }

  /** What a command answers for a text, or null where it is refused. */
  answer(command, text) {
    return this.answered(() => this.commands[command](text));
  }

  /** The same for the text itself. */
  own(command) {
    return this.once(command, () => this.answer(command, this.text));
  }

  hasSameTree(candidate) {
    const fixed = this.own('fix');
    return fixed !== null && this.answer('fix', candidate) === fixed;
  }

  hasSameComments(candidate) {
    const unwrapped = this.own('unwrap'),
      other = unwrapped === null ? null : this.answer('unwrap', candidate);
    return other !== null && withoutBlanks(other) === withoutBlanks(unwrapped);
  }

  /** The reports of a rule, under no settings. */
  reportsOf(rule) {
    return (this.own('spans') ?? []).filter((it) => it.rule === rule);
  }

  /** Whether `unwrap` would take a cast's pair. */
  hasCasts() {
    return mayHaveCasts(this.text) &&
      (this.reportsOf('no-extra-parens').some((it) => isOfCast(this.text, it)) || losesCast(this.text, this.own('unwrap') ?? ''));
  }

  /** The edits that take out the reported pair whose `(` is at an index, or null: the tree stays, and each comment. */
  withoutPair(start) {
    const pairs = this.once('pairs', () => new Map(this.reportsOf('no-extra-parens').map((it) => [it.start, it]))),
      pair = pairs.get(start);
    if (!pair) return null;
    const edits = pairEdits(this.text, pair),
      candidate = applied(this.text, edits);
    if (candidate === null || !this.hasSameTree(candidate)) return null;
    return !mayHaveComments(this.text.slice(start, pair.end)) || this.hasSameComments(candidate) ? edits : null;
  }

  /** The edits of the unwrapped text that lie in a stretch, if they alone keep the tree and each comment; else none. */
  unwrappedWithin(start, end) {
    const unwrapped = this.own('unwrap');
    const edits = unwrapped === null ? [] : editsBetween(this.text, unwrapped).filter((it) => it.start >= start && it.end <= end);
    if (edits.length === 0) return [];
    const candidate = applied(this.text, edits);
    return this.hasSameTree(candidate) && (!mayHaveComments(this.text) || this.hasSameComments(candidate)) ? edits : [];
  }

  /**
   * The edit that makes a `let` declaration with a name at an index one with `const`, and whether it is at the top; or null. It is offered where
   * - `check --spans` reports each of its names: no reference writes it, and it has a value from the start, and
   * - the two fixed texts differ in this one word: so the trees differ in the kind of this declaration alone.
   * Not shown: what `eval` writes, so a text with this word gets no offer; and for a name at the top, what other scripts write.
   */
  letToConst(name) {
    const { text } = this;
    if (/\beval\b/.test(text)) return null;
    const lets = this.once('lets', () => letDeclarations(this.own('tree') ?? { body: [] }));
    const reported = this.once('reported', () => new Set(this.reportsOf('prefer-const').map((it) => it.start)));
    const it = lets.find((each) => each.names.includes(name));
    if (!it || !text.startsWith('let', it.start) || !it.names.every((each) => reported.has(each))) return null;
    const edits = [{ start: it.start, end: it.start + 'let'.length, text: 'const' }];
    const before = this.own('fix'),
      after = this.answer('fix', applied(text, edits));
    return before !== null && after !== null && differsInOneWord(before, after, 'let', 'const') ? { edits, isTop: it.isTop } : null;
  }
}
