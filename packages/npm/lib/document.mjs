// A text that an editor has open: its lines as the protocol counts them, its changes, and places in three encodings.
//
// The protocol's lines end at LF, CR LF and CR; jslint's lines end at U+2028 and U+2029 too. So a place of jslint's becomes an index into the
// string first (core.mjs), and only then a place of the protocol's.
import { setMaxListeners } from 'node:events';
import { placeOf, stringOf } from './protocol.mjs';

const LINE_END = /\r\n|\n|\r/g;
// How much of a line a character takes.
const WIDTHS = {
  'utf-16': (code) => (code > 0xffff ? 2 : 1),
  'utf-32': () => 1,
  'utf-8': (code) => (code < 0x80 ? 1 : code < 0x800 ? 2 : code < 0x10000 ? 3 : 4),
};
export const ENCODINGS = Object.keys(WIDTHS);

/** The starts of the lines in a stretch of a text, without the stretch's own start. */
function startsIn(text, from, to) {
  const found = [];
  LINE_END.lastIndex = from;
  for (let it; (it = LINE_END.exec(text)) && it.index < to;) found.push(it.index + it[0].length);
  return found;
}

/** Where two texts differ: from where to where in the first, and how long it is in the second. */
function changedStretch(a, b) {
  let from = 0,
    to = a.length,
    end = b.length;
  while (from < to && from < end && a.charCodeAt(from) === b.charCodeAt(from)) from++;
  while (to > from && end > from && a.charCodeAt(to - 1) === b.charCodeAt(end - 1)) to--, end--;
  return [from, to, end - from];
}

/** What ends work on a text. (an editor may ask for much at once) */
function newWork() {
  const work = new AbortController();
  setMaxListeners(0, work.signal);
  return work;
}

export class Document {
  constructor({ uri, languageId, version, text }, encoding = 'utf-16') {
    Object.assign(this, { uri, languageId, version, encoding, revision: 0, marks: [], work: newWork() });
    this.replace(stringOf(text, 'a text'));
  }

  replace(text) {
    if (this.marks.length) this.moveMarks(...changedStretch(this.text, text));
    this.text = text;
    this.lines = [0, ...startsIn(text, 0, text.length)];
  }

  /** Stretches that are kept while the text changes: those that a change touches go, and those behind it move. */
  moveMarks(from, to, length) {
    const shift = length - (to - from),
      moved = (it) => (it.end <= from ? it : { ...it, start: it.start + shift, end: it.end + shift });
    this.marks = this.marks.filter((it) => it.end <= from || it.start >= to).map(moved);
  }

  /** Ends what is worked out of the text as it was. */
  drop() {
    this.work.abort();
    this.work = newWork();
  }

  /** The number of the line that an index is on. */
  lineAt(index) {
    let low = 0,
      high = this.lines.length - 1;
    while (low < high) {
      const middle = (low + high + 1) >> 1;
      if (this.lines[middle] <= index) low = middle;
      else high = middle - 1;
    }
    return low;
  }

  /** Where a line's text ends, its line end not counted. */
  endOf(line) {
    if (line + 1 >= this.lines.length) return this.text.length;
    const end = this.lines[line + 1] - 1;
    return this.text[end] === '\n' && end > this.lines[line] && this.text[end - 1] === '\r' ? end - 1 : end;
  }

  /** The index of a place. One beyond its line counts as the line's end, as the protocol asks. */
  indexAt(place) {
    const { line, character } = placeOf(place);
    if (line >= this.lines.length) return this.text.length;
    const start = this.lines[line],
      end = this.endOf(line);
    if (this.encoding === 'utf-16') return Math.min(start + character, end);
    const width = WIDTHS[this.encoding];
    let at = start;
    for (let left = character; left > 0 && at < end;) {
      const code = this.text.codePointAt(at);
      left -= width(code);
      if (left < 0) break;
      at += code > 0xffff ? 2 : 1;
    }
    return at;
  }

  positionAt(index) {
    const line = this.lineAt(index),
      start = this.lines[line];
    if (this.encoding === 'utf-16') return { line, character: index - start };
    const width = WIDTHS[this.encoding];
    let character = 0;
    for (let at = start; at < index;) {
      const code = this.text.codePointAt(at);
      character += width(code);
      at += code > 0xffff ? 2 : 1;
    }
    return { line, character };
  }

  rangeOf(start, end) {
    return { start: this.positionAt(start), end: this.positionAt(end) };
  }

  /** The indices of the two ends of a range, the lesser first. */
  indicesOf(range) {
    const [a, b] = [this.indexAt(range?.start), this.indexAt(range?.end)];
    return a <= b ? [a, b] : [b, a];
  }

  /** Takes changes one after the other; a change without a range is the whole text. One that makes no sense is thrown. */
  change(changes, version) {
    this.drop();
    for (const it of changes) {
      const put = stringOf(it?.text, 'a changed text');
      this.revision++;
      if (it.range) this.splice(...this.indicesOf(it.range), put);
      else this.replace(put);
    }
    this.version = version;
  }

  /** Replaces a stretch. Lines are looked for again from the line before the stretch to the first old line that begins behind it. */
  splice(from, to, put) {
    const first = Math.max(0, this.lineAt(from) - 1),
      last = this.lineAt(to) + 1,
      shift = put.length - (to - from);
    if (this.marks.length) this.moveMarks(from, to, put.length);
    this.text = this.text.slice(0, from) + put + this.text.slice(to);
    const until = last < this.lines.length ? this.lines[last] + shift : this.text.length + 1;
    const between = startsIn(this.text, this.lines[first], until - 1),
      rest = this.lines.slice(last);
    if (shift) for (let at = 0; at < rest.length; at++) rest[at] += shift;
    this.lines = this.lines.slice(0, first + 1).concat(between.filter((it) => it < until), rest);
  }
}
