// The few small edits that make one text of another, where the two differ as `unwrap` makes them differ, a character here and there, or as `format` does,
// in blanks between the same characters.

// So many equal characters count as going on together, after a small step and after a larger one.
const SMALL_STEP = 6,
  SMALL_RUN = 6,
  RUN = 24;
// How far a place that goes on is looked for.
const MOST_STEP = 160;

/** The smallest step (of both texts together) after which the texts go on together, or null. */
function step(a, i, b, j) {
  for (let sum = 1; sum <= MOST_STEP; sum++) {
    const run = sum <= SMALL_STEP ? SMALL_RUN : RUN;
    for (let other = 0; other <= sum; other++) {
      const x = i + sum - other,
        y = j + other;
      if (x > a.length || y > b.length) continue;
      const left = a.length - x,
        right = b.length - y;
      if (left < run || right < run) {
        if (left === right && a.slice(x) === b.slice(y)) return [x, y];
      } else if (a.charCodeAt(x) === b.charCodeAt(y) && a.startsWith(b.slice(y, y + run), x)) {
        return [x, y];
      }
    }
  }
  return null;
}

/** The rest as one edit, without what the ends share. */
function rest(a, i, b, j) {
  let x = a.length,
    y = b.length;
  while (x > i && y > j && a.charCodeAt(x - 1) === b.charCodeAt(y - 1)) x--, y--;
  return { start: i, end: x, text: b.slice(j, y) };
}

/** Small edits in order, as indices into the first text. */
function stepsBetween(a, b) {
  const found = [];
  let i = 0,
    j = 0;
  while (i < a.length || j < b.length) {
    if (i < a.length && j < b.length && a.charCodeAt(i) === b.charCodeAt(j)) {
      i++, j++;
      continue;
    }
    const behind = step(a, i, b, j);
    if (!behind) {
      found.push(rest(a, i, b, j));
      break;
    }
    found.push({ start: i, end: behind[0], text: b.slice(j, behind[1]) });
    [i, j] = behind;
  }
  return found.map((it) => snapped(a, it));
}

/** Edits that make exactly the second text of the first: small ones, or else one of the whole text. That they do is tried. */
export function editsBetween(a, b) {
  const found = stepsBetween(a, b);
  return applied(a, found) === b ? found : [{ start: 0, end: a.length, text: b }];
}

// (what `\s` takes in a pattern)
const isBlank = (code) => code === 32 || (code > 8 && code < 14) || (code > 127 && /\s/.test(String.fromCharCode(code)));

/** A text without its blanks, and where each character of that is. */
function bare(text) {
  const at = new Uint32Array(text.length + 1);
  let count = 0;
  for (let index = 0; index < text.length; index++) if (!isBlank(text.charCodeAt(index))) at[count++] = index;
  at[count] = text.length;
  return { text: text.replace(/\s+/g, ''), at };
}

/** An edit without what both texts have at its two ends. */
function narrowed(text, { start, end, text: to }) {
  const from = text.slice(start, end),
    most = Math.min(from.length, to.length);
  let head = 0,
    tail = 0;
  while (head < most && from[head] === to[head]) head++;
  while (tail < most - head && from[from.length - 1 - tail] === to[to.length - 1 - tail]) tail++;
  return { start: start + head, end: end - tail, text: to.slice(head, to.length - tail) };
}

/** Edits that make exactly the second text of the first, where they differ in blanks and few characters: one for each stretch between characters that both
 * have; or else one of the whole text. */
export function layoutEditsBetween(a, b) {
  const one = bare(a),
    other = bare(b),
    found = [];
  let i = 0,
    j = 0,
    from = 0,
    to = 0;
  /** Goes on to the next character that both have: what stands before it, behind the last one, is made equal. */
  const until = (x, y) => {
    const end = one.at[x],
      stop = other.at[y];
    if ((end > from || stop > to) && a.slice(from, end) !== b.slice(to, stop))
      found.push(snapped(a, narrowed(a, { start: from, end, text: b.slice(to, stop) })));
    [i, j, from, to] = [x + 1, y + 1, end + 1, stop + 1];
  };
  for (const it of [...stepsBetween(one.text, other.text), { start: one.text.length, end: one.text.length, text: '' }]) {
    while (i < it.start) until(i, j);
    until(it.end, j + it.text.length);
  }
  return applied(a, found) === b ? found : [{ start: 0, end: a.length, text: b }];
}

/** An edit that ends within a CR LF or a surrogate pair takes the whole of it. */
function snapped(a, { start, end, text }) {
  const splits = (at) =>
    at > 0 &&
    at < a.length &&
    ((a[at - 1] === '\r' && a[at] === '\n') || /^[\ud800-\udbff][\udc00-\udfff]$/.test(a.slice(at - 1, at + 1)));
  if (splits(start)) [start, text] = [start - 1, a[start - 1] + text];
  if (splits(end)) [end, text] = [end + 1, text + a[end]];
  return { start, end, text };
}

/** What edits make of a text; null where two of them overlap. */
export function applied(text, edits) {
  const pieces = [];
  let at = 0;
  for (const it of edits) {
    if (it.start < at) return null;
    pieces.push(text.slice(at, it.start), it.text);
    at = it.end;
  }
  return pieces.join('') + text.slice(at);
}
