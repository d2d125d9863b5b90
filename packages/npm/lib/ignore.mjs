// What ignore files say, as gitignore(5) has it: the last pattern that matches decides, and nothing below an ignored folder comes back.
//
// git compares bytes, so `?` is one of them: texts and names have a character for each byte here (`inBytes`). A repository may be a stranger's, so nothing
// here takes longer than the pattern's length times the path's.

// A run of stars in a segment, and a segment of two or more alone.
const STAR = Symbol('*'),
  ANY = Symbol('**');
const CLASSES = {
  alpha: 'A-Za-z',
  digit: '0-9',
  alnum: 'A-Za-z0-9',
  upper: 'A-Z',
  lower: 'a-z',
  space: ' \\t\\n\\r',
  punct: '!-\\/:-@\\[-`{-~',
  xdigit: '0-9A-Fa-f',
  blank: ' \\t',
  cntrl: '\\x00-\\x1f\\x7f',
  print: '\\x20-\\x7e',
  graph: '\\x21-\\x7e',
};
const PIECE = /(\*+)|(\?)|\\([\s\S])|\[([!^]?)(\]?(?:\[:\w+:\]|\\[\s\S]|[^\]\\])*)\]|([^\\[])/gsy;
// What a file may begin with, which is no part of its first pattern.
const MARK = '\xef\xbb\xbf';

/** A name, or the bytes of an ignore file, as a text that has a character for each byte. */
export const inBytes = (text) => Buffer.from(text).toString('latin1');

/** A line without the blanks at its end, but for one behind a backslash. */
function withoutEnd(line) {
  const text = line.replace(/\r$/, ''),
    kept = /^(?:\\[\s\S]|[^\\ ]| +(?=[^ ]))*/.exec(text)[0];
  return /^ *$/.test(text.slice(kept.length)) ? kept : text;
}

/** A line's pattern; null for a blank line, a comment, and what matches nothing. */
export function patternOf(line) {
  let text = withoutEnd(line);
  if (text === '' || text.startsWith('#')) return null;
  const isBack = text.startsWith('!');
  if (isBack) text = text.slice(1);
  const isFolder = text.endsWith('/');
  if (isFolder) text = text.slice(0, -1);
  const isAnchored = text.includes('/');
  if (text.startsWith('/')) text = text.slice(1);
  const segments = text === '' ? null : segmentsOf(text);
  if (segments === null) return null;
  return { isBack, isFolder, segments: isAnchored ? segments : [ANY, segments[0] === ANY ? [STAR] : segments[0]] };
}

/** The segments between slashes; null where a bracket, in which a slash is none, or a backslash never ends. */
function segmentsOf(text) {
  const found = [[]];
  PIECE.lastIndex = 0;
  while (PIECE.lastIndex < text.length) {
    const it = PIECE.exec(text);
    if (!it) return null;
    // (one with a backslash before it is a slash, too)
    if ((it[3] ?? it[6]) === '/') found.push([]);
    else found.at(-1).push(tokenOf(it));
  }
  return found.map((tokens) => (tokens.length === 1 && tokens[0] === ANY ? ANY : tokens.map((it) => (it === ANY ? STAR : it))));
}

/** A piece as stars, or as a test of one character. */
function tokenOf([, stars, one, quoted, not, set, plain]) {
  if (stars) return stars === '*' ? STAR : ANY;
  if (one) return () => true;
  return set !== undefined ? testOf(not, set) : (char) => char === (quoted ?? plain);
}

function testOf(not, set) {
  const source = set.replace(/\[:(\w+):\]|\\([\s\S])|([\]\\^[])/g, (_, name, escaped, char) =>
    (name !== undefined ? CLASSES[name] ?? '' : `\\${escaped ?? char}`)
  );
  try {
    const expression = new RegExp(`^[${not ? '^' : ''}${source}]$`, 's');
    return (char) => expression.test(char);
  } catch {
    return () => false;
  }
}

/** Whether a segment is a name: after a fault it goes on behind the last star alone. */
function fits(tokens, name) {
  let at = 0,
    token = 0,
    star = -1,
    from = 0;
  while (at < name.length) {
    if (tokens[token] === STAR) [star, from] = [token++, at];
    else if (token < tokens.length && tokens[token](name[at])) at++, token++;
    else if (star >= 0) [token, at] = [star + 1, ++from];
    else return false;
  }
  while (tokens[token] === STAR) token++;
  return token === tokens.length;
}

/** Whether segments are a path; at the end of a pattern `**` is one name or more, elsewhere none or more. */
function matches(segments, names) {
  // (reached[n]: the segments so far are the first n names)
  let reached = names.map(() => false);
  reached = [true, ...reached];
  segments.forEach((segment, number) => {
    const further = reached.map(() => false),
      isLast = number === segments.length - 1;
    for (let count = 0; count <= names.length; count++) {
      if (segment === ANY) further[count] = (!isLast && reached[count]) || (count > 0 && (further[count - 1] || reached[count - 1]));
      else if (count > 0) further[count] = reached[count - 1] && fits(segment, names[count - 1]);
    }
    reached = further;
  });
  return reached[names.length];
}

/** The patterns of a text `inBytes`, the last first. */
export const patternsOf = (text) =>
  text
    .slice(text.startsWith(MARK) ? MARK.length : 0)
    .split('\n')
    .map(patternOf)
    .filter(Boolean)
    .reverse();

/**
 * Whether a path is ignored. `filesOf(folder)` gives the patterns of that folder's ignore files, a folder being a path relative to the root,
 * '' for the root itself.
 */
export function isIgnored(path, isFolder, filesOf) {
  const parts = inBytes(path).split('/');
  for (let count = 1; count <= parts.length; count++) if (verdict(parts.slice(0, count), count < parts.length || isFolder, filesOf)) return true;
  return false;
}

/** What the files say of one path by its parts `inBytes`, whose folders aren't ignored: the nearest file that says anything. */
export function verdict(parts, isFolder, filesOf) {
  for (let depth = parts.length - 1; depth >= 0; depth--) {
    const names = parts.slice(depth);
    for (const it of filesOf(parts.slice(0, depth).join('/'))) if ((!it.isFolder || isFolder) && matches(it.segments, names)) return !it.isBack;
  }
  return false;
}
