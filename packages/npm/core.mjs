// The commands over a compiled module of jslint: what Node, browsers and pages share.
//
// Nothing here is proved. What it has to keep: the four stretches of memory that a call is handed lie apart, are as long as it says, and stay
// until the call is back; an instance in which a call did not come back is not called again.

const COMMANDS = { check: 0, tree: 1, fix: 2, cost: 3, verify: 4, unwrap: 5, spans: 6, same: 7, format: 8, mend: 9 };
// What asks for a language; nothing asks for none.
const LANGUAGES = { 2020: 1, 2022: 2, module: 3 };
// Bytes of room for each byte of text at the first try. Where the answer is longer, the command runs again with all the room that it takes.
const ROOM = { check: 2, tree: 48, fix: 3, cost: 24, verify: 0, unwrap: 1, spans: 2, same: 0, format: 2, mend: 1 };
const LEAST_ROOM = 16384;
// Of an outcome: its length in 8 bytes, its status and whether it is a refusal in 4 each.
const OUTCOME = 16;
// An instance that has taken more memory than this is let go after the call: a memory doesn't shrink.
const MOST_KEPT = 256 * 1024 * 1024;
// A line of what `check` answers. Behind the text of a warning stands a mark, which no text of a rule here ends in.
const REPORT = /^(\d+):(\d+) (\S+) (.*?)( \(warning\))?$/s;
// What the calls may be asked beside a text.
const PLACES = ['indices', 'bytes'];
const OUT_OF_STACK = { text: 'jslint: out of stack\n', status: 2, isRefusal: true };
const OUT_OF_MEMORY = { text: 'jslint: out of memory\n', status: 2, isRefusal: true };
// The words of each refusal, its code, and what its numbers are.
const REFUSALS = [
  [/^syntax error at (\d+):(\d+)$/, 'syntax', ['line', 'column']],
  [/^early error E(\d+) at (\d+):(\d+)$/, 'early', ['number', 'line', 'column']],
  [/^nested too deep$/, 'deep', []],
  [/^not UTF-8 at byte (\d+)$/, 'utf8', ['byte']],
  [/^longer than (\d+) bytes$/, 'long', ['most']],
  [/^bad settings at (\d+):(\d+)$/, 'settings', ['line', 'column']],
  [/^bad settings$/, 'settings', []],
  [/^bad table row (\d+) (\w+)$/, 'table', ['row', 'reason']],
  [/^can't be unwrapped$/, 'unwrap', []],
  [/^can't be formatted$/, 'format', []],
  [/^out of memory$/, 'memory', []],
  [/^out of stack$/, 'stack', []],
];

// What stands before them where the other text of `same` is refused, and behind them where a later language takes the text.
const SECOND = 'second file: ',
  HINT = / \(perhaps: --(?:edition )?(2022|module)\)$/;

/** A text that was refused, or one for which the engine had too little stack or memory. */
export class Refused extends Error {
  constructor(command, words, status) {
    const hint = HINT.exec(words),
      plain = hint ? words.slice(0, hint.index) : words;
    super(plain);
    this.name = 'Refused';
    this.command = command;
    this.status = status;
    if (hint) this.hint = hint[1];
    this.inSecond = plain.startsWith(SECOND);
    for (const [form, code, names] of REFUSALS) {
      const found = form.exec(this.inSecond ? plain.slice(SECOND.length) : plain);
      if (found === null) continue;
      this.code = code;
      names.forEach((name, at) => {
        this[name] = /^\d+$/.test(found[at + 1]) ? Number(found[at + 1]) : found[at + 1];
      });
    }
  }
}

/** One instance of the module, with the stretches of memory that it has handed out. */
class Running {
  constructor(module) {
    this.exports = new WebAssembly.Instance(module).exports;
    this.taken = [];
  }

  /** Room for so many bytes, or null. */
  take(length) {
    const at = this.exports.jslint_take(BigInt(length)) >>> 0;
    if (at === 0) return null;
    this.taken.push(at);
    return at;
  }

  /** Gives the last of it back. */
  giveBack() {
    this.exports.jslint_give(this.taken.pop());
  }

  /** (a memory that has grown has another buffer) */
  bytes(at, length) {
    return new Uint8Array(this.exports.memory.buffer, at, length);
  }

  /** Room that holds these bytes, or null. */
  put(bytes) {
    const at = this.take(bytes.length);
    if (at !== null) this.bytes(at, bytes.length).set(bytes);
    return at;
  }

  outcome(at) {
    const view = new DataView(this.exports.memory.buffer, at, OUTCOME);
    return { length: Number(view.getBigUint64(0, true)), status: view.getUint32(8, true), isRefusal: view.getUint32(12, true) === 1 };
  }

  /** The answer's bytes with its outcome; null where the engine has no memory for them. */
  answer(command, text, second, language, room) {
    const from = this.put(text),
      other = this.put(second),
      told = this.take(OUTCOME),
      to = this.take(room);
    if ([from, other, told, to].includes(null)) return null;
    this.exports.jslint_answer_in(language, COMMANDS[command], from, BigInt(text.length), other, BigInt(second.length), to, BigInt(room), told);
    const outcome = this.outcome(told);
    const bytes = outcome.length <= room ? this.bytes(to, outcome.length).slice() : null;
    while (this.taken.length) this.giveBack();
    return bytes ? { bytes, ...outcome } : this.answer(command, text, second, language, outcome.length);
  }
}

const decode = (bytes) => new TextDecoder('utf-8', { fatal: true, ignoreBOM: true }).decode(bytes);

/** The bytes of a text. A text with half a pair of surrogates has none. */
function bytesOf(text) {
  if (text instanceof Uint8Array) return text;
  if (typeof text !== 'string') throw new TypeError('a text is a string or a Uint8Array');
  if (/\p{Surrogate}/u.test(text)) throw new TypeError('this text has half a pair of surrogates, and so no UTF-8');
  return new TextEncoder().encode(text);
}

/** An answer, which is UTF-8: only memory can be lacking, or a string be longer than the engine has any. */
function stringOfAnswer(bytes) {
  try {
    return decode(bytes);
  } catch {
    throw new RangeError('out of memory');
  }
}

const stringOf = (text) => (typeof text === 'string' ? text : decode(text));

/** Where the lines of a text begin, as indices into the string. A line ends as ECMAScript says, at U+2028 and U+2029 too. */
function lineStarts(text) {
  return [0, ...Array.from(text.matchAll(/\r\n|[\n\r\u2028\u2029]/g), (it) => it.index + it[0].length)];
}

/** Finds places, which come in order, as indices into the string: lines and columns count from 1, columns in characters. */
export function placesIn(text) {
  const starts = lineStarts(text);
  let [line, column, at] = [1, 1, 0];
  return (toLine, toColumn) => {
    if (toLine !== line) [line, column, at] = [toLine, 1, starts[toLine - 1]];
    for (; column < toColumn; column++) at += text.codePointAt(at) > 0xffff ? 2 : 1;
    return at;
  };
}

/** The index into the string of a line and a column. A place that isn't there is a RangeError. */
export function indexOf(text, line, column) {
  if (typeof text !== 'string') throw new TypeError('places are looked for in a string');
  const starts = lineStarts(text),
    end = line < starts.length ? starts[line] : text.length;
  let at = [line, column].every((it) => Number.isInteger(it) && it > 0) && line <= starts.length ? starts[line - 1] : NaN,
    left = column - 1;
  for (; left > 0 && at < end; left--) at += text.codePointAt(at) > 0xffff ? 2 : 1;
  if (left !== 0 || !(at <= end)) throw new RangeError(`this text has no place ${line}:${column}`);
  return at;
}

/** For each byte of a text's UTF-8, and for the place after the last, the index into the string. */
function indices(text, length) {
  const found = new Uint32Array(length + 1);
  for (let at = 0, byte = 0; at < text.length;) {
    const code = text.codePointAt(at),
      end = byte + (code < 0x80 ? 1 : code < 0x800 ? 2 : code < 0x10000 ? 3 : 4);
    // (`fill` is slow for so few)
    while (byte < end) found[byte++] = at;
    at += code > 0xffff ? 2 : 1;
  }
  found[length] = text.length;
  return found;
}

/** Puts the places of all nodes below, which are bytes, where they are in the string. */
function placeNodes(program, text) {
  const at = indices(text, program.end),
    left = [program];
  while (left.length) {
    const node = left.pop();
    if (typeof node.start === 'number') [node.start, node.end] = [at[node.start], at[node.end]];
    for (const it of Object.values(node)) if (it !== null && typeof it === 'object') left.push(it);
  }
}

function reportsOf(lines, text) {
  if (lines === '') return [];
  const index = placesIn(text);
  return lines
    .slice(0, -1)
    .split('\n')
    .map((each) => {
      const [, line, column, rule, message, mark] = REPORT.exec(each);
      return { line: Number(line), column: Number(column), rule, message, severity: mark ? 'warning' : 'error', index: index(Number(line), Number(column)) };
    });
}

/** Reports from where to where: their places are bytes, or indices into the string. */
function spansOf(lines, text, places) {
  if (lines === '') return [];
  const string = stringOf(text),
    length = places === 'indices' ? bytesOf(text).length : string.length;
  // (in a text of ASCII both are the same)
  const at = length === string.length ? null : indices(string, length);
  return lines
    .slice(0, -1)
    .split('\n')
    .map((each) => {
      const [, from, to, rule, message] = /^(\d+) (\d+) (\S+) (.*)$/s.exec(each);
      const [start, end] = [Number(from), Number(to)];
      return { start: at ? at[start] : start, end: at ? at[end] : end, rule, message };
    });
}

/** The module's number of a language: '2020', '2022' or 'module'. */
function numberOf(language) {
  if (language === undefined || language === null) return 0;
  if (typeof language === 'symbol' || !Object.hasOwn(LANGUAGES, language))
    throw new TypeError(`jslint has no language ${String(language)}: it has '2020', '2022' and 'module'`);
  return LANGUAGES[language];
}

/** The options of a call, which has these: others, and what isn't an object, are a mistake of the caller's. */
function optionsOf(options, ...names) {
  if (options === null || typeof options !== 'object') throw new TypeError(`options are an object, such as { ${names.at(-1)}: .. }`);
  const other = Object.keys(options).find((it) => !names.includes(it));
  if (other !== undefined) throw new TypeError(`this call has no option ${other}: it has ${names.join(', ')}`);
  const { places = PLACES[0], settings = '', language } = options;
  if (!PLACES.includes(places)) throw new TypeError(`places are ${PLACES.map((it) => `'${it}'`).join(' or ')}`);
  return { places, settings, language };
}

function bytesOnly(it, name) {
  if (!(it instanceof Uint8Array)) throw new TypeError(`${name} of run is a Uint8Array`);
}

/** Whether the engine's stack was used up, or the module's own. Either ends a call half done. */
const isOutOfStack = (error) =>
  error instanceof WebAssembly.RuntimeError ||
  error?.name === 'InternalError' ||
  (error instanceof RangeError && /stack|recursion/i.test(error.message));

/** Whether the engine has no memory for an instance, a buffer or a string. */
const isOutOfMemory = (error) => error instanceof RangeError || /out of memory/i.test(error?.message);

/**
 * The commands over a compiled module. `runDeeper` is asked where the stack was too small: what it answers, if anything, is the answer.
 */
export function commandsOf(module, runDeeper = () => null) {
  let kept = null;

  /** The answer's bytes as the module gives them. */
  function answerOf(command, text, second, language) {
    const running = kept ?? new Running(module);
    kept = null;
    const answer = running.answer(command, text, second, language, Math.max(LEAST_ROOM, ROOM[command] * text.length));
    if (answer !== null && running.exports.memory.buffer.byteLength <= MOST_KEPT) kept = running;
    return answer;
  }

  /** Answers a command as the program does: what it writes to its standard output or, where it refuses, to its standard error. */
  function run(command, text, second = new Uint8Array(0), language = undefined) {
    if (typeof command !== 'string' || !Object.hasOwn(COMMANDS, command)) throw new TypeError(`jslint has no command ${String(command)}`);
    const number = numberOf(language);
    bytesOnly(text, 'the text');
    bytesOnly(second, 'the second text');
    try {
      const answer = answerOf(command, text, second, number);
      return answer === null ? OUT_OF_MEMORY : { text: stringOfAnswer(answer.bytes), status: answer.status, isRefusal: answer.isRefusal };
    } catch (error) {
      if (isOutOfStack(error)) return runDeeper(command, text, second, language) ?? OUT_OF_STACK;
      if (isOutOfMemory(error)) return OUT_OF_MEMORY;
      throw error;
    }
  }

  /** What a command answers for a text; a refusal is thrown. */
  function accepted(command, text, second, language) {
    const answer = run(command, bytesOf(text), second, language);
    if (answer.isRefusal) throw new Refused(command, answer.text.slice('jslint: '.length, -1), answer.status);
    return answer;
  }

  /** What it writes. */
  const output = (command, text, second, language) => accepted(command, text, second, language).text;

  /** What a command writes that has no option but the language. */
  const plain = (command) => (text, options = {}) => output(command, text, undefined, optionsOf(options, 'language').language);

  return {
    run,
    check(text, options = {}) {
      const { settings, language } = optionsOf(options, 'settings', 'language');
      return reportsOf(output('check', text, bytesOf(settings), language), stringOf(text));
    },
    spans(text, options = {}) {
      const { settings, places, language } = optionsOf(options, 'settings', 'places', 'language');
      return spansOf(output('spans', text, bytesOf(settings), language), text, places);
    },
    fix: plain('fix'),
    unwrap: plain('unwrap'),
    mend(text, options = {}) {
      const { settings, language } = optionsOf(options, 'settings', 'language');
      return output('mend', text, bytesOf(settings), language);
    },
    format: plain('format'),
    treeText: plain('tree'),
    tree(text, options = {}) {
      const { places, language } = optionsOf(options, 'places', 'language');
      const program = JSON.parse(output('tree', text, undefined, language)),
        string = stringOf(text);
      if (places === 'indices' && program.end !== string.length) placeNodes(program, string);
      return program;
    },
    cost: plain('cost'),
    same(text, other, options = {}) {
      const { language } = optionsOf(options, 'language');
      return accepted('same', text, bytesOf(other), language).status === 0;
    },
    verify(text, table, options = {}) {
      const { language } = optionsOf(options, 'language');
      const [, pairs, least] = /^pairs (\d+) least (\d+)\n$/.exec(output('verify', text, bytesOf(table), language));
      return { pairs: Number(pairs), least: Number(least) };
    },
  };
}
