// The page: what the commands answer for the script in the box.
import { Refused, commandsOf, indexOf } from 'jslint/core';
import { hintsOf } from 'jslint/hinting';

const at = (id) => document.getElementById(id);
const [language, script, settings, panel, state, copy] = ['language', 'script', 'settings', 'panel', 'state', 'copy'].map(at);
const hints = hintsOf(JSON.parse(at('hints').textContent));
// A text that a module alone may be, and one that no script of the base profile is.
const OF_MODULES = "import 'a'",
  OF_2022 = 'async () => {}';
const tabs = [...document.querySelectorAll('[role=tab]')];
const HEADS = ['row', 'expression', 'any', 'not {', 'statement', 'for', 'for, not {', 'new', 'new, not {', 'new, statement'];
// How much of a line is shown before and after the place that a report speaks of.
const REACH = 60;
const PAUSE_MS = 150;
const LINE_END = /\r\n|[\n\r\u2028\u2029]/;
// How many reports, parts of a node and rows of a table are shown at once, how many nodes of a tree at first and where one is opened, and how much of a value.
const REPORTS = 200,
  PARTS = 100,
  ROWS = 300,
  FIRST = 400,
  OPENED = 60,
  LONG = 300;
// Of how many lines the pieces of a text are.
const LINES = 200;
// The languages as a button names them.
const NAMES = { 2022: 'a script of ES2022', module: 'a module' };

function element(name, attributes = {}, ...children) {
  const made = Object.assign(document.createElement(name), attributes);
  made.append(...children);
  return made;
}

/** The line round an index, no more of it than is shown, and blanks up to the place below it. */
function pointedAt(text, index) {
  const from = Math.max(0, index - REACH),
    before = text.slice(from, index).split(LINE_END).pop();
  return [`${before}${text.slice(index, index + REACH).split(LINE_END)[0]}`, before.replace(/[^\t]/gu, ' ')];
}

/** How wide a character of the script is. */
function widthOf(style) {
  const room = document.createElement('canvas').getContext('2d');
  room.font = `${style.fontSize} ${style.fontFamily}`;
  return room.measureText('0').width;
}

/** Goes to a place in the script, and has it in view: lines aren't broken there, and all are as high. */
function goTo(index) {
  const text = script.value.slice(0, index),
    start = text.lastIndexOf('\n') + 1,
    style = getComputedStyle(script);
  const height = parseFloat(style.lineHeight),
    top = (text.split('\n').length - 1) * height,
    left = text.slice(start).replace(/\t/g, '    ').length * widthOf(style);
  script.focus();
  script.setSelectionRange(index, index + 1);
  script.scrollTop = Math.max(0, top - script.clientHeight / 2);
  script.scrollLeft = left < script.clientWidth * 0.8 ? 0 : left - script.clientWidth / 2;
}

/** The first of many, and behind them a button that shows more of them. `made` makes one; `into` takes them. */
function inPieces(all, into, made, most) {
  const show = (from) => {
    into.append(...all.slice(from, from + most).map(made));
    const left = all.length - from - most;
    if (left <= 0) return [];
    const button = element('button', { className: 'more', type: 'button' }, `${Math.min(most, left)} more of ${left}`);
    button.addEventListener('click', () => button.replaceWith(...show(from + most)));
    return [button];
  };
  return [into, ...show(0)];
}

/** A text in pieces, of which a browser lays out those in view. */
function textInPieces(text) {
  const lines = text.split('\n'),
    pieces = [];
  for (let at = 0; at < lines.length; at += LINES) pieces.push(`${lines.slice(at, at + LINES).join('\n')}${at + LINES < lines.length ? '\n' : ''}`);
  return pieces.length < 2 ? [element('pre', {}, text)] : pieces.map((it) => element('pre', { className: 'piece' }, it));
}

/** A place with what is said of it, and its line with a caret below. */
function located(text, index, place, name, message) {
  const [line, blanks] = pointedAt(text, index);
  const button = element('button', { className: 'place', type: 'button', onclick: () => goTo(index) }, place);
  button.setAttribute('aria-label', `go to line ${place.replace(':', ', column ')}`);
  const caret = element('span', { className: 'caret' }, `${blanks}^`);
  caret.setAttribute('aria-hidden', 'true');
  return element('li', {}, button, ' ', element('strong', {}, name), ` ${message}`, element('pre', {}, `${line}\n`, caret));
}

/** Whether the settings leave the language of a text. */
function isLeft(jslint, text) {
  try {
    jslint.check(text, { settings: settings.value });
    return true;
  } catch {
    return false;
  }
}

/** The language for a command that reads no settings: what is chosen, or what they say. */
function asked(jslint) {
  return { language: language.value || (isLeft(jslint, OF_MODULES) ? 'module' : isLeft(jslint, OF_2022) ? '2022' : undefined) };
}

const counted = (count, what) => `${count} ${what}${count === 1 ? '' : 's'}`;

/** What the program puts behind the text of a warning. */
const markOf = (it) => (it.severity === 'warning' ? ' (warning)' : '');

function reports(jslint, text) {
  const found = jslint.check(text, { settings: settings.value, language: language.value || undefined }),
    told = counted(found.length, 'report');
  const copied = () => found.map((it) => `${it.line}:${it.column} ${it.rule} ${it.message}${markOf(it)}\n`).join('');
  if (found.length === 0) return { made: [element('p', { className: 'fine' }, 'No report.')], told, copied };
  const made = (it) => located(text, it.index, `${it.line}:${it.column}`, it.rule, `${it.message}${markOf(it)}`);
  return { made: inPieces(found, element('ul', { className: 'reports' }), made, REPORTS), told, copied };
}

/** How many nodes of a tree are made at once. */
class Budget {
  constructor(left) {
    this.left = left;
  }

  take() {
    return this.left-- > 0;
  }
}

/** A value as it is shown, the beginning of a long one. */
function valueOf(it) {
  const told = JSON.stringify(it);
  return told.length > LONG ? `${told.slice(0, LONG)} ..` : told;
}

/** A part of the tree under its key: a list, a node, or a value. What is in it is made where there is room, or else when it is opened. */
function branch(it, key, budget) {
  const name = key === null ? '' : `${key}: `;
  if (it === null || typeof it !== 'object' || (Array.isArray(it) && it.length === 0)) return element('div', { className: 'leaf' }, name, valueOf(it));
  const keys = Object.keys(it).filter((each) => Array.isArray(it) || !['type', 'start', 'end'].includes(each));
  const span = typeof it.start === 'number' ? element('span', { className: 'span' }, ` ${it.start}..${it.end}`) : '';
  const head = Array.isArray(it) ? `[${it.length}]` : it.type ?? '{}',
    open = budget.take();
  const made = element('details', { open }, element('summary', {}, name, head, span));
  const fill = (some) => made.append(...inPieces(keys, element('div'), (each) => branch(it[each], each, some), PARTS));
  if (open) fill(budget);
  else made.addEventListener('toggle', () => fill(new Budget(OPENED)), { once: true });
  return made;
}

/** The cells of a row of the cost table, which says nothing where all eight are 0. */
function cellsOf(row) {
  const words = row.split(' ');
  return words.length === 2 ? [...words, ...Array(8).fill('0')] : words;
}

function rowOf(kind, cells) {
  return element('tr', {}, ...cells.map((it) => element(kind, kind === 'th' ? { scope: 'col' } : {}, it)));
}

function costs(jslint, text) {
  const table = jslint.cost(text, asked(jslint)),
    rows = table.trimEnd().split('\n').slice(1, -1);
  const { pairs, least } = jslint.verify(text, table, asked(jslint));
  const said = `The script has ${counted(pairs, 'grouping pair')}. No text with its tree has fewer than ${least}, which this table shows; it was checked just now.`;
  const made = inPieces(rows, element('table', {}, rowOf('th', HEADS)), (it) => rowOf('td', cellsOf(it)), ROWS);
  return { made: [element('p', {}, said), ...made], told: counted(rows.length, 'row'), copied: () => table };
}

/** What a command makes of a script. */
function rewritten(command) {
  return (jslint, text) => {
    const answer = jslint[command](text, asked(jslint));
    return { made: textInPieces(answer), told: answer === text ? 'as it was' : 'another text', copied: () => answer };
  };
}

function treeOf(jslint, text) {
  const tree = jslint.tree(text, asked(jslint));
  return { made: [branch(tree, null, new Budget(FIRST))], told: counted(tree.body.length, 'statement'), copied: () => jslint.treeText(text, asked(jslint)) };
}

const SHOWN = {
  'tab-check': reports,
  'tab-fix': rewritten('fix'),
  'tab-unwrap': rewritten('unwrap'),
  'tab-format': rewritten('format'),
  'tab-tree': treeOf,
  'tab-cost': costs,
};

/** What a refused script may have that its language lacks, with a button for each language that has it. */
function hintFor(jslint, error, text, index) {
  const said = asked(jslint).language;
  const found =
    error.code === 'syntax' ? hints.syntaxHint(text, index, said) : error.code === 'early' ? hints.earlyHint(error.number, text, index, said) : null;
  if (!found) return [];
  const buttons = (found.readBy ?? []).map((it) => {
    const button = element('button', { className: 'read', type: 'button' }, `read it as ${NAMES[it]}`);
    button.addEventListener('click', () => {
      language.value = it;
      language.dispatchEvent(new Event('input'));
      language.focus();
    });
    return button;
  });
  return [element('p', { className: 'hint' }, `perhaps: ${found.hint} `, ...buttons)];
}

function refused(jslint, error, text) {
  const told = element('p', { className: 'refused' }, element('strong', {}, error instanceof Refused ? 'Refused: ' : 'Failed: '), error.message);
  const copied = () => `${error.message}\n`;
  // (the place in settings is none in the script)
  if (typeof error.line !== 'number' || error.code === 'settings') return { made: [told], told: '', copied };
  const index = Math.min(indexOf(text, error.line, error.column), text.length);
  return {
    made: [
      told,
      ...hintFor(jslint, error, text, index),
      element('ul', { className: 'reports' }, located(text, index, `${error.line}:${error.column}`, '', '')),
    ],
    told: '',
    copied,
  };
}

/** Shows what a tab answers, and says in a line how it went. */
function answer(jslint, tab) {
  const text = script.value,
    begun = performance.now();
  let found,
    went = 'answered';
  try {
    found = SHOWN[tab.id](jslint, text);
  } catch (error) {
    [found, went] = [refused(jslint, error, text), 'refused'];
  }
  panel.replaceChildren(...found.made);
  panel.scrollTop = 0;
  panel.setAttribute('aria-labelledby', tab.id);
  copy.onclick = () => copyText(found.copied());
  state.textContent = `${went}: ${[found.told, `${text.length} characters`, `${(performance.now() - begun).toFixed(1)} ms`].filter(Boolean).join(', ')}`;
  for (const it of tabs) {
    it.setAttribute('aria-selected', String(it === tab));
    it.tabIndex = it === tab ? 0 : -1;
  }
}

/** Puts a text on the clipboard: all of it, also where a part alone is shown. */
async function copyText(text) {
  try {
    await navigator.clipboard.writeText(text);
    state.textContent = `copied: ${text.length} characters`;
  } catch {
    state.textContent = 'not copied: the browser lets this page write nothing to the clipboard';
  }
}

/** The tab that a key leads to, as the pattern for tabs has it. */
function tabOf(key, tab) {
  const last = tabs.length - 1,
    now = tabs.indexOf(tab);
  return tabs[{ ArrowRight: now === last ? 0 : now + 1, ArrowLeft: now === 0 ? last : now - 1, Home: 0, End: last }[key]];
}

function listen(jslint) {
  let shown = tabs.find((it) => it.id === `tab-${location.hash.slice(1)}`) ?? tabs[0],
    waiting = 0;
  const show = (tab) => answer(jslint, shown = tab);
  for (const it of [language, script, settings]) {
    it.addEventListener('input', () => {
      clearTimeout(waiting);
      waiting = setTimeout(() => show(shown), PAUSE_MS);
    });
  }
  for (const it of tabs) {
    it.addEventListener('click', () => show(it));
    it.addEventListener('keydown', (event) => {
      const next = tabOf(event.key, it);
      if (next === undefined) return;
      event.preventDefault();
      next.focus();
      show(next);
    });
  }
  show(shown);
}

const bytes = Uint8Array.from(atob(at('module').textContent), (it) => it.charCodeAt(0));
listen(commandsOf(await WebAssembly.compile(bytes)));
document.documentElement.dataset.ready = 'yes';
