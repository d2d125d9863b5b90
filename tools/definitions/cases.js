'use strict';
// The rows of crates/cases/data, for what holds the definitions to them: each with its language (base, script or module), its call, its texts, what it
// wants, and its section: the comment above it, or the file's name where only the comment at the file's head is. A picture of a control character
// stands for that, and `⟦a×12⟧` for twelve times `a`.

const fs = require('node:fs');
const path = require('node:path');

const DATA = path.join(__dirname, '../../crates/cases/data');

const meant = (text) =>
  text.replace(/⟦([^]*?)×(\d+)⟧/g, (_, one, n) => one.repeat(Number(n))).replace(/[\u2400-\u241f]/g, (c) => String.fromCharCode(c.charCodeAt(0) & 0x1f));

function rowOf(line, section) {
  const [named, ...texts] = line.split('\t');
  const [, language = 'base', call] = named.match(/^(?:(script|module) )?(.*)$/);
  return { language, call, section, texts: texts.slice(0, -1).map(meant), want: meant(texts.at(-1)) };
}

// the rows of a file, or of those that ask for one of some calls
function rowsOf(file, calls = null) {
  const rows = [];
  let section = file;
  for (const line of fs.readFileSync(path.join(DATA, file), 'utf8').split('\n').slice(1)) {
    if (line === '') continue;
    if (line.startsWith('#')) {
      section = line.slice(2);
      continue;
    }
    const row = rowOf(line, section);
    if (calls === null || calls.includes(row.call)) rows.push(row);
  }
  return rows;
}

// what each language takes, and the early errors of the base profile: rows {text, language, section, answer}
const rowsOfLanguages = () =>
  ['editions', 'early']
    .flatMap((file) => rowsOf(file, ['early']))
    .map(({ texts: [text], language, section, want }) => ({ text, language, section, answer: want }));

// what several calls want of one text: a row {text, language, section, CALL: want, ..} for each
function byText(rows) {
  const found = new Map();
  for (const { language, call, section, texts: [text], want } of rows) {
    const key = `${language} ${text}`;
    if (!found.has(key)) found.set(key, { text, language, section });
    found.get(key)[call] = want;
  }
  return [...found.values()];
}

module.exports = { rowsOf, rowsOfLanguages, byText };
