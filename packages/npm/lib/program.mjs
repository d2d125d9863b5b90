// The program, for what the module doesn't have: `format` with other lines than its own.
import { spawnSync } from 'node:child_process';
import { Refused } from '../core.mjs';

const LANGUAGE_WORDS = { 2020: ['--edition', '2020'], 2022: ['--edition', '2022'], module: ['--module'] };
// No formatted text is longer, and none takes as long.
const MOST = 1 << 28,
  MOST_MS = 30_000;

/** The words of `format` that an editor may ask for: which lines it makes. */
export const isFormatWord = (it) => /^--(?:width=\d+|indent=\d+|tabs|commas=(?:none|lists|all)|bare-arrows|fewest)$/.test(it);

/** The words for an editor's indentation, unless other words say one. */
export function wordsOfIndentation(words, { tabSize, insertSpaces } = {}) {
  if (words.some((it) => /^--(?:indent|tabs)/.test(it))) return [];
  const isSize = Number.isInteger(tabSize) && tabSize >= 1 && tabSize <= 8;
  return [...(isSize && tabSize !== 2 ? [`--indent=${tabSize}`] : []), ...(insertSpaces === false ? ['--tabs'] : [])];
}

/** A script formatted by the program with these words. A refusal is thrown as those of the module. */
export function formattedBy(program, words, text, language) {
  const it = spawnSync(program, ['format', ...words, ...LANGUAGE_WORDS[language], '--', '-'], {
    input: text,
    encoding: 'utf8',
    maxBuffer: MOST,
    timeout: MOST_MS,
    killSignal: 'SIGKILL',
  });
  // (a program that refuses its words doesn't read the text)
  if (it.error && it.error.code !== 'EPIPE') throw new Error(`${program}: ${it.error.code ?? it.error.message}`);
  if (it.status === 0) return it.stdout;
  const [said] = it.stderr.split('\n'),
    refused = new Refused('format', said.replace(/^jslint: /, ''), it.status);
  throw refused.code && said.startsWith('jslint: ') ? refused : new Error(`${program}: ${said || `status ${it.status ?? it.signal}`}`);
}
