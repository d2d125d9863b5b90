// The package beside the program over scripts: both have to answer each command with the same bytes and the same status.
//
//   node compare.mjs --program JSLINT --package FOLDER [--n COUNT] [--seed S] [FILE|FOLDER ..]
//
// FOLDER is packages/npm with its module. Of folders it takes the files *.js. Without files: those of Debian's packages (../compare/scripts.js), or with
// --n generated texts: COUNT of each kind of ../compare/program.js, and the strewn scripts of ../compare/unwrap.js. `check` runs with settings too,
// `verify` on the table of `cost`, and on that table with another total; `same` with the fixed text, and that with another statement. Prints a line for each difference, and then how many answers were compared;
// status 1 where any differs.
import { spawnSync } from 'node:child_process';
import { mkdtempSync, readFileSync, readdirSync, rmSync, statSync, writeFileSync } from 'node:fs';
import { createRequire } from 'node:module';
import { tmpdir } from 'node:os';
import { join } from 'node:path';
import { pathToFileURL } from 'node:url';
import { parseArgs } from 'node:util';

const { values, positionals } = parseArgs({
  allowPositionals: true,
  options: { program: { type: 'string' }, package: { type: 'string' }, n: { type: 'string', default: '0' }, seed: { type: 'string', default: '1' } },
});
const require = createRequire(import.meta.url);
const { run } = await import(pathToFileURL(join(values.package, 'jslint.mjs')));
const SETTINGS = Buffer.from('globals = ["document"]\nallow-null = true\n[rules]\nno-var = false\n');
const MOST_OUTPUT = 2 ** 30;
const counts = { scripts: 0, answers: 0, refusals: 0, differences: 0 };

function* scripts(path) {
  const found = statSync(path, { throwIfNoEntry: false });
  if (found?.isDirectory()) for (const name of readdirSync(path).sort()) yield* scripts(join(path, name));
  else if (found?.isFile() && path.endsWith('.js')) yield path;
}

/** Generated texts. */
function generated(count, seed) {
  return [require('../compare/program.js'), require('../compare/unwrap.js')].flatMap((it) => it.someTexts(count, seed));
}

/** What the program answers. */
function answered(room, command, file, second) {
  const more = join(room, 'second');
  if (second !== undefined) writeFileSync(more, second);
  const words = second === undefined ? [file] : command === 'verify' || command === 'same' ? [file, more] : ['--settings', more, file];
  return spawnSync(values.program, [command, ...words], { maxBuffer: MOST_OUTPUT });
}

/** The module's answer, held against the program's, for a file that is told by this name. */
function compare(room, command, { file, name, text }, second) {
  const program = answered(room, command, file, second),
    answer = run(command, text, second);
  const [out, err] = answer.isRefusal ? ['', answer.text] : [answer.text, ''];
  counts.answers++;
  counts.refusals += answer.isRefusal;
  if (program.status !== answer.status || !program.stdout.equals(Buffer.from(out)) || !program.stderr.equals(Buffer.from(err))) {
    counts.differences++;
    console.log(
      `${command} ${name}: the program ${program.status} ${program.stderr} (${program.stdout.length} bytes), the module ${answer.status} ${err} (${out.length})`
    );
  }
  return answer;
}

function compareAll(room, file, name = file) {
  const script = { file, name, text: readFileSync(file) };
  counts.scripts++;
  for (const command of ['check', 'tree', 'unwrap', 'mend']) compare(room, command, script);
  const fixed = compare(room, 'fix', script);
  if (!fixed.isRefusal) for (const more of ['', 'a;']) compare(room, 'same', script, Buffer.from(fixed.text + more));
  compare(room, 'check', script, SETTINGS);
  const table = compare(room, 'cost', script);
  if (table.isRefusal) return;
  compare(room, 'verify', script, Buffer.from(table.text));
  compare(room, 'verify', script, Buffer.from(table.text.replace(/total (\d+)/, (_, it) => `total ${Number(it) + 1}`)));
}

function compareText(room, text) {
  const file = join(room, 'a.js');
  writeFileSync(file, text);
  compareAll(room, file, JSON.stringify(text));
}

const room = mkdtempSync(join(tmpdir(), 'jslint-compare-'));
const texts = Number(values.n) > 0 ? generated(Number(values.n), Number(values.seed)) : [];
for (const text of texts) compareText(room, text);
const paths = positionals.length + texts.length > 0 ? positionals : require('../compare/scripts.js').packaged();
for (const path of paths) for (const file of scripts(path)) compareAll(room, file);
rmSync(room, { recursive: true });
console.log(`${counts.scripts} scripts, ${counts.answers} answers compared, ${counts.refusals} of them refusals, ${counts.differences} differences`);
process.exitCode = counts.differences === 0 && counts.scripts > 0 ? 0 : 1;
