// How long the commands take: the package in this process, the program, and acorn with escodegen where they are here.
//
//   NODE_PATH=/usr/share/nodejs node speed.mjs --program JSLINT --package FOLDER [--rounds N] SCRIPT ..
//
// Milliseconds of the processor's time, the least of the rounds; of the program those of the whole process. acorn and escodegen are Debian's node-acorn and
// node-escodegen; acorn parses and escodegen prints, which is the nearest to `fix`.
import { spawnSync } from 'node:child_process';
import { readFileSync } from 'node:fs';
import { createRequire } from 'node:module';
import { basename, join } from 'node:path';
import { pathToFileURL } from 'node:url';
import { parseArgs } from 'node:util';

const { values, positionals } = parseArgs({
  allowPositionals: true,
  options: { program: { type: 'string' }, package: { type: 'string' }, rounds: { type: 'string', default: '7' } },
});
const ROUNDS = Number(values.rounds);
const require = createRequire(import.meta.url);

/** The least and the first time of a call. */
function timed(call) {
  const times = Array.from({ length: ROUNDS }, () => {
    const begun = process.cpuUsage();
    call();
    const { user, system } = process.cpuUsage(begun);
    return (user + system) / 1000;
  });
  return [Math.min(...times), times[0]];
}

/** The processor's time of the program. */
function ofProgram(command, file) {
  const times = Array.from({ length: ROUNDS }, () => {
    const out = spawnSync('bash', ['-c', 'TIMEFORMAT="%U %S"; time "$0" "$@" >/dev/null', values.program, command, file], { encoding: 'utf8' });
    return 1000 *
      out.stderr
        .trim()
        .split('\n')
        .pop()
        .split(' ')
        .reduce((sum, it) => sum + Number(it), 0);
  });
  return Math.min(...times);
}

/** A package of Debian's, or null. */
function installed(name) {
  try {
    return require(name);
  } catch {
    return null;
  }
}

const begun = performance.now();
const { fix, run, tree } = await import(pathToFileURL(join(values.package, 'jslint.mjs')));
const loaded = performance.now() - begun;
run('fix', Buffer.from('a'));
console.log(`loaded and compiled in ${loaded.toFixed(0)} ms, the first call ${(performance.now() - begun - loaded).toFixed(1)}`);
const [acorn, escodegen] = ['acorn', 'escodegen'].map(installed);
for (const file of positionals) {
  const text = readFileSync(file),
    string = text.toString();
  console.log(`${basename(file)}, ${text.length} bytes`);
  for (const command of ['fix', 'unwrap', 'check', 'tree', 'cost']) {
    const [least, first] = timed(() => run(command, text));
    console.log(`  ${command}: module ${least.toFixed(1)} (the first time ${first.toFixed(1)}), program ${ofProgram(command, file).toFixed(0)}`);
  }
  console.log(`  fix() of a string ${timed(() => fix(string))[0].toFixed(1)}, tree() with its objects ${timed(() => tree(string))[0].toFixed(1)}`);
  if (acorn) console.log(`  acorn, parsed ${timed(() => acorn.parse(string, { ecmaVersion: 2020 }))[0].toFixed(1)}`);
  if (acorn && escodegen) console.log(`  acorn and escodegen ${timed(() => escodegen.generate(acorn.parse(string, { ecmaVersion: 2020 })))[0].toFixed(1)}`);
}
