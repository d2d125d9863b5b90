#!/usr/bin/env node
'use strict';
// Changes the definitions, one clause at a time, and says which changes no row of crates/cases/data sees:
//
//   node mutate.js [--turns N] [--turn K] [--brief] [--only TEXT] [--list FILE] [GROUP ..]
//
// GROUPs: early patterns names scopes rules (GROUPS below); all where none is named. --turns N takes each N-th mutant, by turns: --turn K (from 0) says which turn it is,
// otherwise a sum of the definitions does. --only takes those with TEXT in their file, clause or change. --brief prints no mutant that is in the list.
//
// A mutant is one small change of one clause: `&&` for `||` and a side of them left out, `not` left out, `cond` turned round and always one of its two, an
// item, list or field left out, `true` for `false`, a number by one, a constructor for the next of its type (in patterns too), a function, variable or field
// for another of its type, two arguments exchanged, a word, a body that is always true, false or empty, a clause left out that later ones cover.
// - seen: a row that runs the clause wants something else than the changed definitions say.
// - refused: they don't compile, or stop without a clause, or don't end; rt refuses such definitions.
// - the same: no row sees it, and means_the_same.txt has the reason.
// - UNSEEN: no row sees it, or none runs the clause.
// Exit status 1 where a mutant is UNSEEN, and where a line of the list names no mutant, or one that a row sees or rt refuses; 2 for unknown words.

const path = require('node:path');
const antt = require('./antt.js');
const { CRATES } = require('./model.js');
const { partOf } = require('./planting.js');
const { REPORTING } = require('./reports.js');
const { Changeable } = require('./mutate/changeable.js');
const { readList, ListError } = require('./mutate/list.js');
const { mutantsOf } = require('./mutate/mutants.js');
const { Rows, rowThatSees } = require('./mutate/rows.js');

const FOLDERS = [...CRATES, ...REPORTING.map((crate) => path.join(__dirname, '../../crates', crate))];
const specs = (crate, names) => names.split(' ').map((name) => `${crate}/specs/${name}.antt`);
// The files that a reader has to believe and the rows run. Left out are PropertyNames, of lists of words, EnvironmentNames and Environments, of which scopes.js asks each name, and
// RuleNames, which `../rules --check` holds to the files of the rules.
const GROUPS = {
  early: specs('early_errors', 'Names Around Scopes Functions Strict Labels Classes Keys Objects Literals Cooked Yields Fields PrivateNames Modules Early'),
  patterns: specs('regular_expressions', 'Characters Classes Names Terms Patterns'),
  names: specs('name_tables', 'BoundNames DeclaredNames'),
  scopes: specs('scopes', 'Found Openings Bindings Roles'),
  rules: [
    ...specs('rules', 'Rules Settings AllRules'),
    ...specs('reference_rules', 'BuiltIn Tests Rows Found'),
    ...specs('repetition_rules', 'Rows Members Entries Keys Written Tests Found'),
    ...specs('native_prototypes', 'Found'),
    ...specs('private_members', 'Uses Found'),
    ...specs('flow_rules', 'Completion Rows Arounds Fallthrough Flows Over Found KindSets'),
    ...specs('literal_rules', 'Rows Marks Found Escapes Patterns TextStates Bytes'),
    ...specs('text_rules', 'Rows Spots Readings Gaps Found'),
    ...specs('number_precision', 'Digits Precision'),
    ...specs('pattern_analysis', 'ClassValues Marks Misleading UselessReferences'),
    ...specs('value_rules', 'Rows Found'),
    ...specs('node_rules', 'Rows Tests PartTests ExpressionTests ValueTests Searches ValueSearches Values Paths KindSets Words Arounds Found Over'),
    ...specs('rule_words', 'Reports'),
  ],
};

// ---------------------------------------------------------------- words

class WordError extends Error {}

const NUMBERS = ['--turns', '--turn'],
  TEXTS = ['--only', '--list'];
function valueOf(word, value) {
  if (value === undefined || (NUMBERS.includes(word) && !/^\d+$/.test(value)))
    throw new WordError(`${word} takes a ${NUMBERS.includes(word) ? 'number' : 'text'}`);
  return NUMBERS.includes(word) ? Number(value) : value;
}
function wordsOf(argv) {
  const words = { groups: [], brief: false, list: path.join(__dirname, 'means_the_same.txt'), only: '', turns: 1 };
  for (let i = 0; i < argv.length; i++) {
    if (argv[i] === '--brief') words.brief = true;
    else if ([...NUMBERS, ...TEXTS].includes(argv[i])) {
      words[argv[i].slice(2)] = valueOf(argv[i], argv[i + 1]);
      i += 1;
    } else if (Object.hasOwn(GROUPS, argv[i])) words.groups.push(argv[i]);
    else throw new WordError(`unknown: ${argv[i]}; groups are ${Object.keys(GROUPS).join(' ')}`);
  }
  if (words.turns === 0 || words.turn >= words.turns) throw new WordError('--turn K is below --turns N, which is at least 1');
  if (words.groups.length === 0) words.groups = Object.keys(GROUPS);
  return { ...words, turn: words.turn ?? partOf(['--turns', String(words.turns)], FOLDERS)[0] };
}

// ---------------------------------------------------------------- one mutant

const STOPS = [antt.AnttError, RangeError, TypeError];
// whether an error is of the definitions, which stop or don't end
const isRefusal = (error) => STOPS.some((it) => error instanceof it);

// {status, row}
function tried(spec, rows, mutant) {
  let takeOut = () => {};
  try {
    takeOut = spec.plant(mutant);
    const row = rowThatSees(spec, rows);
    return { status: row === null ? 'unseen' : 'seen', row, runs: rows.length };
  } catch (error) {
    if (!isRefusal(error)) throw error;
    return { status: 'refused', why: error.message };
  } finally {
    takeOut();
  }
}

// ---------------------------------------------------------------- all

const lineOf = ({ file, line, name, text }) => `crates/${file}:${line}: ${name}\t${text}`;

// what is wrong with the list, by what the mutants are that it names
function faultsOfList(list, reasons, mutants) {
  const keys = new Set(mutants.map(({ key }) => key));
  return [...reasons].filter(([key]) => !keys.has(key)).map(([key, { line }]) => `${list}:${line}: no such mutant any more: ${key.replace(/\t/g, ' | ')}`);
}
function answerOf(mutant, { status, runs, row, why }, reason) {
  if (reason === undefined)
    return status === 'unseen' ? { is: 'UNSEEN', line: `UNSEEN    ${lineOf(mutant)}${runs === 0 ? '   (no row runs it)' : ''}` } : { is: status };
  if (status === 'unseen') return { is: 'the same', line: `the same  ${lineOf(mutant)}   ${reason.reason}` };
  return {
    is: 'WRONG',
    line: `WRONG     the list has it, but ${row === undefined ? `it is refused (${why.slice(0, 80)})` : `a row sees it, ${row.language} ${JSON.stringify(row.text)}`}: ${lineOf(mutant)}`,
  };
}

function run(words) {
  const reasons = readList(words.list),
    spec = new Changeable(FOLDERS);
  const all = mutantsOf(spec, Object.values(GROUPS).flat());
  const faults = faultsOfList(words.list, reasons, all);
  const files = words.groups.flatMap((it) => GROUPS[it]);
  const mine = all.filter(({ file, key }) => files.includes(file) && key.includes(words.only)).filter((_, i) => i % words.turns === words.turn);
  const rows = new Rows(spec);
  for (const { row, said } of rows.otherwise)
    faults.push(`the definitions say otherwise than a row: ${row.language} ${JSON.stringify(row.text)}: ${said}, the row ${row.want}`);
  const counts = { seen: 0, refused: 0, 'the same': 0, UNSEEN: 0, WRONG: 0 };
  for (const mutant of mine) {
    const { is, line } = answerOf(mutant, tried(spec, rows.running(mutant.clauses), mutant), reasons.get(mutant.key));
    counts[is] += 1;
    if (line !== undefined && !(words.brief && is === 'the same')) console.log(line);
  }
  for (const fault of faults) console.log(fault);
  console.log(
    `${mine.length} mutants of ${all.length}, ${rows.rows.length} rows: ${counts.seen} seen by a row, ${counts.refused} refused, ${counts['the same']} the same, ${counts.UNSEEN} UNSEEN; ${counts.WRONG + faults.length} faults of the list or the rows`
  );
  return mine.length > 0 && counts.UNSEEN + counts.WRONG + faults.length === 0 ? 0 : 1;
}
function main() {
  try {
    process.exitCode = run(wordsOf(process.argv.slice(2)));
  } catch (error) {
    if (!(error instanceof WordError || error instanceof ListError)) throw error;
    console.error(error.message);
    process.exitCode = error instanceof WordError ? 2 : 1;
  }
}

module.exports = { GROUPS };
if (require.main === module) main();
