#!/usr/bin/env node
'use strict';
// Do behind.js and scopes.js see faults? Plants one fault at a time into a copy of the definitions of scopes and rules, and has behind.js look at the
// rows; where they show nothing, scopes.js at its texts:  node --stack-size=30000 plant_scopes.js [--n N] [--only NAME|NAME..] [--jobs I/K | --turns K] [--brief]
// I/K: the faults I, I + K .. alone; --turns: one K-th of them, as in plant_languages.js. --brief names only what is otherwise than it should be. A fault of ROWS has to be seen by the rows. Exit status 1 where a fault isn't seen, where its text isn't found just
// once, or where anything disagrees with nothing planted.

const fs = require('node:fs');
const path = require('node:path');
const behind = require('./behind.js');
const scopes = require('./scopes.js');
const { REPORTING, Reports } = require('./reports.js');
const { copyOf, chosen, partOf } = require('./planting.js');

const argv = process.argv.slice(2);
const value = (name, d) => {
  const i = argv.indexOf(name);
  return i < 0 ? d : argv[i + 1];
};
const n = Number(value('--n', '600'));

const ROLES = 'scopes/specs/Roles.antt',
  OPENINGS = 'scopes/specs/Openings.antt',
  BINDINGS = 'scopes/specs/Bindings.antt',
  BUILT_IN = 'reference_rules/specs/BuiltIn.antt';
const LEFT_ALONE = 'rules/specs/LeftAlone.antt';
const NODE_ROWS = 'node_rules/specs/Rows.antt',
  TESTS = 'node_rules/specs/Tests.antt';

// what, file, old, new
const FAULTS = [
  ['a target of = reads too', ROLES, 'cond (is text "=") Write ReadWrite', 'ReadWrite'],
  ['a logical assignment writes alone', ROLES, 'cond (is text "=") Write ReadWrite', 'cond (is text "??=") Write (cond (is text "=") Write ReadWrite)'],
  ['typeof reads', ROLES, 'cond (is text "typeof") Typeof Read', 'Read'],
  ['a key is a name', ROLES, 'cond flags.computed Read NoReference', 'NoReference'],
  ['a label is read', ROLES, 'part_roles u LabeledStatement text flags b = First NoReference Read', 'part_roles u LabeledStatement text flags b = All Read'],
  ['a break reads', ROLES, 'part_roles u BreakStatement text flags b = All NoReference', 'part_roles u BreakStatement text flags b = All Read'],
  ['new.target reads', ROLES, 'part_roles u MetaProperty text flags b = All NoReference', 'part_roles u MetaProperty text flags b = All Read'],
  ['++ reads alone', ROLES, 'part_roles u UpdateExpression text flags b = All ReadWrite', 'part_roles u UpdateExpression text flags b = All Read'],
  ['a for-in target reads', ROLES, 'part_roles u ForInStatement text flags b = First Write Read', 'part_roles u ForInStatement text flags b = All Read'],
  ['a default is a target', ROLES, 'part_roles u AssignmentPattern text flags b = First u Read', 'part_roles u AssignmentPattern text flags b = Same'],
  [
    'a shorthand reads in a pattern',
    ROLES,
    'part_roles u Property text flags b = First (key_role flags) u',
    'part_roles u Property text flags b = First (key_role flags) Read',
  ],
  ['a body is a scope', OPENINGS, 'cond (is_body u) NoScope Block', 'Block'],
  ['a switch head is in a scope', OPENINGS, 'opens_all u _ = NoScope', 'opens_all u SwitchStatement = Switch\nopens_all u _ = NoScope'],
  ['an expression has no name inside', OPENINGS, 'opens_all u FunctionExpression = FirstPart FunctionName', 'opens_all u FunctionExpression = NoScope'],
  ['a class has no name inside', OPENINGS, 'opens_others ClassDeclaration = FirstPart ClassName', 'opens_others ClassDeclaration = NoScope'],
  ['a catch clause is no scope', OPENINGS, 'opens_all u CatchClause = FirstPart Catch', 'opens_all u CatchClause = NoScope'],
  ['a for head with var is a scope', OPENINGS, 'not (is text "var")', 'true'],
  ['var stays in its block', BINDINGS, 'holds_statements BlockStatement = true', 'holds_statements BlockStatement = false'],
  ['var in a label stays', BINDINGS, 'holds_statements LabeledStatement = true', 'holds_statements LabeledStatement = false'],
  ['var in a case stays', BINDINGS, 'holds_statements SwitchCase = true', 'holds_statements SwitchCase = false'],
  ['a plain for settles', BINDINGS, 'settles ForHead parts = false', 'settles ForHead parts = is_initialised (others parts)'],
  ['the last of a name stays', 'scopes/specs/Found.antt', 'cond (has_name b.name bs) (cond b.exported', 'cond false (cond b.exported'],
  [
    'the outermost is meant',
    'scopes/specs/Found.antt',
    'here_or_outer n (Some i) o = Some (n, i)',
    'here_or_outer n (Some i) None = Some (n, i)\nhere_or_outer n (Some i) (Some p) = Some p',
  ],
  [
    'arrows have arguments',
    OPENINGS,
    'has_arguments FunctionExpression = true',
    'has_arguments FunctionExpression = true\nhas_arguments ArrowFunctionExpression = true',
  ],
  ['arguments is a reference', 'scopes/specs/Found.antt', 'is_reference z.role && not (z.in_function && is word "arguments")', 'is_reference z.role'],
  ['eqeqeq ignores allow-null', NODE_ROWS, 'options.allow_null && any_part is_null (parts_of tree)', 'false'],
  ['bodies count as empty', TESTS, 'not (is_function around.parent || (options', 'not (false || (options'],
  ['a comment is enough without settings', TESTS, 'options.allow_comments && has_comment', 'has_comment'],
  ['a comment before a block is in it', TESTS, 'slice_range source from to', 'slice_range source 0 to'],
  ['typeof counts as use', 'rules/specs/Rules.antt', 'not (may_be_undefined s r || is_known of_2022 s r.name)', 'not (is_known of_2022 s r.name)'],
  ['operands of typeof are never reported', 'rules/specs/Rules.antt', 'r.typeof_operand && not s.options.typeof_operands', 'r.typeof_operand'],
  ['parameters are looked at', 'rules/specs/Rules.antt', 'is_param_for_reading NoParams is_behind = false', 'is_param_for_reading NoParams is_behind = true'],
  [
    'after-used is all',
    'rules/specs/Rules.antt',
    'is_param_for_reading AfterUsed is_behind = not is_behind',
    'is_param_for_reading AfterUsed is_behind = true',
  ],
  [
    'all is after-used',
    'rules/specs/Rules.antt',
    'is_param_for_reading AllParams is_behind = true',
    'is_param_for_reading AllParams is_behind = not is_behind',
  ],
  ['a variable that is read spares parameters', 'rules/specs/Rules.antt', 'is_param b.kind && read (n, i)', 'read (n, i)'],
  ['a parameter that is not read spares others', 'rules/specs/Rules.antt', 'is_param b.kind && read (n, i)', 'is_param b.kind'],
  ['what is behind is sought a place before', 'rules/specs/Rules.antt', 'reads_param read m.0 (m.1 + 1) bs', 'reads_param read m.0 m.1 bs'],
  ['only the next parameter spares', 'rules/specs/Rules.antt', ' || reads_param read n (i + 1) bs', ''],
  ['what catch binds is looked at', 'rules/specs/Rules.antt', 'o.caught_errors', 'true'],
  ['parameters are ignored as variables', 'rules/specs/Rules.antt', 'ignoring Param = ArgsIgnore', 'ignoring Param = VarsIgnore'],
  ['what catch binds is ignored as variables', 'rules/specs/Rules.antt', 'ignoring Catch = CaughtErrorsIgnore', 'ignoring Catch = VarsIgnore'],
  ['variables are ignored as parameters', 'rules/specs/Rules.antt', 'ignoring _ = VarsIgnore', 'ignoring _ = ArgsIgnore'],
  ['a beginning is an end', 'rules/specs/NamePatterns.antt', 'starts_with nat_eq name (front text)', 'ends_with nat_eq name (front text)'],
  ['an end is a beginning', 'rules/specs/NamePatterns.antt', 'ends_with nat_eq name (drop 1 text)', 'starts_with nat_eq name (drop 1 text)'],
  ['a name is a beginning', 'rules/specs/NamePatterns.antt', '(bytes_eq name text)', '(starts_with nat_eq name text)'],
  ['a beginning lacks two bytes', 'rules/specs/NamePatterns.antt', 'take (length text - 1) text', 'take (length text - 2) text'],
  ['parameters of setters are looked at', LEFT_ALONE, 'params_of Set function = of_part first_param function', 'params_of Set function = []'],
  ['parameters of methods are left alone', LEFT_ALONE, 'params_of _ function = []', 'params_of _ function = of_part first_param function'],
  [
    'parameters of setters of classes are looked at',
    LEFT_ALONE,
    'setter_params (node MethodDefinition text flags from to parts) = params_of flags.form (last_part parts)\n',
    '',
  ],
  ['properties without a rest are left alone', LEFT_ALONE, 'cond (is_rest (last_part parts)) (each_part sibling parts) []', 'each_part sibling parts'],
  ['properties beside a rest are always left alone', LEFT_ALONE, 'cond options.ignore_rest_siblings (', 'cond true ('],
  ['underscore is always ignored', 'rules/specs/Rules.antt', 's.options.ignore_underscore && begins_with_underscore b.name', 'begins_with_underscore b.name'],
  ['self shadows', 'rules/specs/Rules.antt', 'not (is_itself b.kind || is_listed s.lists Allow b.name)', 'not (is_listed s.lists Allow b.name)'],
  ['no name may hide others', 'rules/specs/Rules.antt', 'not (is_itself b.kind || is_listed s.lists Allow b.name)', 'not (is_itself b.kind)'],
  ['const without value', 'rules/specs/Rules.antt', 'b.settled && not (written m)', 'not (written m)'],
  ['env is ignored', 'rules/specs/Settings.antt', ' || is_of_environment s.environments name', ''],
  [
    'a worker has the names of a window',
    'rules/specs/Environments.antt',
    'is_shared_name text || is_worker_member text',
    'is_browser_name text || is_worker_member text',
  ],
  ['Jest is Mocha', 'rules/specs/Environments.antt', 'e.jest && is_jest_name text', 'e.mocha && is_jest_name text'],
  ['a name is left out', 'rules/specs/EnvironmentNames.antt', '"importScripts" ∷ ', ''],
];

// faults that the rows have to show
const OF_ROWS = [
  ['a key of a field is read', ROLES, 'part_roles u PropertyDefinition text flags b = First (key_role flags) Read\n', ''],
  ['export * as reads', ROLES, 'part_roles u ExportAllDeclaration text flags b = All NoReference\n', ''],
  ['an exported name is read', ROLES, 'part_roles u ExportSpecifier text flags b = First u NoReference', 'part_roles u ExportSpecifier text flags b = All u'],
  [
    'an exported local is no reference',
    ROLES,
    'part_roles u ExportSpecifier text flags b = First u NoReference',
    'part_roles u ExportSpecifier text flags b = All NoReference',
  ],
  ['a namespace of an import reads', ROLES, 'part_roles u ImportNamespaceSpecifier text flags b = All NoReference\n', ''],
  [
    'an export from another module reads',
    ROLES,
    'part_roles u ExportNamedDeclaration text flags b = All (exported_role b)',
    'part_roles u ExportNamedDeclaration text flags b = All Read',
  ],
  ['a static block makes no scope', OPENINGS, 'opens_all u StaticBlock = Items\n', ''],
  ['export default exports nothing', BINDINGS, 'stands_in (node ExportDefaultDeclaration text flags from to parts) = Export\n', ''],
];

// each name that a script has without declaring it, and each kind that holds statements, left out
const source = (file) => fs.readFileSync(path.join(__dirname, '../../crates', file), 'utf8');
const NAMES = [...source(BUILT_IN).matchAll(/"(\w+)" ∷ /g)].map(([written, name]) => [`${name} is not built in`, BUILT_IN, written, '']);
const HOLDERS = [...source(BINDINGS).matchAll(/holds_statements (\w+) = true\n/g)].map(([written, kind]) => [
  `${kind} holds no statements`,
  BINDINGS,
  written,
  '',
]);
const ROWS = [...OF_ROWS, ...NAMES, ...HOLDERS];

const copy = copyOf(path.join(__dirname, '../../crates'), REPORTING);
const rows = behind.rowsOfReports();

// the first disagreement with the definitions in the copy, of the rows alone or of the texts too; null where there is none
function first(withTexts) {
  const definitions = new Reports(copy);
  for (const line of behind.disagreements(definitions, rows)) return line;
  if (withTexts) for (const line of scopes.disagreements(definitions, { n })) return line;
  return null;
}
// what is seen of a fault, and whether that is as it should be
function one([what, file, old, other], withTexts) {
  const target = path.join(copy, file),
    whole = fs.readFileSync(target, 'utf8');
  const found = whole.split(old).length - 1;
  if (found !== 1) return [false, `found ${found} times: ${what}`];
  fs.writeFileSync(target, whole.replace(old, () => other));
  try {
    const line = first(withTexts);
    return line === null ? [false, `NOT SEEN  ${what}`] : [true, `seen      ${what}   ${line.replace(/\n/g, ' ').slice(0, 120)}`];
  } catch (error) {
    return [false, `BROKEN    ${what}: ${String(error.message).slice(0, 300)}`];
  } finally {
    fs.writeFileSync(target, whole);
  }
}

const [part, of] = partOf(argv, REPORTING.map((crate) => path.join(copy, crate)));
const mine = (faults) => chosen(faults, value('--only', null)).filter((_, i) => i % of === part);
const answers = [...mine(FAULTS).map((it) => one(it, true)), ...mine(ROWS).map((it) => one(it, false))];
const own = first(false);
if (own !== null) answers.push([false, `SEEN      (nothing planted)   ${own}`]);
fs.rmSync(copy, { recursive: true });
for (const [isWell, line] of answers) if (!isWell || !argv.includes('--brief')) console.log(line);
const bad = answers.filter(([isWell]) => !isWell).length;
console.log(`${mine(FAULTS).length + mine(ROWS).length} faults, and nothing planted; of these ${bad} otherwise than they should`);
process.exitCode = bad === 0 ? 0 : 1;
