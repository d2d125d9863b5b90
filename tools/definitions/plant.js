#!/usr/bin/env node
'use strict';
// Does the tester see faults? Plants one fault at a time into a copy of the definitions and runs
// run.js on it, JOBS side by side:  node plant.js [--specs FOLDER] [--n N] [--jobs J] [--only NAME|NAME..]
// FOLDER: a folder of crates. A fault whose text isn't found any more is named. Exit status 1 where one isn't seen.

const fs = require('fs');
const path = require('path');
const { spawn } = require('child_process');
const { CRATES } = require('./model.js');
const { copyOf, filesBelow, chosen } = require('./planting.js');

const argv = process.argv.slice(2);
const value = (name, d) => {
  const i = argv.indexOf(name);
  return i < 0 ? d : argv[i + 1];
};
const folder = path.resolve(value('--specs', path.join(__dirname, '../../crates')));
const crates = CRATES.map((c) => path.basename(c));
const n = value('--n', '12');

const FAULTS = [
  ['left side of ?? takes ||', 'not (nat_eq y 4 && (nat_eq z 5 || nat_eq z 6))', 'true'],
  ['new without arguments takes a call', '&& not (nat_eq y 19 && nat_eq z 20)', ''],
  [
    '&&= assigns nothing',
    'operator_of text = operator_among text operators',
    'operator_of text = cond (is text "&&=") op_none (operator_among text operators)',
  ],
  [
    'a pattern on the left of a logical assignment',
    'cond (is text "=" && is_pattern (lead_kind parts))',
    'cond ((is text "=" || is text "||=") && is_pattern (lead_kind parts))',
  ],
  ['** takes a unary left', 'sub (lead Update) ∷ infix_pieces w', 'sub (lead Unary) ∷ infix_pieces w'],
  ['** is left associative', 'put (expr Exponentiation true Any) ∷ []) ∷ []', 'put (expr Update true Any) ∷ []) ∷ []'],
  ['right operand at the node\'s symbol', 'sub (tail q Any) ∷ [])', 'sub (tail z Any) ∷ [])'],
  ['in without In', 'at_in (is text "in")', 'at_in false'],
  ['consequent of ?: without In kept', 'sp ∷ sign "?" ∷ sp ∷ assignment ∷', 'sp ∷ sign "?" ∷ sp ∷ sub (tail Assignment Any) ∷'],
  ['alternate of ?: with In', 'sign ":" ∷ sp ∷ sub (tail Assignment Any)', 'sign ":" ∷ sp ∷ assignment'],
  ['test of ?: at Conditional', 'sub (left ShortCircuit)', 'sub (left Conditional)'],
  ['arrow body may begin with {', 'sub (tail Assignment NoBrace)', 'sub (tail Assignment Any)'],
  ['break before =>', 'arrow_end flags = unbroken ∷ sp', 'arrow_end flags = sp'],
  ['break before postfix', 'sub (lead LeftHandSide) ∷ unbroken ∷', 'sub (lead LeftHandSide) ∷'],
  ['grouped pattern', 'fits_position (pattern b f) x = starts f x.pieces', 'fits_position (pattern b f) x = true'],
  ['comma behind a rest', 'separator kind true = cond (is_rest kind) [] (may (codes ",") ∷ [])', 'separator kind true = may (codes ",") ∷ []'],
  ['a rest that is not last', 'separator kind false = cond (is_rest kind) nothing', 'separator kind false = cond (is_rest kind) (sign "," ∷ sp ∷ [])'],
  ['object rest takes a pattern', 'cond (of_object && is_a_pattern (lead parts)) []', 'cond false []'],
  ['statement begins with function', '("function" ∷ "class" ∷ [])', '("class" ∷ [])'],
  ['statement begins with {', 'starts start (tok Punctuator w ∷ qs) = not (is w "{")', 'starts start (tok Punctuator w ∷ qs) = true'],
  ['dangling else', 'cond (ends_in_if c) [] (only (front', 'cond false [] (only (front'],
  ['for-of right at Expression', 'term "of" ∷ sp ∷ put (expr Assignment true Any)', 'term "of" ∷ sp ∷ whole'],
  ['for init with In', '(head true) (expr Expression false Any)) ∷ []))', '(head true) (expr Expression true Any)) ∷ []))'],
  ['for head declarator with In', 'declaration text (declarator false b)', 'declaration text (declarator true b)'],
  ['for-in with initialiser', '(Some (head false)) (bound', '(Some (head true)) (bound'],
  ['two defaults', 'nat_le (defaults (others parts)) 1', 'nat_le (defaults (others parts)) 2'],
  ['return outside', 'cond r (only (term "return"', 'cond true (only (term "return"'],
  ['break before return\'s expression', 'given parts (sp ∷ unbroken ∷ piece ∷ [])', 'given parts (sp ∷ piece ∷ [])'],
  ['directive may be grouped', 'only (put directive_string ∷ end_of Other', 'only (put (expr Expression true Any) ∷ end_of Other'],
  ['string statement in a prologue is not grouped', 'only (put (expr Grouped true Any)', 'only (put (expr Expression true Statement)'],
  ['prologue goes on behind a statement', '(b && is_directive tree)', 'b'],
  ['arrow goes on with (', 'goes_on Arrow token = false', 'goes_on Arrow token = is_sign token && is token.text "("'],
  ['postfix goes on with (', 'among token.text ("+" ∷ "-" ∷ [])) ||', 'among token.text ("+" ∷ "-" ∷ "(" ∷ [])) ||'],
  ['postfix does not go on with /', ') || begins token 47\n', ')\n'],
  ['expression does not go on with a template', '(begins token 47 || begins token 96)', 'begins token 47'],
  ['grouped arrow counts as arrow', 'cond (is last.text ")") Other Arrow', 'Arrow'],
  ['grouped postfix counts as postfix', 'cond (is last.text ")") Other Postfix', 'Postfix'],
  ['do needs a break', 'there of_do = true', 'there of_do = t.after_break'],
  ['no ; before }', '(is_sign t && is t.text "}")', 'false'],
  ['edge of a conditional', 'goes_right ConditionalExpression = true\n', ''],
  ['edge of a declarator', 'goes_right VariableDeclarator = true\n', ''],
  ['chain base at Member', 'cond optional (only (sub (lead Call)', 'cond optional (only (sub (lead Member)'],
  [
    'template behind a chain',
    'is_chain_part kind.CallExpression = true',
    'is_chain_part kind.CallExpression = true\nis_chain_part kind.TaggedTemplateExpression = true',
    'chain_parts _ flags parts = []',
    'chain_parts TaggedTemplateExpression flags parts = chain_element false parts (put tagged_quasi ∷ [])\nchain_parts _ flags parts = []',
  ],
  ['super at Call', 'at Member (put base ∷ selector flags Identifier)', 'at Call (put base ∷ selector flags Identifier)'],
  ['import at Member', 'at Call (term "import"', 'at Member (term "import"'],
  ['extends at Member', 'put (expr LeftHandSide true Any) ∷ sp ∷ [])', 'put (expr Member true Any) ∷ sp ∷ [])'],
  ['reserved word as a name', '"package" ∷ "private"', '"private"'],
  ['shorthand of a reserved word', 'names Identifier text = cond (is_reserved text) []', 'names Identifier text = cond false []'],
  ['object key a BigInt is no key', 'is_open_number NumericLiteral text = not (ends_in_n text)', 'is_open_number NumericLiteral text = true'],
  [
    'last hole without comma',
    'absent ∷ sign "," ∷ cond (is_none others)',
    'absent ∷ cond (is_none others) (may (codes ",")) (sign ",") ∷ cond (is_none others)',
  ],
  ['places of a template part', 'l.stop - cond c 1 2', 'l.stop - 1'],
  ['cost of the grouped', 'add_cost (Some 1) (if_any', 'add_cost (Some 2) (if_any'],
  ['tie wraps', 'exceeds (Some m) (Some n) = nat_lt n m', 'exceeds (Some m) (Some n) = nat_le n m'],
  ['cell at Call counts as at Member', 'nat_le 21 (precedence rank)', 'nat_le 20 (precedence rank)'],
  ['space in a template', 'lead_text d b (lay space ∷ qs) next = 32 ∷', 'lead_text d b (lay space ∷ qs) next = 32 ∷ 32 ∷'],
  ['no space between - and -', 'cond (is w "-") (lay (apart 45) ∷ []) []', '[]'],
  ['E5 in for heads', '&& not z.in_head', ''],
  ['E16 in arrows at the top', '"new") && not z.new_target)', '"new") && false)'],
  // early errors
  ['E1 of for-of', 'names_given ForOfStatement parts = first_names parts\n', ''],
  ['E1 of an arrow\'s parameters', 'names_given ArrowFunctionExpression parts = parameter_names parts\n', ''],
  ['E2 of anything', 'is text "delete" && is_identifier (lead parts)', 'is text "delete"'],
  [
    'E3 counts functions at the top',
    'scope_lexical z Program parts = each_part (lexical_names z.in_module) parts',
    'scope_lexical z Program parts = each_part (lexical_names true) parts',
  ],
  ['E3 not in a declaration', ' ++ twice (declaration_names kind text parts)', ''],
  ['E4 functions of a body are no var names', 'cond z.is_body (each_part function_names parts) [] ++ parts_vars parts', 'parts_vars parts'],
  ['E6 counts the function\'s name', 'parameters_on FunctionExpression parts = others parts', 'parameters_on FunctionExpression parts = parts'],
  [
    'E7 counts functions',
    'each_part (lexical_names false) (body_items (parameters_on kind parts))',
    'each_part (lexical_names true) (body_items (parameters_on kind parts))',
  ],
  ['E8 one quote alone', '("\'use strict\'" ∷ "\\"use strict\\"" ∷ [])', '("\'use strict\'" ∷ [])'],
  ['E9 break in a switch', 'not (z.in_loop || z.in_switch)', 'not z.in_loop'],
  ['E10 continue to a block', '(bytes_eq l.0 text && l.1)', 'bytes_eq l.0 text'],
  ['E10 a label of a label of a loop', '(is_label kind && last_loop parts)', 'false'],
  ['E11 labels cross functions', 'in_switch = false; labels = []; is_body = true;', 'in_switch = false; is_body = true;'],
  ['E12 not var names', ' ++ parts_vars (body_items parts)))', '))'],
  [
    'E13 not of for-of',
    'for_name_is_var (node ForOfStatement text flags from to parts) = places (shared (head_lexical parts) (parts_vars (others (others parts))))',
    'for_name_is_var (node ForOfStatement text flags from to parts) = []',
  ],
  ['E14 in arrows', 'labels = []; is_body = true;', 'labels = []; is_body = true; super_property = false;'],
  ['E14 in a method\'s key', 'around_first z MethodDefinition flags parts = key_of z flags.computed\n', ''],
  ['E15 any method', 'in_method z (z.derived && is_constructor flags.form)', 'in_method z z.derived'],
  ['E17 the third alone', 'after_first (each_part constructor_places parts)', 'after_first (after_first (each_part constructor_places parts))'],
  [
    'E18 static too',
    '((is_accessor flags.form || not (is_init (value_form parts))) && not flags.is_static)',
    '(is_accessor flags.form || not (is_init (value_form parts)))',
  ],
  [
    'E19 computed too',
    'static_prototype (node MethodDefinition text flags from to parts) =\n    when (flags.is_static && (not flags.computed && has_key parts (λ n. named n "prototype")))',
    'static_prototype (node MethodDefinition text flags from to parts) =\n    when (flags.is_static && has_key parts (λ n. named n "prototype"))',
  ],
  ['E20 tagged too', 'when (not z.tagged && some_uncooked parts)', 'when (some_uncooked parts)'],
  ['E21 twice', '(not (holds w c) && are_among known w)', 'are_among known w'],
  ['E21 an unknown flag', 'known_flags false = codes "gimsuy"', 'known_flags false = codes "gimsuyd"'],
  ['the least error is the last', 'nat_lt x.1 y.1 || ', 'nat_lt y.1 x.1 || '],
  [
    'a string\'s value ends at an escape',
    'key_units text = literal_units text',
    'key_units text = codes ""',
    'use Rattle.std.specs.Prelude.{ℕ, cond, List}',
    'use Rattle.std.specs.Prelude.{ℕ, cond, List, codes}',
  ],
  // tokens
  ['string goes on behind its quote', 'if c == quote then is_empty cs\n    else', 'if c == quote && is_empty cs then true\n    else'],
  ['string over a carriage return', 'not (c == line_feed || c == carriage_return) &&', 'not (c == line_feed) &&'],
  ['string not over U+2028', 'not (c == line_feed || c == carriage_return) &&', 'not (c == line_feed || c == carriage_return || c == 0x2028) &&'],
  ['template ends at any $', 'one_of "$" c && begins_with (one_of "{") cs then', 'one_of "$" c then'],
  ['template: a backslash takes nothing', 'closes_template (one_of "\\\\" c) cs', 'closes_template false cs'],
  [
    'regular expression ends in brackets',
    'else if one_of "]" c then body else brackets',
    'else if one_of "]" c then body else if one_of "/" c then flags else brackets',
  ],
  ['flags are the known ones alone', 'next_expression flags c = if is_identifier_part c then', 'next_expression flags c = if one_of "gimsuy" c then'],
  [
    'regular expression over U+2028 behind a backslash',
    'next_expression body_backslash c = if is_line_terminator c then',
    'next_expression body_backslash c = if c == 10 || c == 13 then',
    'Prelude.{ℕ, Bool, true, false, ◌&&◌, List, [], ◌∷◌, if◌then◌else◌}\nuse Rattle.source_text.specs.Lines',
    'Prelude.{ℕ, Bool, true, false, ◌&&◌, ◌||◌, ◌==◌, List, [], ◌∷◌, if◌then◌else◌}\nuse Rattle.source_text.specs.Lines',
  ],
  ['?. before a digit', '("?." ∷ "." ∷ [])', '("." ∷ [])'],
  ['. before a digit', '("?." ∷ "." ∷ [])', '("?." ∷ [])'],
  ['punctuator >>>= missing', '∷ ">>>=" ∷', '∷'],
  ['not the longest', '&& none_longer class text rest && ends_well', '&& ends_well'],
  ['number before a name', 'not (begins_with is_identifier_start rest || begins_with is_decimal_digit rest)', 'not (begins_with is_decimal_digit rest)'],
  ['number 01', 'next_numeral zero_read c = after_zero c', 'next_numeral zero_read c = if is_decimal_digit c then integer else after_zero c'],
  ['number 1e', 'is_complete exponent_mark = false', 'is_complete exponent_mark = true'],
  [
    'number 1.n',
    'else if one_of "eE" c then exponent_mark else no_numeral',
    'else if one_of "eE" c then exponent_mark else if one_of "n" c then suffix else no_numeral',
  ],
  [
    'two separators',
    'next_numeral integer_separator c = if is_decimal_digit c then integer else no_numeral',
    'next_numeral integer_separator c = if is_decimal_digit c then integer else if one_of "_" c then integer_separator else no_numeral',
  ],
  ['separator last', 'is_complete integer_separator = false', 'is_complete integer_separator = true'],
  [
    'separator behind a leading 0',
    'next_numeral zero_read c = after_zero c',
    'next_numeral zero_read c = if one_of "_" c then integer_separator else after_zero c',
  ],
  [
    'separator behind the point',
    'next_numeral point c = after_fraction c',
    'next_numeral point c = if one_of "_" c then fraction_separator else after_fraction c',
  ],
  [
    'separator behind e',
    'next_numeral exponent_mark c = if is_decimal_digit c then exponent else',
    'next_numeral exponent_mark c = if is_decimal_digit c then exponent else if one_of "_" c then exponent_separator else',
  ],
  [
    'separator behind a prefix',
    'next_numeral (prefix base) c = if is_digit_of base c then digits base else',
    'next_numeral (prefix base) c = if is_digit_of base c then digits base else if one_of "_" c then digits_separator base else',
  ],
  [
    'separator before n',
    'next_numeral (digits_separator base) c = if is_digit_of base c then digits base else',
    'next_numeral (digits_separator base) c = if is_digit_of base c then digits base else if one_of "n" c then suffix else',
  ],
  ['no separator in a fraction', 'if one_of "_" c then fraction_separator else after_fraction c', 'after_fraction c'],
  ['no separator in an exponent', 'then exponent else if one_of "_" c then exponent_separator else no_numeral', 'then exponent else no_numeral'],
  ['punctuator ??= missing', '∷ "??=" ∷', '∷'],
  ['white space U+205F missing', '0x205F ∷ ', ''],
  ['white space U+200B too much', 'nat_le c 0x200A', 'nat_le c 0x200B'],
  ['line terminator U+2029 missing', ' || (c == 0x2029)', ''],
  ['CR LF are two lines', 'is_line_terminator c && not (c == 13 && d == 10)', 'is_line_terminator c'],
  [
    'comment to the last */',
    'closes_comment (c ∷ d ∷ e ∷ cs) = not (one_of "*" c && one_of "/" d) && closes_comment',
    'closes_comment (c ∷ d ∷ e ∷ cs) = closes_comment',
  ],
  ['comment over a line', 'begins_with (one_of "/") cs && not (list_any is_line_terminator cs) &&', 'begins_with (one_of "/") cs &&'],
  ['comment without end begins no token', 'one_of "/" c && begins_with (one_of "/*") cs', 'one_of "/" c && begins_with (one_of "/") cs'],
  ['name may not go on with $', 'is_identifier_part c = one_of "$" c || ', 'is_identifier_part c = '],
  ['name begins with a digit', 'is_name (c ∷ cs) = is_identifier_start c &&', 'is_name (c ∷ cs) = is_identifier_part c &&'],
  ['} is a template\'s for any goal', 'beq (is_template_part class) (reads_template_parts goal)', 'true'],
  ['/ is an expression\'s for any goal', 'beq (is_regexp class) (reads_regexps goal)', 'true'],
  [
    'escape \\0 before a digit',
    '(if begins_with is_decimal_digit cs then None else Some (record { more = 1; units = 0 ∷ [] }))',
    '(Some (record { more = 1; units = 0 ∷ [] }))',
  ],
  ['escape over the last code point', ' && nat_le (hex_value 0 digits) 0x10FFFF', ''],
  [
    'escape of a line end has a value',
    'is_line_terminator c then Some (record { more = 1; units = [] })',
    'is_line_terminator c then Some (record { more = 1; units = 10 ∷ [] })',
  ],
  ['escape \\v', 'one_of "v" c then 0xB', 'one_of "v" c then 0xC'],
  ['raw value keeps CR LF', 'if returned && (c == line_feed) then [] else ', ''],
  ['code points of three bytes', 'points_from 2 (c - 0xE0) cs', 'points_from 2 (c - 0xE1) cs'],
  ['template token keeps CR LF', 'table_text Template text = raw_value text\n', ''],
];

let bad = 0;

function plant(fault) {
  const dir = copyOf(folder, crates);
  const hit = [];
  for (const p of fault === null ? [] : filesBelow(dir)) {
    if (!p.endsWith('.antt') || /Rows|Examples|Nest/.test(path.basename(p))) continue;
    let s = fs.readFileSync(p, 'utf8');
    if (!s.includes(fault[1])) continue;
    hit.push(path.relative(dir, p).split(path.sep)[0]);
    for (let k = 1; k < fault.length; k += 2) s = s.split(fault[k]).join(fault[k + 1]);
    fs.writeFileSync(p, s);
  }
  return { dir, hit };
}
// what run.js prints
function run(args) {
  return new Promise((resolve) => {
    const p = spawn(process.execPath, [path.join(__dirname, 'run.js'), ...args]);
    let out = '';
    p.stdout.on('data', (d) => {
      out += d;
    });
    p.stderr.on('data', (d) => {
      out += d;
    });
    p.on('close', () => resolve(out));
  });
}
async function one(fault) {
  const { dir, hit } = plant(fault);
  if (fault !== null && hit.length === 0) {
    fs.rmSync(dir, { recursive: true });
    bad += 1;
    return `not applicable   ${fault[0]}`;
  }
  const parts =
    fault === null
      ? 'odd,programs,generated,early,tokens'
      : hit.some((c) => c === 'tokens' || c === 'source_text') || fault[0].startsWith('code points')
      ? 'tokens,odd'
      : hit.includes('early_errors')
      ? 'odd,early'
      : 'odd,programs,generated';
  const out = await run(['--specs', dir, '--n', n, '--jobs', '1', '--only', parts, '--fast', '--first']);
  fs.rmSync(dir, { recursive: true });
  const kinds = [...out.matchAll(/^\* ([^\n]*)/gm)].map((m) => m[1]).filter((k) => !k.startsWith('example'));
  const broken = !/kinds of disagreement/.test(out);
  if (broken || (kinds.length > 0) === (fault === null)) bad += 1;
  return broken
    ? `BROKEN           ${fault?.[0]}: ${out.slice(0, 300)}`
    : `${kinds.length > 0 ? 'seen  ' : 'NOT SEEN'}  ${fault === null ? '(nothing planted)' : fault[0]}${kinds.length > 0
        ? '   ' +
            kinds
              .slice()
              .sort((a, b) => a.length - b.length)[0]
              .slice(0, 150)
        : ''}`;
}
(async () => {
  const faults = chosen(FAULTS, value('--only', null)); // those whose name has this text
  const queue = [null, ...faults];
  const next = async () => {
    while (queue.length > 0) console.log(await one(queue.shift()));
  };
  await Promise.all(Array.from({ length: Number(value('--jobs', '4')) }, next));
  console.log(`${faults.length} faults, and nothing planted; of these ${bad} otherwise than they should`);
  process.exitCode = bad === 0 ? 0 : 1;
})();
