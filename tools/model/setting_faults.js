'use strict';
// The first key of settings that doesn't fit, in the words of a refusal, apart from the definitions in `crates/rules/specs/Misfits.antt`:
// a table here is a Map, and each value is asked by its kind.

const MOST_SHOWN = 40;
const LISTED = {
  severity: 'true, false, "off", "warn", "error", 0, 1 or 2',
  rule: 'true, false, "off", "warn", "error", 0, 1, 2 or a table with a severity or options',
  names: 'an array of 100 strings at most, each with a * at one end at most',
  set: '"nine", "recommended", "all" or "none"',
  sets: '"nine", "recommended", "all", "none" or an array of these',
  environment: '"browser", "node", "commonjs", "worker", "es2022", "mocha" or "jest"',
};
const OPTION_WORDS = {
  'args': '"none", "after-used" or "all"',
  'caught-errors': '"none" or "all"',
  'args-ignore': LISTED.names,
  'vars-ignore': LISTED.names,
  'caught-errors-ignore': LISTED.names,
  'allow': LISTED.names,
};

function shownName(name) {
  const bytes = Buffer.from(name);
  const shown = [...bytes.subarray(0, MOST_SHOWN)].map((byte) => (byte < 32 || byte > 126 ? '?' : String.fromCharCode(byte))).join('');
  return shown + (bytes.length > MOST_SHOWN ? '...' : '');
}

function shownValue(value) {
  if (typeof value === 'string') return `"${shownName(value)}"`;
  if (typeof value === 'boolean') return String(value);
  const other = value !== null && typeof value === 'object' ? value.other : undefined;
  return other !== undefined && /^[+-]?\d+$/.test(other) ? String(BigInt(other.replace('+', ''))) : '...';
}

const byBytes = (table) => [...table].sort(([a], [b]) => Buffer.compare(Buffer.from(a), Buffer.from(b)));
const takes = (key, value, wish) => `${key} = ${shownValue(value)}: it takes ${wish}`;
const isNone = (key, value, kind) => `${key} = ${shownValue(value)}: there is no such ${kind}`;

// Of an array: its first element that doesn't fit, else its first that stands again behind it.
function faultOfArray(key, values, fits, why, whole) {
  if (!Array.isArray(values)) return takes(key, values, whole);
  const unfit = values.findIndex((it) => !fits(it));
  if (unfit >= 0) return `${key} has ${shownValue(values[unfit])}${why}`;
  const twice = values.find((it, at) => values.indexOf(it, at + 1) > at);
  return `${key} has ${shownValue(twice)} twice`;
}

function faultOfRule(name, value, { isRule, severityOf, options }) {
  const path = `rules.${shownName(name)}`;
  if (!isRule(name)) return isNone(path, value, 'rule');
  if (!(value instanceof Map)) return severityOf(value) === null ? takes(path, value, LISTED.rule) : null;
  for (const [key, one] of byBytes(value)) {
    const own = options[name] ?? {};
    const below = `${path}.${shownName(key)}`;
    if (key === 'severity') {
      if (severityOf(one) === null) return takes(below, one, LISTED.severity);
    } else if (!Object.hasOwn(own, key)) {
      return isNone(below, one, 'option');
    } else if (!own[key](one)) {
      return takes(below, one, OPTION_WORDS[key] ?? 'true or false');
    }
  }
  return null;
}

function faultOfRules(rules, known) {
  if (rules === undefined) return null;
  if (!(rules instanceof Map)) return takes('rules', rules, 'a table');
  return byBytes(rules)
    .map(([name, value]) => faultOfRule(name, value, known))
    .find((it) => it !== null) ?? null;
}

// What is wrong with a table; null where nothing is. `known` says what there is: keys, rules, sets, environments, severities and options.
function faultOf(root, known) {
  const strange = byBytes(root).find(([key]) => !known.keys.includes(key));
  if (strange !== undefined) return isNone(shownName(strange[0]), strange[1], 'key');
  const ofRules = faultOfRules(root.get('rules'), known);
  if (ofRules !== null) return ofRules;
  const lists = [
    ['extends', known.isSet, `: it takes ${LISTED.set}`, LISTED.sets, (it) => known.isSet(it) || (Array.isArray(it) && it.every(known.isSet))],
    [
      'only',
      known.isRule,
      ': there is no such rule',
      'an array of strings',
      (it) => Array.isArray(it) && it.every(known.isRule) && new Set(it).size === it.length,
    ],
    [
      'globals',
      (it) => typeof it === 'string',
      ': it takes strings',
      'an array of strings',
      (it) => Array.isArray(it) && it.every((one) => typeof one === 'string'),
    ],
    ['env', known.isEnvironment, `: it takes ${LISTED.environment}`, 'an array of strings', (it) => Array.isArray(it) && it.every(known.isEnvironment)],
  ];
  for (const [key, fits, why, whole, isTaken] of lists) {
    if (root.has(key) && !isTaken(root.get(key))) return faultOfArray(key, root.get(key), fits, why, whole);
  }
  const year = shownValue(root.get('edition') ?? null);
  const type = root.get('source-type');
  if (root.has('edition') && !['2020', '2022'].includes(year)) return takes('edition', root.get('edition'), '2020 or 2022');
  if (root.has('source-type') && !['script', 'module'].includes(type)) return takes('source-type', type, '"script" or "module"');
  if (year === '2020' && type === 'module') return 'source-type = "module": there are none in edition = 2020';
  const flag = ['allow-null', 'allow-comments', 'ignore-underscore'].find((it) => root.has(it) && typeof root.get(it) !== 'boolean');
  return flag === undefined ? null : takes(flag, root.get(flag), 'true or false');
}

module.exports = { faultOf };
