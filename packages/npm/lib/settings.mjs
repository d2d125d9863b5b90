// Changes of a jslint.toml. Whether one is right isn't known here: it is tried (`settingsEffect` of jobs.mjs) before it is offered.

// The environments that the program knows.
export const ENVIRONMENTS = ['browser', 'node', 'commonjs', 'worker', 'es2022', 'mocha', 'jest'];
// By the name of a language: what a text of it is, and the line that says so.
export const LANGUAGES = { module: { what: 'module', line: 'source-type = "module"' }, 2022: { what: 'script of ES2022', line: 'edition = 2022' } };

// The table `[format]` with what stands in it, up to the next table.
const FORMAT_TABLE = /^\[[ \t]*format[ \t]*\][ \t]*(?:#[^\n]*)?\r?(?:\n(?![ \t]*\[)[^\n]*)*/gm;
// What begins a string of several lines, in which a line that looks like a table's head is none.
const LONG_STRING = /"""|'''/;

/** Settings without the table `[format]`, which is for formatting alone, and which the program refuses. Its lines stay, empty. */
export function withoutFormat(settings) {
  return LONG_STRING.test(settings) ? settings : settings.replace(FORMAT_TABLE, (it) => it.replace(/[^\n]/g, ''));
}

/** The text with a name more among the globals, or among the environments. */
function withName(text, key, name, lineEnd) {
  const word = JSON.stringify(name),
    found = new RegExp(`^([ \\t]*${key}[ \\t]*=[ \\t]*\\[)([^\\]]*?)(,?)(\\s*)\\]`, 'm').exec(text);
  if (!found) return `${key} = [${word}]${lineEnd}${text}`;
  const [all, head, names, , blanks] = found,
    { index } = found;
  return `${text.slice(0, index)}${head}${names}${names.trim() ? ', ' : ''}${word}${blanks}]${text.slice(index + all.length)}`;
}

const SEVERITY = /((?:^|[\n{,.])[ \t]*severity[ \t]*=[ \t]*)(?:true|[12](?!\w)|"(?:warn|error)"|'(?:warn|error)')/;
const OFF = 'severity = "off"';

/** The text with a rule turned off that has a table with options; null where it has none. */
function withOptionsOff(text, rule, lineEnd) {
  const inline = new RegExp(`((?:^|[{,])[ \\t]*(?:rules\\.)?"?${rule}"?[ \\t]*=[ \\t]*)(\\{[^}\\n]*\\})`, 'm'),
    head = new RegExp(`^([ \\t]*\\[rules\\."?${rule}"?\\][ \\t]*(?:#[^\\r\\n]*)?)((?:\\r?\\n(?![ \\t]*\\[)[^\\r\\n]*)*)`, 'm'),
    dotted = new RegExp(`^([ \\t]*rules\\.${rule})(\\.severity\\b[^\\r\\n]*)`, 'm'),
    option = new RegExp(`^([ \\t]*)(?=rules\\.${rule}\\.)`, 'm');
  const said = (table) => (SEVERITY.test(table) ? table.replace(SEVERITY, '$1"off"') : null);
  if (inline.test(text))
    return text.replace(inline, (_, start, table) => `${start}${said(table) ?? table.replace('{', /[^{}\s]/.test(table) ? `{ ${OFF},` : `{ ${OFF}`)}`);
  if (head.test(text)) return text.replace(head, (_, start, table) => `${start}${said(table) ?? `${lineEnd}${OFF}${table}`}`);
  if (dotted.test(text)) return text.replace(dotted, (_, start, value) => `${start}${said(value) ?? value}`);
  return option.test(text) ? text.replace(option, (_, blanks) => `${blanks}rules.${rule}.${OFF}${lineEnd}${blanks}`) : null;
}

/** The text with a rule turned off. */
function withoutRule(text, rule, lineEnd) {
  const withOptions = withOptionsOff(text, rule, lineEnd);
  if (withOptions !== null) return withOptions;
  const on = new RegExp(`((?:^|[{,])[ \\t]*(?:rules\\.)?"?${rule}"?[ \\t]*=[ \\t]*)(?:true|[12](?!\\w)|"(?:warn|error)"|'(?:warn|error)')`, 'm');
  if (on.test(text)) return text.replace(on, '$1false');
  const head = /^([ \t]*\[rules\][ \t]*(?:#[^\r\n]*)?)(?=\r?$)/m,
    inline = /^([ \t]*rules[ \t]*=[ \t]*\{)([^}\n]*?)[ \t]*\}/m,
    dotted = /^([ \t]*rules\.)/m;
  if (head.test(text)) return text.replace(head, `$1${lineEnd}${rule} = false`);
  if (inline.test(text)) return text.replace(inline, (_, start, rules) => `${start}${rules}${rules.trim() ? ',' : ''} ${rule} = false }`);
  if (dotted.test(text)) return text.replace(dotted, `rules.${rule} = false${lineEnd}$1`);
  return `${text}${text === '' || text.endsWith('\n') ? '' : lineEnd}[rules]${lineEnd}${rule} = false${lineEnd}`;
}

/** The text with a language. */
function withLanguage(text, { line }, lineEnd) {
  const key = line.split(' ')[0],
    said = new RegExp(`^[ \\t]*${key}[ \\t]*=[^\\r\\n#]*?(?=[ \\t]*(?:#|\\r?$))`, 'm');
  return said.test(text) ? text.replace(said, line) : `${line}${lineEnd}${text}`;
}

/** The settings' text as wished: with a language, with an environment, with a name more among the globals, or with a rule turned off. */
export function settingsWith(text, { rule, name, env, language }) {
  const lineEnd = text.includes('\r\n') ? '\r\n' : '\n';
  if (language !== undefined) return withLanguage(text, LANGUAGES[language], lineEnd);
  if (env !== undefined) return withName(text, 'env', env, lineEnd);
  return name === null ? withoutRule(text, rule, lineEnd) : withName(text, 'globals', name, lineEnd);
}
