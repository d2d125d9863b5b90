// What the rules find in files, in the form of ESLint's formatter `json`, for the tools that read it.
import { placesIn } from './core.mjs';
import { Refused, check } from '#jslint';

const SEVERITIES = { warning: 1, error: 2 };

/** Counts columns as ESLint does, in UTF-16 units and without a byte order mark. Places come in order. */
function columnsIn(text) {
  const index = placesIn(text),
    startOf = placesIn(text),
    mark = text.startsWith('\ufeff') ? 1 : 0;
  return (line, column) => Math.max(1, index(line, column) - startOf(line, 1) + 1 - (line === 1 ? mark : 0));
}

/** Messages as ESLint has them. Severity 2 is an error, 1 a warning. */
function messagesOf(reports, source) {
  const columns = columnsIn(source);
  return reports.map((it) => ({ ruleId: it.rule, severity: SEVERITIES[it.severity], message: it.message, line: it.line, column: columns(it.line, it.column) }));
}

/** A refused text has one message without a rule, which ESLint calls fatal. */
function fatalOf(message, line, column) {
  return { ruleId: null, fatal: true, severity: 2, message, line, column };
}

/** The message of a refusal; one that names no place is put at the first. */
function refusalOf(refused, source) {
  if (refused.line === undefined) return fatalOf(refused.message, 1, 1);
  return fatalOf(refused.message.replace(/ at \d+:\d+$/, ''), refused.line, columnsIn(source)(refused.line, refused.column));
}

function resultWith(filePath, messages, source) {
  const count = (severity) => messages.filter((it) => it.severity === severity).length;
  return {
    filePath,
    messages,
    suppressedMessages: [],
    errorCount: count(SEVERITIES.error),
    fatalErrorCount: messages.filter((it) => it.fatal).length,
    warningCount: count(SEVERITIES.warning),
    fixableErrorCount: 0,
    fixableWarningCount: 0,
    ...(source === null ? {} : { source }),
    usedDeprecatedRules: [],
  };
}

/** A file's result: its path, what was found in its text, and the text where anything was. Settings that are refused are thrown. */
export function resultOf(filePath, text, { settings = '', language } = {}) {
  const source = text instanceof Uint8Array ? new TextDecoder('utf-8', { ignoreBOM: true }).decode(text) : text;
  try {
    const reports = check(text, { settings, language });
    return reports.length === 0 ? resultWith(filePath, [], null) : resultWith(filePath, messagesOf(reports, source), source);
  } catch (error) {
    if (!(error instanceof Refused) || error.code === 'settings') throw error;
    // (of a text that is too long not all need be here)
    return resultWith(filePath, [refusalOf(error, source)], error.code === 'long' ? null : source);
  }
}

/** The result of a file that can't be read: why not. */
export function unreadResult(filePath, message) {
  return resultWith(filePath, [fatalOf(message, 1, 1)], null);
}

/** The results of several files as the formatter `json` writes them. */
export function format(results) {
  return JSON.stringify(results);
}
