// What an editor shows of an answer: reports and refusals as diagnostics, and the words of a hover.
import { existsSync } from 'node:fs';
import { NAME, SEVERITIES } from './editor.mjs';
import { texts } from './texts.mjs';

export { texts };
export const UNNECESSARY = 1;
// What an editor may show faded.
const FADED = new Set(['no-extra-parens', 'no-unused-vars']);
const pages = new Map();
const TOKEN = /^(?:[$_\p{ID_Continue}]+|[^\s])/u;

/** What USAGE.md says of a refusal by this message, or nothing. */
function adviceOn(message) {
  const asked = message.replace(/\d+:\d+$/, 'L:C').replace(/byte \d+$/, 'byte N');
  return Object.hasOwn(texts.refusals, asked) ? texts.refusals[asked] : '';
}

/** The address of a rule's page beside this file, or null. */
function pageOf(rule) {
  if (!pages.has(rule)) {
    const page = Object.hasOwn(texts.rules, rule) ? new URL(`./${rule}.md`, import.meta.url) : null;
    pages.set(rule, page && existsSync(page) ? page.href : null);
  }
  return pages.get(rule);
}

const hintOf = (it) => (it.hint ? `perhaps: ${it.hint}` : '');

/** The words of a hover on a refusal, in Markdown. */
function aboutRefusal(it) {
  const about = it.code === 'early' ? `early error E${it.number}: ${texts.early[it.number]}` : adviceOn(it.message);
  return [`**${it.message}**`, about, hintOf(it)].filter(Boolean).join('\n\n');
}

export class Shown {
  constructor(editor) {
    this.editor = editor;
  }

  diagnostic(document, start, end, severity, code, message, tags) {
    const href = this.editor.can.links ? pageOf(code) : null;
    return {
      range: document.rangeOf(start, end),
      severity,
      code,
      ...(href ? { codeDescription: { href } } : {}),
      source: NAME,
      message,
      ...(tags && this.editor.can.tags ? { tags } : {}),
    };
  }

  /** A fault that has no place in the document. */
  fault(document, code, message) {
    return [this.diagnostic(document, 0, 0, SEVERITIES.error, code, message)];
  }

  /** A report; one of a rule that only warns is a warning at most. */
  report(document, it) {
    const asked = SEVERITIES[this.editor.options.severity],
      severity = it.isWarning ? Math.max(asked, SEVERITIES.warning) : asked;
    return this.diagnostic(document, it.start, it.end, severity, it.rule, it.message, FADED.has(it.rule) ? [UNNECESSARY] : undefined);
  }

  reports(document, { reports, left }) {
    const shown = reports.slice(0, this.editor.options.maxDiagnostics).map((it) => this.report(document, it)),
      more = left + reports.length - shown.length;
    if (more > 0) shown.push(this.diagnostic(document, 0, 0, SEVERITIES.information, 'more', `${more} further reports aren't shown`));
    return shown;
  }

  /** A refusal. Where the text seems to have what the profile lacks, the editor's settings say how it is shown. */
  refusal(document, it) {
    const { unsupported } = this.editor.options;
    if (it.isLacking && unsupported === 'off') return [];
    const words = it.code === 'early' ? `${texts.early[it.number]} (early error E${it.number})` : it.message.replace(/ at \d+:\d+$/, '');
    const end = it.start + (TOKEN.exec(document.text.slice(it.start, it.start + 100))?.[0].length ?? 0),
      severity = it.isLacking ? SEVERITIES[unsupported] : SEVERITIES.error;
    const message = [`${it.isLacking ? 'not checked: ' : ''}${words}`, hintOf(it)].filter(Boolean).join('\n');
    return [this.diagnostic(document, it.start, end, severity, it.code === 'early' ? `E${it.number}` : it.code, message), ...this.stale(document)];
  }

  /** The reports of the text before it was refused, where what they speak of stands now. */
  stale(document) {
    const shown = document.marks.slice(0, this.editor.options.maxDiagnostics).map((it) => this.report(document, it));
    return shown.map((it) => ({ ...it, message: `${it.message} (stale)`, data: { isStale: true } }));
  }

  /** Where settings are refused: the rest of the line of a place, or all of it where nothing follows; else from which line on. The line is null where they
   * aren't, and nothing where it isn't known. */
  settings(document, { line, start, words }) {
    if (line === null) return [];
    if (start !== undefined) {
      const at = document.lineAt(start),
        end = document.endOf(at);
      return [
        this.diagnostic(document, start < end ? start : document.lines[at], end, SEVERITIES.error, 'settings', words ?? 'bad settings: no TOML from here on'),
      ];
    }
    const at = Math.min(line ?? 0, document.lines.length - 1),
      message = words ?? (line ? 'bad settings: the lines before this one are taken' : 'bad settings');
    return [this.diagnostic(document, document.lines[at], document.endOf(at), SEVERITIES.error, 'settings', message)];
  }

  /** What is said of a place, in Markdown, or null. */
  words(document, { refusal, reports }, at) {
    if (refusal) return document.lineAt(refusal.start) === document.lineAt(at) ? aboutRefusal(refusal) : null;
    const rules = new Set(reports.filter((it) => it.start <= at && at <= it.end).map((it) => it.rule));
    return rules.size ? [...rules].map((it) => `**${it}**\n\n${texts.rules[it]}`).join('\n\n---\n\n') : null;
  }

  hover(document, found, at) {
    const value = this.words(document, found, at),
      { markdown } = this.editor.can;
    if (value === null) return null;
    return { contents: { kind: markdown ? 'markdown' : 'plaintext', value: markdown ? value : value.replace(/^```\w*\n?|\*\*|`/gm, '') } };
  }
}
