// Code actions: changes of a text or of its settings, each judged by proved calls before it is offered. Of an ignored text nothing is offered, of a refused
// one settings under which it is read.
import { SETTINGS } from './beside.mjs';
import { Document } from './document.mjs';
import { editsBetween } from './edits.mjs';
import { fileOf } from './editor.mjs';
import { COMMANDS } from './rewriting.mjs';
import { ENVIRONMENTS, LANGUAGES, settingsWith } from './settings.mjs';
import { KEPT } from './suppressions.mjs';

export const KINDS = { fix: 'quickfix', all: 'source.fixAll.jslint', layout: 'source.layout.jslint', mend: 'source.mend.jslint' };
const TITLES = {
  pair: 'Take out this pair of parentheses',
  all: 'Take out all unnecessary parentheses',
  casts: 'Take out all unnecessary parentheses, those of casts too',
  layout: 'Write in one layout (drops comments)',
  mend: 'Make all safe changes',
};
const TO_CONST = { true: 'Change let to const (if no other script writes it)', false: 'Change let to const' };
// So many reports, and so many changes of the settings, are looked at.
const MOST_CHANGES = 20;
const MOST_OF_SETTINGS = 8;
const MOST_NAMES = 3;
const MOST_COMMENTS = 3;

/** The name that a report says isn't defined, or null. */
const undefinedIn = ({ rule, message }) => (rule === 'no-undef' ? /^'(.*)' is not defined$/s.exec(message)?.[1] ?? null : null);

function titleOf({ rule, name, env, language }) {
  if (language !== undefined) return `Read it as a ${LANGUAGES[language].what}: ${LANGUAGES[language].line} in ${SETTINGS}`;
  if (env !== undefined) return `Add ${env} to the environments in ${SETTINGS}`;
  return name === null ? `Turn ${rule} off in ${SETTINGS}` : `Add ${name} to the globals in ${SETTINGS}`;
}

export class Actions {
  constructor({ editor, changing, checking, rewriting, shown }) {
    Object.assign(this, { editor, changing, checking, rewriting, shown });
  }

  codeActions({ textDocument, range, context }, { signal }) {
    const document = this.editor.document(textDocument),
      stretch = document.indicesOf(range),
      only = context?.only?.length > 0 ? [...context.only] : null;
    if (!this.editor.isChecked(document)) return [];
    const isWanted = (kind) => only === null || only.some((it) => it === '' || kind === it || kind.startsWith(`${it}.`));
    return this.rewriting.unlessChanged(document, signal, (either) => this.wanted(document, stretch, isWanted, only !== null, either));
  }

  async wanted(document, [start, end], isWanted, areNamed, signal) {
    const found = [],
      settings = this.editor.settingsFor(document.uri),
      { refusal, reports, hasCasts } = settings?.fault ? {} : await this.checking.checked(document, signal);
    if (isWanted(KINDS.fix) && reports)
      found.push(...await this.quickFixes(document, reports.filter((it) => it.start <= end && it.end >= start), { settings, hasCasts, signal }));
    if (isWanted(KINDS.fix) && refusal) found.push(...await this.languageActions(document, refusal, settings, signal));
    // (what runs at each save is worked out only if it is asked for by its kind)
    if (areNamed && reports && isWanted(KINDS.all)) found.push(...await this.allAtOnce(document, signal));
    if (areNamed && reports && isWanted(KINDS.mend)) found.push(...await this.allSafe(document, signal));
    if (areNamed && reports && isWanted(KINDS.layout)) found.push(this.commandAction(TITLES.layout, KINDS.layout, COMMANDS.layout, document));
    return found;
  }

  async allAtOnce(document, signal) {
    const { revision } = document,
      edits = await this.rewriting.unwrapped(document, signal) ?? [];
    return edits.length ? [{ title: TITLES.all, kind: KINDS.all, edit: this.rewriting.editOf(document, revision, edits) }] : [];
  }

  async allSafe(document, signal) {
    const { revision } = document,
      { edits = [] } = await this.rewriting.answerOf('mend', document, signal);
    return edits.length ? [{ title: TITLES.mend, kind: KINDS.mend, edit: this.rewriting.editOf(document, revision, edits) }] : [];
  }

  commandAction(title, kind, command, document) {
    const it = { title, command, arguments: [document.uri] };
    return this.editor.can.literals ? { title, kind, command: it } : it;
  }

  /** What is offered for some reports. */
  async quickFixes(document, here, { settings, hasCasts, signal }) {
    const { literals } = this.editor.can,
      found = literals ? await this.changes(document, here, signal) : [];
    if (here.some((it) => it.rule === 'no-extra-parens'))
      found.push(this.commandAction(hasCasts ? TITLES.casts : TITLES.all, KINDS.fix, COMMANDS.unwrap, document));
    if (literals)
      found.push(...await this.settingsActions(document, await this.wishesOf(here, signal), settings, signal), ...await this.comments(document, here, signal));
    return found;
  }

  /** Changes of the text: one pair, and `let` to `const`. Each is a job of its own, so that what is left of them is dropped when the text changes. */
  async changes(document, here, signal) {
    const { revision } = document,
      seen = new Set(),
      found = [];
    for (const wanted of here.filter((it) => it.rule === 'no-extra-parens' || it.rule === 'prefer-const').slice(0, MOST_CHANGES)) {
      const { change } = await this.changing.run('change', { ...this.rewriting.jobOf(document), wanted }, { signal }),
        key = JSON.stringify(change?.edits);
      if (!change || seen.has(key)) continue;
      seen.add(key);
      const title = wanted.rule === 'prefer-const' ? TO_CONST[change.isTop] : TITLES.pair;
      const diagnostics = [this.shown.report(document, wanted)],
        edit = this.rewriting.editOf(document, revision, change.edits);
      found.push({ title, kind: KINDS.fix, isPreferred: !change.isTop, diagnostics, edit });
    }
    return found;
  }

  /** What the settings may leave out of reports: a name that isn't defined, by itself or by an environment that has it, or the whole rule. */
  async wishesOf(here, signal) {
    const found = [],
      names = new Set(here.map(undefinedIn).filter((it) => it !== null));
    for (const name of [...names].slice(0, MOST_NAMES)) {
      const { environments } = await this.changing.run('environmentsOf', { name, environments: ENVIRONMENTS }, { signal });
      found.push(...environments.slice(0, MOST_NAMES).map((env) => ({ rule: 'no-undef', name, env })));
    }
    const ofRules = here
      .filter((it) => it.rule !== 'suppression')
      .flatMap((it) => [...(undefinedIn(it) === null ? [] : [{ rule: it.rule, name: undefinedIn(it) }]), { rule: it.rule, name: null }]);
    return [...found, ...ofRules];
  }

  /** Settings under which a refused text is read, if its language is what it wants. */
  languageActions(document, { readBy = [] }, settings, signal) {
    const wishes = this.editor.can.literals
      ? Object.keys(LANGUAGES)
          .filter((it) => readBy.includes(it))
          .map((language) => ({ language }))
      : [];
    return this.settingsActions(document, wishes, settings, signal);
  }

  /** The settings that are changed: those that hold, or, where there are none, new ones, if the editor can make a file. */
  targetFor(document, settings) {
    if (settings) return { ...settings, isNew: false };
    const uri = fileOf(document.uri) && this.editor.can.creates && this.editor.can.edits ? this.editor.newSettingsFor(document.uri) : null;
    return uri && { uri, text: '', isNew: true };
  }

  /** Changes of the settings: each does just what it says. */
  async settingsActions(document, wishes, settings, signal) {
    const target = wishes.length && fileOf(document.uri) ? this.targetFor(document, settings) : null,
      found = [];
    if (!target) return found;
    const version = this.editor.documents.get(target.uri)?.version,
      shown = new Document({ ...target, version }, this.editor.encoding),
      seen = new Set();
    for (const wish of wishes) {
      const title = titleOf(wish);
      if (seen.has(title) || found.length === MOST_OF_SETTINGS) continue;
      seen.add(title);
      const changed = settingsWith(target.text, wish);
      const { isGood } = await this.changing.run('settingsEffect', { ...this.rewriting.jobOf(document), settings: target.text, changed, wish }, { signal });
      if (!isGood) continue;
      const edits = editsBetween(target.text, changed).map((it) => ({ range: shown.rangeOf(it.start, it.end), newText: it.text }));
      found.push({ title, kind: KINDS.fix, edit: this.rewriting.workspaceEdit(target.uri, version, edits, target.isNew) });
    }
    return found;
  }

  /** Comments that turn a rule off for a line. */
  async comments(document, here, signal) {
    if (!this.editor.options.suppressions) return [];
    const { revision } = document,
      found = [],
      seen = new Set();
    for (const wanted of here.filter((it) => it.rule !== KEPT && it.rule !== 'suppression')) {
      const title = `Turn ${wanted.rule} off for this line`;
      if (seen.has(title) || seen.size === MOST_COMMENTS) continue;
      seen.add(title);
      const { edits } = await this.changing.run('suppress', { ...this.rewriting.jobOf(document), wanted }, { signal });
      if (edits)
        found.push({ title, kind: KINDS.fix, diagnostics: [this.shown.report(document, wanted)], edit: this.rewriting.editOf(document, revision, edits) });
    }
    return found;
  }
}
