// What the server asks of the proved calls. A job is plain data, and so is its answer: they go between threads.
import { Refused, indexOf } from '../core.mjs';
import { isCast, isOfCast, losesCast, mayHaveCasts } from './casts.mjs';
import { Judge, mayHaveComments } from './changes.mjs';
import { applied, editsBetween, layoutEditsBetween } from './edits.mjs';
import { earlyHint, syntaxHint } from './hints.mjs';
import { Languages, inLanguage } from './languages.mjs';
import { Layers } from './layers.mjs';
import { formattedBy } from './program.mjs';
import { withoutFormat } from './settings.mjs';
import { lineAt, lineStarts, suppressingEdits, withoutSuppressed } from './suppressions.mjs';

const HALF_PAIR = /(?:[^\ud800-\udbff]|^)[\udc00-\udfff]|[\ud800-\udbff](?![\udc00-\udfff])/;
// How many lines of refused settings are taken away one by one.
const MOST_LINES = 500;
// What settings that make a rule warn have somewhere: the word, the number, or an escape that may stand for a letter of the word.
const MAY_WARN = /warn|1|\\/;
// No more reports of one text than this are handed on.
const MOST_REPORTS = 20000;
// How much of a report of these rules is underlined: `var` and `(`, where all that they hold is reported.
const UNDERLINED = { 'no-var': 'var'.length, 'no-extra-parens': 1 };
// The refusals that another language may not have. Of several the one that got furthest is shown: an early error is found after the whole text was read.
const REACH = { syntax: 0, deep: 1, early: 2 };

/** A refusal of a text of a language in the program's words, with its place, and a hint where there is one. */
function refusalOf(error, text, language) {
  const { code = 'other', message, number } = error,
    start = error.line === undefined || code === 'settings' ? 0 : indexOf(text, error.line, error.column);
  const hint = code === 'syntax' ? syntaxHint(text, start, language) : code === 'early' ? earlyHint(number, text, start, language) : null;
  return {
    code,
    message,
    number,
    start,
    ...(hint ? { hint: hint.hint, hintId: hint.id ?? `early-${number}`, isLacking: hint.lacks, readBy: hint.readBy ?? [] } : {}),
  };
}

const isFurther = (it, other) => REACH[it.code] > REACH[other.code] || (it.code === 'syntax' && other.code === 'syntax' && it.start > other.start);

/** What a call answers, or null where it is refused. */
function answered(call) {
  try {
    return call();
  } catch (error) {
    if (error instanceof Refused) return null;
    throw error;
  }
}

/** Whether two texts, the first of which may be null, differ in CR LF alone. */
const isButForCr = (text, other) => text?.replaceAll('\r\n', '\n') === other.replaceAll('\r\n', '\n');

/** The commands, under settings that may have a table `[format]`. */
function passingOverFormat(commands) {
  const taken = (more) => (more?.settings === undefined ? more : { ...more, settings: withoutFormat(more.settings) });
  const under = (name) => (text, more) => commands[name](text, taken(more));
  return { ...commands, check: under('check'), spans: under('spans'), mend: under('mend') };
}

export class Jobs {
  /** The commands are those of core.mjs. */
  constructor(given) {
    const commands = passingOverFormat(given);
    const isTaken = (settings, language) => !HALF_PAIR.test(settings) && answered(() => commands.check('', { settings, language })) !== null;
    Object.assign(this, { commands, judge: null, last: null, languages: new Languages(isTaken), layers: new Layers((it) => this.areTaken(it)) });
  }

  /** What a call answers by the commands of the first language in which a job's text isn't refused; else the refusal that got furthest. */
  tried(job, call) {
    const { text } = job,
      half = HALF_PAIR.exec(text);
    // (half a pair of surrogates has no UTF-8, so a text with one is no script's)
    if (half) return { refusal: { code: 'utf8', message: 'half a pair of surrogates, which has no UTF-8', start: half.index } };
    let refusal = null;
    for (const language of this.languages.triedFor(this.layers.resolved(job))) {
      try {
        return call(inLanguage(this.commands, language), language);
      } catch (error) {
        if (!(error instanceof Refused)) throw error;
        const it = refusalOf(error, text, language);
        if (!Object.hasOwn(REACH, it.code)) return { refusal: it };
        if (refusal === null || isFurther(it, refusal)) refusal = it;
      }
    }
    return { refusal };
  }

  /** The same with the judge of the text's changes, kept since an editor asks for several changes of one text. */
  judged(job, call) {
    return this.tried(job, (commands, language) => {
      if (this.judge?.text !== job.text || this.judge.language !== language) {
        this.judge = null;
        // (a refusal is said as such)
        const fixed = commands.fix(job.text);
        this.judge = Object.assign(new Judge(commands, answered, job.text), { language });
        this.judge.known.set('fix', fixed);
      }
      return call(this.judge);
    });
  }

  areTaken(settings) {
    return !HALF_PAIR.test(settings) && answered(() => this.commands.check('', { settings })) !== null;
  }

  /** Where a refusal of settings says that they are no TOML; nothing where it tells no place. */
  placeIn(settings) {
    if (HALF_PAIR.test(settings)) return undefined;
    try {
      this.commands.check('', { settings });
      return undefined;
    } catch (error) {
      if (error instanceof Refused) return error.line === undefined ? undefined : indexOf(settings, error.line, error.column);
      throw error;
    }
  }

  /** The reports with their ends, and whether they are warnings: `check` says that of the same reports in the same order. */
  reportsOf(text, settings, commands) {
    const spans = commands.spans(text, { settings }),
      told = MAY_WARN.test(settings) ? commands.check(text, { settings }) : [];
    return spans.map((it, at) => ({ ...it, isWarning: told[at]?.severity === 'warning' }));
  }

  /** What is shown of what `check` reports: not the pairs of casts, and not what comments turn off, if they are read. Whether there were such pairs. */
  found({ text, settings, areRead }, commands) {
    const all = this.reportsOf(text, settings, commands),
      kept = mayHaveCasts(text) ? all.filter((it) => !isOfCast(text, it)) : all;
    const reports = areRead ? withoutSuppressed(text, kept, (it) => answered(() => commands.fix(it))) : kept;
    return { reports, hasCasts: kept.length < all.length };
  }

  /** The reports, from where to where each is underlined, how many more there are, and whether pairs of casts are kept. */
  check(given) {
    const job = this.layers.resolved(given);
    if (HALF_PAIR.test(job.settings) || job.why) return { refusal: { code: 'settings', message: job.why ?? 'bad settings', start: 0 } };
    return this.tried(job, (commands) => {
      const { reports: all, hasCasts } = this.found(job, commands),
        reports = all.slice(0, MOST_REPORTS);
      return {
        reports: reports.map((it) => ({ ...it, end: it.start + (UNDERLINED[it.rule] ?? it.end - it.start) })),
        left: all.length - reports.length,
        hasCasts,
      };
    });
  }

  /** The edits that unwrap a text, and whether they take pairs of casts. */
  unwrap(job) {
    const { text } = job;
    return this.tried(job, (commands) => {
      const unwrapped = commands.unwrap(text),
        edits = editsBetween(text, unwrapped);
      return {
        edits,
        hasCasts: edits.length > 0 && mayHaveCasts(text) && (losesCast(text, unwrapped) || commands.spans(text).some((it) => isOfCast(text, it))),
      };
    });
  }

  /** The edits that make the safe changes for what is reported; none where comments may turn reports off, which the program doesn't know. */
  mend(job) {
    const { text, settings, areRead } = job;
    if (HALF_PAIR.test(settings) || (areRead && text.includes('jslint-disable-'))) return { edits: [] };
    return this.tried(job, (commands) => ({ edits: editsBetween(text, commands.mend(text, { settings })) }));
  }

  /** The edits that make the fixed text, with CR LF where the first line of the text ends so and that keeps the tree. */
  fix(job) {
    const { text } = job;
    return this.tried(job, (commands) => {
      const fixed = commands.fix(text),
        isCrLf = /^[^\r\n]*\r\n/.test(text),
        other = isCrLf ? fixed.replaceAll('\n', '\r\n') : fixed;
      const to = other !== fixed && answered(() => commands.fix(other)) !== fixed ? fixed : other;
      return { edits: editsBetween(text, to), hasComments: mayHaveComments(text) };
    });
  }

  /** The formatted text of a job's: by the module, or with words by the program that has them. CR LF stays where the first line of the text ends so and that
   * keeps the rest. */
  formattedText({ text, words, program }, commands, language) {
    const format = (it) => (words.length ? formattedBy(program, words, it, language) : commands.format(it)),
      formatted = format(text);
    if (!/^[^\r\n]*\r\n/.test(text)) return { format, formatted };
    const other = formatted.replace(/(?<!\r)\n/g, '\r\n');
    return { format, formatted: isButForCr(answered(() => format(other)), formatted) ? other : formatted };
  }

  /** The edits that format a text, none where a cast would lose its pair; of those the ones in a stretch, if one is asked for: where the text that they make
   * is formatted to the same text, so that the tree and the comments stay. */
  format(job) {
    const { text, stretch } = job;
    return this.tried(job, (commands, language) => {
      const { format, formatted } = this.formattedText(job, commands, language),
        edits = layoutEditsBetween(text, formatted);
      if (mayHaveCasts(text) && losesCast(text, formatted)) return { edits: [] };
      const some = stretch ? edits.filter((it) => stretch.start <= it.start && it.end <= stretch.end) : edits;
      if (some.length === edits.length) return { edits };
      return { edits: isButForCr(answered(() => format(applied(text, some))), formatted) ? some : [] };
    });
  }

  /** The edits of the unwrapped text in a stretch; none where the text has casts. */
  unwrapWithin(job) {
    const { start, end } = job;
    return this.judged(job, (judge) => ({ edits: judge.hasCasts() ? [] : judge.unwrappedWithin(start, end) }));
  }

  /** The change that a report `{ rule, start }` has: its edits, and whether it is of a name at the top; or null. */
  change(job) {
    const {
      wanted: { rule, start },
    } = job;
    return this.judged(job, (judge) => {
      if (rule !== 'no-extra-parens') return { change: judge.letToConst(start) };
      const edits = isCast(job.text, start) ? null : judge.withoutPair(start);
      return { change: edits && { edits, isTop: false } };
    });
  }

  /** The edit that puts a comment which turns a report off, or null: the fixed text stays, and the rule's reports on that line go alone. */
  suppress(given) {
    const job = this.layers.resolved(given),
      {
        text,
        wanted: { rule, start },
      } = job;
    return this.judged(job, (judge) => {
      const { commands } = judge,
        fixed = judge.own('fix'),
        starts = lineStarts(text),
        line = lineAt(starts, start);
      const before = judge.once(`found ${job.settings}`, () => this.found(job, commands).reports),
        told = (list) => JSON.stringify(list.map((it) => [it.rule, it.message]));
      const wanted = told(before.filter((it) => it.rule !== rule || lineAt(starts, it.start) !== line));
      const isGood = (it) => answered(() => commands.fix(it)) === fixed && told(this.found({ ...job, text: it }, commands).reports) === wanted;
      const edit = suppressingEdits(text, start, rule).find((it) => isGood(applied(text, [it])));
      return { edits: edit ? [edit] : null };
    });
  }

  /** Where settings are no TOML; else how many of their lines are taken, counted from the first; null where all are, and nothing where that isn't known.
   * And why they are refused, where that is known. */
  settings(job) {
    const { settings } = job;
    if (this.areTaken(settings)) return { line: null };
    const told = this.layers.read(job);
    if (told?.settings) return { line: null };
    if (told?.refused) return { start: indexOf(settings, told.refused.line, told.refused.column), words: told.refused.words };
    return { ...this.faultIn(settings), ...(told ? { words: told.fault } : {}) };
  }

  faultIn(settings) {
    const start = this.placeIn(settings);
    if (start !== undefined) return { start };
    const lines = settings.split('\n');
    if (lines.length > MOST_LINES) return {};
    for (let count = lines.length - 1; count > 0; count--) if (this.areTaken(`${lines.slice(0, count).join('\n')}\n`)) return { line: count };
    return { line: 0 };
  }

  /** Whether changed settings are taken, and do what is wished and nothing else. */
  settingsEffect(job) {
    const { text, changed, wish } = job;
    if (HALF_PAIR.test(text) || HALF_PAIR.test(changed)) return { isGood: false };
    const before = this.shortCheck(job, job.settings),
      after = this.shortCheck(job, changed);
    if (after === null || (before === null) !== (wish.language !== undefined)) return { isGood: false };
    // (of a text that was refused, that it isn't any more)
    if (before === null) return { isGood: true };
    return { isGood: isEffect(wish, before, after) };
  }

  /** What is reported under settings, or null where the text or the settings are refused. The last one is kept: several changes of settings are tried. */
  shortCheck(job, settings) {
    const asked = JSON.stringify([job.kind, job.file, settings]);
    if (this.last?.text === job.text && this.last.asked === asked) return this.last.reports;
    const keyed = (it) => ({ ...it, key: `${it.start} ${it.rule} ${it.message}` }),
      own = this.layers.resolved({ ...job, settings });
    const { reports = null } = own.why ? {} : this.tried(own, (commands) => ({ reports: commands.spans(job.text, { settings: own.settings }).map(keyed) }));
    if (settings === job.settings) this.last = { text: job.text, asked, reports };
    return reports;
  }

  /** The environments that have a name. */
  environmentsOf({ name, environments }) {
    const isDefined = (it) => answered(() => this.commands.check(name, { settings: `env = ["${it}"]` }))?.every(({ rule }) => rule !== 'no-undef') ?? false;
    return { environments: HALF_PAIR.test(name) ? [] : environments.filter(isDefined) };
  }
}

const isOfName = ({ rule, message }, name) => rule === 'no-undef' && message === `'${name}' is not defined`;

/** Whether reports went as wished: those of a rule, those of a name, or, by an environment, those of its names, one of which is this. */
function isEffect({ rule, name, env }, before, after) {
  const keys = new Set(after.map((it) => it.key)),
    gone = before.filter((it) => !keys.has(it.key)),
    told = (list) => list.map((it) => it.key).join('\n');
  if (env !== undefined)
    return after.length + gone.length === before.length && gone.every((it) => it.rule === 'no-undef') && gone.some((it) => isOfName(it, name));
  const isOff = (it) => (name === null ? it.rule === rule : isOfName(it, name));
  return told(before.filter((it) => !isOff(it))) === told(after);
}
