"""usage: jslint-files [check] [--edition 2020|2022] [--module] [--settings FILE] [--format FORM] [--color WHEN] [--hints] [--ends] [--unsupported error|note] [--suppressions]
                    [--max-warnings N] [--rule NAME=SEVERITY] [--only NAME] [--baseline FILE [--write-baseline]] [--cache [--cache-location FILE]] [--project]
                    [--no-ignore] [--allow-none] [--stdin NAME] [--summary] [--jobs N] [--files-from FILE] [--] [FILE ..]
       jslint-files fix --write|--diff [--edition 2020|2022] [--module] [--drop-comments] [--hints] [--unsupported error|note] [--project] [--no-ignore] [--allow-none]
                    [--stdin NAME] [--summary] [--jobs N] [--files-from FILE] [--] [FILE ..]
       jslint-files unwrap --write|--diff [--drop-casts] [the same, but for --drop-comments] [--] [FILE ..]
       jslint-files mend --write|--diff|--check [--settings FILE] [--rule NAME=SEVERITY] [--only NAME] [the same, but for --drop-comments] [--] [FILE ..]
       jslint-files format --write|--diff|--check [--width N] [--indent N] [--tabs] [--commas none|lists|all] [--bare-arrows] [--fewest] [--drop-casts]
                    [--settings FILE] [the same, but for --drop-comments] [--] [FILE ..]
       jslint-files --explain RULE|E1..E37
       jslint-files --print-config FILE | --print-layers | --init
       jslint-files --help|--version

`fix` drops comments. So `fix --write` refuses a script that has any, and says how many, unless --drop-comments is there. `unwrap`, `mend` and
`format` keep them.

What `jslint check` finds in several scripts, each report with its file's name, in the order of the files. Or several scripts are rewritten by
`jslint fix`, `jslint unwrap`, `jslint mend` or `jslint format`.

  FILE                a script, or a pattern such as 'src/**/*.js' (in quotes, so that the shell leaves it alone); ** follows no link to a folder
  --files-from FILE   the names that FILE has, each ended by a line feed, or by a zero byte if there is any; - is standard input
  --project           FILE may be a folder, the current one where none is named: its *.js, *.mjs and *.cjs, without links, node_modules and .git. What
                      .jslintignore, .gitignore, .git/info/exclude and git's core.excludesFile name is left alone, and what lies in node_modules, however it was
                      named. Without --settings, each script is checked, mended or formatted with the nearest jslint.toml above it. All these files are looked
                      for up to the folder that has .git
  --no-ignore         looks at what is named and ignored all the same
  --allow-none        the status is 0 also where there was nothing to look at, and nothing is said
  --edition, --module the language of each script (jslint); with --edition 2022 modules are read too. Without --project a script named *.mjs is a module, and
                      each other one of the language that words or settings say first. With --project so is a *.js whose nearest package.json says
                      "type": "module"; each other script is tried as one of the base profile, of 2022, and as a module, but *.cjs and those with
                      "type": "commonjs" not as modules. Settings and words may leave fewer
  --stdin NAME        the script on standard input, as if it were the file NAME. Rewritten, it goes to standard output, or --diff shows how it differs
  --settings FILE     for each script (jslint check --settings, jslint mend --settings); of `format` its table `format`, and the language
  --rule NAME=WHAT    the rule is off, warn or error (0, 1, 2), whatever the settings say; may stand several times
  --only NAME         the rule is on, and no other one is but those that further words --only name
  --format unix       FILE:LINE:COLUMN: RULE TEXT, as GNU's compilers do (this is what is printed without --format)
  --format pretty     the same with the line and a mark below it, in colours on a terminal (--color always|never|auto; NO_COLOR)
  --format json       an array in one line, as ESLint's formatter of that name: absolute names, columns in UTF-16 units. --ends adds endLine and endColumn,
                      by jslint check --spans
  --format sarif      SARIF 2.1.0; --format junit: JUnit's XML, a case a script
  --format github     GitHub's notes, as ::error file=FILE,line=LINE,col=COLUMN,title=RULE::TEXT
  --hints             adds to each refusal, after `perhaps:`, a guess at what the script has that jslint doesn't read (pretty, sarif, junit: always). Without
                      it there is one where another language gets further
  --unsupported note  a script that is refused for such a thing, as far as the guess says so, is shown as a note and fails nothing (error: as ever). One with
                      a fault in a language that jslint reads fails
  --suppressions      `// jslint-disable-line RULE, RULE -- WHY` and `// jslint-disable-next-line` turn reports off, but for no-extra-parens
  --baseline FILE     reports that FILE knows, by rule, file and text of the line, are left out, and count for nothing. With --write-baseline it is made: it knows what is
                      reported now, and as before what was in scripts that aren't looked at
  --max-warnings N    the status is 0 with up to N reports, errors and warnings, and 1 with more
  --cache             what was found in unchanged scripts isn't looked for again: it stands in .jslintcache, or in the file that --cache-location names
  --summary           counts, in a line on standard error
  --print-config FILE what applies to the script, with --project or not, and from where: a key a line
  --print-layers      the settings on standard input as JSON: what holds for all scripts, and the overrides; or why they are refused, with status 2
  --init              writes a first jslint.toml, from package.json and the names that the scripts use
  --explain WHAT      what the documents say of a rule, or of an early error
  --write             replaces each script by its rewritten text, if that differs: a new file beside it is renamed. The mode stays. Where a name is a
                      symbolic link, the file that it leads to is replaced. A script that changed since it was read is refused
  --diff              prints how the rewritten texts differ, as `diff -u` does, and writes no script
  --check             prints the name of each script that `format` or `mend` would change, a line each, and writes no script
  --width, --indent, --tabs, --commas, --bare-arrows, --fewest
                      which lines `format` makes (jslint format), whatever the table `format` of the settings says: its keys have the names of these words
  --drop-comments     `fix --write` also where comments are lost
  --drop-casts        `unwrap`, or `format` with the fewest pairs, also of a script that would lose the pair of a cast, `/** @type {T} */ (a)`, which it leaves as it is
  --jobs N            N scripts side by side; without it, as many as there are processors
  --version           the program's version

A script that is refused has one line, at 1:1 if the refusal names no place, on standard error where scripts are rewritten; it stays as it is. So has a
jslint.toml that is refused; its scripts aren't looked at. Control characters in a name are shown as \\x1b, those that turn a text round as \\u{202e}. On
a terminal, a line on standard error says how far it is after the first second. A script named check, fix, unwrap, mend or format stands
behind --. Where the first line of a script ends in CR LF, so do all lines of its fixed or formatted text; a byte order mark and a line of `#!` stay.

The status is 0 where nothing was found, or warnings alone; 1 where there is another report or a difference; 2 where a script was refused, there was none to look at, the words or
the settings make no sense, or not all could be written (as ESLint's with --exit-on-fatal-error). After an interruption there is no new file, and each
script is whole.
JSLINT in the environment is the path of the program; else it is the one beside this file. JSLINT_LIBRARY is that of libjslint.so, which answers in this
process; without both, the one that was installed with the program does. An empty JSLINT_LIBRARY: the program is started for each script.
"""
import os
import re
import threading

# (what a run doesn't need it doesn't import: of one script that takes longer than its check)
from . import names as meant
from .advice import Advice
from .batches import Batches
from .checking import Checker
from .engine import Program, engine_of, path_of_program
from .hints import Guesses
from .languages import Languages, asked
from .layers import Layers, rules_left, rules_said
from .outcomes import Outcome, Refused
from .pool import in_order
from .progress import Progress, Tally, plural
from .project import Project
from .reading import pass_on, read
from .settings import Unfit
from .streams import Wrong, say, shown, warn
from .words import RULED, handed, has_hints, is_compared, judge, number_of_jobs, options_of

# How many scripts a thread takes at once, at most: one call of the program checks them.
MOST_AT_ONCE = 256
# The forms that are one document, and those that show a part of the text, or need it for their columns.
DOCUMENTS, TEXT_FORMS = ('json', 'sarif', 'junit'), ('json', 'pretty', 'sarif')


class Run:
    """What is done to each script, and how it is told."""

    def __init__(self, options, names, here):
        self.options, self.project, self.engine = options, Project(not options['no-ignore']), engine_of(here, handed(options))
        self.is_check, self.advice, self.cache, self.baseline = options['command'] == 'check', Advice(), None, None
        self.layers = Layers(rules_said(options['rule']), rules_left(options['only']))
        # (the names that are ignored; settings that are refused, by their names; how many scripts these are for)
        self.ignored, self.bad, self.unread = [], {}, 0
        self.names = self.named(names)
        guesses = Guesses(has_hints(options), options['unsupported'] == 'note')
        if options['baseline'] is not None:
            from .baseline import Baseline
            self.baseline = Baseline(options['baseline'], options['write-baseline'])
        # (of a script that is told of the text is asked for)
        self.needs_text = options['format'] in TEXT_FORMS or self.baseline is not None
        if self.is_check:
            has_ends = options['ends'] or options['format'] in ('pretty', 'sarif')
            settings_for = self.settings_by(self.documents())
            languages = Languages(self.engine, options, self.project, settings_for)
            self.worker = Checker(self.engine, settings_for, languages, guesses, options['suppressions'], has_ends)
            self.batches = Batches(self.engine, self.worker, has_ends or self.needs_text)
            self.cache = self.cache_with([*map(str, (has_hints(options), options['unsupported'], options['suppressions'], has_ends))]) if options['cache'] else None
        else:
            self.worker = {'format': self.formatter, 'mend': self.mender}.get(options['command'], self.rewriter)(guesses)
        self.progress, self.tally = Progress(len(self.names)), Tally(options['summary'])

    def cache_with(self, words):
        """What was found before; None where the program can't be read."""
        from .cache import NAME, Cache
        words = [it.encode() for it in words]
        languages_of = lambda it: ','.join(map(str, self.worker.languages.of(it))).encode()
        ignores_of = lambda it: self.project.ignores_above(os.path.dirname(it)) if self.options['project'] else ()
        conditions_of = lambda it: (self.worker.settings_for(it), languages_of(it), *words, *ignores_of(it))
        path = self.options['cache-location'] or NAME
        try:
            return Cache(path, self.engine.made_of(), conditions_of, self.needs_text)
        except OSError as error:
            warn(f'jslint-files: {shown(path)}: the cache is not used: {error.strerror}\n')
            return None

    def rewriter(self, guesses):
        if asked(self.options) in (None, '2022'):
            # (they may say the language)
            self.documents()
        return self.rewriter_with(Languages(self.engine, self.options, self.project, layers=self.layers), guesses, dict.fromkeys(self.names, ()))

    def mender(self, guesses):
        settings_for = self.settings_by(self.documents())
        return self.rewriter_with(Languages(self.engine, self.options, self.project, settings_for), guesses, dict.fromkeys(self.names, ()), settings_for)

    def formatter(self, guesses):
        document_of = self.documents()
        languages = Languages(self.engine, self.options, self.project, self.settings_by(document_of))
        words_of = {it: handed(self.options, self.layers.format_of(*document_of(it), it)) for it in self.names if it not in self.bad}
        return self.rewriter_with(languages, guesses, words_of)

    def rewriter_with(self, *more):
        from .rewriting import Rewriter
        return Rewriter(self.engine, self.options, *more)

    def named(self, names):
        """The files, in their order."""
        options = self.options
        if options['stdin'] is not None:
            self.ignored = [it for it in [options['stdin']] if options['project'] and self.project.is_ignored(it)]
            return [] if self.ignored else [options['stdin']]
        found = meant.expanded(names) + (meant.listed(options['files-from']) if options['files-from'] is not None else [])
        if options['project']:
            found, self.ignored = meant.with_folders(found or ['.'] * (options['files-from'] is None), self.project)
        return meant.once(found) if options['write'] else found

    def settings_by(self, document_of):
        """What gives the settings for a script, as the program takes them."""
        return lambda it: self.layers.of(*document_of(it), it)

    def documents(self):
        """What gives the document of settings for a script, as its path and its text. They are judged here once, before any script is read."""
        name = self.options['settings']
        if name is not None:
            try:
                text = read(name)
                self.layers.judge(self.engine, name, text, self.asked_of_settings())
            except Refused as why:
                raise Wrong(f'{shown(name)}: {said_of(why)}') from None
            return lambda it: (name, text)
        if not self.options['project']:
            return lambda it: (None, b'')
        folders = {it: os.path.dirname(it) for it in self.names}
        found = {it: self.project.settings_of(os.path.realpath(it)) for it in {*folders.values()}}
        texts = dict(filter(None, found.values()))
        self.leave_bad(found, texts)
        return {name: found[it] or (None, b'') for name, it in folders.items()}.__getitem__

    def asked_of_settings(self):
        """The language of which settings have to leave something: where scripts are rewritten, words for one go over settings."""
        found = asked(self.options)
        return found if self.options['command'] in RULED or found == '2022' else None

    def leave_bad(self, found, texts):
        """Takes the scripts out whose settings are refused: these are told of instead, and all others are looked at."""
        bad = self.project.bad
        for path in sorted({*texts} - {*bad}):
            try:
                self.layers.judge(self.engine, path, texts[path], self.asked_of_settings())
            except Refused as why:
                bad[path] = why
        kept = [it for it in self.names if not found[os.path.dirname(it)] or found[os.path.dirname(it)][0] not in bad]
        self.unread, self.bad = len(self.names) - len(kept), {beside(path): (bad[path], texts[path]) for path in sorted(bad)}
        self.names = [*self.bad, *kept]

    def outcome(self, name, answer=None, known=None):
        """What comes of a file, whose lines may be there already, or all of it."""
        done = 'checked' if self.is_check else 'compared' if is_compared(self.options) else 'rewritten'
        try:
            came = self.outcome_of_bad(name) if name in self.bad else self.outcome_of_script(name, answer, known)
        except Refused as why:
            came = Outcome([why.found])
        except (OSError, MemoryError) as error:
            came = Outcome([Refused(f'not {done}: {error.strerror if isinstance(error, OSError) else "out of memory"}').found])
        if self.baseline and name not in self.bad:
            self.baseline.mark(name, came)
        if not came.is_told() or self.options['format'] not in TEXT_FORMS:
            came.text = None
        self.progress.step()
        return came

    def outcome_of_bad(self, name):
        why, text = self.bad[name]
        came = Outcome([why.found], text=text)
        came.is_script = False
        return came

    def outcome_of_script(self, name, answer, known):
        if name in self.project.faults:
            raise self.project.faults[name]
        came = known or self.outcome_of_answer(name, answer)
        if self.cache and not known:
            self.cache.add(name, came)
        if self.is_check and not self.worker.settings_for(name):
            self.advice.add(came.answer)
        return came

    def outcome_of_answer(self, name, answer):
        """The outcome of a file by its lines or its refusal, if one of these is known."""
        if isinstance(answer, str):
            return Outcome(answer=answer)
        text = read(0) if self.options['stdin'] is not None else None
        return self.worker.outcome(name, text, answer) if answer else self.worker.outcome(name, text)

    def outcomes(self, names):
        """What comes of some files; of those that one call can answer, by one."""
        asked = [it for it in names if it not in self.bad and it not in self.project.faults]
        known = {it: came for it in asked if (came := self.cache.found(it))} if self.cache else {}
        is_single = not self.is_check or self.options['stdin'] is not None
        answers = {} if is_single else self.batches.answers([it for it in asked if it not in known])
        return [self.outcome(it, answers.get(it), known.get(it)) for it in names]

    def parts(self, jobs):
        """Some files and what came of them, in the order of the files."""
        size = max(1, min(MOST_AT_ONCE, len(self.names) // (8 * jobs)))
        parts = [self.names[at:at + size] for at in range(0, len(self.names), size)]
        threading.stack_size(self.engine.stack)
        self.progress.begin()
        came = in_order(jobs, self.outcomes, parts)
        try:
            for names, found in zip(parts, came):
                for it in found:
                    self.tally.add(it)
                yield list(zip(names, found))
        finally:
            came.close()

    def tell(self, jobs):
        """Prints what comes of the files."""
        form, parts = self.form(), self.parts(jobs)
        try:
            is_document = self.options['format'] in DOCUMENTS
            for it in form(pair for part in parts for pair in part) if is_document else (self.told(form, part) for part in parts):
                if it:
                    self.progress.clear()
                    say(it)
        finally:
            # (where not all can be written nothing more is begun)
            parts.close()
        self.progress.clear()

    def told(self, form, part):
        """What standard output gets of some files. Where scripts are rewritten, standard error gets what is found."""
        if self.is_check:
            return ''.join(form(name, came) for name, came in part if came.is_told())
        for name, came in part:
            if came.is_told():
                self.progress.clear()
                warn(form(name, came))
            if came.difference or came.rewritten or came.is_unformatted:
                self.progress.clear()
                say(f'{shown(name)}\n' if came.is_unformatted else came.difference or came.rewritten)
        return ''

    def form(self):
        from . import forms
        name = self.options['format']
        if name == 'pretty':
            return forms.pretty(is_coloured(self.options['color']))
        if name not in DOCUMENTS:
            return forms.github if name == 'github' else forms.unix
        from . import documents
        if name == 'sarif':
            return documents.sarif(self.version())
        return documents.eslint if name == 'json' else documents.junit

    def version(self):
        """The program's version, where there is a program."""
        try:
            found = re.search(rb'\d+\.\d+\.\d+', self.engine.version())
        except (Wrong, OSError):
            return None
        return found[0].decode() if found else None

    def tell_none(self):
        """What is said where there was nothing to be looked at. Text on standard input that is ignored goes on as it is, where a rewritten one would."""
        if self.ignored and self.options['stdin'] is not None and not self.is_check and not is_compared(self.options):
            pass_on()
        if not self.options['allow-none']:
            why = f': {plural(len(self.ignored), "name")} {"is" if len(self.ignored) == 1 else "are"} ignored (--no-ignore looks at them all the same)' if self.ignored else ''
            warn(f'jslint-files: no script was looked at{why}; --allow-none lets that pass\n')

    def status(self):
        most = self.options['max-warnings']
        if not self.names and not self.options['allow-none']:
            return 2
        if most is None or self.tally.worst == 2:
            return self.tally.worst
        return 0 if self.tally.reports <= int(most) else 1


def beside(path):
    """A path as it is named here: without the current folder's, if it is below that."""
    try:
        named = os.path.relpath(path)
    except FileNotFoundError:
        return path
    return path if named.split(os.sep)[0] == '..' else named


def said_of(why):
    """How a line says it that begins with the name of settings."""
    return why.words if isinstance(why, Unfit) else why


def is_coloured(wish):
    """As https://no-color.org has it."""
    return wish == 'always' or wish != 'never' and not os.environ.get('NO_COLOR') and os.environ.get('TERM') != 'dumb' and os.isatty(1)


def say_init(options, names, here):
    """A first document of settings, by the scripts that are named, or all below this folder."""
    from .beginning import SETTINGS, begin
    if os.path.lexists(SETTINGS):
        raise Wrong(f'{SETTINGS} is there already')
    say(begin(Run({**options, 'project': True, 'only': ['no-undef']}, names, here)))
    return 0


def config_of(options, name):
    """What applies to a script, and from where."""
    from .layers import printed
    layers = Layers(rules_said(options['rule']), rules_left(options['only']))
    if options['settings'] is not None:
        try:
            return printed(layers, (options['settings'], read(options['settings'])), name)
        except Refused as why:
            raise Wrong(f'{shown(options["settings"])}: {said_of(why)}') from None
    project = Project()
    found = project.settings_of(os.path.dirname(os.path.realpath(name)))
    bad = next(iter(project.bad.items()), None)
    if bad:
        raise Wrong(f'{shown(bad[0])}: {bad[1]}')
    try:
        return printed(layers, found, name)
    except Unfit as why:
        raise Wrong(f'{shown(found[0])}: {why.words}') from None


def main(words, here):
    options, names = options_of(words)
    if options['help'] or options['version']:
        say(f'{__doc__.strip()}\n' if options['help'] else Program(path_of_program(here)).version())
        return 0
    judge(options, names)
    if options['explain'] is not None:
        from .rules import explained
        say(explained(options['explain']))
        return 0
    if options['print-config'] is not None:
        say(config_of(options, options['print-config']))
        return 0
    if options['print-layers']:
        from .layers_json import say_layers
        return say_layers(here)
    if not names and options['files-from'] is None and options['stdin'] is None and not options['project'] and not options['init']:
        raise Wrong('no file is named (--help)')
    if options['init']:
        return say_init(options, names, here)
    jobs = number_of_jobs(options['jobs'])
    run = Run(options, names, here)
    run.tell(jobs)
    if run.cache:
        run.cache.write(run.names)
    if options['write-baseline']:
        run.baseline.write()
    if not run.names:
        run.tell_none()
    warn(run.advice.told(options['project']))
    if options['summary']:
        warn(run.tally.told(options, len(run.ignored), run.unread, run.baseline.gone() if run.baseline else 0))
    return run.status()
