"""A script rewritten by `fix`, `unwrap`, `mend` or `format`: in its place, as a difference, or to standard output."""
import contextlib
import errno
import os
import re
import stat

from .casts import lost
from .checking import WORD, casts_of, checked, places_at, spans_of
from .comments import COMMENT, FIRST_LINE, comments
from .engine import InLanguage
from .ignoring import MARK
from .languages import first_reading
from .outcomes import LINE_END, Found, Outcome, Refused, refusal
from .reading import MOST, read
from .streams import shown
from .traces import TRACES
from .words import is_compared

CAST = 'left as it is: {} would take the pair of a cast; --drop-casts permits it'


def keep_comments(engine, text):
    """Refuses a script that has comments, at the first of them."""
    if not COMMENT.search(text):
        return
    status, tree, err = engine.run('tree', text)
    if status or err:
        raise refusal(status, err, 'rewritten')
    found = comments(text, tree)
    if found:
        lines = LINE_END.split(text[:found[0][0]].decode())
        what = f'{len(found)} comments' if len(found) > 1 else 'a comment'
        raise Refused(f'not rewritten: fix drops {what}; --drop-comments permits it, and unwrap keeps comments', len(lines), len(lines[-1]) + 1)


def has_cr(text):
    """Whether the first line of a text ends in CR LF."""
    return text[:max(text.find(b'\n'), 0)].endswith(b'\r')


def head_of(text, command):
    """What a file keeps before its fixed or formatted text: a byte order mark, or a line of `#!`, which `format` keeps as a comment."""
    first = FIRST_LINE.match(text) if command == 'fix' else None
    return first[0] + b'\n' if first else MARK if text.startswith(MARK) else b''


def keep_form(engine, command, file, head, is_cr):
    """Puts a head before a fixed or formatted text, and ends each line with CR LF where that is wanted, if what comes of it has the same fixed or formatted
    text."""
    file.seek(0)
    fixed = file.read(MOST + 1)
    text = head + fixed
    text = re.sub(rb'(?<!\r)\n', b'\r\n', text) if is_cr else text
    status, again, err = engine.run(command, text)
    if status or err:
        raise refusal(status, err, 'rewritten')
    if again.replace(b'\r\n', b'\n') != fixed.replace(b'\r\n', b'\n'):
        raise Refused("not rewritten: its line ends can't be kept" if is_cr else "not rewritten: what it begins with can't be kept")
    file.seek(0)
    file.truncate()
    file.write(text)
    file.flush()


def take_over(old, path, new):
    """Gives a new file the owner, the mode and the attributes of a file, as far as that is allowed."""
    mode = stat.S_IMODE(old.st_mode)
    try:
        os.chown(new, old.st_uid, old.st_gid)
    except PermissionError:
        mode &= ~(stat.S_ISUID | stat.S_ISGID)
    os.chmod(new, mode)
    for it in os.listxattr(path) if hasattr(os, 'listxattr') else ():
        with contextlib.suppress(OSError):
            os.setxattr(new, it, os.getxattr(path, it))


def replace(path, text, new):
    """Renames a new file to one that still has this text."""
    if not os.access(path, os.W_OK) and os.path.exists(path):
        raise PermissionError(errno.EACCES, os.strerror(errno.EACCES))
    old = os.lstat(path)
    if stat.S_ISREG(old.st_mode):
        take_over(old, path, new)
        with open(path, 'rb') as file:
            if file.read(len(text) + 1) == text:
                os.replace(new, path)
                return
    raise Refused('not rewritten: it changed meanwhile')


def difference(text, new, name):
    """How a new file differs from a text, as `diff` says it."""
    # (for `patch` a name with a blank ends at a tab, as git writes it)
    label = shown(name) + ('\t' if ' ' in name else '')
    words = ['diff', '-a', '-u', '-L', label, '-L', label, '--', '-', new]
    status, out, err = TRACES.call(words, text, env={**os.environ, 'LC_ALL': 'C'})
    if status not in (0, 1):
        raise Refused('not compared: ' + (err.decode(errors='replace').split('\n')[0] or f'diff: status {status}'))
    return out


def hold_comments(engine, options, text):
    """Refuses what would lose comments unasked."""
    if options['command'] == 'fix' and not options['diff'] and not options['drop-comments']:
        keep_comments(engine, text)


def write_changed(engine, options, text, file, settings):
    """Writes the rewritten text to a new file, with the line ends and the head of the script."""
    status, _, err = engine.run(options['command'], text, settings, out=file)
    if status or err:
        raise refusal(status, err, 'compared' if is_compared(options) else 'rewritten')
    command = options['command']
    head, is_cr = head_of(text, command), has_cr(text)
    if command not in ('unwrap', 'mend') and (head or is_cr):
        keep_form(engine, command, file, head, is_cr)


def lost_cast(engine, text, new):
    """Where the first pair of a cast is that a rewritten text lacks; None where there is none."""
    found = casts_of(engine, text, spans_of(engine, text))
    return found[0] if found else lost(text, engine.run('tree', text)[1], new, engine.run('tree', new)[1])


def cast_in(engine, text, file, command):
    """The first pair of a cast that a command took in a new file, as a note."""
    if not WORD.search(text):
        return None
    file.seek(0)
    at = lost_cast(engine, text, file.read())
    if at is None:
        return None
    note = Found(*places_at(text, [at])[at], None, CAST.format(command))
    note.is_noted = True
    return note


def differs(file, text):
    """Whether a file has another text."""
    file.seek(0)
    return file.read(len(text) + 1) != text


class Rewriter:
    """Rewrites scripts by a command, or says how they would differ."""

    def __init__(self, engine, options, languages, guesses, words_of, settings_for=lambda it: b''):
        """`words_of` has the words for the program's command, by the scripts' names. What answers with them is known before the first script is read.
        `settings_for` gives the settings for a script, of a command that takes some."""
        self.engine, self.options, self.languages, self.guesses, self.words_of, self.settings_for = engine, options, languages, guesses, words_of, settings_for
        self.engines = {it: engine.with_words(it) for it in {*words_of.values()}}

    def outcome(self, name, text=None):
        """What comes of a file, or of a text that is as good as one of that name."""
        path = os.path.realpath(name) if text is None else None
        if text is None and os.path.exists(name) and not os.path.isfile(path):
            raise Refused(f'not {"rewritten" if self.options["write"] else "compared"}: no regular file')
        given, text = text, read(path) if text is None else text
        languages, engine = self.languages.of(name), self.engines[self.words_of[name]]
        try:
            return first_reading(languages, lambda it: self.outcome_in(InLanguage(engine, it), name, path, text, given is not None))[0]
        except Refused as why:
            raise self.guesses.add(why, text, languages, lambda it: checked(self.engine, text, language=it)) from None

    def outcome_in(self, engine, name, path, text, is_given):
        hold_comments(engine, self.options, text)
        return self.replaced(engine, name, path, text) if self.options['write'] else self.made(engine, name, text, is_given)

    def cast_in(self, engine, name, text, file):
        """A pair for which a script is left as it is."""
        command = 'unwrap' if self.options['command'] == 'unwrap' else 'format --fewest' if '--fewest' in self.words_of[name] else None
        return cast_in(engine, text, file, command) if command and not self.options['drop-casts'] else None

    def replaced(self, engine, name, path, text):
        """Replaces a file by what the program makes of it."""
        with TRACES.new_file(os.path.dirname(path)) as (file, new):
            write_changed(engine, self.options, text, file, self.settings_for(name))
            if not differs(file, text):
                return Outcome()
            cast = self.cast_in(engine, name, text, file)
            if cast:
                return Outcome([cast])
            os.fsync(file.fileno())
            replace(path, text, new)
        return Outcome(is_changed=True)

    def made(self, engine, name, text, is_given):
        """How a text would differ; or the rewritten text, where there is no file to compare."""
        with TRACES.new_file(None) as (file, new):
            write_changed(engine, self.options, text, file, self.settings_for(name))
            is_changed = differs(file, text)
            cast = self.cast_in(engine, name, text, file) if is_changed else None
            if self.options['check']:
                return Outcome([cast] if cast else None, is_unformatted=is_changed and not cast)
            if self.options['diff'] or not is_given:
                return Outcome([cast] if cast else None, difference=difference(text, new, name) if is_changed and not cast else b'')
            file.seek(0)
            rewritten = text if cast else file.read()
        return Outcome([cast] if cast else None, is_changed=rewritten != text, rewritten=rewritten)
