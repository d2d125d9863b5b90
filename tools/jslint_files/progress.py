"""How far it is, and what came of it in all."""
import os
import threading
import time

from .streams import warn
from .words import is_compared


class Progress:
    """On a terminal, how far it is, once a second has passed."""

    def __init__(self, number):
        self.number, self.done, self.begun, self.is_drawn, self.lock = number, 0, 0, False, threading.Lock()
        self.is_shown = os.isatty(2)

    def begin(self):
        self.begun = time.monotonic()

    def step(self):
        if not self.is_shown:
            return
        with self.lock:
            self.done += 1
            if time.monotonic() > self.begun + 1:
                self.is_drawn = True
                warn(f'\r\033[Kjslint: {self.done} of {self.number} scripts')

    def clear(self):
        with self.lock:
            if self.is_drawn:
                warn('\r\033[K')
                self.is_drawn = False


class Tally:
    """Counts what comes of the files, and how many reports each rule has, if that is asked for."""

    def __init__(self, has_rules):
        self.has_rules = has_rules
        self.worst = self.scripts = self.refused = self.noted = self.casts = self.suppressed = self.known = self.changed = self.reports = 0
        self.rules = {}

    def add(self, outcome):
        self.scripts += outcome.is_script
        self.changed, self.worst = self.changed + outcome.is_changed, max(self.worst, outcome.status())
        if outcome.is_plain() and not self.has_rules:
            self.reports += outcome.answer.count('\n')
            return
        for it in outcome.found:
            if it.is_suppressed:
                self.suppressed, self.known = self.suppressed + bool(it.reasons), self.known + it.is_known
            elif it.rule:
                self.reports, self.rules[it.rule] = self.reports + 1, self.rules.get(it.rule, 0) + 1
            elif not it.is_noted:
                self.refused += outcome.is_script
            else:
                self.noted, self.casts = self.noted + it.is_unsupported, self.casts + (not it.is_unsupported)

    def told(self, options, ignored, unread, gone):
        """In a line: all that came, how many names are ignored, how many scripts have settings that are refused, and how many known reports aren't there any more. The
        rules with the most reports are first."""
        scripts, done = plural(self.scripts, 'script'), 'to be rewritten' if is_compared(options) else 'rewritten'
        first = f'{plural(self.reports, "report")} in {scripts}' if options['command'] == 'check' else f'{self.changed} of {scripts} {done}'
        more = [(self.refused, 'refused'), (self.noted, 'with what the profile lacks'), (self.casts, 'left for a cast'), (self.suppressed, 'turned off by comments'), (self.known, 'known'),
                (gone, 'known but gone'), (ignored, 'ignored'), (unread, 'left for bad settings')]
        counts = ', '.join(f'{count} {rule}' for rule, count in sorted(self.rules.items(), key=lambda it: (-it[1], it[0])))
        return ', '.join([first, *(f'{count} {what}' for count, what in more if count)]) + (f': {counts}' if counts else '') + '\n'


def plural(count, word):
    return f'{count} {word}{"s" * (count != 1)}'
