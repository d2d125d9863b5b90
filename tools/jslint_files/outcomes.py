"""What is found in a script, why it is refused, and what came of it."""
import re

# What stands behind the text of a warning in a line of what `check` answers; such a line, and all of them.
MARK = ' (warning)'
REPORT = r'^(\d+):(\d+) (\S+) (.*?)( \(warning\))?$'
ANSWER = r'(?:\d+:\d+ \S+ [^\n]*\n)*'
# (whatever the program says behind the place is a guess of its own)
PLACED = r'(?s:(.*?) at (\d+):(\d+)(?:[ ,:;(].*)?)'
LINE_END = re.compile('\r\n|[\n\r\u2028\u2029]')


def is_answer(text):
    """Whether a text is of lines of reports."""
    return not text or re.fullmatch(ANSWER, text) is not None


def has_errors(answer):
    """Whether a line of what `check` answers is no warning."""
    return answer.count(f'{MARK}\n') != answer.count('\n')


class Found:
    """What was found at a place of a script; a refusal has no rule. A warning fails nothing. Its `end`, if that was asked for, is a line and a column. A `hint` guesses what a refused
    script has that the profile lacks. `reasons` are those of the comments that turn it off, each of which may be empty; `is_known`: a baseline has it."""

    hint, is_unsupported, is_noted, is_known, reasons, end = None, False, False, False, (), None

    def __init__(self, line, column, rule, text, mark=''):
        self.line, self.column, self.rule, self.text, self.is_warning = int(line), int(column), rule, text, bool(mark)

    @property
    def is_suppressed(self):
        """Whether it is left out: a comment turns it off, or it is known."""
        return self.is_known or bool(self.reasons)

    def status(self):
        return 0 if self.is_suppressed or self.is_noted or self.is_warning else 1 if self.rule else 2

    def words(self):
        """Its rule and its text, and behind it the guess, if there is one."""
        kind = f'{self.rule} ' if self.rule else 'note: ' if self.is_noted else ''
        return kind + self.text + (MARK if self.is_warning else '') + (f' (perhaps: {self.hint})' if self.hint else '')


class Refused(Exception):
    """Why a script isn't taken: what is found in it."""

    def __init__(self, text, line=1, column=1):
        super().__init__(text)
        self.found = Found(line, column, None, text)


class Outcome:
    """What came of a file: what was found, or the lines that `check` answered; how its rewritten text differs, whether it does, and that text itself, if
    it goes to standard output; whether that it differs is all that is asked; and the file's own text, if that could be read and is asked for."""

    # (settings are told of too, where they are refused)
    is_script = True

    def __init__(self, found=None, answer='', difference=b'', text=None, is_changed=False, rewritten=b'', is_unformatted=False):
        self.list, self.answer, self.difference, self.text, self.rewritten = found, answer, difference, text, rewritten
        self.is_unformatted, self.is_changed = is_unformatted, is_changed or is_unformatted or bool(difference)

    @property
    def found(self):
        if self.list is None:
            self.list = [Found(*it) for it in re.findall(REPORT, self.answer, re.M)]
        return self.list

    def is_plain(self):
        """Whether the answer's lines are all that is to be told."""
        return self.list is None

    def status(self):
        if self.is_plain():
            return 1 if self.difference or self.is_unformatted or has_errors(self.answer) else 0
        return max([1 if self.difference or self.is_unformatted else 0, *(it.status() for it in self.list)])

    def seen(self):
        """What isn't left out."""
        return [it for it in self.found if not it.is_suppressed]

    def is_told(self):
        return bool(self.answer if self.is_plain() else self.list)


def said(status, err, done):
    """What the program said where it gave no answer, so that something wasn't done."""
    first = re.sub('^jslint: ', '', err.decode(errors='replace').split('\n')[0])
    return f'not {done}: signal {-status}' if status < 0 else first or f'not {done}: status {status}'


def refusal(status, err, done):
    text = said(status, err, done)
    at = re.fullmatch(PLACED, text)
    return Refused(at[1], at[2], at[3]) if at else Refused(text)
